"""Games as they are found in collections: with relations that rest on themselves, or without `base` and `input`.

The program writes such a game out as rules that every command takes (`unroll`). What is asked from then on is asked of what was written.
"""
from __future__ import annotations

from collections.abc import Callable, Sequence
from dataclasses import dataclass, field
from functools import lru_cache
from pathlib import Path

from gdlsolve.solver import calls
from gdlsolve.solver.faults import Misuse, Refusal
from gdlsolve.solver.program import Stops
from gdlsolve.solver.replies import WRITTEN_OUT, Reply
from gdlsolve.solver.rules import Rules, bytes_of, unstated

# What gives the lines of the answer to a command over rules.
Ask = Callable[[Sequence[str], bytes], list[str]]
# Refusals of rules against which it may help to write them out.
HELPED = ("G1", "G3", "G4")
TOO_MANY = "N1"


def words(tighten: bool = False) -> list[str]:
    """The words that have rules written out."""
    return ["unroll", "--tighten"] if tighten else ["unroll"]


def is_helped(refused: Refusal) -> bool:
    """Whether rules that are refused so may be taken once they are written out."""
    return refused.code in HELPED


def states_all(rules: bytes) -> bool:
    """Whether items state `base`, and items state `input`."""
    return not unstated(rules)


def written_out(rules: bytes, ask: Ask, tighten: bool = False) -> bytes:
    """Rules written out."""
    return "".join(f"{line}\n" for line in ask(words(tighten), rules)).encode()


def is_shown(written: bytes) -> bool:
    """Whether it is proved that what is written out of rules is played as these."""
    return written.startswith(WRITTEN_OUT[0])


def _stated(rules: bytes, ask: Ask) -> bytes:
    """The rules, where they are taken and state what play can come to, or else what is written out of them."""
    refused = None
    try:
        ask(["check"], rules)
    except Refusal as fault:
        if not is_helped(fault):
            raise
        refused = fault
    if refused is None and states_all(rules):
        return rules
    try:
        return written_out(rules, ask)
    except Misuse:
        # There is no program that writes them out.
        if refused is not None:
            raise refused from None
        return rules


def playable(rules: bytes, ask: Ask) -> bytes:
    """The rules, where they can be played as they stand, or else what is written out of them. Where they state more than may be, what play
    can come to is stated alone."""
    stated = _stated(rules, ask)
    try:
        ask(["moves"], stated)
    except Refusal as fault:
        if fault.code != TOO_MANY:
            raise
        try:
            return written_out(rules, ask, tighten=True)
        except (Misuse, Refusal):
            raise fault from None
    return stated


@dataclass(frozen=True)
class _Asked:
    """What answers, and the rules that it writes out. It may be that it is stopped, and then there is no reply that could be kept."""

    answers: Path | tuple[str, ...]
    rules: bytes
    tighten: bool
    stopped: Stops = field(compare=False)


@lru_cache(8)
def _reply(asked: _Asked) -> Reply:
    """The reply of what answers."""
    return calls.reply(words(asked.tighten), asked.rules, asked.stopped)


def reply(rules: Rules, tighten: bool = False, stopped: Stops = None) -> Reply:
    """The reply that has rules written out. It is asked for once, also where many calls are over them."""
    found = calls.answers()
    return _reply(_Asked(found if isinstance(found, Path) else tuple(found), bytes_of(rules), tighten, stopped))
