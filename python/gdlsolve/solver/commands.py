"""The commands of the program, and these as functions. With `whole` they are over a game as it is found, which is written out first, and with
`tighten` only what play can come to is stated of it. With `timeout` they raise `TimedOut` where there is no answer within so many seconds."""
from __future__ import annotations

from collections.abc import Callable
from dataclasses import dataclass
from typing import Generic, Literal, TypeVar

from gdlsolve.solver import timed, unrolled
from gdlsolve.solver.answers import Description, Network, Outside, Position, Solution, Standing, Values
from gdlsolve.solver.engine import Limit
from gdlsolve.solver.history import History, history_text
from gdlsolve.solver.rules import Rules, bytes_of, warn

Bound = Literal["zero", "goal"]
Told = TypeVar("Told")


@dataclass(frozen=True)
class Command(Generic[Told]):
    """A command: its words but for a history, and what reads the lines of its answer."""

    words: list[str]
    read: Callable[[list[str]], Told]


SHOW: Command[tuple[str, ...]] = Command(["show"], tuple)
CHECK = Command(["check"], Description.of)
NET = Command(["net"], Network.of)
MOVES = Command(["moves"], Position.of)
STATE = Command(["state"], Standing.of)


def _of_role(role: str, depth: int, at_bound: Bound, unfinished: int | None) -> list[str]:
    """The options of a question for a role."""
    worth = ["--at-bound", at_bound] if unfinished is None else ["--unfinished", str(unfinished)]
    return ["--role", role, "--depth", str(depth), *worth]


def solving(role: str, depth: int, at_bound: Bound, unfinished: int | None) -> Command[Solution]:
    """The command that tells what a role can be sure of."""
    return Command(["solve", *_of_role(role, depth, at_bound, unfinished)], Solution.of)


def solving_within(role: str, depth: int, low: int, high: int, at_bound: Bound, unfinished: int | None) -> Command[Solution | Outside]:
    """The same between two bounds."""
    return Command(["solve", "--window", f"{low}:{high}", *_of_role(role, depth, at_bound, unfinished)], Outside.of)


def valuing(role: str, depth: int, at_bound: Bound, unfinished: int | None) -> Command[Values]:
    """The command that tells what each move of a role makes sure of."""
    return Command(["values", *_of_role(role, depth, at_bound, unfinished)], Values.of)


def _written(rules: Rules, tighten: bool, limit: Limit) -> str:
    """A game as it is found, written out."""
    return "".join(f"{line}\n" for line in unrolled.reply(rules, tighten, timed.stops(limit)).lines())


def unroll(rules: Rules, *, tighten: bool = False, timeout: float | None = None) -> str:
    """A game as it is found, written out as rules that every command takes. With `tighten` only what play can come to is stated."""
    with timed.in_time(timeout) as limit:
        return _written(rules, tighten, limit)


def _told(
    command: Command[Told], rules: Rules, timeout: float | None, after: History | None = None, *, whole: bool = False, tighten: bool = False
) -> Told:
    """What the answer to a command says, over the rules or over what is written out of them."""
    words = command.words if after is None else [*command.words, "--after", history_text(after)]
    is_whole, text = whole or tighten, bytes_of(rules)
    with timed.in_time(timeout) as limit:
        lines = timed.within(words, _written(text, tighten, limit) if is_whole else text, limit).lines()
    if not (is_whole or command in (SHOW, CHECK)):
        warn(text, 3)
    return command.read(lines)


def show(rules: Rules, *, timeout: float | None = None) -> tuple[str, ...]:
    """The canonical text of each tree of a text, which need be no rules."""
    return _told(SHOW, rules, timeout)


def check(rules: Rules, *, whole: bool = False, tighten: bool = False, timeout: float | None = None) -> Description:
    """What the rules have."""
    return _told(CHECK, rules, timeout, whole=whole, tighten=tighten)


def net(rules: Rules, *, whole: bool = False, tighten: bool = False, timeout: float | None = None) -> Network:
    """How large the network of the rules is."""
    return _told(NET, rules, timeout, whole=whole, tighten=tighten)


def moves(rules: Rules, after: History = "", *, whole: bool = False, tighten: bool = False, timeout: float | None = None) -> Position:
    """How play stands after a history."""
    return _told(MOVES, rules, timeout, after, whole=whole, tighten=tighten)


def state(rules: Rules, after: History = "", *, whole: bool = False, tighten: bool = False, timeout: float | None = None) -> Standing:
    """How play stands after a history, and which base propositions hold."""
    return _told(STATE, rules, timeout, after, whole=whole, tighten=tighten)


def solve(
    rules: Rules, role: str, depth: int, *, at_bound: Bound = "zero", unfinished: int | None = None, after: History = "",
    whole: bool = False, tighten: bool = False, timeout: float | None = None,
) -> Solution:
    """What a role can be sure of within so many turns behind a history, from 0 to 64. A state in which play goes on there is worth 0,
    or with `at_bound="goal"` its goal value, or with `unfinished` that number, from 0 to 100, whatever `at_bound` says."""
    return _told(solving(role, depth, at_bound, unfinished), rules, timeout, after, whole=whole, tighten=tighten)


def solve_within(
    rules: Rules, role: str, depth: int, low: int, high: int, *, at_bound: Bound = "zero", unfinished: int | None = None,
    after: History = "", whole: bool = False, tighten: bool = False, timeout: float | None = None,
) -> Solution | Outside:
    """The same where the value is more than `low`, from -1, and less than `high`, up to 101; else which of the two it does not pass."""
    return _told(solving_within(role, depth, low, high, at_bound, unfinished), rules, timeout, after, whole=whole, tighten=tighten)


def values(
    rules: Rules, role: str, depth: int, *, at_bound: Bound = "zero", unfinished: int | None = None, after: History = "",
    whole: bool = False, tighten: bool = False, timeout: float | None = None,
) -> Values:
    """What each legal move of a role makes sure of, by the same options as `solve`."""
    return _told(valuing(role, depth, at_bound, unfinished), rules, timeout, after, whole=whole, tighten=tighten)
