"""Search by time: deeper and deeper, each depth in a child process, which the clock ends.

A depth is finished when its answer is there, and settled when its value is the same whether unfinished play is worth nothing or all:
no further turn changes such a value.
"""

from __future__ import annotations

import math
import time
from collections.abc import Iterator, Sequence
from dataclasses import dataclass, replace

from gdlsolve.console.progress import progress
from gdlsolve.solver.engine import Broken, Late, Limit, Pool
from gdlsolve.solver.faults import Misuse
from gdlsolve.solver.replies import Reply, Status

# The greatest depth that the program takes.
MOST_TURNS = 64
OWN_OPTIONS = ("--depth", "--at-bound", "--unfinished")


@dataclass(frozen=True)
class Deepest:
    """The deepest answer that was found, or what stands in its place: a refusal, misuse, want of memory. `broken` says why no deeper one
    was looked for, where the time was not over."""

    depth: int
    reply: Reply
    settled: bool
    broken: str = ""


def _value(found: Reply) -> bytes:
    """The first line of an answer, which tells the value."""
    return found.output.split(b"\n", 1)[0]


def _is_sure(found: Reply) -> bool:
    """Whether an answer in which unfinished play is worth nothing is settled by itself: no more is to be had, or there is no turn to come."""
    value, *rest = found.output.splitlines()
    return value == b"value 100" or rest == [b"move none"]


def _ask(pool: Pool, words: Sequence[str], rules: bytes, until: float) -> Reply:
    """A reply that is there in time."""
    found = pool.ask(words, rules, Limit(until))
    if found.status == Status.NO_MEMORY:
        raise MemoryError
    return found


def depths(pool: Pool, words: Sequence[str], rules: bytes, until: float) -> Iterator[Deepest]:
    """The answers depth by depth, until one is settled, the greatest depth, or the time. That of one turn is waited for. A program that
    deepens in one run would stand in for this function alone."""
    for depth in range(1, MOST_TURNS + 1):
        asked = [*words, "--depth", str(depth), "--unfinished"]
        sure = _ask(pool, [*asked, "0"], rules, until if depth > 1 else math.inf)
        yield Deepest(depth, sure, False)
        if sure.status != Status.ANSWER:
            return
        if _is_sure(sure) or _value(_ask(pool, [*asked, "100"], rules, until)) == _value(sure):
            yield Deepest(depth, sure, True)
            return


def deepen(words: Sequence[str], rules: bytes, seconds: float) -> Deepest:
    """The deepest answer within so many seconds. At least that of one turn is waited for."""
    for word in words:
        if word.partition("=")[0] in OWN_OPTIONS:
            raise Misuse(f"{word.partition('=')[0]} does not go with --time")
    until, pool = time.monotonic() + seconds, Pool(1)
    found: list[Deepest] = []
    with progress("1 turn ahead") as tell:
        try:
            for deepest in depths(pool, words, rules, until):
                found.append(deepest)
                tell(f"{deepest.depth + 1} turns ahead")
        except Late:
            pass
        except (Broken, MemoryError) as fault:
            # What was finished counts, as it does where the time is over.
            if not found:
                raise
            found.append(replace(found[-1], broken=str(fault) or "no memory"))
        finally:
            pool.close()
    return found[-1]
