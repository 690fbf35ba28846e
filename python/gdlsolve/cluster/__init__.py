"""`solve` shared by many machines, over any executor of `concurrent.futures`.

The answer is that of one machine, byte for byte, or an exception is raised. Each worker asks the
program on its own machine; what is put together here is not proved.

>>> with ProcessPoolExecutor(4) as pool:
...     solve(rules, "red", 16, executor=pool, width=4)
"""

from __future__ import annotations

from collections.abc import Callable, Sequence
from concurrent.futures import Executor
from pathlib import Path

from gdlsolve.cluster.driver import Driver, Engine, Manner, Sought, written_out
from gdlsolve.cluster.faults import ClusterFault, Contradiction, Failed, Lost, OtherProgram
from gdlsolve.solver.answers import Solution
from gdlsolve.solver.commands import Bound
from gdlsolve.solver.faults import Misuse, Refusal
from gdlsolve.solver.history import History, history_text
from gdlsolve.solver.replies import Status, lines_of
from gdlsolve.solver.rules import Rules, bytes_of

__all__ = [
    "ClusterFault",
    "Contradiction",
    "Driver",
    "Engine",
    "Failed",
    "Lost",
    "Manner",
    "OtherProgram",
    "Sought",
    "solve",
]

MOST_TURNS = 64


def _room(width: int | Callable[[], int]) -> Callable[[], int]:
    """A width as a function."""
    if not isinstance(width, int):
        return width
    number = width
    return lambda: number


def sought(
    rules: Rules,
    role: str,
    depth: int,
    worth: Sequence[str],
    after: History,
    whole: bool = False,
    tighten: bool = False,
) -> Sought:
    """What is sought, where the depth is one. With `whole` the rules are a game as it is found. It is
    written out here and once, and the workers are asked about what was written."""
    if not 0 <= depth <= MOST_TURNS:
        raise Misuse(f"the depth is a whole number from 0 to {MOST_TURNS}, and not {depth}")
    given = bytes_of(rules)
    text = written_out(given, tighten) if whole else given
    return Sought(text, role, depth, tuple(worth), history_text(after))


def solve(
    rules: Rules,
    role: str,
    depth: int,
    *,
    executor: Executor,
    width: int | Callable[[], int],
    after: History = "",
    at_bound: Bound = "zero",
    unfinished: int | None = None,
    split: float = 2.0,
    journal: Path | None = None,
    patience: float = 120.0,
    processors: int = 1,
    parts: bool = False,
    whole: bool = False,
    table: int | None = None,
) -> Solution:
    """What `gdlsolve.solve` gives, found by up to `width` tasks of an executor at a time, each by so
    many processors. With 0 processors a task of Dask uses as many as its worker has threads. A task
    that has run for `split` seconds is split where the executor could do more. Answers are kept in
    the file `journal`, and what stands there is not asked for again. An engine may be gone for
    `patience` seconds. With `parts` the whole question is not asked beside its parts. With `whole`
    the rules are a game as it is found, which is written out first. Each program may keep what
    positions are worth in `table` MiB, from 0 to 65536."""
    worth = ["--at-bound", at_bound] if unfinished is None else ["--unfinished", str(unfinished)]
    manner = Manner(split, journal, patience, parts=parts, table=table)
    engine = Engine(executor, _room(width), processors=processors)
    asked = sought(rules, role, depth, worth, after, whole)
    found = Driver(asked, engine, manner).reply()
    lines = lines_of(found.output)
    if found.status is Status.REFUSED:
        raise Refusal(lines[0])
    return Solution.of(lines)
