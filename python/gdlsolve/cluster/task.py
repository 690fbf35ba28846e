"""What a worker does: it asks the program for the value of one state in a window.

Questions and outcomes are data. So they go over any engine, and a failure of the program is told
apart from one of the engine.
"""

from __future__ import annotations

import multiprocessing
import os
import sys
import time
from collections.abc import Callable
from dataclasses import dataclass
from enum import Enum

from gdlsolve.cluster import program
from gdlsolve.solver.program import ORPHANED
from gdlsolve.solver.replies import Status, lines_of

# No value is outside.
OPEN = (-1, 101)
# So many workers a cut of one level has at most; further levels seldom pay.
MOST_OF_CUT = 16


# What a program takes for its table if nothing is told, in MiB.
TABLE = 64


@dataclass(frozen=True)
class Question:
    """The value of the state after a history, asked for between two bounds. `options` are those of
    `solve` but for history and window, `digest` is the sum of the program that has to answer, and
    `stop` the file that is there once the answer is not wanted any more. So many processors may
    answer it; 0 are those that Dask knows the worker to have. So many MiB may keep what positions are
    worth, or 64 for each processor where that is not told."""

    rules: bytes
    options: tuple[str, ...]
    after: str
    low: int
    high: int
    digest: str
    stop: str | None
    processors: int = 1
    table: int | None = None

    def words(self, processors: int) -> list[str]:
        """The words of the program. Within a window one worker searches, whatever the cut; so where
        there are several processors the value itself is asked for, by all of them."""
        if processors > 1:
            how = ["--cut", str(min(processors, MOST_OF_CUT))]
        else:
            how = [] if (self.low, self.high) == OPEN else ["--window", f"{self.low}:{self.high}"]
        return ["solve", *self.options, *self._kept(processors), *how, "--after", self.after]

    def _kept(self, processors: int) -> list[str]:
        """How much the table takes: where that is not told, as much for each processor as one alone has. Several
        fill a table as much sooner, and what is pushed out of it has to be searched again."""
        if self.table is not None:
            return ["--table", str(self.table)]
        return ["--table", str(TABLE * min(processors, MOST_OF_CUT))] if processors > 1 else []


class End(Enum):
    """How a question ended."""

    ANSWERED = "answered"
    REFUSED = "refused"
    MISUSED = "misused"
    FAILED = "failed"
    STOPPED = "stopped"
    OTHER_PROGRAM = "other program"


@dataclass(frozen=True)
class Outcome:
    """How a question ended, the lines that tell it, the seconds that it took, and by how many
    processors it was answered."""

    end: End
    lines: tuple[str, ...]
    seconds: float = 0.0
    processors: int = 1


def _processors(asked: int) -> int:
    """How many processors answer a question for which so many are given."""
    distributed = sys.modules.get("distributed")
    if asked or distributed is None:
        return asked or 1
    try:
        return max(int(distributed.get_worker().state.nthreads), 1)
    except (AttributeError, ValueError):
        return 1


def _by_dask() -> Callable[[], bool] | None:
    """Inside of a task of Dask: tells whether it was cancelled, which Dask itself only notes."""
    distributed = sys.modules.get("distributed")
    if distributed is None:
        return None
    try:
        worker = distributed.get_worker()
        key = worker.get_current_task()
        tasks = worker.state.tasks
    except (AttributeError, ValueError):
        return None

    def stopped() -> bool:
        task = tasks.get(key)
        return task is None or task.state == "cancelled"

    return stopped


def _by_file(path: str | None) -> Callable[[], bool] | None:
    """Tells whether a file is there, or its folder is gone. On another machine there is neither."""
    if path is None:
        return None
    file, folder = path, os.path.dirname(path)
    if not os.path.isdir(folder):
        return None
    return lambda: os.path.exists(file) or not os.path.isdir(folder)


def _is_orphan() -> bool:
    """Whether this is a process of `multiprocessing`, as of a pool, and the one who has started it is gone."""
    parent = multiprocessing.parent_process()
    return parent is not None and not parent.is_alive()


def _stopped(path: str | None) -> Callable[[], bool]:
    """Tells whether the answer is not wanted any more, in each way that there is."""
    ways = [way for way in (_by_dask(), _by_file(path), _is_orphan) if way is not None]
    return lambda: any(way() for way in ways)


def _end(ran: program.Ran) -> End:
    """What an exit status says."""
    known = {Status.ANSWER: End.ANSWERED, Status.REFUSED: End.REFUSED, Status.MISUSE: End.MISUSED}
    return known.get(Status(ran.status), End.FAILED) if ran.status in set(Status) else End.FAILED


def answer(question: Question) -> Outcome:
    """Asks the program."""
    found = program.digest()
    if found != question.digest:
        return Outcome(End.OTHER_PROGRAM, (found,))
    begun, processors = time.monotonic(), _processors(question.processors)
    try:
        ran = program.run(question.words(processors), question.rules, _stopped(question.stop))
    except program.Stopped:
        if _is_orphan():
            # Nobody is there to be told, and such a process would wait for questions without an end.
            os._exit(ORPHANED)
        return Outcome(End.STOPPED, (), time.monotonic() - begun)
    end = _end(ran)
    if end in (End.ANSWERED, End.REFUSED):
        lines = tuple(lines_of(ran.output))
    else:
        lines = (f"status {ran.status}", *ran.errors.decode(errors="replace").splitlines())
    return Outcome(end, lines, time.monotonic() - begun, processors)
