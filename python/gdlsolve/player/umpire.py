"""Tells how play stands in a match, by a process that is asked for nothing else.

It has read the rules since START, and comes before all that thinks, which has a lower priority. Where its answer is late it is not ended, as a
machine that is busy makes all slow, and another process would first have to read the rules. What it finds out then counts for the next turn.
Behind an answer it finds out how play stands behind the turns that may come next.
"""

from __future__ import annotations

import threading
from collections.abc import Iterable, Sequence
from concurrent.futures import FIRST_COMPLETED, Future, wait
from functools import partial
from time import monotonic

from gdlsolve.player.background import begun
from gdlsolve.solver.answers import Position
from gdlsolve.solver.engine import Broken, Engine, Late, Limit
from gdlsolve.solver.faults import Misuse
from gdlsolve.solver.history import Turn

Turns = tuple[Turn, ...]
# What the solver says or does when it gives no answer.
NO_ANSWER = (Late, Broken, Misuse, MemoryError)
# A process that is asked for a position may be so much later than its answer is waited for, in seconds. Then it is ended, as it hangs.
PATIENCE = 10.0
# So many positions are looked at ahead, twice as many at once where it took less than this time, and else half as many, in seconds.
MOST_AHEAD = 64
QUICK = 0.02


class Umpire:
    """The process that tells how play stands, and the last question to it."""

    def __init__(self, engine: Engine):
        self.engine = engine
        self.lock = threading.Lock()
        # The history that was asked for last, and what is told of it.
        self.turns: Turns | None = None
        self.asked: Future[Position] = Future()
        self.asked.cancel()
        # How play stands behind turns that may come next, and the history behind which that is found out.
        self.known: dict[Turns, Position] = {}
        self.ahead_of: Turns | None = None

    def is_late(self) -> bool:
        """Whether the last question has no answer yet."""
        return not self.asked.done()

    def ask(self, turns: Turns, until: float) -> Future[Position]:
        """How play stands behind a history, once it is found out. It is waited for until a time, and then no longer than the patience lasts."""
        self.turns, self.ahead_of = turns, None
        self.asked = begun(partial(self._find, turns, until))
        return self.asked

    def _find(self, turns: Turns, until: float) -> Position:
        """How play stands behind a history, where nothing else was asked for meanwhile."""
        with self.lock:
            if self.turns is not turns:
                raise Late
            return self.known.get(turns) or self.engine.moves(turns, Limit(max(until, monotonic()) + PATIENCE))

    def look_ahead(self, turns: Turns, replies: Iterable[Turn]) -> None:
        """Begins to find out how play stands behind each of these turns, which may follow a history, until there is something else to do."""
        self.known, self.ahead_of = {}, turns
        begun(partial(self._look, turns, [(*turns, each) for each in replies]))

    def _look(self, turns: Turns, left: list[Turns]) -> None:
        """Finds out how play stands behind histories, some at once, so that no other question waits for long."""
        size = 1
        while left and self.ahead_of is turns:
            at_once, left = left[:size], left[size:]
            with self.lock:
                asked = monotonic()
                self.known.update(zip(at_once, self.engine.positions(at_once, Limit(asked + PATIENCE))))
                size = 2 * size if monotonic() - asked < QUICK else max(size // 2, 1)


def first(asked: Sequence[Future[Position]], until: float) -> Position | None:
    """What the first of these tells that tells anything, where that is in time."""
    left = set(asked)
    while left:
        done, left = wait(left, max(until - monotonic(), 0.0), FIRST_COMPLETED)
        if not done:
            return None
        for each in done:
            fault = each.exception()
            if fault is None:
                return each.result()
            if not isinstance(fault, NO_ANSWER):
                raise fault
    return None
