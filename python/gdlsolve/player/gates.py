"""The gates of a game in a process of their own, which builds them piece by piece beside play, and then plays matches at random over them."""

from __future__ import annotations

import threading
import time
from collections.abc import Sequence

from gdlsolve.solver.answers import Position
from gdlsolve.solver.engine import Engine, Late, Limit, Playouts, readable
from gdlsolve.solver.faults import Misuse
from gdlsolve.solver.history import Turn, behind
from gdlsolve.solver.propnet import NOT_YET
from gdlsolve.solver.terms import terms

# They are built for so long at a time, in seconds.
PIECE = 0.1
# Nobody waits longer for their process, in seconds: one that is ended has to begin from the start.
PATIENCE = 30.0


class Gates:
    """Gates, once they are there. There are none where the rules are too large."""

    def __init__(self, engine: Engine):
        self.engine = engine
        self.are_there = False
        self.are_none = False
        # So long they were built, in seconds.
        self.spent = 0.0
        self.rehearsal = threading.Lock()

    def are_wanted(self) -> bool:
        """Whether they are still to be built."""
        return not (self.are_there or self.are_none)

    def ask(self, words: Sequence[str], turns: Sequence[Turn], seconds: float, limit: Limit) -> list[str]:
        """The lines of an answer, before which they may be built for so many seconds. `Misuse` tells that they are not there."""
        try:
            told = self.engine.ask([*words, "--seconds", f"{seconds:.3f}", *behind(turns)], limit)
        except (Misuse, MemoryError) as fault:
            self.are_there, self.are_none = False, NOT_YET not in str(fault)
            raise Misuse(str(fault)) from None
        self.are_there = True
        return told

    def build(self) -> float:
        """Has a piece of them built, and tells how long that took."""
        begun = time.monotonic()
        try:
            self.ask(["legal"], (), PIECE, Limit(begun + PATIENCE))
        except Misuse:
            pass
        took = time.monotonic() - begun
        self.spent += took
        return took

    def goals(self, turns: Sequence[Turn], asked: Playouts) -> dict[str, int] | None:
        """What random matches behind a history bring each role in all, where the gates are there."""
        try:
            told = self.ask(["playouts", *asked.words()], turns, PIECE, Limit(time.monotonic() + PATIENCE))
        except Misuse:
            return None
        with readable():
            return {role: int(goal) for _, role, goal in map(terms, told)}

    def legal(self, turns: Sequence[Turn], until: float) -> Position:
        """How play stands after a history, without the solver. Half of the time may go into building. A process that is late is not ended, and
        is asked no more meanwhile."""
        left = max(until - time.monotonic(), 0)
        if not self.rehearsal.acquire(timeout=left):
            raise Late
        try:
            told = self.ask(["legal"], turns, left / 2, Limit(until + PATIENCE))
        finally:
            self.rehearsal.release()
        with readable():
            return Position.of(told)
