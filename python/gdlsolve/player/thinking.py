"""What to play: search that gets deeper until the time is over, and random play beside it.

The search takes what is unfinished at its depth as worth 50 of 100. A value is settled where it is
the same whether that is worth nothing or all: no further turn changes it. Where nothing is settled
in time, the move is one of the greatest value at the deepest finished depth, and among these one
that random play speaks for.
"""

from __future__ import annotations

import random
import threading
import time
from collections.abc import Callable, Iterator
from contextlib import contextmanager
from dataclasses import dataclass, replace

from gdlsolve.player.gates import Gates
from gdlsolve.player.tree_search import UNFINISHED, Node, Question, Simulation, Stop
from gdlsolve.solver.answers import Solution, State, Values
from gdlsolve.solver.engine import Broken, Engine, Late, Limit, readable
from gdlsolve.solver.faults import Misuse, Refusal
from gdlsolve.solver.history import behind

# So often it is seen whether an answer is still waited for, in seconds.
BEAT = 0.1
# For so long a process may read the rules, in seconds. What is thought of may change meanwhile: another process would begin from the start.
READING = 30.0


@dataclass(frozen=True)
class Choice:
    """A move, and what is known of it: its value at a depth, whether that is settled, and in how
    many random matches it was tried."""

    move: str
    value: int | None
    depth: int
    is_settled: bool
    tried: int


class Search:
    """The search that gets deeper. `settled` is set where no further turn can change the value."""

    def __init__(self, question: Question, engine: Engine, simulation: Simulation):
        self.question = question
        self.engine = engine
        self.simulation = simulation
        self.deepest: tuple[int, Solution] | None = None
        # The moves of the greatest value at the last depth that settled nothing.
        self.equal: tuple[str, ...] = ()
        self.settled = threading.Event()

    def solve(self, depth: int, unfinished: int, stop: Stop) -> Solution:
        """The answer of the solver behind the turns of the question."""
        asked = self.question
        return self.engine.solve(asked.role, depth, asked.turns, unfinished, stop.limit())

    def is_over(self, found: Solution, depth: int, stop: Stop) -> bool:
        """Whether play ends with the line of an answer."""
        if len(found.line) < depth:
            return True
        turns = [*self.question.turns, *found.line]
        here = self.engine.moves(turns, stop.limit())
        return here.state is not State.OPEN

    def settle(self, found: Solution, depth: int, stop: Stop) -> Solution | None:
        """The answer that no further turn changes, where there is one at this depth."""
        if found.value in (0, 100):
            return found
        if not self.is_over(found, depth, stop):
            return None
        sure = self.solve(depth, 0, stop)
        return sure if self.solve(depth, 100, stop).value == sure.value else None

    def equals(self, found: Solution, depth: int, stop: Stop) -> tuple[str, ...]:
        """The moves that are worth as much as that of an answer at its depth. Where it is sure of more
        than half, that stands alone."""
        if found.value > UNFINISHED:
            return tuple(filter(None, [found.move]))
        asked = self.question
        words = ["values", "--role", asked.role, "--depth", str(depth), "--unfinished", str(UNFINISHED)]
        lines = self.engine.ask([*words, *behind(asked.turns)], stop.limit())
        with readable():
            values = Values.of(lines)
        return tuple(move for move, value in values.moves.items() if value == values.value)

    def kept(self, found: Solution) -> Solution:
        """An answer, with the move that was already sure of this at less depth, where one was."""
        if self.deepest is not None and UNFINISHED < found.value == self.deepest[1].value:
            return replace(found, move=self.deepest[1].move)
        return found

    def deepen(self, stop: Stop) -> None:
        """Searches deeper and deeper, to the greatest depth or a settled value."""
        for depth in range(1, self.question.most_depth + 1):
            found = self.solve(depth, UNFINISHED, stop)
            last = self.settle(found, depth, stop)
            if last is not None:
                self.deepest = depth, last
                self.settled.set()
                return
            found = self.kept(found)
            self.equal = self.equals(found, depth, stop)
            self.deepest = depth, found

    def run(self, stop: Stop) -> None:
        """Deepens until it is stopped. A value that is settled ends all work."""
        self.deepen(stop)
        if self.settled.is_set():
            stop.set()

    def preferred(self) -> str | None:
        """Of the moves of the greatest value the one that random matches speak for; any where these say
        nothing."""
        for move in self.simulation.ranking():
            if move in self.equal:
                return move
        return self.simulation.dice.choice(self.equal) if self.equal else None

    def choice(self) -> Choice | None:
        """What the search says, where it finished a depth."""
        # What is settled stands there before it is said to be so.
        is_settled = self.settled.is_set()
        if self.deepest is None:
            return None
        depth, found = self.deepest
        move = found.move
        # Where all is lost, what was not yet lost with one turn less holds out longest.
        if not is_settled or found.value == 0:
            move = self.preferred() or move
        if move is None:
            return None
        return Choice(move, found.value, depth, is_settled, self.simulation.tried(move))


@contextmanager
def giving_up() -> Iterator[None]:
    """What the solver does not answer ends the work, and nothing else."""
    try:
        yield
    except (Late, Broken, Refusal, Misuse, MemoryError):
        pass


@dataclass
class Thinking:
    """The work on a question, in two threads with an engine each, until it is stopped. Random play
    may go on with a tree that it has grown before, and over gates that were built before."""

    question: Question
    deep: Engine
    quick: Engine
    dice: random.Random
    root: Node | None = None
    gates: Gates | None = None

    def __post_init__(self) -> None:
        self.stop = Stop(self.question.until)
        gates = self.gates or Gates(self.quick)
        self.simulation = Simulation(self.question, self.quick, gates, self.dice, self.root)
        self.search = Search(self.question, self.deep, self.simulation)
        runs = (self.search.run, self.deep), (self.simulation.run, self.quick)
        self.threads = [threading.Thread(target=self.work, args=each, daemon=True) for each in runs]
        for thread in self.threads:
            thread.start()

    def work(self, run: Callable[[Stop], None], engine: Engine) -> None:
        """Does a part of the work in its thread, once its process has read the rules."""
        with giving_up():
            engine.read(Limit(time.monotonic() + READING))
            if not self.stop.is_set():
                run(self.stop)

    def goes_on(self) -> bool:
        """Whether more may be found than is."""
        return not self.deep.closed.is_set() and any(thread.is_alive() for thread in self.threads)

    def is_of_use(self) -> bool:
        """Whether it has found all that there is, or goes on."""
        return self.search.settled.is_set() or self.goes_on()

    def wait(self, until: float, for_move: bool = True) -> None:
        """Waits until the value is settled, the time is over, the engine is closed, or both threads
        have given up. For a move matches at random are played at once, also while there are no gates."""
        self.simulation.is_awaited = for_move
        while self.goes_on():
            left = until - time.monotonic()
            if left <= 0 or self.search.settled.wait(min(left, BEAT)):
                break
        self.simulation.is_awaited = False

    def best(self) -> Choice:
        """What the work has come to so far. Where that is nothing any move is as good."""
        found = self.search.choice()
        if found is not None and found.move in self.question.legal:
            return found
        best = [*self.simulation.ranking(), self.dice.choice(self.question.legal)][0]
        return Choice(best, None, 0, False, self.simulation.tried(best))

    def for_move(self, until: float) -> Choice:
        """What to play at this time. Then the work goes on, behind that move."""
        self.wait(until)
        found = self.best()
        self.simulation.answered = found.move
        return found

    def choice(self) -> Choice:
        """Ends the work, and says what it came to."""
        self.stop.set()
        return self.best()
