"""Matches at random, led by those before them: Monte Carlo tree search.

A tree of positions grows by one at a time. In it each role goes for what brought it much, and for
what it knows little of; behind it some matches are played at once, with all moves at random. So the
more matches, the more the replies are good ones. Of a new position a short search tells whether it
is won or lost already.
"""

from __future__ import annotations

import math
import random
import threading
import time
from collections.abc import Mapping, Sequence
from dataclasses import dataclass, field

from gdlsolve.player.gates import Gates
from gdlsolve.solver.answers import Position, State
from gdlsolve.solver.engine import Broken, Engine, Late, Limit, Playouts
from gdlsolve.solver.history import Turn

# The goals of a match that is broken off, and after so many turns one is.
UNFINISHED = 50
MOST_TURNS = 200
# How far a role goes for moves that it knows little of, where goals are counted from 0 to 1.
CURIOSITY = 0.7
# The answer on a position that is under way may come so much later, in seconds.
GRACE = 0.25
# The short search goes a turn deeper where it was quicker than the first of these times, and a turn
# less where it was slower than the second, in seconds; where the third is over, there is no more.
QUICK, SLOW, TOO_SLOW = 0.002, 0.01, 0.5
# So many matches go on at once at most, twice as many where a turn of them was quicker than the
# first of these times, and half as many where it was slower than the second, in seconds.
MOST_AT_ONCE = 16
# So many matches are played behind a new position where they go over gates. These are built before any match is played for so long at
# most, in seconds, and from then on by turns with matches that the solver leads.
BY_GATES = 32
AT_FIRST = 20.0
QUICK_TURN, SLOW_TURN = 0.02, 0.2
# So often the tree is gone through for a question, and so many positions are added, at most.
MOST_PASSES = 20_000
MOST_NODES = 5_000
# The greatest depth that the solver takes.
MOST_DEPTH = 64
# Longer than any work goes on, in seconds.
FOREVER = 1e7


class Stop(threading.Event):
    """What ends work: that it is set, or that a time has come, by `monotonic`, which may be put off."""

    def __init__(self, until: float):
        super().__init__()
        self.until = until

    def is_set(self) -> bool:
        """Whether the work is to end."""
        return super().is_set() or time.monotonic() >= self.until

    def limit(self, grace: float = 0.0) -> Limit:
        """How long an answer is waited for: until the work ends, and a grace longer."""
        return Limit(time.monotonic() + FOREVER, self, grace)


@dataclass(frozen=True)
class Question:
    """The role that moves, the turns so far and how play stands behind them; until when it is thought
    of, and the greatest depth to search."""

    role: str
    turns: tuple[Turn, ...]
    here: Position
    until: float
    most_depth: int = MOST_DEPTH

    @property
    def legal(self) -> tuple[str, ...]:
        """The moves of the role."""
        return self.here.legal[self.role]


class Seat:
    """The moves of a role in a position: how often each was tried, and what it brought in all."""

    def __init__(self, moves: Sequence[str]):
        self.tried = dict.fromkeys(moves, 0)
        self.gained = dict.fromkeys(moves, 0.0)

    def mean(self, move: str) -> float:
        """What a move brought on average."""
        return self.gained[move] / max(self.tried[move], 1)

    def choose(self, dice: random.Random) -> str:
        """The move to be tried next."""
        new = [move for move, times in self.tried.items() if not times]
        if new:
            return dice.choice(new)
        all_times = math.log(sum(self.tried.values()))

        def promise(move: str) -> float:
            return self.mean(move) / 100 + CURIOSITY * math.sqrt(all_times / self.tried[move])

        return max(self.tried, key=promise)

    def note(self, move: str, goals: int, matches: int) -> None:
        """Puts down what some matches with this move brought in all."""
        self.gained[move] += goals
        self.tried[move] += matches


@dataclass(frozen=True)
class Outcome:
    """What some matches brought each role in all."""

    goals: dict[str, int]
    matches: int

    @classmethod
    def of(cls, goals: Mapping[str, int], matches: int) -> Outcome:
        """The outcome of so many matches that end with the same goals."""
        return cls({role: goal * matches for role, goal in goals.items()}, matches)


@dataclass
class Node:
    """A position of the tree, with the seats of its roles once it was passed through, and the goals
    where it is known how it ends."""

    here: Position
    goals: dict[str, int] | None = None
    seats: dict[str, Seat] = field(default_factory=dict)
    next: dict[Turn, Node] = field(default_factory=dict)

    def turn(self, dice: random.Random) -> Turn:
        """The turn to be tried next."""
        if not self.seats:
            self.seats = {role: Seat(moves) for role, moves in self.here.legal.items()}
        return tuple(seat.choose(dice) for seat in self.seats.values())

    def note(self, turn: Turn, found: Outcome) -> None:
        """Puts down what some matches with this turn brought each role."""
        for move, (role, seat) in zip(turn, self.seats.items()):
            seat.note(move, found.goals.get(role, 0), found.matches)

    def size(self) -> int:
        """How many positions stand behind this one."""
        count, left = 0, [self]
        while left:
            behind = list(left.pop().next.values())
            count += len(behind)
            left += behind
        return count


class Simulation:
    """The matches behind a question. The tree may have grown before, behind earlier turns."""

    def __init__(self, question: Question, engine: Engine, gates: Gates, dice: random.Random, root: Node | None = None):
        self.question, self.engine, self.gates, self.dice = question, engine, gates, dice
        self.root = root or Node(question.here)
        # What a short search said of it does not say by which move.
        self.root.goals = None
        self.nodes = self.root.size()
        # How many turns the short search looks ahead, or 0 where there is none.
        self.ahead = 1
        # How many matches that the solver leads go on at once, and how many matches there were in all.
        self.at_once = MOST_AT_ONCE // 2
        self.matches = 0
        # Whether a move is waited for, and the one that was answered, behind which is thought on.
        self.is_awaited = False
        self.answered: str | None = None

    @property
    def seat(self) -> Seat:
        """The moves of the role that is asked for."""
        return self.root.seats.get(self.question.role) or Seat(self.question.legal)

    def tried(self, move: str) -> int:
        """In how many matches a move was tried."""
        return self.seat.tried[move]

    def ranking(self) -> list[str]:
        """The moves that were tried, those first that were tried most and brought most."""
        seat = self.seat
        tried = [move for move, times in seat.tried.items() if times]
        return sorted(tried, key=lambda move: (seat.tried[move], seat.mean(move)), reverse=True)

    def longest(self, histories: Sequence[list[Turn]]) -> bool:
        """Whether matches with these turns are broken off."""
        return any(len(turns) >= len(self.question.turns) + MOST_TURNS for turns in histories)

    def by_gates(self, turns: list[Turn]) -> Outcome | None:
        """What matches bring that go on at random over gates, where there are such."""
        if not self.gates.are_there:
            return None
        goals = self.gates.goals(turns, Playouts(BY_GATES, MOST_TURNS, UNFINISHED, self.dice.getrandbits(32)))
        return None if goals is None else Outcome(goals, BY_GATES)

    def by_turns(self, here: Position, turns: list[Turn], stop: Stop) -> Outcome | None:
        """What matches bring that the solver leads, turn by turn all at once, if they are not
        stopped."""
        count = self.at_once
        going = [(here, list(turns)) for _ in range(count)]
        ended: list[Mapping[str, int]] = []
        while going and not self.longest([each for _, each in going]):
            if stop.is_set():
                return None
            for position, each in going:
                each.append(tuple(map(self.dice.choice, position.legal.values())))
            begun = time.monotonic()
            found = self.engine.positions([each for _, each in going], stop.limit(GRACE))
            self.measure(time.monotonic() - begun)
            ended += [position.goals for position in found if position.state is not State.OPEN]
            both = zip(found, [each for _, each in going])
            going = [(position, each) for position, each in both if position.state is State.OPEN]
        ended += [dict.fromkeys(here.legal, UNFINISHED) for _ in going]
        return Outcome({role: sum(each.get(role, 0) for each in ended) for role in here.legal}, count)

    def measure(self, took: float) -> None:
        """Has more matches go on at once, or less, by how long a turn took."""
        if took < QUICK_TURN:
            self.at_once = min(2 * self.at_once, MOST_AT_ONCE)
        elif took > SLOW_TURN:
            self.at_once = max(self.at_once // 2, 1)

    def look(self, turns: list[Turn], stop: Stop) -> int | None:
        """The value that a short search tells."""
        asked, begun = self.question, time.monotonic()
        limit = Limit(begun + TOO_SLOW, stop, GRACE)
        try:
            value = self.engine.solve(asked.role, self.ahead, turns, UNFINISHED, limit).value
        except (Late, Broken):
            self.ahead = 0
            return None
        took = time.monotonic() - begun
        change = (took < QUICK) - (took > SLOW)
        self.ahead = min(max(self.ahead + change, 1), asked.most_depth)
        return value

    def known(self, here: Position, turns: list[Turn], stop: Stop) -> dict[str, int] | None:
        """What each role has, where play is over, or a short search says who wins."""
        if here.state is not State.OPEN:
            return {role: here.goals.get(role, 0) for role in self.root.here.legal}
        value = self.look(turns, stop) if self.ahead else None
        if value not in (0, 100):
            return None
        return {each: value if each == self.question.role else 100 - value for each in here.legal}

    def grown(self, node: Node, turn: Turn, turns: list[Turn], stop: Stop) -> tuple[Node, Outcome | None]:
        """The position behind a turn, which is new in the tree, and what matches behind it bring."""
        here = self.engine.positions([turns], stop.limit(GRACE))[0]
        made = Node(here, self.known(here, turns, stop))
        if self.nodes < MOST_NODES:
            node.next[turn] = made
            self.nodes += 1
        if made.goals is not None:
            return made, None
        found = self.by_gates(turns) or self.by_turns(here, turns, stop)
        self.matches += found.matches if found else 0
        return made, found

    def turn(self, node: Node) -> Turn:
        """The turn to be tried next in a position. A move that was answered stands."""
        found = node.turn(self.dice)
        if node is not self.root or self.answered is None:
            return found
        return tuple(self.answered if role == self.question.role else move for role, move in zip(node.seats, found))

    def grow(self, stop: Stop) -> None:
        """Goes through the tree to a new position, and puts down what matches behind it brought."""
        node, turns = self.root, list(self.question.turns)
        path: list[tuple[Node, Turn]] = []
        found: Outcome | None = None
        while node.goals is None and found is None:
            if stop.is_set():
                return
            turn = self.turn(node)
            path.append((node, turn))
            turns.append(turn)
            if turn in node.next:
                node = node.next[turn]
            else:
                node, found = self.grown(node, turn, turns, stop)
        found = found or Outcome.of(node.goals or {}, BY_GATES if self.gates.are_there else self.at_once)
        for place, turn in path:
            place.note(turn, found)

    def build(self, took: float, stop: Stop) -> None:
        """Has the gates built: as long as the last match took, or at first for longer where no move is waited for."""
        spent = 0.0
        while self.gates.are_wanted() and not stop.is_set():
            at_first = self.gates.spent < AT_FIRST and not self.is_awaited
            if spent > took and not at_first:
                return
            spent += self.gates.build()

    def run(self, stop: Stop) -> None:
        """Plays until it is stopped, or more matches would say no more."""
        took = 0.0
        for _ in range(MOST_PASSES):
            self.build(took, stop)
            if stop.is_set():
                return
            begun = time.monotonic()
            self.grow(stop)
            took = time.monotonic() - begun
