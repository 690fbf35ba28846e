"""The first turns of a game as a tree, and what is known of the value of each of its states.

A state has a lower and an upper bound. Answers narrow them, and nothing widens them. So an answer
that comes late, twice or again does no harm. The bounds of a state whose moves are looked at follow
from those of the states behind them: of all replies to a move the least counts, of all moves the
greatest.
"""

from __future__ import annotations

import re
from collections.abc import Iterator
from dataclasses import dataclass, field

from gdlsolve.cluster.faults import Contradiction
from gdlsolve.cluster.task import OPEN
from gdlsolve.solver.history import Turn, history_text

LEAST, GREATEST = 0, 100


@dataclass(eq=False, repr=False)
class Node:
    """A state: the turns that lead to it, how many are left, the bounds of its value, the lines
    behind the value where one answer told it, and the moves, once they are looked at."""

    turns: tuple[Turn, ...]
    depth: int
    before: Move | None = None
    low: int = LEAST
    high: int = GREATEST
    told: tuple[str, ...] | None = None
    moves: list[Move] = field(default_factory=list)
    closed: bool = False

    @property
    def open(self) -> bool:
        """The value is not known yet."""
        return self.low < self.high

    def narrow(self, low: int, high: int) -> None:
        """Takes in that the value lies between two bounds, and what follows from that."""
        if low <= self.low and high >= self.high:
            return
        self.low, self.high = max(self.low, low), min(self.high, high)
        if self.low > self.high:
            raise Contradiction(f"no value is left for {history_text(self.turns) or 'the start'}")
        if self.before is not None:
            self.before.refresh()

    def follow(self) -> None:
        """Takes in what the bounds of the moves say."""
        low, high = max(move.low for move in self.moves), max(move.high for move in self.moves)
        self.narrow(low, high)


@dataclass(eq=False, repr=False)
class Move:
    """An own move, and the states behind each reply to it."""

    own: str
    of: Node
    replies: list[Node] = field(default_factory=list)
    low: int = LEAST
    high: int = GREATEST

    def refresh(self) -> None:
        """Takes in what the bounds of the replies say."""
        self.low = min(reply.low for reply in self.replies)
        self.high = min(reply.high for reply in self.replies)
        self.of.follow()


@dataclass(frozen=True)
class Need:
    """What is still to be known of a state: whether its value is `low` or less, `high` or more, or
    which one between. Of one group few are asked for at a time, as long as others are left."""

    node: Node
    low: int
    high: int
    group: int | None


def goals(rules: bytes) -> list[int]:
    """The numbers that a goal of these rules can be: each stands in their text as a name."""
    found = re.findall(rb"(?<![^\s()])(?:[1-9][0-9]?|100|0)(?![^\s();])", rules)
    return sorted({0, *map(int, found)})


def widest(low: int, high: int, values: list[int]) -> tuple[int, int]:
    """The widest window that tells as much of these values."""
    below = [value for value in values if value <= low]
    above = [value for value in values if value >= high]
    return below[-1] if below else OPEN[0], above[0] if above else OPEN[1]


def _floor(bound: int) -> int:
    """A lower bound as the low end of a window. That of every value is left open, so that a value
    there is told with its line."""
    return bound if bound > LEAST else OPEN[0]


def _ceiling(bound: int) -> int:
    """An upper bound as the high end of a window, and likewise."""
    return bound if bound < GREATEST else OPEN[1]


def within(node: Node, low: int, high: int, group: int | None) -> Iterator[Need]:
    """What is needed so that it is known where the value of a state lies in a window."""
    if not node.open or node.high <= low or node.low >= high:
        return
    low, high = max(low, _floor(node.low)), min(high, _ceiling(node.high))
    yield Need(node, low, high, group)
    for move in node.moves:
        yield from under(move, low, high, group)


def under(move: Move, low: int, high: int, group: int | None) -> Iterator[Need]:
    """The same for what a move makes sure of."""
    if move.high <= low or move.low >= high:
        return
    for reply in move.replies:
        yield from within(reply, low, min(high, _ceiling(move.high)), group)


def whole(root: Node) -> Need:
    """The value of a state with its line, in one answer."""
    return Need(root, *OPEN, None)


def value_needs(root: Node) -> Iterator[Need]:
    """What is needed for the value of a state and for the first move that has it: the whole, where
    that is out, or its parts."""
    if root.told is None:
        parts = list(part_needs(root))
        yield from [whole(root), *parts] if parts else []


def part_needs(root: Node) -> Iterator[Need]:
    """The parts of the value of a state and of the first move that has it. A later move has to pass
    an earlier one. Of the first move all replies are asked for at once."""
    attained = False
    for place, move in enumerate(root.moves):
        low = root.low if attained else root.low - 1
        if move.high > low and move.low < move.high:
            yield from under(move, low, _ceiling(root.high), place or None)
        attained = attained or move.low >= root.low


def _choice_needs(node: Node, value: int) -> Iterator[Need]:
    """What is needed so that the first move is known that has the value of its state."""
    for move in node.moves:
        if move.high >= value:
            yield from under(move, value - 1, value, None)
            if move.low >= value:
                return


def _reply_needs(move: Move, value: int) -> Iterator[Need]:
    """What is needed so that the first reply is known that leaves a move no more than the value."""
    for reply in move.replies:
        if reply.high <= value:
            return
        yield from within(reply, value, value + 1, None)


def choice(node: Node, value: int) -> Move | None:
    """The first move that has the value of its state, where it is known."""
    left = next((move for move in node.moves if move.high >= value), None)
    return left if left is not None and left.low >= value else None


def answer_to(move: Move, value: int) -> Node | None:
    """The first reply that leaves a move no more than the value, where it is known."""
    left = next((reply for reply in move.replies if reply.low <= value), None)
    return left if left is not None and left.high <= value else None


def _needs_behind(node: Node, value: int) -> Iterator[Need] | None:
    """What is needed for the next turn of the line, where that is not known."""
    move = choice(node, value)
    if move is None:
        return _choice_needs(node, value)
    return None if answer_to(move, value) is not None else _reply_needs(move, value)


def line_needs(root: Node) -> Iterator[Need]:
    """What is needed for the line behind a state whose value is known, and at last the states that
    it goes through: one that is asked for as a whole may tell all."""
    passed, further = [root], _needs_behind(root, root.low)
    while further is None and passed[-1].told is None:
        _, node = turn_of(passed[-1], root.low)
        passed.append(node)
        further = _needs_behind(node, root.low) if node.moves else iter(())
    if passed[-1].told is None:
        yield from further or ()
        for node in reversed(passed):
            yield Need(node, root.low - 1, root.low + 1, None)


def turn_of(node: Node, value: int) -> tuple[Move, Node]:
    """The next turn of the line, where it is known: the move, and the state behind the reply."""
    move = choice(node, value)
    reply = None if move is None else answer_to(move, value)
    if move is None or reply is None:
        raise Contradiction(f"no line is left behind {history_text(node.turns) or 'the start'}")
    return move, reply
