"""What to play where nobody tells in time which moves are legal: one that most likely is."""

from __future__ import annotations

from collections import Counter
from collections.abc import Container, Mapping, Sequence

Moves = Sequence[str]
# Turns of one kind come again after so many turns at most.
MOST_PERIOD = 8


def kind(moves: Moves) -> frozenset[str]:
    """What kind of turn it is: the names at the heads of the moves that are legal."""
    return frozenset(move.lstrip("(").partition(" ")[0] for move in moves)


def period(seen: Mapping[int, Moves]) -> int:
    """After how many turns those of one kind come again, as far as turns were seen."""
    kinds = {turn: kind(moves) for turn, moves in seen.items()}

    def agreement(length: int) -> float:
        pairs = [kinds[turn] == kinds[turn + length] for turn in kinds if turn + length in kinds]
        return sum(pairs) / len(pairs) if pairs else 0.0

    return max(range(1, MOST_PERIOD + 1), key=agreement)


def likely(turn: int, beside: Sequence[Moves], seen: Mapping[int, Moves], made: Container[str]) -> str | None:
    """The move that is legal in most positions that other replies would have led to, or else in most of the earlier turns of the same kind.
    One that was made already is taken where there is no other."""
    if not beside:
        length = period(seen)
        beside = [seen[each] for each in range(turn - length, -1, -length) if each in seen] or [seen[each] for each in sorted(seen)[-1:]]
    counted = [move for move, _ in Counter(move for moves in beside for move in moves).most_common()]
    return next((move for move in counted if move not in made), next(iter(counted), None))
