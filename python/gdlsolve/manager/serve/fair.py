"""Who plays whom next: a round robin without an end, in which sides are changed, and who has played least and longest ago comes first.

It follows from the players, the games and the matches before, and from nothing else.
"""

from __future__ import annotations

from collections import Counter
from collections.abc import Collection, Sequence
from dataclasses import dataclass
from itertools import combinations

from gdlsolve.manager.schedule import Seats, ring, turned

# How often, and when last: who has less of the first, and then of the second, comes first.
Turn = tuple[int, int]
NEVER = -1


@dataclass(frozen=True)
class Slot:
    """A game: the sum of its rules, and how many roles it has."""

    game: str
    roles: int


@dataclass(frozen=True)
class Meeting:
    """A match: the sum of the rules of its game, and who takes which role."""

    game: str
    seats: Seats


class Past:
    """The matches before, in the order in which they were begun, as far as it is of account who plays next."""

    def __init__(self, matches: Sequence[Meeting] = ()):
        self.count = 0
        self.often: Counter[object] = Counter()
        self.last: dict[object, int] = {}
        for each in matches:
            self.add(each)

    def add(self, match: Meeting) -> None:
        """Takes a match that was begun."""
        players, game = sorted(match.seats), match.game
        sides = ((game, place, player) for place, player in enumerate(match.seats))
        pairs = ((game, *pair) for pair in combinations(players, 2))
        # Two players are a pair too, and one is all: each is counted once.
        for what in {match, (game, *players), *players, *((game, player) for player in players), *pairs, *sides}:
            self.often[what] += 1
            self.last[what] = self.count
        self.count += 1

    def turn(self, what: object) -> Turn:
        """How often there was something, and when last."""
        return self.often[what], self.last.get(what, NEVER)

    def met(self, game: str, player: str, others: Collection[str]) -> int:
        """How often a player has met others in a game."""
        return sum(self.often[(game, *sorted((player, other)))] for other in others)


def seated(game: str, players: Sequence[str], past: Past) -> Seats:
    """The players in the roles of a game: by turns, as these players have been in it least, and then as each has been."""
    each = tuple(sorted(players))
    rounds = past.often[(game, *each)] // len(each)

    def often(seats: Seats) -> Turn:
        return past.often[Meeting(game, seats)], sum(past.often[(game, place, player)] for place, player in enumerate(seats))

    return min(turned(ring(each, rounds)), key=often)


def chosen(players: Collection[str], games: Sequence[Slot], past: Past) -> Meeting | None:
    """The next match of players who are free, or none where no game has so few roles. The player comes first who has played least, and
    among such the one who has played longest ago; its game is found in the same way, and so are those whom it has met least there."""
    fitting = [slot for slot in games if slot.roles <= len(players)]
    if not players or not fitting:
        return None
    first = min(players, key=lambda player: (past.turn(player), player))
    slot = min(fitting, key=lambda each: past.turn((each.game, first)))
    found = [first]
    while len(found) < slot.roles:
        rest = [player for player in players if player not in found]
        found.append(min(rest, key=lambda player: (past.met(slot.game, player, found), past.turn(player), player)))
    return Meeting(slot.game, seated(slot.game, found, past))
