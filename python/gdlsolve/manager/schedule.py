"""Who plays whom: a round robin in which each player takes each role as often as any other."""

from __future__ import annotations

import math
from collections.abc import Iterator, Sequence
from dataclasses import dataclass
from itertools import combinations, islice, permutations

# Which player takes each role, in the order of the roles.
Seats = tuple[str, ...]


@dataclass(frozen=True)
class Pairing:
    """A match that is to be played: the number of its round, from 0 on, the number of its game, and who takes which role."""

    round: int
    game: int
    seats: Seats


def ring(players: Seats, number: int) -> Seats:
    """The players in the order in which they sit in a round. After some rounds each order around the table was there."""
    first, *others = players
    return (first, *next(islice(permutations(others), number % math.factorial(len(others)), None)))


def turned(players: Seats) -> Iterator[Seats]:
    """Each player in each role once: for two players both sides."""
    return (players[place:] + players[:place] for place in range(len(players)))


def schedule(players: Sequence[str], roles: Sequence[int], rounds: int) -> Iterator[Pairing]:
    """The matches of some rounds of games, each with so many roles. In a round as many players as there are roles meet once in each
    choice of them, and take the roles by turns."""
    for number in range(rounds):
        for game, count in enumerate(roles):
            for chosen in combinations(players, count):
                yield from (Pairing(number, game, seats) for seats in turned(ring(chosen, number)))
