"""Ratings of players by the results of their matches: Elo, as Bradley and Terry have it.

The ratings are those under which all results together, and a draw of weight 1/10 between each two players, are most likely, where a player
rated r beats one rated s with probability 1 / (1 + 10 ^ ((s - r) / 400)), a draw is half a win and half a loss, and the mean is 1500. The
error of a rating is the root of its variance in the inverse of the information matrix of these results, with the mean held.
"""

from __future__ import annotations

import math
from collections.abc import Iterable, Sequence
from dataclasses import dataclass

Matrix = list[list[float]]
# The ratings have this mean, and so much of them is one in the exponent of e.
MEAN = 1500.0
SCALE = 400 / math.log(10)
# The weight of a draw between each two players: so a player who won all has a rating too, and so have players who never met.
PRIOR = 0.1
# So small a change ends the search, which is there after some dozens at most.
SMALL = 1e-10
MOST_CHANGES = 1000


@dataclass(frozen=True)
class Result:
    """What came of two players in a match: 1 where the one beat the other, 0.5 at a draw, and 0 where the other beat the one."""

    one: str
    other: str
    score: float


@dataclass(frozen=True)
class Rating:
    """How strong a player is, and the standard error of that."""

    rating: float
    error: float


def inverse(matrix: Sequence[Sequence[float]]) -> Matrix:
    """The inverse of a matrix, by elimination with the greatest pivot of each column."""
    size = len(matrix)
    rows = [[*row, *(float(place == own) for place in range(size))] for own, row in enumerate(matrix)]
    for column in range(size):
        best = max(range(column, size), key=lambda place: abs(rows[place][column]))
        rows[column], rows[best] = rows[best], rows[column]
        pivot = [value / rows[column][column] for value in rows[column]]
        rows = [[value - row[column] * part for value, part in zip(row, pivot)] for row in rows]
        rows[column] = pivot
    return [row[size:] for row in rows]


def points(names: Sequence[str], results: Iterable[Result]) -> Matrix:
    """How many points each player has of each other, the draws of the prior among them."""
    place = {name: number for number, name in enumerate(names)}
    found = [[0.0 if one == other else PRIOR / 2 for other in names] for one in names]
    for result in results:
        one, other = place[result.one], place[result.other]
        found[one][other] += result.score
        found[other][one] += 1 - result.score
    return found


def beats(one: float, other: float) -> float:
    """How likely the one beats the other, where ratings are exponents of e."""
    return 1 / (1 + math.exp(other - one))


def slope(strengths: Sequence[float], won: Matrix) -> list[float]:
    """How the likelihood grows with each strength: the points that a player has beyond those that are expected of it."""
    every = range(len(strengths))
    return [
        sum(won[one][other] - (won[one][other] + won[other][one]) * beats(strengths[one], strengths[other]) for other in every)
        for one in every
    ]


def information(strengths: Sequence[float], won: Matrix) -> Matrix:
    """The information matrix, and the same in each place, so that it has an inverse: that all grow alike tells nothing."""
    every = range(len(strengths))
    found = [[1 / len(strengths)] * len(strengths) for _ in every]
    for one in every:
        for other in every:
            chance = beats(strengths[one], strengths[other])
            told = (won[one][other] + won[other][one]) * chance * (1 - chance)
            found[one][one] += told
            found[one][other] -= told
    return found


def likeliest(won: Matrix) -> list[float]:
    """The strengths under which these points are most likely, with the mean 0: by Newton's method, whose steps are cut so that none
    goes too far."""
    found = [0.0] * len(won)
    for _ in range(MOST_CHANGES):
        rising = slope(found, won)
        step = [sum(part * rise for part, rise in zip(row, rising)) for row in inverse(information(found, won))]
        length = 2 * max(abs(change) for change in step)
        if length < SMALL:
            break
        found = [strength + change * math.log1p(length) / length for strength, change in zip(found, step)]
    return found


def ratings(results: Sequence[Result]) -> dict[str, Rating]:
    """The rating of each player who has met another."""
    names = sorted({name for result in results for name in (result.one, result.other)})
    if not names:
        return {}
    won = points(names, results)
    strengths = likeliest(won)
    spread = inverse(information(strengths, won))
    errors = [math.sqrt(max(spread[place][place] - 1 / len(names), 0.0)) for place in range(len(names))]
    return {name: Rating(MEAN + SCALE * strength, SCALE * error) for name, strength, error in zip(names, strengths, errors)}
