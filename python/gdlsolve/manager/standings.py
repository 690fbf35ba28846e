"""The table of a tournament: what came of each player in the matches that count."""

from __future__ import annotations

import math
from collections.abc import Iterable, Iterator, Sequence
from dataclasses import dataclass, field
from itertools import combinations

from gdlsolve.manager.archive import Archive
from gdlsolve.manager.ratings import Rating, Result, ratings
from gdlsolve.manager.record import Record
from gdlsolve.solver import unrolled
from gdlsolve.solver.calls import answer
from gdlsolve.solver.engine import readable
from gdlsolve.solver.faults import Refusal
from gdlsolve.solver.session import Session
from gdlsolve.solver.terms import trees

HEAD = ("player", "rating", "error", "matches", "wins", "draws", "losses", "goal", "late", "illegal", "silent", "marked")
# What is told of a player who has met none.
NONE = "-"


@dataclass
class Count:
    """What came of a player: matches; wins, draws and losses, one for each other player of a match; the sum of its goals; its moves that
    were late, not legal, or did not come at all; and the matches with such a move, or for which it was not ready."""

    matches: int = 0
    wins: int = 0
    draws: int = 0
    losses: int = 0
    goals: int = 0
    late: int = 0
    illegal: int = 0
    silent: int = 0
    marked: int = 0

    def meet(self, own: int, other: int) -> None:
        """Counts a meeting by the goals of both."""
        self.wins += own > other
        self.draws += own == other
        self.losses += own < other

    def mark(self, errors: Sequence[str], unready: str) -> None:
        """Counts what failed in a match."""
        late, illegal = errors.count("late"), sum(error.startswith("not legal") for error in errors)
        self.late += late
        self.illegal += illegal
        self.silent += sum(map(bool, errors)) - late - illegal
        self.marked += any(errors) or bool(unready)


@dataclass(frozen=True)
class Played:
    """What came of a player in a match: its goal, what was wrong with its moves, empty or not there where nothing was, and why it was not
    ready, empty where it was."""

    player: str
    goal: int
    errors: Sequence[str]
    unready: str


@dataclass(frozen=True)
class Rank:
    """A player of the table: its name, how strong it is where it has met another, and what came of it."""

    name: str
    rating: Rating | None
    count: Count


@dataclass
class Standings:
    """What came of all players, and of all who have met."""

    counts: dict[str, Count] = field(default_factory=dict)
    results: list[Result] = field(default_factory=list)

    def add(self, record: Record, unready: Sequence[str]) -> None:
        """Counts a match that was played to its end."""
        errors = list(zip(*record.errors)) or [()] * len(record.roles)
        self.count([Played(*each) for each in zip(record.playerNamesFromHost, record.goalValues, errors, unready)])

    def count(self, seats: Sequence[Played]) -> None:
        """Counts a match that was played to its end, by what came of each player."""
        own = [(each.player, each.goal) for each in seats]
        for each in seats:
            count = self.counts.setdefault(each.player, Count())
            count.matches += 1
            count.goals += each.goal
            count.mark(each.errors, each.unready)
        for (one, goal), (other, others) in combinations(own, 2):
            self.counts[one].meet(goal, others)
            self.counts[other].meet(others, goal)
            self.results.append(Result(one, other, (1 + (goal > others) - (goal < others)) / 2))

    def ranks(self) -> list[Rank]:
        """The players, the strongest first, and those who have met none last."""
        rated = ratings(self.results)
        found = [Rank(name, rated.get(name), count) for name, count in self.counts.items()]
        return sorted(found, key=lambda each: (-each.rating.rating if each.rating else math.inf, each.name))

    def rows(self) -> Iterator[tuple[str, ...]]:
        """The rows of the table."""
        for each in self.ranks():
            rating, count = each.rating, each.count
            told = (f"{rating.rating:.0f}", f"{rating.error:.0f}") if rating else (NONE, NONE)
            met = (count.matches, count.wins, count.draws, count.losses)
            failed = (count.late, count.illegal, count.silent, count.marked)
            yield (each.name, *told, *map(str, met), f"{count.goals / count.matches:.1f}", *map(str, failed))

    def table(self) -> str:
        """The table as people read it."""
        rows = [HEAD, *self.rows()]
        first, *widths = (max(map(len, column)) for column in zip(*rows))
        return "".join(f"{'  '.join([row[0].ljust(first), *map(str.rjust, row[1:], widths)])}\n" for row in rows)


class Judge:
    """Replays matches by the solver, one session for all. It is ended at the end of a `with`."""

    def __init__(self) -> None:
        self.rules: str | None = None
        self.session: Session | None = None

    def __enter__(self) -> Judge:
        return self

    def __exit__(self, *_: object) -> None:
        if self.session is not None:
            self.session.close()

    def over(self, rules: str) -> Session:
        """The session, over the rules of a match."""
        if self.session is None or self.rules != rules:
            with readable():
                played = unrolled.playable(rules.encode(), answer)
            if self.session is None:
                self.session = Session(played)
            else:
                self.session.stand(played)
            self.rules = rules
        return self.session

    def fault(self, record: Record) -> str:
        """Why a match does not count: its moves are not legal, or the solver tells other goals. Empty where it counts."""
        try:
            if any(trees(move) != [move] for turn in record.moves for move in turn):
                return "a move is not one term"
            here = self.over(record.rules).moves(record.moves)
        except (Refusal, ValueError) as refused:
            return f"its moves are refused: {refused}"
        noted, found = list(zip(record.roles, record.goalValues)), list(here.goals.items())
        if record.state != here.state.value or noted != found:
            return f"it notes {record.state} {noted}, and the solver tells {here.state.value} {found}"
        return ""


def standings(archive: Archive, judge: Judge, numbers: Iterable[int]) -> tuple[Standings, list[str]]:
    """What came of the matches with these numbers, each of which is replayed; and for each that does not count, why."""
    found, faults = Standings(), []
    for number in numbers:
        try:
            record = archive.record(number)
            fault = judge.fault(record)
        except ValueError as changed:
            fault = str(changed)
        if fault:
            faults.append(f"match {number} does not count: {fault}")
        else:
            found.add(record, archive.unready(number))
    return found, faults
