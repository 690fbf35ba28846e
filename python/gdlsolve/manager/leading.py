"""How matches of an archive are led: games are read, players meet, and what came of it is told in a line."""

from __future__ import annotations

import random
import threading
from pathlib import Path

from gdlsolve.manager.archive import Game, Match
from gdlsolve.manager.client import post
from gdlsolve.manager.command import line_of
from gdlsolve.manager.record import Record
from gdlsolve.manager.referee import FAREWELL, RANDOM, Referee, roles_of
from gdlsolve.solver.faults import Refusal


def read(file: Path) -> Game:
    """The game in a file."""
    rules = file.read_bytes().decode(errors="replace")
    try:
        return Game(file.name, rules, tuple(roles_of(rules)))
    except Refusal as refusal:
        raise ValueError(line_of(refusal, file).rstrip()) from None


def forget(match: Match) -> None:
    """Ends a match at players who may know it from before, from a process that was killed."""
    for url in dict.fromkeys(match.last_urls):
        if url not in ("", RANDOM):
            post(url, f"(ABORT {match.last_name})", FAREWELL)


def lead(match: Match, slack: float, turns: int, stopped: threading.Event) -> Referee:
    """Leads a match to its end, or to so many turns."""
    referee = Referee(match.record, random.Random(match.seed), slack, None, stopped)
    referee.play(turns)
    return referee


def outcome(number: int, record: Record, unready: dict[str, str]) -> str:
    """What came of a match, in a line."""
    goals = [str(goal) for goal in record.goalValues] or ["-"] * len(record.roles)
    seats = ", ".join(f"{name} as {role} {goal}" for name, role, goal in zip(record.playerNamesFromHost, record.roles, goals))
    wrong = sum(bool(error) for turn in record.errors for error in turn)
    marks = [f"{wrong} failed moves"] * bool(wrong) + [f"{role} was not ready: {why}" for role, why in unready.items()]
    return "; ".join([f"match {number}, {record.game}: {seats}, {record.state} after {len(record.moves)} turns", *marks])
