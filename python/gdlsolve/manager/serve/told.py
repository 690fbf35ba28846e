"""What the match server tells as JSON. Addresses of players are not told, as tokens may stand in them."""

from __future__ import annotations

from collections.abc import Iterable, Mapping, Sequence
from dataclasses import asdict
from typing import Any

from gdlsolve.manager.archive import Stage
from gdlsolve.manager.record import Record
from gdlsolve.manager.serve.hall import View
from gdlsolve.manager.serve.store import Listed
from gdlsolve.manager.standings import Rank

# What is told of moves that failed, and of the matches with such.
FAILED = ("late", "illegal", "silent", "marked")


def ranked(view: View, here: Iterable[str]) -> list[dict[str, Any]]:
    """The players, the strongest first, and last those who have no match that counts."""
    names = dict.fromkeys(here)
    rated = {each.name for each in view.ranks}
    told = [of_rank(each) for each in view.ranks] + [of_rank(None, name) for name in names if name not in rated]
    return [{**each, "here": each["name"] in names, "available": each["name"] not in view.absent} for each in told]


def of_rank(rank: Rank | None, name: str = "") -> dict[str, Any]:
    """What came of a player, or of one who has no match that counts."""
    if rank is None:
        return {"name": name, "rating": None, "error": None, "matches": 0}
    count, rating = rank.count, rank.rating
    return {
        "name": rank.name,
        "rating": rating and round(rating.rating, 1),
        "error": rating and round(rating.error, 1),
        "matches": count.matches,
        "wins": count.wins,
        "draws": count.draws,
        "losses": count.losses,
        "goal": round(count.goals / count.matches, 2),
        **{name: getattr(count, name) for name in FAILED},
    }


def counts(listed: Listed) -> bool | None:
    """Whether a match counts; none where it is not known yet."""
    stage, fault = listed.entry.stage, listed.fault
    if stage is Stage.PLAYED:
        return None if fault is None else not fault
    return None if stage is Stage.RUNNING else False


def of_match(listed: Listed) -> dict[str, Any]:
    """A match for a list."""
    entry = listed.entry
    return {
        "number": entry.number,
        "game": entry.game,
        "state": entry.stage.value,
        "begun": entry.begun,
        "counts": counts(listed),
        "refused": listed.fault or "",
        "failed": entry.failed,
        "seats": [{"role": role, "player": player, "goal": goal} for role, player, goal in entry.seats],
    }


def of_record(record: Record) -> Mapping[str, Any]:
    """The record of a match, with the names of the players in place of their addresses."""
    return {**asdict(record), "players": record.playerNamesFromHost}


def of_matches(matches: Sequence[Listed]) -> dict[str, Any]:
    """A list of matches."""
    return {"matches": [of_match(each) for each in matches]}
