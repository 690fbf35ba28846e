"""Records of matches, as servers and the repository of matches keep them: JSON with `moves`.

`moves` has a list of moves for each turn, one for each role in the order of the roles. The name of
the game may stand in `game`, or at the end of `gameMetaURL`, and its text in `rules`. The text of a
history is taken too.
"""

from __future__ import annotations

import json
import re
from collections.abc import Iterator
from dataclasses import dataclass
from pathlib import PurePosixPath
from typing import Any

from gdlsolve.solver.terms import Malformed, terms, trees

VERSION = re.compile(r"v\d+")


class BadRecord(ValueError):
    """The text is no record of a match. The message says why."""


@dataclass(frozen=True)
class Record:
    """The turns of a match, with the name and the rules of its game where the record tells them."""

    game: str
    rules: str
    turns: list[list[str]]


def canonical(text: str) -> list[str]:
    """The canonical text of each tree of a text."""
    try:
        return trees(text)
    except Malformed as fault:
        raise BadRecord(f"{str(fault).capitalize()}.") from None


def _of_history(text: str) -> Record:
    """The record that the text of a history is."""
    turns = canonical(text)
    if not all(turn.startswith("(") for turn in turns):
        raise BadRecord("It is neither JSON nor a history, as ((mark 1 1) noop) (noop (mark 2 2)).")
    return Record("", "", [terms(turn[1:-1]) for turn in turns])


def _moves(turns: Any) -> Iterator[list[str]]:
    """The moves of each turn."""
    if not isinstance(turns, list):
        raise BadRecord("Its moves are no list of turns.")
    for number, turn in enumerate(turns, 1):
        if not isinstance(turn, list) or not all(isinstance(move, str) for move in turn):
            raise BadRecord(f"Turn {number} is no list of moves.")
        terms_of_turn = [canonical(move) for move in turn]
        if not all(len(each) == 1 for each in terms_of_turn):
            raise BadRecord(f"A move of turn {number} is not one term.")
        yield [each[0] for each in terms_of_turn]


def _game(told: dict[str, Any]) -> str:
    """The name of the game: the last part of what names it, without a version and an ending."""
    for key in ("game", "gameMetaURL"):
        value = told.get(key)
        if isinstance(value, str) and value:
            names = [each for each in value.split("/") if each and not VERSION.fullmatch(each)]
            return PurePosixPath(names[-1]).stem if names else ""
    return ""


def record(text: str) -> Record:
    """The record that a text is. What is none is raised as `BadRecord`."""
    if not text.lstrip().startswith("{"):
        return _of_history(text)
    try:
        told = json.loads(text)
    except ValueError as fault:
        raise BadRecord(f"It is no JSON: {fault}.") from None
    if "moves" not in told:
        raise BadRecord("It has no moves.")
    rules = told.get("rules")
    text_of_rules = rules if isinstance(rules, str) else ""
    return Record(_game(told), text_of_rules, list(_moves(told["moves"])))
