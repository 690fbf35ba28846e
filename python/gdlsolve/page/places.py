"""Where a refusal is in a text, and what may be done about it.

An engine that explains its refusals says so on standard error, with line and column; then that is
what people read. Of one that does not, the line of the refusal tells the offset or the item.
"""

from __future__ import annotations

import re
from collections.abc import Iterator
from dataclasses import dataclass
from typing import Any

from gdlsolve.solver import unrolled
from gdlsolve.solver.faults import Refusal

EXPLAINED = re.compile(r"^[^\n]*?:(\d+):(\d+): ", re.MULTILINE)
TOKEN = re.compile(rb";[^\n]*|[()]|[^\t-\r ();]+")

# What each fault is, and what helps. docs/USAGE.md says more.
CAUSES = {
    "K1": "The text has more than 1,048,576 bytes. Drop comments, or state by a rule what repeats.",
    "K2": "Here is a byte that no name may have, as a quote or a letter that is no ASCII. "
    "Any byte may stand in a comment.",
    "K3": "More than 100 lists are open inside each other here.",
    "K4": "The list that opens here is closed nowhere. Perhaps its bracket stands in a comment.",
    "K5": "This bracket closes nothing: there is one too many, here or before.",
    "K6": "A name of more than 255 bytes begins here. Perhaps a space is missing.",
    "G1": "This item has a form that no rule has, as a not before an or, or a variable for a name.",
    "G2": "A word of the language stands here where it may not, or with too many or few arguments.",
    "G3": "A variable of this item stands in no positive atom, so nothing says what it can be. "
    "Add one that binds it.",
    "G4": "This relation rests on itself. List its facts, write it out to the length that is "
    "needed, or let next carry it from turn to turn.",
    "G5": "This item rests on what it may not: legal, goal and terminal on does, or base, input "
    "and init on what changes in play.",
    "G6": "There is no fact (role ..), so nobody plays.",
    "G7": "There is more of something than may be.",
    "N1": "The rules make more than fits: the last word says of what.",
    "S1": "There is no such role.",
    "H1": "A turn of the history is no list of one move for each role.",
    "H2": "A move of the history is not legal there.",
    "H3": "The history goes on although the game is over.",
    "H4": "The history goes on although some role has no legal move.",
}


# The same of rules as games are found, which were to be written out.
WHOLE_CAUSES = {
    "U1": "This relation rests on itself through a not, so nothing says what it is.",
    "U2": "What is to be written out is more than may be: the last word says of what.",
    "U3": "This rule asks base or input, and no item states it.",
}


@dataclass(frozen=True)
class Place:
    """A line and a column, both from 1 on."""

    line: int
    column: int


def place_of(text: bytes, offset: int) -> Place:
    """The place of a byte; columns count characters."""
    before = text[:offset]
    line = before[before.rfind(b"\n") + 1 :]
    return Place(before.count(b"\n") + 1, len(line.decode(errors="replace")) + 1)


def item_starts(text: bytes) -> Iterator[int]:
    """Where the items of a text begin."""
    depth = 0
    for token in TOKEN.finditer(text):
        word = token[0]
        if word.startswith(b";"):
            continue
        if depth == 0 and word != b")":
            yield token.start()
        depth += (word == b"(") - (word == b")")


def _item_place(text: bytes, item: int) -> Place | None:
    """The place of an item, counted from 1."""
    for number, start in enumerate(item_starts(text), 1):
        if number == item:
            return place_of(text, start)
    return None


def where(refused: Refusal, text: bytes) -> Place | None:
    """The place of a fault of the rules: as the engine explains it, or by what its line says."""
    told = EXPLAINED.search(refused.explanation)
    if told:
        return Place(int(told[1]), int(told[2]))
    number = refused.values[0] if refused.values else None
    if not isinstance(number, int):
        return None
    if refused.code.startswith("K"):
        return place_of(text, number)
    return _item_place(text, number) if refused.code[0] in "GU" else None


def refusal(refused: Refusal, text: bytes) -> dict[str, Any]:
    """A refusal as what JSON can tell: its line, its place, and what it means."""
    place = where(refused, text)
    return {
        "code": refused.code,
        "name": refused.name,
        "told": str(refused),
        "explanation": refused.explanation.strip(),
        "cause": {**CAUSES, **WHOLE_CAUSES}.get(refused.code, ""),
        "whole": unrolled.is_helped(refused),
        "line": place.line if place else None,
        "column": place.column if place else None,
    }
