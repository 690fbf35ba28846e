"""Pieces: what is drawn for what stands in a cell, by its name."""

from __future__ import annotations

import re
from collections.abc import Mapping, Sequence
from dataclasses import dataclass

# Contents that are colours are drawn as discs.
COLOURS = frozenset({"red", "black", "white", "yellow", "green", "blue", "orange", "purple"})
SIDES, NO_SIDE = 6, -1
BLOCK, DOT, CROWN = "■", "●", "♛"
MARKS = {
    **{"x": "✕", "o": "◯", "crossed": "✕", "used": "•", "visited": "•"},
    **dict.fromkeys(("wall", "blocked", "block", "arrow", "burnt", "rock", "trail"), BLOCK),
    **dict.fromkeys(("peg", "stone", "lit", "on", "disc", "light"), DOT),
}
# The pieces of chess: the symbol of a white one, and that of a black one, each drawn as text.
SYMBOLS = {
    **{"king": "♔♚", "queen": "♕♛", "rook": "♖♜"},
    **{"bishop": "♗♝", "knight": "♘♞", "pawn": "♙♟"},
}
AS_TEXT = "\ufe0e"
LETTERS = {"k": "king", "q": "queen", "r": "rook", "b": "bishop", "n": "knight", "p": "pawn"}
KINDS, SHADES = "|".join(SYMBOLS), "|".join(sorted(COLOURS))
MEN = "man|men|stone|disc|disk|piece|checker|token|marble|counter|ball"
CHESS = re.compile(rf"(?:(white|black|w|b)?[-_ ]?({KINDS})|({KINDS})[-_ ]?(white|black|w|b))")
SHORT = re.compile(r"([wb])([kqrbnp])")
# So many short names are chess, and these alone draughts.
LEAST_SHORT = 3
DRAUGHTS = frozenset({"wp", "wk", "bp", "bk"})
MAN = re.compile(rf"(?:({SHADES})[-_ ]?({MEN}|king)|({MEN}|king)[-_ ]?({SHADES}))")
FULL = {"w": "white", "b": "black"}
# Pieces of chess stand on a ground of their own, on which white is not black.
TILE = "tile"


@dataclass(frozen=True)
class Piece:
    """What stands in a cell: its name for the ear, its mark for the eye, and a colour or a side. A
    mark with a colour stands on a disc, or on a tile."""

    name: str
    mark: str
    colour: str
    side: int


def _chess(name: str, contents: Sequence[str]) -> tuple[str, str] | None:
    """The colour and the kind of a piece of chess."""
    found = CHESS.fullmatch(name)
    if found:
        colour = found[1] or found[4] or ""
        return FULL.get(colour, colour), found[2] or found[3]
    short = [each for each in contents if SHORT.fullmatch(each)]
    if name in short and len(short) >= LEAST_SHORT and set(short) != DRAUGHTS:
        return FULL[name[0]], LETTERS[name[1]]
    return None


def _man(name: str, contents: Sequence[str]) -> tuple[str, str] | None:
    """The colour and the kind of a man of draughts, or of a stone: a king is one only among men."""
    if name in DRAUGHTS and {each for each in contents if SHORT.fullmatch(each)} == DRAUGHTS:
        return FULL[name[0]], "king" if name[1] == "k" else "man"
    found = MAN.fullmatch(name)
    if not found:
        return None
    colour, kind = found[1] or found[4], found[2] or found[3]
    others = [MAN.fullmatch(each) for each in contents]
    has_men = any(each and "king" not in (each[2], each[3]) for each in others)
    return (colour, kind) if kind != "king" or has_men else None


def is_chess(contents: Sequence[str]) -> bool:
    """Whether these are pieces of chess, two at least."""
    return sum(_chess(each, contents) is not None and _man(each, contents) is None for each in contents) > 1


def look(name: str, relation: str, contents: Sequence[str], marks: Mapping[str, str], discs: Mapping[str, str]) -> Piece:
    """How a content, or a relation without one, is drawn among all contents of a board."""
    shown = name or relation
    side = contents.index(name) % SIDES if name in contents else 0
    if name in marks:
        return Piece(shown, marks[name], "", side)
    if name in discs or name in COLOURS and relation not in SYMBOLS:
        return Piece(shown, "", discs.get(name, name), side)
    man = _man(name, contents)
    if man:
        return Piece(f"{man[0]} {man[1]}", CROWN + AS_TEXT if man[1] == "king" else "", man[0], side)
    chess = _chess(name, contents) or _chess(f"{name} {relation}".strip(), contents)
    if chess:
        symbol = SYMBOLS[chess[1]][chess[0] != "white"] + AS_TEXT
        return Piece(" ".join(chess).strip(), symbol, TILE, side)
    return Piece(shown, MARKS.get(shown, name or BLOCK), name if name in COLOURS else "", side)
