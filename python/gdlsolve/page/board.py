"""Boards: grids drawn from facts that name cells, and the cells at which a move stands.

A cell is named by two arguments that stand side by side, by one as `b3`, or, where a board is cut
into smaller ones, by three (the part, then the cell in it) or four (two for the part).

A file beside a game, `NAME.board` for `NAME.kif`, may say how its board is drawn. It is JSON with
any of these:

    draw       false: no board is drawn at all
    relation   the relation whose facts are the cells, where there are several
    columns    which of its arguments counts the columns, from 1 on
    rows       which of its arguments counts the rows; without both they are looked for
    cell       which of its arguments names a cell as `b3` does
    parts      the parts of a board that is cut, as lists from the top: [["1", "2"], ["3", "4"]];
               the part is the first argument, and columns and rows count in it
    down       true: the first row stands at the top, else at the bottom
    checkered  true: every other cell is shaded
    empty      what stands in a cell for nothing
    hide       relations that are not drawn on the board
    over       further relations that are drawn in the cells of the board
    marks      what is drawn for what, as {"x": "X"}; "" is for a relation with nothing more to tell
    discs      what is drawn as a disc, with its colour, as {"w": "white"}
    press      what a move with one argument names: "column", "row", or "none", where the board is
               not pressed at all; if not given, a column for `drop` alone
"""

from __future__ import annotations

import json
import re
from collections.abc import Iterable, Mapping, Sequence
from dataclasses import dataclass, field, replace
from itertools import pairwise
from math import isqrt
from typing import Any

from gdlsolve.page.pieces import COLOURS, NO_SIDE, Piece, is_chess, look
from gdlsolve.solver.terms import terms

# What descriptions write into an empty cell.
BLANKS = frozenset({"b", "blank", "empty", "none", "off", "open"})
# Relations that stand in the way on a board, drawn in its cells where they are over the same ones.
SOLID = frozenset({"wall", "blocked", "burnt", "rock", "trail"})
# Relations that count something.
COUNTS = frozenset({"heap", "pile", "score", "hand", "seeds", "coins", "got"})
MOST_LINES = 24
# Of a board that is cut by four arguments each part has at most so many lines, and so many there are.
MOST_INNER = 4
# So much of a grid has to be there, else facts with two numbers are no board.
FILLED = 0.6
PRESSES = ("", "column", "row", "none")
NAMED = re.compile(r"([a-z])[-_]?(\d{1,2})")

Cell = tuple[str, str]


def parts(term: str) -> list[str]:
    """The name of a term and its arguments."""
    return terms(term[1:-1]) if term.startswith("(") else [term]


@dataclass(frozen=True)
class Style:
    """How a board is drawn."""

    draw: bool = True
    relation: str = ""
    columns: int = 0
    rows: int = 0
    cell: int = 0
    parts: tuple[tuple[str, ...], ...] = ()
    down: bool = False
    checkered: bool = False
    empty: frozenset[str] = BLANKS
    hide: frozenset[str] = frozenset()
    over: frozenset[str] = frozenset()
    marks: Mapping[str, str] = field(default_factory=dict)
    discs: Mapping[str, str] = field(default_factory=dict)
    press: str = ""

    @classmethod
    def of(cls, text: str) -> Style:
        """The style that the text of a file tells. A `ValueError` says what is wrong with it."""
        told = json.loads(text)
        if not isinstance(told, dict):
            raise ValueError("it is no JSON object")
        sets: dict[str, Any] = {
            key: frozenset(_names(told.pop(key), key)) for key in ("empty", "hide", "over") if key in told
        }
        for key in ("marks", "discs"):
            sets[key] = _object(told.pop(key, {}), key)
        sets["parts"] = _lists(told.pop("parts", []))
        axes = {"columns": 1, "rows": 2} if {"columns", "rows"} & set(told) else {}
        told = {**axes, **told}
        for key, value in told.items():
            kind = type(getattr(cls, key, None))
            if kind not in (bool, int, str) or type(value) is not kind:
                raise ValueError(f"{key} is not known, or has another kind of value")
        found = cls(**told, **sets)
        if axes and (found.columns < 1 or found.rows < 1 or found.columns == found.rows):
            raise ValueError("columns and rows are two arguments, counted from 1")
        if found.cell < 0 or (found.cell and axes):
            raise ValueError("cell is one argument, counted from 1, in place of columns and rows")
        if found.press not in PRESSES:
            raise ValueError("press is none of column, row and none")
        if not set(found.discs.values()) <= COLOURS:
            raise ValueError(f"a disc has none of the colours {', '.join(sorted(COLOURS))}")
        return found

    def ways(self, arguments: int) -> list[Way]:
        """How facts with so many arguments may name cells, the likeliest first."""
        if self.cell:
            return [Way((self.cell - 1,))] if self.cell <= arguments else []
        if self.columns:
            both = (min(self.columns, self.rows) - 1, max(self.columns, self.rows) - 1)
            places = (0, *both) if self.parts else both
            return [Way(places, self.columns > self.rows, self.parts)] if places[-1] < arguments else []
        cut = [Way((0, 1, 2), parts=self.parts)] * (arguments > 3) + [Way((0, 1, 2, 3))] * (arguments > 4)
        if self.parts:
            return cut[:1]
        return [*cut, *(Way(pair) for pair in pairwise(range(arguments))), *(Way((place,)) for place in range(arguments))]


def _names(value: Any, key: str) -> list[str]:
    """A list of texts."""
    if not isinstance(value, list) or not all(isinstance(each, str) for each in value):
        raise ValueError(f"{key} has something else than texts")
    return value


def _object(value: Any, key: str) -> dict[str, str]:
    """An object whose values are texts."""
    if not isinstance(value, dict):
        raise ValueError(f"{key} is no object")
    _names(list(value.values()), key)
    return value


def _lists(value: Any) -> tuple[tuple[str, ...], ...]:
    """The parts of a board that is cut: lists of texts, all of one length."""
    if not isinstance(value, list):
        raise ValueError("parts are no lists")
    found = tuple(tuple(_names(each, "parts")) for each in value)
    if len(set(map(len, found))) > 1 or () in found:
        raise ValueError("parts are not as many in each row")
    return found


@dataclass(frozen=True)
class Grid:
    """A board: its columns from the left, its rows from the top, and what stands in its cells."""

    frame: Frame
    is_checkered: bool
    cells: dict[Cell, list[Piece]]

    def told(self) -> dict[str, Any]:
        """The grid as what JSON can tell: a list of pieces for each cell, row by row, or nothing where there is no cell."""
        frame = self.frame
        lines = [
            [[vars(piece) for piece in self.cells.get((column, row), [])] if frame.has((column, row)) else None
             for column in frame.columns]
            for row in frame.rows
        ]
        return {
            "relation": frame.relation,
            "columns": frame.columns,
            "rows": frame.rows,
            "checkered": self.is_checkered,
            "phase": frame.phase,
            "inner": frame.inner,
            "cells": lines,
        }


@dataclass(frozen=True)
class Way:
    """Which arguments name a cell, from 0 on, and how: by one as `b3`, by two coordinates, by a part
    of the board and two, or by two of the part and two. It is turned where the first counts rows."""

    places: tuple[int, ...]
    turned: bool = False
    parts: tuple[tuple[str, ...], ...] = ()

    def at(self, arguments: Sequence[str]) -> Cell | None:
        """The cell that the arguments of a fact name."""
        return self.cell([arguments[place] for place in self.places])

    def cell(self, names: Sequence[str]) -> Cell | None:
        """The cell that is named so."""
        first, second = ("", "")
        if len(names) == 1:
            found = NAMED.fullmatch(names[0])
            if not found:
                return None
            first, second = found[1], found[2]
        elif len(names) == 3:
            outer = self._part(names[0])
            if outer is None:
                return None
            first, second = f"{outer[0]}.{names[1]}", f"{outer[1]}.{names[2]}"
        elif len(names) == 4:
            first, second = f"{names[0]}.{names[2]}", f"{names[1]}.{names[3]}"
        else:
            first, second = names
        return (second, first) if self.turned else (first, second)

    def _part(self, name: str) -> tuple[int, int] | None:
        """Where a part stands, from 1 on: its place in the order of the first coordinate, and of the second."""
        for down, line in enumerate(self.parts):
            if name in line:
                across, up = line.index(name) + 1, len(self.parts) - down
                return (down + 1, across) if self.turned else (across, up)
        return None


def _found_parts(names: Iterable[str]) -> tuple[tuple[str, ...], ...]:
    """Parts that are counted as cells are, the first coordinate first, where they are 1 to 4, or 1 to 9."""
    axis = _axis(names) or ()
    size = isqrt(len(axis))
    if size < 2 or size * size != len(axis) or axis[0] != "1" or axis[-1] != str(len(axis)):
        return ()
    return tuple(tuple(axis[across * size + up] for across in range(size)) for up in reversed(range(size)))


@dataclass(frozen=True)
class Frame:
    """Where a board has its cells: what all facts that can ever hold tell of it. Where every other
    cell is used alone, `phase` tells which."""

    relation: str
    arguments: int
    columns: tuple[str, ...]
    rows: tuple[str, ...]
    contents: tuple[str, ...]
    way: Way
    used: frozenset[Cell]
    phase: int | None = None

    def has(self, cell: Cell) -> bool:
        """Whether something can ever stand there. Where every other cell is used alone, the others are there too."""
        return self.phase is not None or cell in self.used

    @property
    def inner(self) -> tuple[int, int]:
        """How many columns and rows a part has, where the board is cut."""
        outer = [{name.partition(".")[0] for name in axis if "." in name} for axis in (self.columns, self.rows)]
        return (len(self.columns) // max(1, len(outer[0])), len(self.rows) // max(1, len(outer[1]))) if all(outer) else (0, 0)

    def cell(self, names: Sequence[str]) -> Cell | None:
        """The cell of the board that is named so."""
        found = self.way.cell(names)
        return found if found and found[0] in self.columns and found[1] in self.rows else None

    def content(self, arguments: Sequence[str]) -> str:
        """What a fact says beside its cell."""
        return " ".join(each for place, each in enumerate(arguments) if place not in self.way.places)


def _axis(names: Iterable[str]) -> tuple[str, ...] | None:
    """Coordinates in their order, where they are all numbers or all single letters, or both those of
    a part and those in it are."""
    found = set(names)
    if not 2 <= len(found) <= MOST_LINES:
        return None
    if all(name.isdecimal() for name in found):
        return tuple(sorted(found, key=int))
    if all(len(name) == 1 and name.isalpha() for name in found):
        return tuple(sorted(found))
    if not all(name.count(".") == 1 for name in found):
        return None
    outer, inner = (_axis(name.split(".")[place] for name in found) for place in (0, 1))
    return tuple(f"{one}.{other}" for one in outer for other in inner) if outer and inner else None


def _is_counted(columns: tuple[str, ...], rows: tuple[str, ...]) -> bool:
    """Whether these are no coordinates of a board: counts go from 0 on, and blocks that stand on each other have names."""
    return (columns[0] == "0") != (rows[0] == "0") or columns[0].isalpha() and rows[0].isalpha() and bool({*columns} & {*rows})


def _phase(cells: set[Cell], columns: tuple[str, ...], rows: tuple[str, ...]) -> int | None:
    """Which of every other cell are used, where these alone are: those whose places from the left and from the top make this sum."""
    found = {(columns.index(column) + rows.index(row)) % 2 for column, row in cells}
    return found.pop() if len(found) == 1 else None


def _frame(relation: str, facts: list[list[str]], way: Way, style: Style) -> Frame | None:
    """The board that the facts of a relation make, if they do."""
    if len(way.places) == 3 and not way.parts:
        way = Way(way.places, way.turned, _found_parts(fact[0] for fact in facts))
    named = [way.at(fact) for fact in facts]
    cells = {cell for cell in named if cell}
    columns, rows = (_axis(cell[place] for cell in cells) for place in (0, 1))
    if None in named or columns is None or rows is None:
        return None
    ordered = rows if style.down else rows[::-1]
    if relation != style.relation and _is_counted(columns, rows):
        return None
    if len(way.places) == 4 and any(len({fact[place] for fact in facts}) > MOST_INNER for place in way.places):
        return None
    phase = _phase(cells, columns, ordered)
    if len(cells) < FILLED * len(columns) * len(rows) / (1 if phase is None else 2):
        return None
    frame = Frame(relation, len(facts[0]), columns, ordered, (), way, frozenset(cells), phase)
    return replace(frame, contents=tuple(dict.fromkeys(map(frame.content, facts))))


def frames(base: Iterable[str], style: Style) -> list[Frame]:
    """The boards among all facts that can ever hold, those that tell more of a cell first."""
    if not style.draw:
        return []
    shapes: dict[tuple[str, int], list[list[str]]] = {}
    for fact in base:
        name, *arguments = parts(fact)
        shapes.setdefault((name, len(arguments)), []).append(arguments)
    able: list[Frame] = []
    for (name, size), facts in shapes.items():
        is_wanted = name in style.over or (name == style.relation if style.relation else name not in COUNTS)
        if is_wanted and name not in style.hide:
            ways = (_frame(name, facts, way, style) for way in style.ways(size))
            able += [frame for frame in ways if frame][:1]
    able.sort(key=lambda frame: (frame.relation in style.over, -frame.arguments, frame.way.places))
    return able


def _kept(found: list[Frame], style: Style) -> tuple[list[Frame], dict[tuple[str, int], tuple[int, Frame]]]:
    """The boards that are drawn, and the relations that are drawn in the cells of which of them."""
    kept: list[Frame] = []
    over: dict[tuple[str, int], tuple[int, Frame]] = {}
    for frame in found:
        below = [place for place, old in enumerate(kept)
                 if set(frame.columns) <= set(old.columns) and set(frame.rows) <= set(old.rows)]
        if not below and frame.relation not in style.over:
            over[frame.relation, frame.arguments] = len(kept), frame
            kept.append(frame)
        elif below and frame.relation in SOLID | style.over:
            over[frame.relation, frame.arguments] = below[0], frame
    return kept, over


def boards(facts: Iterable[str], found: list[Frame], style: Style) -> tuple[list[Grid], list[str]]:
    """The boards with what stands on them, and the facts that no board shows. A relation over the
    cells of an earlier board is told beside it, and not drawn as a board of its own; what is solid
    is drawn in its cells."""
    kept, drawn = _kept(found, style)
    cells: list[dict[Cell, list[Piece]]] = [{} for _ in kept]
    rest: list[str] = []
    for fact in facts:
        name, *arguments = parts(fact)
        place, frame = drawn.get((name, len(arguments)), (0, None))
        cell = frame.cell([arguments[each] for each in frame.way.places]) if frame else None
        if frame and cell:
            content = frame.content(arguments)
            if content not in style.empty:
                cells[place].setdefault(cell, []).append(_piece(content, frame, style))
        elif name not in style.hide:
            rest.append(fact)
    return [Grid(frame, style.checkered or _is_checkered(frame, style), each) for frame, each in zip(kept, cells)], rest


def _is_checkered(frame: Frame, style: Style) -> bool:
    """Whether a board is shaded although no file says so: where chess is played, or every other cell is used alone."""
    return frame.phase is not None or is_chess([each for each in frame.contents if each not in style.empty])


def _piece(name: str, frame: Frame, style: Style) -> Piece:
    """How a content, or a relation without one, is drawn. What is solid is drawn so, whosever it is."""
    contents = [each for each in frame.contents if each not in style.empty]
    if frame.relation in SOLID and name not in style.marks:
        return replace(look("", frame.relation, contents, {}, {}), side=NO_SIDE)
    return look(name, frame.relation, contents, style.marks, style.discs)


def _ends(arguments: Sequence[str], frame: Frame) -> list[Cell]:
    """The cell that a move names by its arguments, or the two from which and to which it goes. None where that is not plain."""
    size = len(frame.way.places)
    cells = [frame.cell(arguments[place : place + size]) for place in range(len(arguments) - size + 1)]
    if len(arguments) == 2 * size and (size > 1 or all(cells)):
        ends = [cells[0], cells[-1]]
        return [cell for cell in ends if cell] if all(ends) else []
    if len(arguments) == frame.arguments and arguments and frame.content(arguments) in {*frame.contents} - {""}:
        held = frame.cell([arguments[place] for place in frame.way.places])
        if held:
            return [held]
    places = [place for place, cell in enumerate(cells) if cell]
    is_plain = len(places) == 1 or len(places) == 2 and places[1] - places[0] >= size
    return [cell for cell in cells if cell] if is_plain else []


def _is_line(arguments: Sequence[str], frame: Frame, style: Style) -> bool:
    """Whether a move may name a column or a row."""
    return len(arguments) == 1 and (len(frame.way.places) > 1 or bool(style.press))


def spot(move: str, frame: Frame, style: Style) -> list[Cell]:
    """The cells of a move: the one that it names, the two from which and to which it goes, or all
    of a column or a row. None where that is not plain."""
    name, *arguments = parts(move)
    if style.press == "none":
        return []
    if _is_line(arguments, frame, style):
        line = style.press or ("column" if name == "drop" else "none")
        place = ("column", "row", "none").index(line)
        cells = [(column, row) for row in frame.rows for column in frame.columns]
        return [cell for cell in cells if place < 2 and cell[place] == arguments[0]]
    return _ends(arguments, frame)


def spots(moves: Sequence[str], frame: Frame, style: Style) -> dict[str, dict[str, Any]]:
    """Where the moves of a role stand on a board, those that no other move shares its place with.
    `press` is what is pressed for it, cell by cell; `any` says that any one of them will do."""
    found: dict[str, dict[str, Any]] = {}
    for move in moves:
        cells = spot(move, frame, style)
        if cells:
            found[move] = {"press": cells, "any": _is_line(parts(move)[1:], frame, style)}
    places = [tuple(each["press"]) for each in found.values()]
    return {move: each for move, each in found.items() if places.count(tuple(each["press"])) == 1}
