"""Boards: which facts make one, what is drawn where, and which cells a move names."""

import unittest

from gdlsolve.page import board
from gdlsolve.page.board import Style

CELLS = [f"(cell {x} {y} {mark})" for x in "123" for y in "123" for mark in "bxo"]
CONTROL = ["(control xplayer)", "(control oplayer)"]


def drawn(facts: list[str], base: list[str], style: Style | None = None) -> list[list[str]]:
    """The marks of the one board, row by row from the top, and at the end the other facts."""
    style = style or Style()
    grids, rest = board.boards(facts, board.frames(base, style), style)
    lines = grids[0].told()["cells"] if grids else []
    marks = [
        ["no cell" if cell is None else "".join(piece["mark"] or piece["colour"] for piece in cell) for cell in line]
        for line in lines
    ]
    return [*marks, rest]


class Boards(unittest.TestCase):
    def test_columns_go_right_and_rows_up(self) -> None:
        facts = ["(cell 1 1 x)", "(cell 3 1 o)", "(cell 2 3 b)", "(control oplayer)"]
        want = [["", "", ""], ["", "", ""], ["✕", "", "◯"], ["(control oplayer)"]]
        self.assertEqual(drawn(facts, CELLS + CONTROL), want)

    def test_a_file_may_say_otherwise(self) -> None:
        text = '{"rows": 1, "columns": 2, "down": true, "marks": {"x": "X"}, "empty": ["o"]}'
        style = Style.of(text)
        facts = ["(cell 1 3 x)", "(cell 2 2 o)", "(cell 3 1 b)"]
        want = [["", "", "X"], ["", "", ""], ["b", "", ""], []]
        self.assertEqual(drawn(facts, CELLS, style), want)

    def test_letters_are_coordinates_and_numbers_are_in_their_order(self) -> None:
        base = [f"(at {x} {y} white)" for x in "ab" for y in (9, 10)]
        frame = board.frames(base, Style())[0]
        self.assertEqual((frame.columns, frame.rows), (("a", "b"), ("10", "9")))
        self.assertEqual(drawn(["(at b 10 white)"], base), [["", "white"], ["", ""], []])

    def test_what_is_no_board(self) -> None:
        coins = [f"(coins {role} {number})" for role in ("east", "west") for number in range(4)]
        thin = [f"(step {number} {number + 1})" for number in range(9)]
        lists = ["(on (f 1) 2)", "(on (f 2) 1)"]
        none: list[str] = []
        for base in (coins, thin, lists, ["(p 1 1)"], ["p", "(q 1)"], none):
            with self.subTest(base=base):
                self.assertEqual(board.frames(base, Style()), [])
        self.assertEqual(drawn(["(coins east 3)"], coins), [["(coins east 3)"]])
        self.assertEqual(board.frames(CELLS, Style(draw=False)), [])

    def test_a_second_relation_over_the_same_cells_is_no_second_board(self) -> None:
        free = [f"(free {x} {y})" for x in "123" for y in "123"]
        facts = ["(free 1 1)", "(cell 2 2 x)"]
        self.assertEqual(drawn(facts, free + CELLS)[-1], ["(free 1 1)"])
        hidden = Style.of('{"hide": ["free"]}')
        self.assertEqual(drawn(facts, free + CELLS, hidden)[-1], [])

    def test_a_relation_without_contents_has_a_mark(self) -> None:
        dots = [f"(dot {x} {y})" for x in "12" for y in "12"]
        self.assertEqual(drawn(["(dot 2 1)"], dots), [["", ""], ["", "■"], []])
        style = Style.of('{"marks": {"": "D"}}')
        self.assertEqual(drawn(["(dot 2 1)"], dots, style), [["", ""], ["", "D"], []])
        pegs = [each.replace("dot", "peg") for each in dots]
        self.assertEqual(drawn(["(peg 2 1)"], pegs), [["", ""], ["", "●"], []])

    def test_faults_of_a_file_are_told(self) -> None:
        bad = ['"column": 1', '"down": 1', '"columns": "1"', '"columns": 2', '"rows": 0', '"of": 1']
        bad += ['"marks": ["x"]', '"marks": {"x": 1}', '"hide": "free"', '"press": "cell"']
        bad += ['"discs": {"x": "pink"}', '"discs": "red"', '"over": "wall"', '"cell": -1', '"cell": 1, "rows": 2']
        bad += ['"parts": "12"', '"parts": [["1", "2"], ["3"]]', '"parts": [[]]', '"parts": [[1]]']
        for text in ["", "[]", *(f"{{{each}}}" for each in bad)]:
            with self.subTest(text=text), self.assertRaises(ValueError):
                Style.of(text)


class Cells(unittest.TestCase):
    """How facts name cells."""

    def cells(self, base: list[str], style: Style = Style()) -> tuple[tuple[str, ...], tuple[str, ...]]:
        frame = board.frames(base, style)[0]
        return frame.columns, frame.rows

    def test_the_coordinates_may_stand_behind_what_is_there(self) -> None:
        base = [f"(at {who} {x} {y})" for who in ("one", "two") for x in "123" for y in "12"]
        self.assertEqual(self.cells(base), (("1", "2", "3"), ("2", "1")))
        self.assertEqual(drawn(["(at two 3 1)"], base), [["", "", ""], ["", "", "two"], []])

    def test_a_cell_may_have_one_name(self) -> None:
        base = [f"(on {x}{y} {what})" for x in "abc" for y in (1, 2) for what in ("wolf", "sheep")]
        self.assertEqual(self.cells(base), (("a", "b", "c"), ("2", "1")))
        self.assertEqual(drawn(["(on c2 wolf)"], base), [["", "", "wolf"], ["", "", ""], []])
        self.assertEqual(self.cells(base, Style.of('{"cell": 1, "down": true}')), (("a", "b", "c"), ("1", "2")))
        self.assertEqual(board.frames(base, Style.of('{"cell": 2}')), [])
        discs = [f"(on d{size} p{place})" for size in "1234" for place in "123"]
        self.assertEqual(board.frames(discs, Style()), [])

    def test_a_board_may_be_cut_into_four(self) -> None:
        base = [f"(cell {q} {x} {y} {what})" for q in "1234" for x in "12" for y in "12" for what in ("red", "black")]
        facts = ["(cell 1 1 1 red)", "(cell 2 1 1 black)", "(cell 4 2 2 red)"]
        self.assertEqual(self.cells(base), (("1.1", "1.2", "2.1", "2.2"), ("2.2", "2.1", "1.2", "1.1")))
        want = [["", "", "", "red"], ["black", "", "", ""], ["", "", "", ""], ["red", "", "", ""], []]
        self.assertEqual(drawn(facts, base), want)
        style = Style.of('{"parts": [["1", "2"], ["3", "4"]]}')
        want = [["", "", "", ""], ["red", "", "black", ""], ["", "", "", "red"], ["", "", "", ""], []]
        self.assertEqual(drawn(facts, base, style), want)
        told = board.boards([], board.frames(base, style), style)[0][0].told()
        self.assertEqual(told["inner"], (2, 2))
        turned = Style.of('{"parts": [["1", "2"], ["3", "4"]], "columns": 3, "rows": 2, "down": true}')
        want = [["red", "", "black", ""], ["", "", "", ""], ["", "", "", ""], ["", "", "", "red"], []]
        self.assertEqual(drawn(facts, base, turned), want)

    def test_a_board_may_be_cut_by_two_coordinates(self) -> None:
        base = [f"(cell {a} {b} {x} {y} o)" for a in "123" for b in "123" for x in "123" for y in "123"]
        columns, rows = self.cells(base)
        self.assertEqual((len(columns), rows[0], columns[3]), (9, "3.3", "2.1"))
        grid = board.boards(["(cell 3 1 2 1 o)"], board.frames(base, Style()), Style())[0][0]
        self.assertEqual(list(grid.cells), [("3.2", "1.1")])

    def test_every_other_cell_is_a_board(self) -> None:
        base = [f"(cell {x} {y} man)" for x in range(1, 5) for y in range(1, 5) if (x + y) % 2 == 0]
        frame = board.frames(base, Style())[0]
        told = board.boards([], [frame], Style())[0][0].told()
        self.assertEqual((told["checkered"], told["phase"]), (True, 1))
        self.assertEqual(board.frames([f"(cell {n} {n + 2} man)" for n in range(1, 5)], Style()), [])

    def test_where_nothing_can_ever_stand_is_no_cell(self) -> None:
        base = [f"(peg {x} {y})" for x in "abc" for y in "123" if f"{x}{y}" not in ("a1", "c3")]
        want = [["", "", "no cell"], ["", "●", ""], ["no cell", "", ""], []]
        self.assertEqual(drawn(["(peg b 2)"], base), want)

    def test_counts_and_blocks_are_no_board(self) -> None:
        heaps = [f"(held {name} {count})" for name in "abc" for count in range(4)]
        blocks = [f"(on {one} {other})" for one in "abc" for other in "abc" if one != other]
        pits = [f"(seeds {pit} {count})" for pit in range(4) for count in range(4)]
        for base in heaps, blocks, pits:
            with self.subTest(base=base[0]):
                self.assertEqual(board.frames(base, Style()), [])
        named = Style.of('{"relation": "seeds"}')
        self.assertEqual(len(board.frames(pits, named)), 1)

    def test_walls_are_drawn_on_the_board(self) -> None:
        base = [f"(at {who} {x} {y})" for who in ("red", "white") for x in "123" for y in "123"]
        walls, nets = ([f"({what} {x} {y})" for x in "123" for y in "123"] for what in ("wall", "net"))
        facts = ["(at red 1 1)", "(wall 1 2)", "(net 2 2)"]
        want = [["", "", ""], ["■", "", ""], ["red", "", ""], ["(net 2 2)"]]
        self.assertEqual(drawn(facts, base + walls + nets), want)
        style = Style.of('{"over": ["net"], "hide": ["wall"]}')
        want = [["", "", ""], ["", "■", ""], ["red", "", ""], []]
        self.assertEqual(drawn(facts, base + walls + nets, style), want)


class Pieces(unittest.TestCase):
    """What is drawn for which name."""

    def pieces(self, *names: str, style: Style = Style(), relation: str = "cell") -> list[tuple[str, str, str]]:
        base = [f"({relation} {x} {y} {name})" for x in "12" for y in "12" for name in names]
        frame = board.frames(base, style)[0]
        found = [board.boards([f"({relation} 1 1 {name})"], [frame], style)[0][0].cells[("1", "1")][0] for name in names]
        return [(piece.name, piece.mark.replace("\ufe0e", ""), piece.colour) for piece in found]

    def test_chess(self) -> None:
        words, turned = ("whiteking", "black_knight", "wpawn"), ("king_white", "knightb", "pawn-w")
        for names in ("wk", "bn", "wp"), words, turned, ("white king", "black knight", "white pawn"):
            want = [("white king", "♔", "tile"), ("black knight", "♞", "tile"), ("white pawn", "♙", "tile")]
            with self.subTest(names=names):
                self.assertEqual(self.pieces(*names), want)
        self.assertEqual(self.pieces("knight"), [("knight", "♞", "tile")])
        self.assertEqual(self.pieces("white", "black", relation="pawn"), [("white pawn", "♙", "tile"), ("black pawn", "♟", "tile")])
        self.assertEqual(self.pieces("wk", "up"), [("wk", "wk", ""), ("up", "up", "")])

    def test_a_board_of_chess_is_checkered(self) -> None:
        for names, want in (("wk", "bk", "bq"), True), (("white", "black"), False), (("knight", "used"), False):
            base = [f"(cell {x} {y} {name})" for x in "12" for y in "12" for name in names]
            with self.subTest(names=names):
                self.assertIs(board.boards([], board.frames(base, Style()), Style())[0][0].is_checkered, want)

    def test_draughts(self) -> None:
        for names in ("red man", "white king"), ("redpiece", "king_white"):
            want = [("red " + ("man" if "man" in names[0] else "piece"), "", "red"), ("white king", "♛", "white")]
            with self.subTest(names=names):
                self.assertEqual(self.pieces(*names), want)
        want = [("white man", "", "white"), ("white king", "♛", "white"), ("black man", "", "black"), ("black king", "♛", "black")]
        self.assertEqual(self.pieces("wp", "wk", "bp", "bk"), want)

    def test_marks_and_discs_of_a_file(self) -> None:
        style = Style.of('{"discs": {"w": "white"}, "marks": {"red": "R"}, "empty": []}')
        self.assertEqual(self.pieces("w", "red", "b", style=style), [("w", "", "white"), ("red", "R", ""), ("b", "b", "")])
        self.assertEqual(self.pieces("blue", "crossed", "arrow"), [("blue", "", "blue"), ("crossed", "✕", ""), ("arrow", "■", "")])


class Moves(unittest.TestCase):
    def spots(self, moves: list[str], style: Style | None = None) -> dict[str, list[board.Cell]]:
        style = style or Style()
        found = board.spots(moves, board.frames(CELLS, style)[0], style)
        return {move: spot["press"] for move, spot in found.items()}

    def test_a_move_names_a_cell(self) -> None:
        self.assertEqual(self.spots(["(mark 1 2)", "noop"]), {"(mark 1 2)": [("1", "2")]})
        self.assertEqual(self.spots(["(place x 3 1)"]), {"(place x 3 1)": [("3", "1")]})
        turned = Style(rows=1, columns=2)
        self.assertEqual(self.spots(["(mark 1 2)"], turned), {"(mark 1 2)": [("2", "1")]})

    def test_a_move_goes_from_a_cell_to_another(self) -> None:
        want = {"(move 1 1 2 3)": [("1", "1"), ("2", "3")]}
        self.assertEqual(self.spots(["(move 1 1 2 3)"]), want)

    def test_a_move_names_a_column_or_a_row(self) -> None:
        column = [("2", "3"), ("2", "2"), ("2", "1")]
        self.assertEqual(self.spots(["(drop 2)"]), {"(drop 2)": column})
        self.assertEqual(self.spots(["(take 2)"]), {})
        row = [("1", "2"), ("2", "2"), ("3", "2")]
        self.assertEqual(self.spots(["(take 2)"], Style(press="row")), {"(take 2)": row})

    def test_a_move_may_name_what_goes_beside_its_cells(self) -> None:
        base = [f"(cell {x} {y} {what})" for x in "ef" for y in "1234" for what in ("wp", "bk", "bn")]
        frame = board.frames(base, Style())[0]
        self.assertEqual(board.spot("(move wp e 2 e 4)", frame, Style()), [("e", "2"), ("e", "4")])
        self.assertEqual(board.spot("(drop wp e 2)", frame, Style()), [("e", "2")])

    def test_a_move_that_looks_like_a_fact_has_its_cell(self) -> None:
        base = [f"(cell {x} {y} {n})" for x in "12" for y in "12" for n in "12"]
        frame = board.frames(base, Style())[0]
        self.assertEqual(board.spot("(mark 1 2 2)", frame, Style()), [("1", "2")])
        self.assertEqual(board.spots(["(mark 1 2 2)", "(mark 1 2 1)"], frame, Style()), {})

    def test_cells_of_one_name_and_of_parts(self) -> None:
        named = board.frames([f"(on {x}{y} rook)" for x in "abc" for y in "123"], Style())[0]
        for move, want in {
            "(mark b2)": [("b", "2")], "(move a1 c3)": [("a", "1"), ("c", "3")], "(place rook b1)": [("b", "1")],
            "(move rook a1 b1)": [("a", "1"), ("b", "1")], "(mark d4)": [], "(move a1 b1 c1)": [],
        }.items():
            with self.subTest(move=move):
                self.assertEqual(board.spot(move, named, Style()), want)
        self.assertFalse(board.spots(["(mark b2)"], named, Style())["(mark b2)"]["any"])
        cut = board.frames([f"(cell {q} {x} {y} red)" for q in "1234" for x in "12" for y in "12"], Style())[0]
        self.assertEqual(board.spot("(place 3 2 1)", cut, Style()), [("2.2", "1.1")])
        self.assertEqual(board.spot("(turn 3 clockwise)", cut, Style()), [])

    def test_what_is_not_plain_has_no_cell(self) -> None:
        twice = ["(flag 1 1)", "(mark 1 1)"]
        for moves in (["(go 1 2 3)"], ["(mark 1 9)"], ["(move 1 1 9 9)"], twice):
            with self.subTest(moves=moves):
                self.assertEqual(self.spots(moves), {})
        self.assertEqual(self.spots(["(mark 1 2)"], Style(press="none")), {})


if __name__ == "__main__":
    unittest.main()
