"""What is played where nobody tells which moves are legal."""

import unittest

from gdlsolve.player.guessing import likely, period

# A role moves, shoots, and waits for two turns, as one of amazons does.
MOVES = ("(move 1 4 1 1)", "(move 1 4 1 2)", "(move 4 1 3 1)")
SHOTS = ("(shoot 1 1)", "(shoot 2 2)", "(shoot 3 3)")
WAITS = ("noop",)
SEEN = dict(enumerate([MOVES, SHOTS, WAITS, WAITS, MOVES, SHOTS]))


class Guesses(unittest.TestCase):
    def test_turns_of_a_kind_come_again(self) -> None:
        self.assertEqual(period(SEEN), 4)
        self.assertEqual(period(dict(enumerate([MOVES, WAITS] * 4))), 2)
        self.assertEqual(period(dict(enumerate([MOVES] * 3))), 1)
        # One of them was not seen.
        self.assertEqual(period({turn: moves for turn, moves in SEEN.items() if turn != 1}), 4)

    def test_who_waits_in_turns_of_this_kind_does_so_again(self) -> None:
        self.assertEqual(likely(6, (), SEEN, {"noop"}), "noop")
        self.assertEqual(likely(7, (), SEEN, {"noop"}), "noop")

    def test_a_move_that_was_not_made_yet_comes_first(self) -> None:
        self.assertEqual(likely(8, (), SEEN, {MOVES[0], "noop"}), MOVES[1])
        self.assertEqual(likely(8, (), SEEN, set(MOVES)), MOVES[0])

    def test_what_is_legal_behind_most_other_replies_comes_first(self) -> None:
        beside = [(MOVES[0], MOVES[2]), (MOVES[1], MOVES[2]), (MOVES[2],)]
        self.assertEqual(likely(6, beside, SEEN, ()), MOVES[2])

    def test_where_little_was_seen(self) -> None:
        self.assertEqual(likely(1, (), {0: MOVES}, {MOVES[0]}), MOVES[1])
        self.assertEqual(likely(3, (), {0: MOVES}, {MOVES[0]}), MOVES[1])
        self.assertIsNone(likely(0, (), {}, ()))


if __name__ == "__main__":
    unittest.main()
