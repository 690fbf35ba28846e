"""Messages of the protocol: what they are, and what is none."""

import io
import json
import sys
import time
import tracemalloc
import unittest
from concurrent.futures import ThreadPoolExecutor
from unittest.mock import patch

from gdlsolve.console.notes import note, shown
from gdlsolve.player.messages import Message, clock, parts_of, tree, turn
from gdlsolve.solver.terms import Malformed, trees


class Reading(unittest.TestCase):
    def test_messages(self) -> None:
        for text, want in [
            ("(INFO)", Message("info", ())),
            ("info", Message("info", ())),
            (" ( Ping ) ", Message("info", ())),
            ("(PLAY M.1 NIL)", Message("play", ("m.1", "nil"))),
            ("(PLAY m ((Mark 1 1)\tnoop)) ; so", Message("play", ("m", "((mark 1 1) noop)"))),
            ("(REPLAY m (a b))", Message("play", ("m", "(a b)"))),
            ("(STOP m (a b))", Message("stop", ("m", "(a b)"))),
            ("(ABORT m)", Message("abort", ("m",))),
            ("(KILL m)", Message("abort", ("m",))),
            ("(PREVIEW ((role a)) 10)", Message("preview", ("((role a))", "10"))),
            (
                "(START m a ((role a) (base p)) 10 5)",
                Message("start", ("m", "a", "((role a) (base p))", "10", "5")),
            ),
        ]:
            with self.subTest(text=text):
                self.assertEqual(Message.of(text), want)

    def test_what_is_no_message(self) -> None:
        for text in [
            "",
            " ",
            ";(info)",
            "(",
            ")",
            "()",
            "(info",
            "info)",
            "(info) (info)",
            "((info))",
            "(hello)",
            "(info 1)",
            "(start m a)",
            "(play m)",
            "(play m nil 3)",
            "(abort)",
            "\0",
            "(" * 100_000,
            "(" * 100_000 + ")" * 100_000,
            f"(play {'m' * 257} nil)",
        ]:
            with self.subTest(text=text[:20]), self.assertRaises(Malformed):
                Message.of(text)

    def test_what_is_long_is_not_kept(self) -> None:
        rules = "(next (cell 1 1)) " * 3_000
        Message.of("(preview () 5)")
        tracemalloc.start()
        self.addCleanup(tracemalloc.stop)
        for number in range(4):
            parts_of(Message.of(f"(preview ((role r{number}) {rules}) 5)").parts[0])
        kept, most = tracemalloc.get_traced_memory()
        self.assertGreater(most, len(rules))
        self.assertLess(kept, len(rules) / 4)

    def test_trees(self) -> None:
        self.assertEqual(trees("A (b ( C)());x\r y\n d"), ["a", "(b (c) ())", "d"])
        self.assertEqual(tree("(Mark 1 1)\r\n"), "(mark 1 1)")
        for text in ("", "a b", "(a"):
            with self.assertRaises(Malformed):
                tree(text)
        with self.assertRaises(Malformed):
            parts_of("a")

    def test_clocks(self) -> None:
        self.assertEqual([clock("10"), clock("0.1"), clock("999999999")], [10, 0.1, 604_800])
        for text in ("", "x", "-1", "1e5", "nan", "inf", "1.", ".5", "1" * 10, "(1)", "٣"):
            with self.subTest(text=text), self.assertRaises(Malformed):
                clock(text)

    def test_turns(self) -> None:
        self.assertEqual([turn("nil"), turn("()"), turn("(a (b c))")], [None, None, ("a", "(b c)")])
        with self.assertRaises(Malformed):
            turn("noop")


class Slow(io.StringIO):
    """A stream to which others may write between two letters."""

    def write(self, text: str) -> int:
        for letter in text:
            time.sleep(0)
            super().write(letter)
        return len(text)


class Notes(unittest.TestCase):
    def test_lines_do_not_mix(self) -> None:
        with patch.object(sys, "stderr", Slow()) as told, ThreadPoolExecutor(8) as threads:
            list(threads.map(note, [{"number": number} for number in range(80)]))
        self.assertCountEqual(map(json.loads, told.getvalue().splitlines()), [{"number": number} for number in range(80)])

    def test_what_a_stranger_wrote_is_shown_without_codes(self) -> None:
        self.assertEqual(shown("a\x1b[2J\r\n\u202e\u00e9" + "x" * 300), "a\ufffd[2J\ufffd\ufffd\ufffd\u00e9" + "x" * 191)


if __name__ == "__main__":
    unittest.main()
