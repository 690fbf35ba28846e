"""The calls of the library for C as C makes them: worked texts and what is said of words that make no command, in rooms of any size."""

import ctypes
import unittest

from gdlsolve.solver import library
from tests import needs_library

# Two roles choose at once. The first wins where they choose the same, and the second where they do not.
MATCH = b"""(role a)(role b)(base done)(base same)
(input a h)(input a t)(input b h)(input b t)
(<= (legal ?r ?m) (input ?r ?m) (not (true done)))
(<= (next done) (does a ?m))
(<= (next same) (does a ?m) (does b ?m))
(<= terminal (true done))
(<= (goal a 100) (true same))
(<= (goal a 0) (not (true same)))
(<= (goal b 0) (true same))
(<= (goal b 100) (not (true same)))"""

# The words of a command, the rules, the bytes that are told, and the status.
Row = tuple[bytes, bytes, bytes, int]
TOLD: list[Row] = [
    (b"show\0", b"", b"", 0),
    (b"show\0", b"(ROLE A)(role a)", b"(role a)\n(role a)\n", 0),
    (b"show", b"a;b\nc(d())", b"a\nc\n(d ())\n", 0),
    (b"show\0", b"(role a))", b"refused K5 Unopened 8\n", 2),
    (b"check\0", b"(p ?x)", b"refused G3 Unsafe 1\n", 2),
    (b"check\0", b"", b"refused G6 NoRole\n", 2),
    (b"check\0", MATCH, b"items 16\nalternatives 16\nrelations 7\nroles a b\n", 0),
    (b"net\0", MATCH, b"base 2\ninputs 4\ninstances 21\ndropped 0\nnodes 34\n", 0),
    (b"moves\0", MATCH, b"state open\nlegal a h\nlegal a t\nlegal b h\nlegal b t\n", 0),
    (b"moves\0--after\0(h t)\0", MATCH, b"state ended\ngoal a 0\ngoal b 100\n", 0),
    (b"moves\0--after\0(h x)\0", MATCH, b"refused H2 NotLegal 1 b\n", 2),
    (b"moves\0--after\0\0", MATCH, b"state open\nlegal a h\nlegal a t\nlegal b h\nlegal b t\n", 0),
    (b"solve\0--role\0a\0--depth\x001\0", MATCH, b"value 0\nmove h\nline 1 h t\n", 0),
    (b"solve\0--role\0b\0--depth\x001\0--cut\x004x2\0", MATCH, b"value 0\nmove h\nline 1 h h\n", 0),
    (b"solve\0--role\0b\0--depth\x000\0--at-bound\0goal", MATCH, b"value 100\nmove none\n", 0),
    (b"solve\0--role\0c\0--depth\x001\0", MATCH, b"refused S1 NoSuchRole\n", 2),
]

HELP_OF_CHECK = b"""Name the first fault of the rules, or count what they have

Usage: gdlsolve check [OPTIONS]

Options:
      --whole    Read a game as it is found, with recursion or without base and input, as unroll writes it out
      --tighten  With --whole: state only the base propositions and inputs that play can come to
  -h, --help     Print help
"""
# Words that make no command, and what is said of them.
MISUSED: list[tuple[bytes, bytes]] = [
    (b"solve\0--role\0a\0--depth\x001\0--cut\x0017\0", b"bad cut\n"),
    (b"solve\0--role\0a\0--depth\x001\0--at-bound\0one\0", b"bad bound\n"),
    (b"sh\xffow\0", b"a word is no UTF-8\n"),
    (b"--version\0", b"gdlsolve 0.1.0\n"),
    (b"check\0--help\0", HELP_OF_CHECK),
    (b"check\0--whole\0", b"--whole is an option of the program alone\n"),
]

# Words that make no command, of which more is said than a small room holds.
FAULTY = [
    b"",
    b"\0",
    b"list\0",
    b"show\0it\0",
    b"show it\0",
    b"show\0\0",
    b"moves\0--after\0",
    b"solve\0--role\0a\0--depth\x0065\0",
]


@needs_library
class Told(unittest.TestCase):
    def told(self, name: str, texts: list[bytes], place: int) -> tuple[int, int, bytes]:
        """What a call of the library tells over these texts: its status, its size, and a room with so much place, which was full of `~`."""
        file = library.file()
        assert file is not None
        room, size = (ctypes.c_char * (place + 1)).from_buffer_copy(b"~" * (place + 1)), ctypes.c_size_t(7_777)
        given = [part for text in texts for part in (text, len(text))]
        status = library._call(file, name, len(texts))(*given, room, place, ctypes.byref(size))
        return status, size.value, room.raw

    def tells(self, row: Row, place: int) -> None:
        """A call of the row, with so much room, gives its status and the size of its bytes, and fills the room with them as far as it goes."""
        words, rules, wanted, status = row
        front = wanted[:place]
        self.assertEqual(self.told("gdlsolve_reply", [words, rules], place), (status, len(wanted), front + b"~" * (place + 1 - len(front))))

    def test_worked_texts_are_told_in_any_room(self) -> None:
        for row in TOLD:
            for place in range(80):
                with self.subTest(row=row, place=place):
                    self.tells(row, place)

    def test_words_that_make_no_command_are_told_of(self) -> None:
        for words, wanted in MISUSED:
            for place in range(160):
                with self.subTest(words=words, place=place):
                    self.tells((words, b"(", wanted, 1), place)

    def test_faulty_words_have_a_text(self) -> None:
        for words in FAULTY:
            with self.subTest(words=words):
                status, size, room = self.told("gdlsolve_reply", [words, MATCH], 16)
                self.assertEqual(status, 1)
                self.assertGreater(size, 16)
                self.assertFalse({0, ord("~")} & set(room[:16]))

    def test_a_text_may_pass_its_limit_by_any_number_of_bytes(self) -> None:
        for more in (1, 2, 1_000_000):
            with self.subTest(more=more):
                self.tells((b"show\0", b" " * (1_048_576 + more), b"refused K1 TooLong\n", 2), 80)

    def test_refusals_are_explained(self) -> None:
        role = b"--role: refused S1 NoSuchRole: the roles are a b\n"
        words, refused = b"solve\0--role\0c\0--depth\x001\0", b"refused S1 NoSuchRole\n"
        for given, place, wanted, status in ((words, 100, role, 0), (words, 10, role, 0), (b"solve\0", 100, b"", 1)):
            with self.subTest(given=given, place=place):
                found, size, room = self.told("gdlsolve_explain", [given, MATCH, refused], place)
                self.assertEqual((found, size, room[: min(len(wanted), place)]), (status, len(wanted), wanted[:place]))


if __name__ == "__main__":
    unittest.main()
