"""Single calls: values, refusals, words that are none, rooms and threads."""
import ctypes
import re
import unittest
from concurrent.futures import ThreadPoolExecutor

import gdlsolve
from gdlsolve import Ended, Misuse, Refusal, Reply, State, Status, reply
from gdlsolve.solver import library
from gdlsolve.solver.calls import answer
from gdlsolve.solver.program import by_program
from tests import PROGRAM, TOP, needs_library, needs_program, ran

PENNIES = (TOP / "games/matching_pennies.kif").read_bytes()
MARKS = (TOP / "games/tic_tac_toe.kif").read_bytes()

# Words, rules, and the code, the name and the values of the refusal.
REFUSED: list[tuple[list[str], bytes | str, str, str, tuple[object, ...]]] = [
    (["show"], " " * 1_048_577, "K1", "TooLong", ()),
    (["show"], 'a "', "K2", "BadByte", (2,)),
    (["check"], "(role a", "K4", "Unclosed", (0,)),
    (["check"], "(role a)(<= (p ?x) (not (q ?x)))", "G3", "Unsafe", (2,)),
    (["check"], "(role a)(<= p q)(<= r p)(<= q p)", "G4", "Recursive", (2,)),
    (["check"], "", "G6", "NoRole", ()),
    (["check"], "".join(f"(role r{number})" for number in range(17)), "G7", "TooMany", (17, "roles")),
    (["solve", "--role", "c", "--depth", "1"], PENNIES, "S1", "NoSuchRole", ()),
    (["moves", "--after", "(h h) (h h)"], PENNIES, "H3", "Over", (2,)),
    (["moves", "--after", "(h x)"], PENNIES, "H2", "NotLegal", (1, "b")),
    (["moves", "--after", "(go)"], "(role (p 2))(input (p 2) stay)(legal (p 2) stay)", "H2", "NotLegal", (1, "(p 2)")),
]

# Words that ask for a text.
HELP = [["--help"], ["--version"], ["help", "solve"], ["net", "-h"]]
# Words that make no command.
MISUSED: list[list[str]] = [
    [],
    [""],
    ["list"],
    ["show", "it"],
    ["show it"],
    ["solve", "--role", "a"],
    ["solve", "--role", "a", "--depth", "65"],
    ["solve", "--role", "a", "--depth", "1", "--cut", "17"],
    ["solve", "--role", "a", "--depth", "1", "--at-bound", "one"],
    ["solve", "--role", "a", "--depth", "1", "--unfinished", "101"],
    ["solve", "--role", "a", "--depth", "1", "--window", "5:5"],
    ["solve", "--role", "a", "--depth", "1", "--unfinished", "0", "--at-bound", "zero"],
]


class Values(unittest.TestCase):
    def test_check(self) -> None:
        self.assertEqual(gdlsolve.check(PENNIES), gdlsolve.Description(16, 16, 7, ("a", "b")))

    def test_net(self) -> None:
        self.assertEqual(gdlsolve.net(PENNIES), gdlsolve.Network(base=2, inputs=4, instances=21, dropped=0, nodes=34))

    def test_moves(self) -> None:
        both = ("h", "t")
        self.assertEqual(gdlsolve.moves(PENNIES), gdlsolve.Position(State.OPEN, {}, {"a": both, "b": both}))
        for after in ("(h t)", [both], [["h", "t"]]):
            self.assertEqual(gdlsolve.moves(PENNIES, after), gdlsolve.Position(State.ENDED, {"a": 0, "b": 100}, {}))

    def test_lists_are_roles_and_moves(self) -> None:
        rules = "(role (p 2))(role q)(base on)(input (p 2) (m 10))(legal (p 2) (m 10))(input (p 2) (m 2))(legal (p 2) (m 2))"
        self.assertEqual(gdlsolve.moves(rules), gdlsolve.Position(State.STUCK, {}, {"(p 2)": ("(m 10)", "(m 2)")}))

    def test_solve(self) -> None:
        self.assertEqual(gdlsolve.solve(PENNIES, "a", 1), gdlsolve.Solution(0, "h", (("h", "t"),)))
        self.assertEqual(gdlsolve.solve(PENNIES, "b", 0, at_bound="goal"), gdlsolve.Solution(100, None, ()))
        self.assertEqual(gdlsolve.solve(PENNIES, "b", 0, unfinished=37), gdlsolve.Solution(37, None, ()))

    def test_solve_within(self) -> None:
        self.assertEqual(gdlsolve.solve_within(PENNIES, "a", 1, -1, 101), gdlsolve.solve(PENNIES, "a", 1))
        self.assertEqual(gdlsolve.solve_within(PENNIES, "a", 1, 0, 1), gdlsolve.Outside(0, None, None))
        self.assertEqual(gdlsolve.solve_within(PENNIES, "a", 1, -1, 0), gdlsolve.Outside(None, 0, "h"))
        self.assertEqual(gdlsolve.solve_within(PENNIES, "b", 1, 0, 100, after="(h t)"), gdlsolve.Outside(None, 100, None))

    def test_values(self) -> None:
        self.assertEqual(gdlsolve.values(PENNIES, "a", 1), gdlsolve.Values(0, {"h": 0, "t": 0}))
        self.assertEqual(gdlsolve.values(PENNIES, "b", 1, after="(h t)"), gdlsolve.Values(100, {}))

    def test_state(self) -> None:
        self.assertEqual(gdlsolve.state(PENNIES), gdlsolve.Standing(State.OPEN, ()))
        self.assertEqual(gdlsolve.state(PENNIES, "(h h)"), gdlsolve.Standing(State.ENDED, ("done", "same")))

    def test_a_move_may_be_named_none(self) -> None:
        rules = "(role a)(base on)(input a none)(legal a none)(<= (next on) (does a none))(<= terminal (true on))(<= (goal a 70) (true on))"
        self.assertEqual(gdlsolve.solve(rules, "a", 1), gdlsolve.Solution(70, "none", (("none",),)))
        self.assertEqual(gdlsolve.solve(rules, "a", 1, after="(none)"), gdlsolve.Solution(70, None, ()))

    def test_show(self) -> None:
        self.assertEqual(gdlsolve.show("(ROLE A) ; one é\nb(c())"), ("(role a)", "b", "(c ())"))


class Faults(unittest.TestCase):
    def test_refusals_have_code_name_and_values(self) -> None:
        for words, rules, code, name, values in REFUSED:
            with self.subTest(words=words, code=code):
                with self.assertRaises(Refusal) as caught:
                    answer(words, rules)
                self.assertEqual((caught.exception.code, caught.exception.name, caught.exception.values), (code, name, values))
                told = reply(words, rules)
                self.assertEqual((told.status, told.output.decode()), (Status.REFUSED, f"{caught.exception}\n"))

    def test_a_refusal_has_its_place(self) -> None:
        with self.assertRaises(Refusal) as caught:
            gdlsolve.check("(role a)\n(<= (p ?x) (not (q ?x)))")
        found = caught.exception
        self.assertEqual((found.source, found.line, found.column, found.text), ("<input>", 2, 8, "(<= (p ?x) (not (q ?x)))"))
        self.assertIn("no positive literal of the body binds ?x", found.explanation)

    def test_a_history_has_its_place(self) -> None:
        with self.assertRaises(Refusal) as caught:
            gdlsolve.moves(PENNIES, "(h t)\n(h t)")
        found = caught.exception
        self.assertEqual((found.source, found.line, found.column, found.text), ("--after", 2, 1, "(h t)"))

    def test_without_a_place_there_is_none(self) -> None:
        with self.assertRaises(Refusal) as caught:
            gdlsolve.check("(p)")
        found = caught.exception
        self.assertEqual((found.source, found.line, found.column, found.text), ("<input>", None, None, None))

    def test_misuses_are_told(self) -> None:
        for words in MISUSED:
            with self.subTest(words=words):
                self.assertEqual(reply(words, PENNIES).status, Status.MISUSE)
                with self.assertRaises(Misuse):
                    answer(words, PENNIES)

    def test_help_is_no_answer(self) -> None:
        for words in HELP:
            with self.subTest(words=words):
                told = reply(words, b"(")
                self.assertEqual(told.status, Status.MISUSE)
                self.assertIn(b"gdlsolve", told.output)

    def test_a_word_has_no_character_0(self) -> None:
        with self.assertRaises(Misuse):
            gdlsolve.moves(PENNIES, "(h t)\0--after\0")


# The name of an option.
OPTION = re.compile(rb"--[a-z][a-z-]*")


@needs_library
@needs_program
class Both(unittest.TestCase):
    """The library and the program say the same."""

    def library(self, words: list[str], rules: bytes) -> Reply:
        file = library.file()
        assert file is not None
        return library.by_library(file, words, rules)

    def test_refusals(self) -> None:
        for words, rules, *_ in REFUSED:
            text = rules if isinstance(rules, bytes) else rules.encode()
            with self.subTest(words=words):
                told = self.library(words, text)
                self.assertEqual((told.status, told.output), ran(words, text)[:2])
                assert told.explain is not None
                self.assertEqual(told.explain(), ran(words, text)[2].decode())

    def test_misuses(self) -> None:
        for words in MISUSED:
            with self.subTest(words=words):
                told = self.library(words, PENNIES)
                status, output, errors = ran(words, PENNIES)
                self.assertEqual((told.status, status, output), (Status.MISUSE, 1, b""))
                # The program adds what the option takes, and its usage has the option for a file of rules.
                self.assertEqual(errors.partition(b"\n")[0], told.output.partition(b"\n")[0])

    def test_help(self) -> None:
        for words in HELP:
            with self.subTest(words=words):
                told = self.library(words, b"(").output
                status, output, errors = ran(words, b"(")
                self.assertEqual((status, errors), (0, b""))
                # The library reads no file of rules, and says else the same.
                self.assertEqual(told.partition(b"\n")[0], output.partition(b"\n")[0])
                self.assertEqual({*OPTION.findall(told), b"--rules"}, {*OPTION.findall(output), b"--rules"})


@needs_program
class ByProgram(unittest.TestCase):
    """Replies of a program in place of the library."""

    def test_replies(self) -> None:
        for words, rules in [(["moves"], PENNIES), (["check"], b"(role a"), (["net"], b"(role a)")]:
            with self.subTest(words=words):
                found = by_program(PROGRAM, words, rules)
                self.assertEqual((found.status, found.output, found.errors), ran(words, rules))

    def test_a_refusal_is_explained(self) -> None:
        with self.assertRaises(Refusal) as caught:
            by_program(PROGRAM, ["check"], b"(role a)(<= p q)(<= r p)(<= q p)").lines()
        self.assertEqual(str(caught.exception), "refused G4 Recursive 2")
        self.assertIn("p > q > p", caught.exception.explanation)

    def test_words_that_are_no_command(self) -> None:
        for words in MISUSED:
            with self.subTest(words=words):
                found = by_program(PROGRAM, words, PENNIES)
                self.assertEqual(found, Reply(Status.MISUSE, ran(words, PENNIES)[2]))
        for words in HELP:
            with self.subTest(words=words):
                found = by_program(PROGRAM, words, b"(")
                self.assertEqual(found, Reply(Status.MISUSE, ran(words, b"(")[1]))

    def test_a_program_that_gives_no_reply(self) -> None:
        for command in (["false", "x"], ["sh", "-c", "exit 4"], ["sh", "-c", "kill -9 $$"]):
            if command[0] == "false":
                # The status 1 is that of words that are no command.
                self.assertEqual(by_program(command, [], b"").status, Status.MISUSE)
                continue
            with self.subTest(command=command), self.assertRaises(Ended):
                by_program(command, [], b"")
        with self.assertRaises(MemoryError):
            by_program(["sh", "-c", "exit 3"], [], b"")
        with self.assertRaises(FileNotFoundError):
            by_program(["/no/such/program"], [], b"")


class Rooms(unittest.TestCase):
    @needs_library
    def test_a_room_gets_what_it_has_place_for(self) -> None:
        file = library.file()
        assert file is not None
        call, words, whole = library._call(file, "gdlsolve_reply", 2), b"moves\0", reply(["moves"], MARKS).output
        for place in [*range(8), len(whole) - 1, len(whole), len(whole) + 1]:
            room, size = ctypes.create_string_buffer(b"~" * (len(whole) + 2)), ctypes.c_size_t()
            status = call(words, len(words), MARKS, len(MARKS), room, place, ctypes.byref(size))
            self.assertEqual((status, size.value), (0, len(whole)))
            front = whole[:place]
            self.assertEqual(room.raw[: len(whole) + 2], front + b"~" * (len(whole) + 2 - len(front)))

    def test_long_replies_come_whole(self) -> None:
        text = "(p q)" * 10_000
        self.assertEqual(reply(["show"], text).output, b"(p q)\n" * 10_000)

    def test_threads_may_call_at_once(self) -> None:
        with ThreadPoolExecutor(8) as threads:
            found = list(threads.map(lambda turn: gdlsolve.solve(MARKS, "xplayer", 9), range(16)))
        self.assertEqual({solution.value for solution in found}, {50})
        self.assertEqual(len(set(found)), 1)
