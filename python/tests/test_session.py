"""Sessions over the library and over the program: the same answers as single calls, and lines that a process cannot read."""
import gc
import os
import unittest
from collections.abc import Callable
from concurrent.futures import ThreadPoolExecutor
from pathlib import Path
from unittest import mock

import gdlsolve
from gdlsolve import Misuse, Refusal, Session
from gdlsolve.solver import library, program
from gdlsolve.solver.handles import ByHandle, Handle, has_handles
from gdlsolve.solver.serve import AT_ONCE, Process, line_of
from gdlsolve.solver.session import ByLibrary, ByProgram
from tests import GAMES, NO_LIBRARY, PROGRAM, TOP, needs_program, ran

PENNIES = (TOP / "games/matching_pennies.kif").read_bytes()
MARKS = (TOP / "games/tic_tac_toe.kif").read_bytes()
TURNS = [("(mark 1 1)", "noop"), ("noop", "(mark 1 2)")]

LINES: list[list[str]] = [
    ["moves"],
    ["solve", "--role", "a", "--depth", "3"],
    ["moves", "--after", "(h t)"],
    ["moves", "--after", "((mark 1 1) noop)  (noop (mark 2 1))"],
    ["solve", "--role", "(p 2)", "--after", "((go 1))", "--depth", "3"],
]

NO_LINES = [
    ["moves", "--after", ""],
    ["moves", "--after", "(a\nb)"],
    ["moves", "--after", "(a) ; (b"],
    ["moves", "--after", "(a) b"],
    ["moves", "--after", "(a"],
    ["moves", "--after", "(a))"],
    ["moves", "--after=(a b)"],
    ["a b"],
    ["(a)", "(b)"],
    [" a"],
]


class Lines(unittest.TestCase):
    def test_words(self) -> None:
        for words in LINES:
            self.assertEqual(line_of(words), f"{' '.join(words)}\n".encode())

    def test_words_that_no_line_has(self) -> None:
        for words in NO_LINES:
            with self.subTest(words=words), self.assertRaises(Misuse):
                line_of(words)


def file() -> Path:
    """The file of the library."""
    found = library.file()
    assert found is not None
    return found


def why_no_handles() -> str:
    """Why the library has no handles; empty where it has."""
    return NO_LIBRARY or ("" if has_handles(file()) else f"{file()} has no handles")


needs_handles = unittest.skipIf(why_no_handles(), f"handles are not tested: {why_no_handles()}")


def over_library(rules: bytes | str) -> Session:
    """A session over a handle, whatever program answers in place of the library."""
    with mock.patch.dict(os.environ):
        os.environ.pop(program.VARIABLE, None)
        return Session(rules)


def over_program(rules: bytes | str) -> Session:
    """A session of the program that the tests are over."""
    return Session(rules, program=PROGRAM[0])


class Sessions:
    """What holds over both."""

    class Each(unittest.TestCase):
        begun: Callable[[bytes | str], Session]

        def test_answers_are_those_of_single_calls(self) -> None:
            with self.begun(MARKS) as session:
                self.assertEqual(session.check(), gdlsolve.check(MARKS))
                self.assertEqual(session.net(), gdlsolve.net(MARKS))
                self.assertEqual(session.show(), gdlsolve.show(MARKS))
                for after in ("", TURNS, "((mark 1 1) noop) ; the first turn\n (noop (mark 1 2))"):
                    self.assertEqual(session.moves(after), gdlsolve.moves(MARKS, after))
                    self.assertEqual(session.state(after), gdlsolve.state(MARKS, after))
                    self.assertEqual(session.solve("xplayer", 3, after=after), gdlsolve.solve(MARKS, "xplayer", 3, after=after))
                    self.assertEqual(session.values("xplayer", 2, after=after), gdlsolve.values(MARKS, "xplayer", 2, after=after))
                    within = session.solve_within("xplayer", 2, 49, 50, unfinished=50, after=after)
                    self.assertEqual(within, gdlsolve.solve_within(MARKS, "xplayer", 2, 49, 50, unfinished=50, after=after))

        def test_rules_of_each_game_stand_one_after_the_other(self) -> None:
            with self.begun("") as session:
                for game in GAMES:
                    rules = game.read_bytes()
                    session.stand(rules)
                    for _ in range(2):
                        self.assertEqual(session.moves(), gdlsolve.moves(rules), game.stem)

        def test_refusals_and_misuse(self) -> None:
            with self.begun("") as session:
                for _ in range(2):
                    with self.assertRaises(Refusal) as told:
                        session.moves()
                    self.assertEqual((told.exception.code, told.exception.name), ("G6", "NoRole"))
                    self.assertIn("refused G6 NoRole", told.exception.explanation)
                session.stand(PENNIES)
                with self.assertRaises(Misuse):
                    session.solve("a", 65)
                self.assertEqual(session.moves("(h t)").goals, {"a": 0, "b": 100})

        @needs_program
        def test_what_a_session_takes_is_read_as_it_was_meant(self) -> None:
            with self.begun(PENNIES) as session:
                for words in LINES:
                    alone = ran(words, PENNIES)
                    told = session.reply(words)
                    self.assertEqual((told.status, told.output if told.status != 1 else b""), alone[:2], words)

        def test_several_threads_may_ask(self) -> None:
            with self.begun(MARKS) as session, ThreadPoolExecutor(4) as threads:
                found = list(threads.map(lambda turn: session.solve("xplayer", 4), range(16)))
            self.assertEqual(found, [gdlsolve.solve(MARKS, "xplayer", 4)] * 16)

        def test_an_ended_session_says_so(self) -> None:
            session = self.begun(PENNIES)
            session.close()
            session.close()
            with self.assertRaises(ProcessLookupError):
                session.moves()
            with self.assertRaises(ProcessLookupError):
                session.stand(PENNIES)


@needs_program
class OverProgram(Sessions.Each):
    begun = staticmethod(over_program)

    def test_words_that_no_line_has_are_asked_of_a_process_of_their_own(self) -> None:
        with self.begun(PENNIES) as session:
            for words in NO_LINES:
                found, want = session.reply(words), program.by_program(PROGRAM, words, PENNIES)
                self.assertEqual((found.status, found.output), (want.status, want.output), words)

    def test_many_requests_at_once(self) -> None:
        process = Process(PROGRAM)
        self.addCleanup(process.close)
        process.stand(PENNIES)
        long = f"moves --after (h {'t' * 999})\n".encode()
        lines = [long, b"moves\n"] * (2 * AT_ONCE // len(long))
        told = list(process.replies(lines))
        self.assertEqual([each.status for each in told], [2, 0] * (len(lines) // 2))

    def test_the_program_that_is_named_answers(self) -> None:
        with mock.patch.dict(os.environ, {program.VARIABLE: PROGRAM[0]}), Session(PENNIES) as session:
            self.assertIsInstance(session._asked, ByProgram)


@needs_handles
class OverLibrary(Sessions.Each):
    begun = staticmethod(over_library)

    def test_the_library_answers(self) -> None:
        with self.begun(PENNIES) as session:
            self.assertIsInstance(session._asked, ByLibrary)

    def test_words_that_no_line_has(self) -> None:
        with self.begun(PENNIES) as session:
            for words in NO_LINES:
                found, want = session.reply(words), library.by_library(file(), words, PENNIES)
                self.assertEqual((found, found.told()), (want, want.told()), words)

    def test_a_handle_asks_over_its_own_rules(self) -> None:
        with self.begun(PENNIES) as pennies, self.begun(MARKS) as marks:
            for _ in range(2):
                self.assertEqual(pennies.moves(), gdlsolve.moves(PENNIES))
                self.assertEqual(marks.moves(), gdlsolve.moves(MARKS))

    def test_a_handle_that_is_let_go_is_closed(self) -> None:
        handle = Handle(file(), MARKS)
        closing = handle._closing
        self.assertEqual(handle.ask(b"check\0")[0], 0)
        del handle
        gc.collect()
        self.assertFalse(closing.alive)

    def test_handles_leave_no_memory(self) -> None:
        def size() -> int:
            return int(Path("/proc/self/status").read_text().split("VmRSS:")[1].split()[0])

        def use(times: int) -> int:
            for _ in range(times):
                kept = ByHandle(file())
                kept.stand(MARKS)
                kept.reply(["moves"])
                kept.close()
            return size()

        before = use(100)
        self.assertLess(use(400) - before, 4_000)


if __name__ == "__main__":
    unittest.main()
