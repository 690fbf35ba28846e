"""Questions that a key, a clock or another thread ends, and processes that end with the one who asks."""

import os
import signal
import subprocess
import sys
import tempfile
import threading
import time
import unittest
from collections.abc import Callable, Iterator
from contextlib import contextmanager
from pathlib import Path
from unittest.mock import patch

import gdlsolve
from gdlsolve import Cancelled, Ended, Session, TimedOut
from gdlsolve.solver import library, program, timed
from tests import ENDLESS_RULES, NO_LIBRARY, PROGRAM, TOP, known, needs_library
from tests.serving import LONG, all_started_by, processor_time, until, wait_for_end

# What a key ends is over within so many seconds, also on a machine that is busy.
SOON = 10.0
MARKS = (TOP / "games/tic_tac_toe.kif").read_text()
# Asks a question that is not answered within hours, tells when it begins, and how play stands where a key ends the question.
ASKS = """
import os, signal, sys, time
from gdlsolve import Session, moves, solve
signal.signal(signal.SIGINT, signal.default_int_handler)
rules = sys.stdin.read()
print(moves(rules).state.value, flush=True)
try:
    {asks}
except KeyboardInterrupt:
    print("key", moves(rules).state.value)
"""
WAYS = {"call": "solve(rules, 'red', 42)", "session": "Session(rules).solve('red', 42)"}
# The same in a session, behind a process that was forked off and lives on, with all that was open.
FORKED = "session = Session(rules); session.moves(); os.fork() or time.sleep(600); session.solve('red', 42)"
# Asks by a call, and in a session.
TELLS = """
import sys
from gdlsolve import Session, solve
rules = sys.stdin.read()
print(solve(rules, "xplayer", 1).value, Session(rules).moves().state.value)
"""
# Modules that a child process reads at its start.
PLANTED = ("ctypes", "gdlsolve", "select", "socket")


def words_of(process: int) -> bytes:
    """The words that have started a process."""
    try:
        return Path(f"/proc/{process}/cmdline").read_bytes()
    except (FileNotFoundError, ProcessLookupError):
        return b""


def at_work(processes: set[int]) -> int:
    """What processes have used of processors, in ticks."""
    return sum(map(processor_time, processes))


def settings() -> dict[str, dict[str, str]]:
    """What is in the environment where the library answers, and where the program does, as far as they are there."""
    found = {} if NO_LIBRARY else {"library": known(**{program.VARIABLE: ""})}
    return {**found, **({"program": known(**{program.VARIABLE: " ".join(PROGRAM)})} if PROGRAM else {})}


class Ends(unittest.TestCase):
    """A Python that asks what takes hours is ended."""

    @contextmanager
    def asking(self, asks: str, environment: dict[str, str]) -> Iterator[tuple[subprocess.Popen[str], set[int]]]:
        """A Python that asks, once what it has started is at work, and all that."""
        pipe = subprocess.PIPE
        words = [sys.executable, "-P", "-c", ASKS.format(asks=asks)]
        with subprocess.Popen(words, stdin=pipe, stdout=pipe, stderr=pipe, env=environment, text=True) as asker:
            try:
                assert asker.stdin is not None and asker.stdout is not None
                asker.stdin.write(ENDLESS_RULES)
                asker.stdin.close()
                asker.stdin = None
                self.assertEqual(asker.stdout.readline(), "open\n")
                self.assertTrue(until(lambda: at_work(all_started_by(asker.pid)) > 100))
                yield asker, all_started_by(asker.pid)
            finally:
                asker.kill()

    def test_a_key_ends_a_question_at_once_and_the_next_is_answered(self) -> None:
        for name, environment in settings().items():
            for way, asks in WAYS.items():
                with self.subTest(answers=name, way=way), self.asking(asks, environment) as (asker, left):
                    begun = time.monotonic()
                    asker.send_signal(signal.SIGINT)
                    self.assertEqual(asker.communicate(timeout=SOON), ("key open\n", ""))
                    self.assertLess(time.monotonic() - begun, SOON)
                    self.assertEqual(asker.returncode, 0)
                    self.assertTrue(left)
                    self.assertTrue(all(map(wait_for_end, left)))

    def test_nothing_is_left_of_one_that_is_killed(self) -> None:
        for name, environment in settings().items():
            for way, asks in WAYS.items():
                with self.subTest(answers=name, way=way), self.asking(asks, environment) as (asker, left):
                    asker.kill()
                    self.assertTrue(left)
                    self.assertTrue(all(wait_for_end(process, SOON) for process in left))

    def test_nothing_is_left_at_work_of_one_that_is_killed_behind_a_fork(self) -> None:
        for name, environment in settings().items():
            with self.subTest(answers=name), self.asking(FORKED, environment) as (asker, left):
                self.assertTrue(until(lambda: words_of(asker.pid) in map(words_of, all_started_by(asker.pid))))
                [forked] = [each for each in all_started_by(asker.pid) if words_of(each) == words_of(asker.pid)]
                begun = at_work(left)
                try:
                    self.assertTrue(until(lambda: at_work(left) > begun + 50))
                    asker.kill()
                    self.assertTrue(all(wait_for_end(process, SOON) for process in left - {forked}))
                finally:
                    os.kill(forked, signal.SIGKILL)


class Limits(unittest.TestCase):
    def test_a_call_ends_in_time_and_leaves_nothing_at_work(self) -> None:
        want, before = gdlsolve.moves(ENDLESS_RULES), all_started_by(os.getpid())
        begun = time.monotonic()
        with self.assertRaises(TimedOut):
            gdlsolve.solve(ENDLESS_RULES, "red", 42, timeout=1)
        self.assertLess(time.monotonic() - begun, 1 + SOON)
        self.assertTrue(all(map(wait_for_end, all_started_by(os.getpid()) - before)))
        self.assertEqual(gdlsolve.moves(ENDLESS_RULES, timeout=LONG), want)
        with self.assertRaises(TimeoutError):
            gdlsolve.moves(ENDLESS_RULES, timeout=0)

    def test_a_program_that_is_run_for_one_question_ends_in_time(self) -> None:
        with tempfile.TemporaryDirectory() as room:
            sleeps, number = Path(room, "sleeps"), Path(room, "number")
            sleeps.write_text(f"#!/bin/sh\necho $$ > {number}\nexec sleep 600\n")
            sleeps.chmod(0o755)
            with patch.dict(os.environ, {program.VARIABLE: str(sleeps)}):
                ways: list[Callable[[], object]] = [
                    lambda: gdlsolve.check(MARKS, timeout=1),
                    lambda: gdlsolve.check(MARKS, whole=True, timeout=1),
                    lambda: Session(MARKS, whole=True, timeout=1),
                ]
                for ask in ways:
                    with self.assertRaises(TimedOut):
                        ask()
                    self.assertTrue(wait_for_end(int(number.read_text())))

    def test_a_session_goes_on_behind_the_time(self) -> None:
        with Session(ENDLESS_RULES, timeout=LONG) as session:
            want = session.moves()
            for _ in range(2):
                begun = time.monotonic()
                with self.assertRaises(TimedOut):
                    session.solve("red", 42, timeout=1)
                self.assertLess(time.monotonic() - begun, 1 + SOON)
                self.assertEqual(session.moves(), want)
            session.stand(MARKS)
            self.assertEqual(session.solve("xplayer", 3), gdlsolve.solve(MARKS, "xplayer", 3))

    def test_a_session_has_a_time_for_all_its_questions(self) -> None:
        with Session(ENDLESS_RULES, timeout=1) as session, self.assertRaises(TimedOut):
            session.values("red", 42)

    def test_a_question_that_waits_for_another_ends_in_time(self) -> None:
        with Session(ENDLESS_RULES) as session, Searching(session):
            with self.assertRaises(TimedOut):
                session.moves(timeout=0.2)

    def test_what_is_cancelled_is_told_so_and_the_session_goes_on(self) -> None:
        with Session(ENDLESS_RULES) as session:
            want = session.moves()
            session.cancel()
            self.assertEqual(session.moves(), want)
            with Searching(session) as one, Searching(session) as other:
                begun = time.monotonic()
                session.cancel()
                one.thread.join(SOON)
                other.thread.join(SOON)
                self.assertLess(time.monotonic() - begun, SOON)
                self.assertEqual((one.told, other.told), (Cancelled, Cancelled))
            self.assertEqual(session.moves(), want)

    def test_a_session_that_is_closed_ends_what_is_asked(self) -> None:
        session = Session(ENDLESS_RULES)
        with Searching(session) as search:
            session.close()
            search.thread.join(SOON)
            self.assertIs(search.told, ProcessLookupError)

    def test_a_child_that_always_ends_is_told_and_one_that_was_killed_is_replaced(self) -> None:
        with Session(MARKS) as session:
            want = session.moves()
            for child in all_started_by(os.getpid()):
                os.kill(child, signal.SIGKILL)
            self.assertEqual(session.moves(), want)
        with tempfile.TemporaryDirectory() as room:
            ends = Path(room, "ends")
            ends.write_text("#!/bin/sh\nkill -9 $$\n")
            ends.chmod(0o755)
            with Session(MARKS, program=ends) as session, self.assertRaises(Ended):
                session.moves()
        with self.assertRaises(FileNotFoundError):
            Session(MARKS, program="/no/such/program")

    def test_a_process_that_is_forked_off_has_children_of_its_own(self) -> None:
        with Session(MARKS) as session:
            want = session.moves()
            forked = os.fork()
            if not forked:
                os._exit(0 if session.moves() == want and gdlsolve.solve(MARKS, "xplayer", 2).value == 0 else 1)
            self.assertEqual(os.waitpid(forked, 0)[1], 0)
            self.assertEqual(session.moves(), want)


class Searching:
    """A thread that asks a session what takes hours, once that is under way or waits."""

    def __init__(self, session: Session):
        self.session = session
        self.told: type[BaseException] | None = None
        self.thread = threading.Thread(target=self.ask, daemon=True)

    def ask(self) -> None:
        """Asks, and keeps what is told in place of an answer."""
        try:
            self.session.solve("red", 42)
        except Exception as fault:
            self.told = type(fault)

    def __enter__(self) -> "Searching":
        self.thread.start()
        until(self.session._lock.locked)
        return self

    def __exit__(self, *fault: object) -> None:
        self.session.cancel()
        self.thread.join(LONG)


class Children(unittest.TestCase):
    def test_those_of_the_same_rules_are_asked_again(self) -> None:
        if NO_LIBRARY or program.named():
            self.skipTest("no library answers here")
        for rules in (MARKS, MARKS + " ", MARKS):
            gdlsolve.solve(rules, "xplayer", 1)
        standing = timed.of_library(self.file())
        self.assertEqual([child.rules for child in standing.idle].count(MARKS.encode()), 1)

    @needs_library
    def test_what_explains_a_refusal_is_told(self) -> None:
        with self.assertRaises(gdlsolve.Refusal) as caught:
            gdlsolve.solve("(role a)\n(<= (p ?x) (not (q ?x)))", "a", 1)
        self.assertEqual((caught.exception.line, caught.exception.column), (2, 8))

    def file(self) -> Path:
        """The file of the library."""
        found = library.file()
        assert found is not None
        return found

    def test_no_module_and_no_program_of_the_current_folder_is_taken(self) -> None:
        for name, environment in settings().items():
            with self.subTest(answers=name), tempfile.TemporaryDirectory() as room:
                for module in PLANTED:
                    Path(room, f"{module}.py").write_text(f"open({str(Path(room, 'read'))!r}, 'w').close()\n")
                for command in ("setpriv", "true", "gdlsolve"):
                    Path(room, command).write_text(f"#!/bin/sh\n: > {room}/read\n")
                    Path(room, command).chmod(0o755)
                environment = {**environment, "PATH": f":.:{os.environ['PATH']}"}
                words = [sys.executable, "-P", "-c", TELLS]
                done = subprocess.run(words, input=MARKS, capture_output=True, text=True, cwd=room, env=environment, check=False)
                self.assertEqual((done.returncode, done.stdout), (0, "0 open\n"), done.stderr)
                self.assertFalse(Path(room, "read").exists())


if __name__ == "__main__":
    unittest.main()
