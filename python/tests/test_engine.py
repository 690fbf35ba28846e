"""Questions to child processes: the same answers, limits of time, and processes that end."""

import os
import signal
import subprocess
import sys
import tempfile
import threading
import time
import unittest
from pathlib import Path

import gdlsolve
from gdlsolve import Misuse, Refusal
from gdlsolve.solver.engine import Broken, Child, Children, Engine, Late, Limit
from tests import ENDLESS_RULES, GAMES, TOP, known, needs_program
from tests.serving import HANGING, LONG, SESSIONS, Asking, is_alive, started_by, wait_for_end

MARKS = (TOP / "games/tic_tac_toe.kif").read_text()


def soon(seconds: float = LONG) -> Limit:
    """A limit so many seconds from now."""
    return Limit(time.monotonic() + seconds)


class Answers(Asking):
    def test_they_are_those_of_the_library(self) -> None:
        for game in GAMES:
            with self.subTest(game=game.stem):
                rules = game.read_text()
                asked = self.engine(rules)
                roles = gdlsolve.check(rules).roles
                self.assertEqual(asked.check(soon()), gdlsolve.check(rules))
                self.assertEqual(asked.moves([], soon()), gdlsolve.moves(rules))
                self.assertEqual(
                    asked.solve(roles[0], 2, [], 50, soon()),
                    gdlsolve.solve(rules, roles[0], 2, unfinished=50),
                )
                asked.close()

    def test_histories(self) -> None:
        turns = [("(mark 1 1)", "noop"), ("noop", "(mark 2 2)")]
        self.assertEqual(
            self.engine(MARKS).moves(turns, soon()), gdlsolve.moves(MARKS, after=turns)
        )

    def test_refusals_and_misuse(self) -> None:
        asked = self.engine(MARKS)
        with self.assertRaises(Refusal) as caught:
            asked.moves([("noop", "noop")], soon())
        self.assertEqual((caught.exception.code, caught.exception.values), ("H2", (1, "xplayer")))
        with self.assertRaises(Misuse):
            asked.solve("xplayer", 65, [], 50, soon())
        with self.assertRaises(Refusal):
            self.engine("(role a").check(soon())

    def test_a_child_serves_one_text_of_rules_after_another(self) -> None:
        children = Children(1, spare=0)
        self.addCleanup(children.close)
        asked = Engine(MARKS, children)
        asked.check(soon())
        child = asked.child
        asked.close()
        self.assertEqual((asked.child, children.idle), (None, [child]))
        with self.assertRaises(Late):
            asked.check(soon())
        other = Engine("(role b)", children)
        self.assertEqual(other.check(soon()).roles, ("b",))
        self.assertIs(other.child, child)
        other.close()

    def test_long_rules(self) -> None:
        rules = MARKS + ";" * 900_000
        self.assertEqual(self.engine(rules).check(soon()), gdlsolve.check(MARKS))


class Limits(unittest.TestCase):
    def setUp(self) -> None:
        folder = tempfile.TemporaryDirectory()
        self.addCleanup(folder.cleanup)
        self.held = Path(folder.name) / "held"
        self.held.write_text("")
        self.children = Children(2, [sys.executable, str(HANGING), str(self.held)])
        self.addCleanup(self.children.close)
        self.engine = Engine(MARKS, self.children)
        self.addCleanup(self.engine.close)
        self.engine.check(soon())

    def child(self) -> Child:
        assert self.engine.child is not None
        return self.engine.child

    def test_a_late_answer_ends_the_child(self) -> None:
        self.held.write_text("moves")
        hung = self.child()
        begun = time.monotonic()
        with self.assertRaises(Late):
            self.engine.moves([], soon(0.3))
        self.assertLess(time.monotonic() - begun, LONG)
        self.assertFalse(is_alive(hung.process.pid))
        self.held.write_text("")
        self.assertEqual(self.engine.moves([], soon()), gdlsolve.moves(MARKS))

    def test_a_question_is_given_up(self) -> None:
        self.held.write_text("moves")
        given_up = threading.Event()
        threading.Timer(0.2, given_up.set).start()
        begun = time.monotonic()
        with self.assertRaises(Late):
            self.engine.moves([], Limit(begun + LONG, given_up))
        self.assertLess(time.monotonic() - begun, LONG / 2)

    def test_an_engine_that_is_asked_keeps_the_limit_of_another_question(self) -> None:
        self.held.write_text("moves")
        long = soon(3)

        def ask() -> None:
            with self.assertRaises(Late):
                self.engine.moves([], long)

        other = threading.Thread(target=ask)
        other.start()
        while not self.engine.lock.locked():
            time.sleep(0.01)
        with self.assertRaises(Late):
            self.engine.check(soon(0.2))
        other.join()

    def test_a_killed_child_is_replaced(self) -> None:
        os.kill(self.child().process.pid, signal.SIGKILL)
        self.assertEqual(self.engine.moves([], soon()), gdlsolve.moves(MARKS))

    @needs_program
    def test_a_killed_program_of_a_session_is_replaced(self) -> None:
        children = Children(1, SESSIONS, spare=0)
        self.addCleanup(children.close)
        asked = Engine(MARKS, children)
        self.addCleanup(asked.close)
        asked.check(soon())
        assert asked.child is not None
        [program] = started_by(asked.child.process.pid)
        os.kill(program, signal.SIGKILL)
        self.assertEqual(asked.moves([], soon()), gdlsolve.moves(MARKS))

    def test_a_solver_that_always_ends_is_told(self) -> None:
        self.held.write_text("end")
        with self.assertRaises(Broken):
            self.engine.moves([], soon())

    def test_a_command_that_is_none_or_talks_otherwise_is_told(self) -> None:
        for command in (["/no/such/program"], ["false"], ["echo", "hello"], ["yes", "9 9 9"]):
            with self.subTest(command=command):
                children = Children(1, command, spare=0)
                with self.assertRaises(Broken):
                    Engine(MARKS, children).check(soon())
                children.close()


class Processes(unittest.TestCase):
    def test_so_many_stand_ready_and_no_more_are_kept(self) -> None:
        children = Children(3, spare=1)
        engines = [Engine(MARKS, children) for _ in range(6)]
        for engine in engines:
            engine.check(soon())
        for engine in engines:
            engine.close()
        self.assertEqual(len(children.idle), 3)
        left = [child.process.pid for child in children.idle]
        children.close()
        self.assertFalse(any(map(is_alive, left)))

    def test_children_end_with_who_asked_also_in_the_midst_of_an_answer(self) -> None:
        text = (
            "import sys, threading, time\n"
            "from gdlsolve.solver.engine import Children, Engine, Limit\n"
            "children = Children(1, [sys.executable, *sys.argv[1:]], spare=0)\n"
            "engine = Engine('(role a)', children)\n"
            "engine.check(Limit(time.monotonic() + 60))\n"
            "print(engine.child.process.pid, flush=True)\n"
            "open(sys.argv[2], 'w').write('moves')\n"
            "threading.Timer(0.3, print, ['asks'], {'flush': True}).start()\n"
            "engine.moves([], Limit(time.monotonic() + 600))\n"
        )
        with tempfile.NamedTemporaryFile() as held:
            words = [sys.executable, "-c", text, str(HANGING), held.name]
            with subprocess.Popen(words, stdout=subprocess.PIPE, env=known()) as asker:
                try:
                    assert asker.stdout is not None
                    child = int(asker.stdout.readline())
                    self.assertEqual(asker.stdout.readline(), b"asks\n")
                    self.assertTrue(is_alive(child))
                finally:
                    asker.kill()
            self.assertTrue(wait_for_end(child))


    @needs_program
    def test_a_program_that_searches_ends_with_who_asked(self) -> None:
        text = (
            "import sys, time\n"
            "from gdlsolve.solver.engine import Children, Engine, Limit\n"
            "engine = Engine(sys.stdin.read(), Children(1, sys.argv[1:], spare=0))\n"
            "engine.check(Limit(time.monotonic() + 60))\n"
            "print(engine.child.process.pid, flush=True)\n"
            "engine.solve('red', 40, [], 50, Limit(time.monotonic() + 600))\n"
        )
        words = [sys.executable, "-c", text, *SESSIONS]
        with subprocess.Popen(words, stdin=subprocess.PIPE, stdout=subprocess.PIPE, env=known(), text=True) as asker:
            try:
                assert asker.stdin is not None and asker.stdout is not None
                asker.stdin.write(ENDLESS_RULES)
                asker.stdin.close()
                child = int(asker.stdout.readline())
                [program] = started_by(child)
            finally:
                asker.kill()
        self.assertTrue(wait_for_end(child))
        self.assertTrue(wait_for_end(program))


if __name__ == "__main__":
    unittest.main()
