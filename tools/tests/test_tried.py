"""How `./gdlsolve try` reads a file of command lines, and what it tells of what the kit writes."""

from __future__ import annotations

import subprocess
import sys
import tempfile
import unittest
from pathlib import Path

sys.path.insert(0, str(Path(__file__).resolve().parent.parent))

import tried
from tried import Told

TOP = Path(__file__).resolve().parent.parent.parent

# What the kit writes of three cases, of which the last has not ended.
OUTPUT = "== 000000\nroles a\n== 000001\nrefused G6 NoRole\n== 000002\n"
ERRORS = """interpreted: not run
case=000000 run=ended status=0 runners=1 races=unchecked proved=no
<input>: refused G6 NoRole: no fact states a role, as (role player) does
case=000001 run=ended status=2 runners=1 races=unchecked proved=no
case=000002 run=no-answer status=0 runners=1 races=unchecked proved=no
cases=3 ended=2 fault=0 differs=0 no-answer=1 proved=no
"""


class Lines(unittest.TestCase):
    def setUp(self) -> None:
        room = tempfile.TemporaryDirectory()
        self.addCleanup(room.cleanup)
        self.room = Path(room.name)
        (self.room / "a.kif").write_text("(role a)")

    def test_a_file_of_rules_may_stand_in_each_way(self) -> None:
        for text in ("check < a.kif", "./gdlsolve check --rules a.kif", "--rules=a.kif check"):
            with self.subTest(text=text):
                self.assertEqual(tried.line_of(text, self.room), tried.Line(text, ["check"], b"(role a)"))

    def test_a_value_is_none_of_the_words(self) -> None:
        line = tried.line_of("moves --after '((mark 1 1) noop)' < a.kif", self.room)
        self.assertEqual(line.words, ["moves", "--after", "((mark 1 1) noop)"])
        self.assertEqual(tried.line_of("solve --role --rules --depth 1", self.room).words, ["solve", "--role", "--rules", "--depth", "1"])

    def test_what_is_no_command_is_told(self) -> None:
        for text, said in [("check < b.kif", "b.kif: No such file"), ("check < a.kif | head", "is for a shell")]:
            with self.subTest(text=text), self.assertRaisesRegex(tried.Unreadable, said):
                tried.line_of(text, self.room)

    def test_a_program_answers_each_line(self) -> None:
        program = self.room / "program"
        program.write_text('#!/bin/sh\ncat\necho "$1"\necho said >&2\nexit 2\n')
        program.chmod(0o755)
        (self.room / "steps").write_text("# a step\n\ncheck < a.kif\n")
        words = [sys.executable, str(TOP / "tools/tried.py"), "--program", str(program), "steps"]
        done = subprocess.run(words, cwd=self.room, capture_output=True, text=True, check=False)
        self.assertEqual((done.returncode, done.stdout), (0, "$ ./gdlsolve check < a.kif\n(role a)check\nsaid\nstatus 2\n"))


class Kit(unittest.TestCase):
    def test_what_the_kit_writes_is_told_by_case(self) -> None:
        refused = Told("refused G6 NoRole\n", "<input>: refused G6 NoRole: no fact states a role, as (role player) does\n", 2)
        self.assertEqual(tried.of_kit(OUTPUT, ERRORS, 3), [Told("roles a\n", "", 0), refused, Told("", "", None)])


if __name__ == "__main__":
    unittest.main()
