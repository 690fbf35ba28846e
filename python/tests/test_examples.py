"""The examples at the terminal, with what is typed on their standard input."""

import shlex
import signal
import subprocess
import sys
import tempfile
import unittest
from pathlib import Path

from tests import ENDLESS_RULES, PROGRAM, TOP, known, needs_program
from tests.serving import LONG, until


def ran(example: str, words: list[str], typed: str, **more: str) -> tuple[int, list[str], str]:
    """The exit status of an example, the lines that it writes, and what it says of faults."""
    command = [sys.executable, "-B", str(TOP / "examples" / example), *words]
    done = subprocess.run(
        command, input=typed, capture_output=True, env=known(**more), check=False, text=True
    )
    return done.returncode, done.stdout.splitlines(), done.stderr


class Play(unittest.TestCase):
    def test_a_game_is_played_to_its_end(self) -> None:
        words = [str(TOP / "games/nim.kif"), "--time", "30"]
        status, lines, errors = ran("play.py", words, "1\n" * 20)
        self.assertEqual((status, errors, lines[0]), (0, "", "you are first"))
        # Whoever takes 1 from the first heap leaves 2 and 4, with which the other wins.
        self.assertEqual(lines[-2:], ["first 0", "second 100"])
        self.assertIn("(sure of 100)", "\n".join(lines))

    def test_a_move_is_taken_back(self) -> None:
        words = [str(TOP / "games/tic_tac_toe.kif"), "--time", "0.5"]
        typed = "(MARK 2  2)\nback\n5\nno such move\nquit\n"
        status, lines, errors = ran("play.py", words, typed)
        self.assertEqual((status, errors), (0, ""))
        self.assertEqual(sum(line.endswith("  9  (mark 3 3)") for line in lines), 2)
        self.assertIn("> a number, a legal move, back or quit", lines)

    def test_what_is_no_role_or_no_game(self) -> None:
        status, _, errors = ran("play.py", [str(TOP / "games/nim.kif"), "--role", "third"], "")
        self.assertEqual((status, errors), (1, "third is none of the roles first, second\n"))
        status, _, errors = ran("play.py", [str(TOP / "examples/solve.c")], "")
        self.assertEqual(status, 1)
        self.assertTrue(errors.startswith("refused K"))
        self.assertEqual(ran("play.py", ["no such file"], ""), (1, [], "no such file: No such file or directory\n"))
        self.assertEqual(ran("play.py", [str(TOP / "games/nim.kif"), "--time", "nan"], "")[:2], (2, []))

    def test_an_output_that_is_full_is_told_in_a_line(self) -> None:
        command = [sys.executable, "-B", str(TOP / "examples/play.py"), str(TOP / "games/nim.kif")]
        with open("/dev/full", "w") as full:
            done = subprocess.run(command, input="quit\n", stdout=full, stderr=subprocess.PIPE, env=known(), check=False, text=True)
        self.assertEqual((done.returncode, done.stderr), (1, "write fault\n"))

    def test_a_stream_that_is_closed_is_told_in_a_line(self) -> None:
        command = shlex.join([sys.executable, "-B", str(TOP / "examples/play.py"), str(TOP / "games/nim.kif")])
        for more, want in {"<&-": "input(): lost sys.stdin\n", ">&-": "input(): lost sys.stdout\n"}.items():
            with self.subTest(more=more):
                done = subprocess.run(f"{command} {more}", shell=True, capture_output=True, env=known(), check=False, text=True)
                self.assertEqual((done.returncode, done.stderr), (1, want))

    def test_comments_may_have_any_byte(self) -> None:
        with tempfile.TemporaryDirectory() as room:
            rules = Path(room) / "nim.kif"
            rules.write_bytes(b"; caf\xe9\n" + (TOP / "games/nim.kif").read_bytes())
            status, lines, errors = ran("play.py", [str(rules)], "quit\n")
        self.assertEqual((status, errors, lines[0]), (0, "", "you are first"))

    @needs_program
    def test_a_game_as_it_is_found_is_written_out(self) -> None:
        status, lines, errors = ran("play.py", [str(TOP / "games/found/hex_3x3.kif")], "quit\n", GDLSOLVE_PROGRAM=" ".join(PROGRAM))
        self.assertEqual((status, errors), (0, ""))
        self.assertTrue(any(line.startswith("  9  ") for line in lines), lines)


@needs_program
class Referee(unittest.TestCase):
    def test_a_match(self) -> None:
        words = [str(TOP / "games/nim.kif"), "--depth", "7", "--seed", "1"]
        status, lines, errors = ran("referee.py", words, "", GDLSOLVE_PROGRAM=" ".join(PROGRAM))
        self.assertEqual((status, errors), (0, ""))
        self.assertEqual([line.split() for line in lines[-2:]], [["first", "100"], ["second", "0"]])

    def test_a_match_of_a_game_as_it_is_found(self) -> None:
        words = [str(TOP / "games/found/hex_3x3.kif"), "--depth", "3", "--seed", "1"]
        status, lines, errors = ran("referee.py", words, "", GDLSOLVE_PROGRAM=" ".join(PROGRAM))
        self.assertEqual((status, errors), (0, ""))
        self.assertEqual(sorted(int(line.split()[1]) for line in lines[-2:]), [0, 100])

    def test_a_depth_that_is_none_is_told(self) -> None:
        words = [str(TOP / "games/nim.kif"), "--depth", "65"]
        status, lines, errors = ran("referee.py", words, "", GDLSOLVE_PROGRAM=" ".join(PROGRAM))
        self.assertEqual((status, lines), (1, []))
        self.assertTrue(errors.startswith("error: invalid value '65' for '--depth <TURNS>'"), errors)

    @unittest.skipIf(signal.getsignal(signal.SIGINT) is signal.SIG_IGN, "the key is of no account here")
    def test_a_key_ends_it_without_a_word(self) -> None:
        with tempfile.TemporaryDirectory() as room:
            rules, asked, program = Path(room) / "endless.kif", Path(room) / "asked", Path(room) / "program"
            rules.write_text(ENDLESS_RULES)
            program.write_text(f"#!/bin/sh\n: > '{asked}'\nexec {shlex.join(PROGRAM)} \"$@\"\n")
            program.chmod(0o755)
            command, pipe = [sys.executable, "-B", str(TOP / "examples/referee.py"), str(rules), "--depth", "60"], subprocess.PIPE
            with subprocess.Popen(command, stdout=pipe, stderr=pipe, env=known(GDLSOLVE_PROGRAM=str(program))) as run:
                try:
                    self.assertTrue(until(asked.exists, LONG))
                    run.send_signal(signal.SIGINT)
                    self.assertEqual(run.communicate(timeout=LONG), (b"", b""))
                finally:
                    run.kill()
            self.assertEqual(run.returncode, 130)

    def test_faults_are_told(self) -> None:
        program = " ".join(PROGRAM)
        for words, want in [([str(TOP / "games/nim.kif"), "--role", "third"], "third is none"), ([str(TOP / "examples/solve.c")], "refused K")]:
            status, _, errors = ran("referee.py", words, "", GDLSOLVE_PROGRAM=program)
            self.assertEqual(status, 1)
            self.assertTrue(errors.startswith(want), errors)


if __name__ == "__main__":
    unittest.main()
