"""The command line of the package: files among the words, JSON, search by time, statuses."""
import importlib.util
import json
import os
import shlex
import signal
import subprocess
import tempfile
import time
import tomllib
import unittest
from collections.abc import Sequence
from pathlib import Path

import gdlsolve
from tests import ENDLESS_RULES, PROGRAM, TOP, known, needs_program, package, ran
from tests.serving import LONG, processor_time, started_by, until, wait_for_end

# What is ended is gone within so many seconds.
SOON = 20.0
PENNIES = TOP / "games/matching_pennies.kif"
MARKS = TOP / "games/tic_tac_toe.kif"

# Turns of it behind which the role that moves wins at once.
WON = "((mark 1 1) noop) (noop (mark 2 1)) ((mark 1 2) noop) (noop (mark 2 2))"

# Turns of it behind which that role wins with its second move.
TURNS = "((mark 1 1) noop) (noop (mark 1 2)) ((mark 2 1) noop) (noop (mark 3 1))"

# Where it is the program that has to answer.
BY_PROGRAM = {"GDLSOLVE_PROGRAM": " ".join(PROGRAM)}


def command(words: Sequence[object], rules: bytes = b"", **more: str) -> tuple[int, str, str]:
    """What the command does: its exit status, its output, and what it says to people."""
    done = subprocess.run(package("gdlsolve", *words), input=rules, capture_output=True, env=known(**more), check=False)
    return done.returncode, done.stdout.decode(), done.stderr.decode()


class Words(unittest.TestCase):
    def test_a_file_may_stand_at_any_place(self) -> None:
        want = (0, "state ended\ngoal a 0\ngoal b 100\n", "")
        self.assertEqual(command(["moves", PENNIES, "--after", "(h t)"]), want)
        self.assertEqual(command(["moves", "--after", "(h t)", PENNIES]), want)
        self.assertEqual(command(["moves", "--after=(h t)", PENNIES]), want)
        self.assertEqual(command(["moves", "--after", "(h t)"], PENNIES.read_bytes()), want)

    def test_a_file_may_be_named_as_with_the_program(self) -> None:
        want = (0, "state ended\ngoal a 0\ngoal b 100\n", "")
        self.assertEqual(command(["moves", "--rules", PENNIES, "--after", "(h t)"]), want)
        self.assertEqual(command([f"--rules={PENNIES}", "moves", "--after=(h t)"]), want)
        self.assertEqual(command(["solve", "--role", "--rules", "--depth", "1", PENNIES])[:2], (2, "refused S1 NoSuchRole\n"))
        self.assertEqual(command(["check", "--rules", "no such file"]), (4, "", "no such file: No such file or directory\n"))
        nameless = (1, "", "error: a value is required for '--rules <FILE>' but none was supplied\n")
        wrong: list[Sequence[object]] = [["check", "--rules"], ["check", "--rules="], ["check", "--rules", "--json", PENNIES]]
        for words in wrong:
            self.assertEqual(command(words), nameless)
        twice = (1, "", "error: the argument '--rules <FILE>' cannot be used with another file of rules\n")
        self.assertEqual(command(["check", "--rules", PENNIES, "--rules", PENNIES]), twice)
        self.assertEqual(command(["check", PENNIES, "--rules", PENNIES]), twice)
        self.assertEqual(command(["check", "--rules", PENNIES, PENNIES])[:2], (1, ""))
        self.assertEqual(command(["serve", "--rules", PENNIES]), (1, "", "serve takes requests alone\n"))

    def test_statuses_are_those_of_the_program(self) -> None:
        status, output, errors = command(["check"], b"(role a")
        self.assertEqual((status, output), (2, "refused K4 Unclosed 0\n"))
        self.assertIn("<input>:1:1: refused K4 Unclosed: this bracket is closed nowhere\n(role a\n^\n", errors)
        self.assertEqual(command(["check", "no such file"])[0], 4)
        far = ["solve", "--role", "a", "--depth", "65", PENNIES]
        wrong: list[Sequence[object]] = [[], ["list"], ["solve", PENNIES], far]
        for words in wrong:
            status, output, errors = command(words)
            self.assertEqual((status, output), (1, ""))
            self.assertTrue(errors)

    def test_a_stream_that_is_closed_or_full_is_told_as_the_program_does(self) -> None:
        marks, role = shlex.quote(str(MARKS)), "solve --role xplayer --time 0.001"
        wrong = {"check <&-": "read fault\n"}
        for words in f"check {marks}", f"check --json {marks}", f"{role} {marks}", f"{role} --json {marks}", "--help":
            wrong |= {f"{words} >&-": "write fault\n", f"{words} >/dev/full": "write fault\n", f"{words} >&- 2>&-": ""}
        for words, want in wrong.items():
            with self.subTest(words=words):
                self.assertEqual(self.by_shell(words), (4, "", want))

    def test_a_program_that_is_named_with_an_open_quote_is_told(self) -> None:
        want = (70, "", "GDLSOLVE_PROGRAM names no command: No closing quotation: 'it\n")
        self.assertEqual(command(["check", MARKS], GDLSOLVE_PROGRAM="'it"), want)

    def test_what_is_no_such_program_is_told(self) -> None:
        deep = ["solve", "--role", "xplayer", "--depth", "2", "--deepen", "--json"]
        for words, other in ((["check", "--json"], "true"), (["solve", "--role", "xplayer", "--time", "5"], "true"), (deep, "echo none")):
            with self.subTest(words=words):
                status, output, errors = command([*words, MARKS], GDLSOLVE_PROGRAM=other)
                self.assertEqual((status, output), (70, ""))
                self.assertTrue(errors.startswith("no answer: "), errors)
                self.assertEqual(errors.count("\n"), 1)

    def test_people_who_cannot_be_told_change_no_status(self) -> None:
        for where in "2>&-", "2>/dev/full":
            with self.subTest(where=where):
                self.assertEqual(self.by_shell(f"check {where} < /dev/null"), (2, "refused G6 NoRole\n", ""))
                self.assertEqual(self.by_shell(f"solve --role xplayer --time 0.001 {MARKS} {where}")[0], 0)
                self.assertEqual(self.by_shell(f"list {where}"), (1, "", ""))

    def by_shell(self, words: str) -> tuple[int, str, str]:
        """What the command does in a shell."""
        done = subprocess.run(f"{shlex.join(package('gdlsolve'))} {words}", shell=True, capture_output=True, text=True, env=known(), check=False)
        return done.returncode, done.stdout, done.stderr

    @needs_program
    def test_requests_are_answered_by_the_program(self) -> None:
        asked = known(**BY_PROGRAM)
        rules = b"(role a)"
        requests = b"rules %d\n" % len(rules) + rules + b"check\nnet\n"
        for words, want in (["serve"], ran(["serve"], requests)), (["serve", "--json"], (1, b"", b"serve takes requests alone\n")):
            done = subprocess.run(package("gdlsolve", *words), input=requests, capture_output=True, env=asked, check=False)
            self.assertEqual((done.returncode, done.stdout, done.stderr), want)

    def test_help_is_an_answer(self) -> None:
        status, output, errors = command(["--help"])
        self.assertEqual((status, errors), (0, ""))
        self.assertIn("--json", output)
        self.assertEqual(command(["--version"]), (0, "gdlsolve 0.1.0\n", ""))

    def test_the_version_is_told_once(self) -> None:
        project = tomllib.loads((TOP / "python/pyproject.toml").read_text())["project"]
        self.assertEqual(project["version"], gdlsolve.__version__)


class Json(unittest.TestCase):
    def told(self, words: Sequence[object], status: int = 0) -> object:
        found, output, _ = command([*words, "--json"])
        self.assertEqual(found, status)
        return json.loads(output)

    def test_answers(self) -> None:
        self.assertEqual(self.told(["check", PENNIES]), {"items": 16, "alternatives": 16, "relations": 7, "roles": ["a", "b"]})
        self.assertEqual(self.told(["moves", PENNIES]), {"state": "open", "goals": {}, "legal": {"a": ["h", "t"], "b": ["h", "t"]}})
        self.assertEqual(self.told(["solve", "--role", "a", "--depth", "1", PENNIES]), {"value": 0, "move": "h", "line": [["h", "t"]]})

    def test_answers_depth_by_depth(self) -> None:
        line = [["h", "t"]]
        words = ["solve", "--role", "a", "--depth", "5", "--deepen", PENNIES]
        want = {"depths": [{"depth": 1, "value": 0, "move": "h", "line": line}], "settled": True}
        self.assertEqual(self.told(words), want)
        ended = {"depths": [{"depth": 1, "value": 0, "move": None, "line": []}], "settled": True}
        self.assertEqual(self.told([*words, "--after", "(h t)"]), ended)
        found = self.told(["solve", "--role", "xplayer", "--depth", "3", "--deepen", MARKS])
        assert isinstance(found, dict)
        self.assertEqual((found["settled"], [len(each["line"]) for each in found["depths"]]), (False, [1, 2, 3]))
        for each in found["depths"]:
            depth = each.pop("depth")
            self.assertEqual(self.told(["solve", "--role", "xplayer", "--depth", str(depth), MARKS]), each)

    def test_the_line_behind_each_move(self) -> None:
        words = ["values", "--role", "xplayer", "--depth", "3", "--lines", MARKS]
        found = self.told([*words, "--after", TURNS])
        assert isinstance(found, dict)
        self.assertEqual((found["value"], found["moves"]["(mark 2 2)"], set(found["lines"])), (100, 100, set(found["moves"])))
        win = [["(mark 2 2)", "noop"], ["noop", "(mark 1 3)"], ["(mark 2 3)", "noop"]]
        self.assertEqual(found["lines"]["(mark 2 2)"], win)
        self.assertNotIn("lines", str(self.told([*words[:5], MARKS])))
        ended = ["values", "--role", "a", "--depth", "1", "--lines", "--after", "(h t)", PENNIES]
        self.assertEqual(self.told(ended), {"value": 0, "moves": {}, "lines": {}})

    @needs_program
    def test_findings(self) -> None:
        found = {"line": 1, "column": 1, "found": "no item states `terminal`"}
        status, output, _ = command(["lint", "--json"], b"(role a)(base p)(input a go)(legal a go)(goal a 5)", **BY_PROGRAM)
        self.assertEqual(status, 2)
        self.assertIn(found, json.loads(output)["findings"])
        self.assertEqual(command(["lint", "--json", PENNIES], b"", **BY_PROGRAM)[:2], (0, '{"findings": []}\n'))
        status, output, _ = command(["lint", "--json"], b"(role a", **BY_PROGRAM)
        self.assertEqual((status, json.loads(output)), (2, {"refused": "K4", "name": "Unclosed", "values": [0]}))

    def test_refusals(self) -> None:
        words = ["moves", "--after", "(h x)", PENNIES]
        self.assertEqual(self.told(words, 2), {"refused": "H2", "name": "NotLegal", "values": [1, "b"]})


class Time(unittest.TestCase):
    def test_a_settled_value_ends_the_search(self) -> None:
        status, output, _ = command(["solve", "--role", "a", "--time", "60", PENNIES])
        self.assertEqual((status, output), (0, "depth 1\nvalue 0\nmove h\nline 1 h t\nsettled\n"))

    def test_the_whole_of_a_game_is_settled(self) -> None:
        status, output, _ = command(["solve", "--role", "xplayer", "--time", "60", "--json", MARKS])
        told = json.loads(output)
        self.assertEqual((status, told["settled"], told["value"]), (0, True, 50))

    def test_what_no_turn_can_change_is_settled_in_the_shortest_time(self) -> None:
        short = ["solve", "--time", "0.001", "--role"]
        for words, want in [
            (["a", PENNIES, "--after", "(h t)"], "depth 1\nvalue 0\nmove none\nsettled\n"),
            (["xplayer", MARKS, "--after", WON], "depth 1\nvalue 100\nmove (mark 1 3)\nline 1 (mark 1 3) noop\nsettled\n"),
        ]:
            self.assertEqual(command([*short, *words])[:2], (0, want))

    def test_one_turn_is_waited_for(self) -> None:
        status, output, _ = command(["solve", "--role", "xplayer", "--time", "0.001", MARKS])
        self.assertEqual(status, 0)
        self.assertTrue(output.startswith("depth 1\n"))

    def test_what_was_finished_counts_where_the_solver_ends(self) -> None:
        for failing, why in (("exit 3", "no memory"), ("kill -9 $$", "status -9")):
            with self.subTest(failing=failing), tempfile.TemporaryDirectory() as room:
                fake = Path(room) / "fake"
                told = f'case "$*" in *"--depth 3"*) {failing};; *"--unfinished 100"*) echo value 100;; *) echo value 50;; esac'
                fake.write_text(f"#!/bin/sh\n{told}\necho move h\necho line 1 h t\n")
                fake.chmod(0o755)
                status, output, errors = command(["solve", "--role", "a", "--time", "60", PENNIES], GDLSOLVE_PROGRAM=str(fake))
                self.assertEqual((status, output), (0, "depth 2\nvalue 50\nmove h\nline 1 h t\n"))
                self.assertTrue(errors.startswith("the search ended before its time: "), errors)
                self.assertIn(why, errors)

    def test_nothing_is_left_at_work_where_it_is_ended(self) -> None:
        ways = {signal.SIGTERM: -signal.SIGTERM, signal.SIGKILL: -signal.SIGKILL}
        if signal.getsignal(signal.SIGINT) is signal.default_int_handler:
            ways[signal.SIGINT] = 130
        words = package("gdlsolve", "solve", "--role", "red", "--time", 600)
        for number, status in ways.items():
            with self.subTest(signal=number), subprocess.Popen(words, stdin=subprocess.PIPE, stderr=subprocess.PIPE, env=known()) as run:
                try:
                    assert run.stdin is not None
                    run.stdin.write(ENDLESS_RULES.encode())
                    run.stdin.close()
                    self.assertTrue(until(lambda: any(map(processor_time, started_by(run.pid)))))
                    asked = started_by(run.pid)
                    left = {*asked, *(program for child in asked for program in started_by(child))}
                    run.send_signal(number)
                    self.assertEqual(run.wait(LONG), status)
                finally:
                    run.kill()
                self.assertTrue(all(wait_for_end(process, SOON) for process in left))
                assert run.stderr is not None
                self.assertEqual(run.stderr.read(), b"")

    def test_nothing_is_left_at_work_behind_the_time(self) -> None:
        words = package("gdlsolve", "solve", "--role", "red", "--time", 5)
        with subprocess.Popen(words, stdin=subprocess.PIPE, stdout=subprocess.PIPE, env=known()) as run:
            left = set[int]()
            assert run.stdin is not None and run.stdout is not None
            run.stdin.write(ENDLESS_RULES.encode())
            run.stdin.close()
            while run.poll() is None:
                for child in started_by(run.pid):
                    left |= {child, *started_by(child)}
                time.sleep(0.02)
            self.assertTrue(run.stdout.read().startswith(b"depth "))
        self.assertTrue(left)
        self.assertTrue(all(wait_for_end(process, SOON) for process in left))

    def test_other_words_for_the_time_are_misuse(self) -> None:
        for words in (["--time", "0"], ["--time", "soon"], ["--time"], ["--time", "1", "--depth", "3"], ["--time=-1"]):
            self.assertEqual(command(["solve", "--role", "a", *words, PENNIES])[0], 1)
        self.assertEqual(command(["moves", "--time", "1", PENNIES])[0], 1)

    def test_refusals_are_told(self) -> None:
        told = "--role: refused S1 NoSuchRole: the roles are a b\n"
        self.assertEqual(command(["solve", "--role", "c", "--time", "1", PENNIES]), (2, "refused S1 NoSuchRole\n", told))


def with_lines() -> str:
    """Where packages are that draw a line, or nothing where there are none."""
    if any(map(importlib.util.find_spec, ("rich", "tqdm"))):
        return str(TOP / "python")
    debian = Path("/usr/lib/python3/dist-packages")
    there = any((debian / name).is_dir() for name in ("rich", "tqdm"))
    return f"{TOP / 'python'}:{debian}" if there else ""


class Progress(unittest.TestCase):
    @unittest.skipUnless(with_lines(), "no progress is drawn: there is neither rich nor tqdm")
    def test_a_long_solve_tells_on_a_terminal_that_it_goes_on(self) -> None:
        with tempfile.TemporaryDirectory() as room:
            rules = Path(room) / "endless.kif"
            rules.write_text(ENDLESS_RULES)
            for more, want in ((["--depth", "40"], "solve looks ahead, "), (["--time", "600"], "turns ahead, ")):
                with self.subTest(more=more):
                    self.assertTrue(self.tells(["solve", "--role", "red", *more, rules], want))

    def tells(self, words: Sequence[object], want: str) -> bool:
        """Whether the command writes a text to a terminal. Then it is ended."""
        ours, theirs = os.openpty()
        told, until = "", time.monotonic() + 120
        with subprocess.Popen(
            package("gdlsolve", *words), stdout=subprocess.PIPE, stderr=theirs, env=known(PYTHONPATH=with_lines(), TERM="xterm", COLUMNS="80")
        ) as run:
            os.close(theirs)
            while want not in told and time.monotonic() < until and run.poll() is None:
                told += os.read(ours, 4096).decode(errors="replace")
            run.kill()
        os.close(ours)
        return want in told


if __name__ == "__main__":
    unittest.main()
