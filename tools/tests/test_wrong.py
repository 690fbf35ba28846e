"""Tests of the rounds, lines and statuses of tools/wrong, over a prover that takes a body with the word WRONG for a wrong one."""

from __future__ import annotations

import os
import shutil
import subprocess
import tempfile
import unittest
from pathlib import Path

TOOLS = Path(__file__).resolve().parent.parent

PROVER = r"""#!/usr/bin/env python3
import os, re, sys
from pathlib import Path

name = sys.argv[sys.argv.index("--crate-name") + 1]
text = Path("src/lib.rt").read_text()
bodies = dict(re.findall(r"(?m)^pub fn (\w+)\(\)\n    ensures .*\n\{\n((?:    .*\n)*)\}", text))
with open(os.environ["CHECKS"], "a") as checks:
    checks.write(name + "\n")
if "SYNTAX" in text:
    print("src/lib.rt:1:1: error[E0001]: this is no code")
    sys.exit(1)
verdicts = {}
for function, body in bodies.items():
    called = [each for each in re.findall(r"(\w+)\(\)", body) if verdicts.get(each, "proved") != "proved"]
    said = f"no proof: it calls `{called[0]}`, which is not proved" if called else "not proved" if "WRONG" in body else "proved"
    verdicts[function] = said
if "LIMIT: usize = 7" not in text:
    print("./proofs/Rows.antt:3:4: error: `rows`: the two numbers differ")
for function, words in verdicts.items():
    print(f"fn {name}::{function}: {words}")
is_proved = "LIMIT: usize = 7" in text and set(verdicts.values()) == {"proved"}
print("logic=proved" if is_proved else "logic=not-proved")
sys.exit(0 if is_proved else 1)
"""

CODE = """const LIMIT: usize = 7;

pub fn low()
    ensures { true ≡ true }
{
    right;
}

pub fn middle()
    ensures { true ≡ true }
{
    low();
    sound;
}

pub fn high()
    ensures { true ≡ true }
{
    middle();
    true_here;
}
"""


def edit(old: str, new: str) -> str:
    return f"file: src/lib.rt\nold: {old}\nnew: {new}\n"


EDITS = {
    "low_is_wrong": edit("right;", "WRONG;"),
    "low_is_wrong_too": edit("right;", "WRONG once more;"),
    "middle_is_wrong": edit("sound;", "WRONG;"),
    "high_is_wrong": edit("true_here;", "WRONG;"),
    "allows_one_more": edit("LIMIT: usize = 7", "LIMIT: usize = 8"),
}


class Repository(unittest.TestCase):
    """A repository of two crates, and a kit whose prover looks for one word."""

    def setUp(self) -> None:
        room = tempfile.TemporaryDirectory()
        self.addCleanup(room.cleanup)
        self.top, self.kit = Path(room.name) / "top", Path(room.name) / "kit"
        self.checks = Path(room.name) / "checks"
        (self.top / "tools").mkdir(parents=True)
        for file in ("wrong", "edits.py", "prove.py", "weights.py"):
            shutil.copy(TOOLS / file, self.top / "tools" / file)
        (self.top / "crates.txt").write_text("below:\ncount: below\n")
        (self.kit / "bin").mkdir(parents=True)
        (self.kit / "KIT-ID").write_text("kit 1\n")
        for command, text in (("rt", f"#!/bin/sh\necho {self.kit}/START-HERE.md\n"), ("rattle", PROVER)):
            (self.kit / "bin" / command).write_text(text)
            (self.kit / "bin" / command).chmod(0o755)
        for crate in ("below", "count"):
            (self.top / "crates" / crate / "src").mkdir(parents=True)
            (self.top / "crates" / crate / "src" / "lib.rt").write_text(CODE)
        (self.top / "crates" / "below" / "out" / "rlib" / "below.rlib").mkdir(parents=True)
        self.wrong = self.top / "crates" / "count" / "wrong"
        self.wrong.mkdir()
        for name, text in EDITS.items():
            (self.wrong / f"{name}.edit").write_text(text)

    def run_wrong(self, *words: str) -> tuple[int, list[str], int]:
        """The status of a run, the lines that it prints, and the number of checks that it makes."""
        self.checks.write_text("")
        known = os.environ | {"PATH": f"{self.kit}/bin:{os.environ['PATH']}", "CHECKS": str(self.checks)}
        done = subprocess.run([self.top / "tools" / "wrong", *words], env=known, capture_output=True, text=True, check=False)
        return done.returncode, done.stdout.splitlines(), len(self.checks.read_text().splitlines())

    def noted(self) -> list[str]:
        """The names in refused.txt."""
        file = self.wrong / "refused.txt"
        return [line.split()[0] for line in file.read_text().splitlines()] if file.is_file() else []

    def test_all_are_refused_and_noted(self) -> None:
        status, lines, checks = self.run_wrong()
        self.assertEqual((status, lines[-1]), (0, "5 refused, 0 failed"), lines)
        # One as it stands; of low, middle and high; of the other of low with these two; of middle and high; of high; and of the constant.
        self.assertEqual(checks, 6)
        self.assertEqual(self.noted(), sorted(EDITS))
        self.assertEqual(self.run_wrong("--compare"), (0, [], 0))
        self.assertEqual(self.run_wrong()[1][-1], "0 refused, 0 failed")
        (self.wrong / "high_is_wrong.edit").unlink()
        (self.wrong / "is_nowhere.edit").write_text(edit("nowhere", "here"))
        status, lines, _ = self.run_wrong("--compare")
        self.assertEqual((status, lines[1:]), (1, ["count/high_is_wrong: there is no such edit"]))
        self.assertIn("count/is_nowhere: BAD EDIT: an 'old:' text is in src/lib.rt 0 times", lines[0])
        (self.wrong / "is_nowhere.edit").unlink()
        self.assertEqual(self.run_wrong("--all")[1][-1], "4 refused, 0 failed")

    def test_a_crate_that_is_proved_is_not_checked_as_it_stands(self) -> None:
        (self.top / "crates" / "count" / "out" / "rlib" / "count.rlib").mkdir(parents=True)
        status, lines, checks = self.run_wrong()
        self.assertEqual((status, lines[-1], checks), (0, "5 refused, 0 failed", 5), lines)

    def test_a_contract_below_that_changed_has_them_tried_anew(self) -> None:
        self.run_wrong()
        code = self.top / "crates" / "below" / "src" / "lib.rt"
        code.write_text(CODE.replace("right;", "another;"))
        self.assertEqual(self.run_wrong("--compare")[0], 0)
        code.write_text(CODE.replace("true ≡ true", "false ≡ false", 1))
        status, lines, _ = self.run_wrong("--compare")
        self.assertEqual((status, len(lines)), (1, 5))

    def test_what_is_still_proved_fails(self) -> None:
        (self.wrong / "middle_is_right.edit").write_text(edit("sound;", "as_sound;"))
        status, lines, _ = self.run_wrong()
        self.assertEqual((status, lines[-1]), (1, "5 refused, 1 failed"))
        self.assertIn("FAILED: count/middle_is_right: NOT REFUSED", lines)
        self.assertEqual(self.noted(), sorted(EDITS))

    def test_what_cannot_be_applied_or_compiled_fails(self) -> None:
        (self.wrong / "is_nowhere.edit").write_text(edit("nowhere", "here"))
        (self.wrong / "is_no_code.edit").write_text(edit("true_here;", "SYNTAX"))
        status, lines, _ = self.run_wrong()
        self.assertEqual((status, lines[-1]), (1, "5 refused, 2 failed"))
        self.assertIn("FAILED: count/is_nowhere: BAD EDIT", lines)
        self.assertIn("FAILED: count/is_no_code: BAD EDIT", lines)
        self.assertEqual(self.noted(), sorted(EDITS))

    def test_nothing_is_refused_of_a_crate_that_is_not_proved(self) -> None:
        code = self.top / "crates" / "count" / "src" / "lib.rt"
        code.write_text(f"{CODE}\npub fn more()\n    ensures {{ true ≡ true }}\n{{\n    WRONG\n}}\n")
        status, lines, checks = self.run_wrong()
        self.assertEqual((status, lines[-1], checks), (1, "0 refused, 5 failed", 1))
        self.assertEqual(self.noted(), [])

    def test_the_gate_writes_no_lines(self) -> None:
        status, lines, _ = self.run_wrong("--gate")
        self.assertEqual((status, lines[-1]), (0, "5 refused, 0 failed"))
        self.assertEqual(self.noted(), [])

    def test_the_gate_tries_a_crate_when_its_turn_comes(self) -> None:
        self.run_wrong()
        words = ["git", "-c", "user.name=A", "-c", "user.email=a@b.c"]
        subprocess.run(["git", "init", "-q"], cwd=self.top, check=True)
        tried = []
        for _ in range(10):
            subprocess.run([*words, "commit", "-q", "--allow-empty", "-m", "More"], cwd=self.top, check=True)
            tried.append(self.run_wrong("--gate")[1][-1])
        # The second crate of crates.txt has its turn after nine commits.
        self.assertEqual(tried, ["0 refused, 0 failed"] * 8 + ["5 refused, 0 failed", "0 refused, 0 failed"])


if __name__ == "__main__":
    unittest.main()
