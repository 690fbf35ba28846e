"""What `tools/budget` counts, prints, reads back and refuses."""

from __future__ import annotations

import subprocess
import sys
import tempfile
import unittest
from pathlib import Path

sys.path.insert(0, str(Path(__file__).resolve().parent))

from scripts import TOOLS, script

import weights
from weights import Weights


budget = script("budget")
HOUR = 3600.0


def of_each_crate(seconds: float) -> Weights:
    """The same seconds for the proof of each crate that is there."""
    return Weights({name: {"proof": seconds} for name in weights.crates_named()})


class Lanes(unittest.TestCase):
    def test_three_checks_share_two_processors_where_there_is_memory(self) -> None:
        of_gigabytes = [(4, 64.0, 6), (4, 23.0, 5), (2, 23.0, 3), (16, 14.0, 3), (4, 5.0, 1), (4, 0.0, 1), (1, 64.0, 1)]
        for processors, gigabytes, lanes in of_gigabytes:
            with self.subTest(processors=processors, gigabytes=gigabytes):
                self.assertEqual(budget.lanes(processors, int(gigabytes * 1e9)), lanes)

    def test_this_machine_has_memory(self) -> None:
        self.assertGreater(budget.free_memory(), 1e8)

    def test_the_gate_asks_for_them(self) -> None:
        told = subprocess.run([TOOLS / "budget", "lanes"], capture_output=True, text=True, check=True).stdout
        self.assertIn(int(told), range(1, 1025))
        self.assertIn("RT_JOBS=$(tools/budget lanes)", (TOOLS.parent / ".ci" / "run").read_text())


class Chains(unittest.TestCase):
    on: dict[str, list[str]] = {"low": [], "side": [], "high": ["low", "side"], "trials": ["high"]}
    taken = Weights({"low": {"proof": 300.0}, "side": {"proof": 100.0, "tests": 50.0}, "high": {"proof": 200.0}, "trials": {"tests": 400.0}})

    def test_what_the_longest_chain_waits_for_gives_way_to_nothing(self) -> None:
        slack = weights.slack(self.taken, self.on)
        for sort, seconds in [(("low", "proof"), 0), (("high", "proof"), 0), (("trials", "tests"), 0), (("side", "proof"), 200), (("side", "tests"), 850)]:
            with self.subTest(sort=sort):
                self.assertEqual(slack[sort], seconds)
        self.assertEqual(budget.yielding(("high", "proof"), slack), 0)
        self.assertEqual(budget.yielding(("side", "proof"), slack), 2)
        self.assertEqual(budget.yielding(("side", "edits"), slack), budget.MOST_YIELDING)

    def test_each_crate_comes_behind_those_that_it_stands_on(self) -> None:
        below = weights.below()
        self.assertEqual(set(below), set(weights.crates_named()))
        seen: set[str] = set()
        for name, on in below.items():
            self.assertLessEqual(set(on), seen)
            seen.add(name)


class Sorts(unittest.TestCase):
    def test_commands_have_a_crate_and_a_kind(self) -> None:
        crate = ["/kit/bin/rattle", "build", "--crate-name", "kif", "src/lib.rt"]
        for more, folder, kind in [
            (["--statements", "-o", "out/rlib/kif.rlib"], "/crates/kif", "proof"),
            (["--crate-type", "staticlib"], "/crates/kif", "proof"),
            (["--test", "-o", "out/kif_tests.o"], "/crates/kif", "tests"),
            (["--crate-checked", "room"], "/crates/kif", "builds"),
            (["--incremental", "seed"], "/rt-edit-17-abc", "edits"),
        ]:
            with self.subTest(kind=kind):
                self.assertEqual(budget.sort_of([*crate, *more], folder), ("kif", kind))

    def test_links_go_by_what_they_make(self) -> None:
        for made, sort in [
            ("out/gdlsolve", ("gdlsolve", "builds")),
            ("out/gdlsolve.by-rattle", ("gdlsolve", "builds")),
            ("out/kif_tests", ("kif", "tests")),
        ]:
            with self.subTest(made=made):
                self.assertEqual(budget.sort_of(["/kit/bin/rattle-link", "--target", "it", "-o", made, f"{made}.o"], "/"), sort)

    def test_what_names_no_crate_is_not_counted(self) -> None:
        self.assertIsNone(budget.sort_of(["/kit/bin/rattle", "fmt", "--check"], "/"))


class Tops(unittest.TestCase):
    def test_copies_and_what_they_start_belong_to_the_first_command(self) -> None:
        chain = [(1, 0, "budget"), (2, 1, "rt"), (3, 2, "rattle"), (4, 3, "rattle"), (5, 4, "clang"), (6, 0, "rattle")]
        there = {number: budget.Process(number, parent, "0", name, 1, 1) for number, parent, name in chain}
        tops = {number: budget.top_of(process, there, 1) for number, process in there.items()}
        self.assertEqual({number: top and top.number for number, top in tops.items()}, {1: None, 2: None, 3: 3, 4: 3, 5: 3, 6: None})


class Tables(unittest.TestCase):
    def spent(self) -> budget.Spent:  # type: ignore[name-defined]
        found = budget.Spent()
        found.add("kif", "proof", 90.0, 800 << 20)
        found.add("kif", "edits", 30.0, 900 << 20)
        found.add("keys", "tests", 6.0, 100 << 20)
        found.add_part("rt ci", 12.0, 600.0)
        found.kept = ["join", "spread"]
        return found

    def test_a_table_is_read_back(self) -> None:
        self.assertEqual(budget.of_tables(f"1 passed, 0 failed\n{budget.table(self.spent())}rt: ok\n"), self.spent())

    def test_tables_are_added_up(self) -> None:
        games = budget.Spent()
        games.add_part("games", 3.0, 6.0)
        found = budget.of_tables("".join(f"12:00:01 {line}\n" for line in (budget.table(self.spent()) + budget.table(games)).splitlines()))
        self.assertEqual(found.weights.parts, {"rt ci": 12.0, "games": 3.0})
        self.assertEqual(found.weights.crates, self.spent().weights.crates)

    def test_what_was_measured_replaces_what_is_known(self) -> None:
        known = Weights({"kif": {"proof": 1, "tests": 2, "edits": 3, "builds": 4}, "join": {"proof": 5, "tests": 6}}, {"pages": 7, "rt ci": 8})
        found = budget.renewed(known, self.spent().weights)
        self.assertEqual(found.crates["kif"], {"proof": 90, "tests": 0, "edits": 30, "builds": 4})
        self.assertEqual(found.crates["join"], {"proof": 5, "tests": 6})
        self.assertEqual(found.crates["keys"], {"proof": 0, "tests": 6, "edits": 0, "builds": 0})
        self.assertEqual(found.parts, {"pages": 7, "rt ci": 12})


    def test_parts_are_those_of_the_gate(self) -> None:
        known = Weights({}, {"rt ci": 8})
        self.assertEqual(budget.renewed(known, Weights({}, {"rt ci --anew kif": 1})).parts, known.parts)
        self.assertEqual(budget.renewed(known, Weights({}, {"rt ci": 9, "games/": 2})).parts, {"rt ci": 9, "games/": 2})


class Judgement(unittest.TestCase):
    def test_four_hours_are_enough(self) -> None:
        count = len(weights.crates_named())
        for hours, is_well in [(0.0, True), (4.0, True), (4.01, False)]:
            with self.subTest(hours=hours):
                self.assertEqual(budget.judged(of_each_crate(hours * HOUR / count))[1], is_well)

    def test_other_parts_count(self) -> None:
        self.assertFalse(budget.judged(Weights(of_each_crate(0).crates, {"games": 4.1 * HOUR}))[1])

    def test_each_crate_is_weighed(self) -> None:
        known = of_each_crate(1)
        name = next(iter(known.crates))
        del known.crates[name]
        text, is_well = budget.judged(known)
        self.assertFalse(is_well)
        self.assertIn(f"lacks {name}:", text)


class Runs(unittest.TestCase):
    def ran(self, *words: str) -> subprocess.CompletedProcess[str]:
        return subprocess.run([sys.executable, "-B", TOOLS / "budget", "run", *words], capture_output=True, text=True, check=False)

    def test_output_and_status_are_the_command_s(self) -> None:
        manners: list[list[str]] = [[], ["--part", "it"]]
        for part in manners:
            with self.subTest(part=part):
                done = self.ran(*part, "sh", "-c", "printf 'rt: kif is kept: so\\nlast'; exit 3")
                self.assertEqual((done.returncode, done.stdout), (3, "rt: kif is kept: so\nlast"))
        self.assertEqual(self.ran("sh", "-c", "kill -9 $$").returncode, 128 + 9)

    def test_kept_crates_are_told(self) -> None:
        said = self.ran("sh", "-c", "echo 'rt: kif is kept: so'; echo 'rt: ok'; echo 'rt: join is kept: so'").stderr
        self.assertEqual(budget.of_tables(said).kept, ["kif", "join"])

    def test_seconds_of_a_part_are_those_of_all_below_it(self) -> None:
        with tempfile.TemporaryDirectory() as room:
            log = Path(room) / "log"
            burns = f"'{sys.executable}' -c 'import time\nwhile time.process_time() < 0.5: pass'"
            self.ran("--log", str(log), "--part", "burns", "sh", "-c", f"{burns} & wait; {burns}")
            self.assertGreater(budget.of_tables(log.read_text()).weights.parts["burns"], 0.7)

    def test_a_command_of_the_prover_is_counted(self) -> None:
        with tempfile.TemporaryDirectory() as room:
            prover = Path(room) / "rattle"
            prover.symlink_to(sys.executable)
            burns = "import time\nwhile time.process_time() < 1.5: pass"
            said = self.ran(str(prover), "-c", burns, "--crate-name", "kif", "--test").stderr
            found = budget.of_tables(said)
            self.assertGreater(found.weights.of("kif", "tests"), 0.5)
            self.assertGreater(found.memory["kif"], 0)


class Kept(unittest.TestCase):
    def test_weights_are_read_back(self) -> None:
        found = Weights({"kif": {"proof": 9, "tests": 8, "edits": 7, "builds": 6}}, {"rt ci": 5})
        self.assertEqual(weights.parsed(weights.written(found)), found)

    def test_the_file_can_be_read(self) -> None:
        self.assertTrue(weights.read().crates)


if __name__ == "__main__":
    unittest.main()
