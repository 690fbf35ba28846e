"""How `tools/prove.py` shares processors and memory among crates."""

from __future__ import annotations

import sys
import unittest
from pathlib import Path
from unittest import mock

sys.path.insert(0, str(Path(__file__).resolve().parent.parent))
sys.dont_write_bytecode = True

import prove
import weights


def proving(ways: dict[str, float], memory: float = 100.0) -> prove.Proving:
    """Crates that do not stand on each other, with these ways above them."""
    made = prove.Proving([])
    made.left = [prove.Crate(name, False, [], [], way, way) for name, way in ways.items()]
    made.memory = memory
    return made


def begun(made: prove.Proving, cores: int) -> list[tuple[str, int, int]]:
    """The names, jobs and niceness of what is begun at once."""
    found: list[tuple[str, int, int]] = []

    def started(crate: prove.Crate, jobs: int, nice: int) -> mock.Mock:
        found.append((crate.name, jobs, nice))
        return mock.Mock(crate=crate, jobs=jobs)

    with mock.patch.object(prove, "started", started), mock.patch.object(prove, "cores", lambda: cores):
        made.begin()
    return found


class Sharing(unittest.TestCase):
    def test_the_longest_way_gets_all_cores(self) -> None:
        ways = {"short": 10.0, "near": 85.0, "longest": 100.0, "middle": 50.0, "last": 1.0}
        self.assertEqual(begun(proving(ways), 4), [("longest", 4, 0), ("near", 2, 0), ("middle", 1, 10), ("short", 1, 10)])
        self.assertEqual(begun(proving(ways), 2), [("longest", 2, 0), ("near", 1, 0)])

    def test_memory_takes_jobs(self) -> None:
        ways = {"longest": 100.0, "near": 90.0, "short": 1.0}
        self.assertEqual(begun(proving(ways, 10.0), 4), [("longest", 4, 0), ("near", 1, 0)])
        self.assertEqual(begun(proving(ways, 5.0), 4), [("longest", 2, 0)])

    def test_one_is_begun_with_little_memory(self) -> None:
        self.assertEqual(begun(proving({"longest": 100.0, "short": 1.0}, 0.5), 4), [("longest", 1, 0)])

    def test_what_stands_on_others_waits(self) -> None:
        made = proving({"low": 5.0, "high": 1.0})
        made.left[1].below = [made.left[0]]
        self.assertEqual(begun(made, 4), [("low", 4, 0)])


class Weighing(unittest.TestCase):
    def test_only_proofs_are_written(self) -> None:
        known = weights.Weights({"kif": {"proof": 1.0, "tests": 2.0, "edits": 3.0, "builds": 0.0}})
        with mock.patch.object(weights, "read", lambda: known), mock.patch.object(weights, "keep") as kept:
            prove.weigh({"kif": 9.0, "gdlsolve": 30.0})
        written = kept.call_args.args[0]
        self.assertEqual(written.crates["kif"], {"proof": 9.0, "tests": 2.0, "edits": 3.0, "builds": 0.0})
        self.assertEqual(written.of("gdlsolve", "proof"), 30.0)


if __name__ == "__main__":
    unittest.main()
