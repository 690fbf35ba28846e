"""What `./release` asks of the logs that it is given."""

from __future__ import annotations

import importlib.machinery
import importlib.util
import sys
import tarfile
import tempfile
import unittest
from pathlib import Path
from types import ModuleType
from unittest import mock

TOP = Path(__file__).resolve().parent.parent.parent
sys.dont_write_bytecode = True


def release_script() -> ModuleType:
    """The script as a module."""
    loader = importlib.machinery.SourceFileLoader("release", str(TOP / "release"))
    spec = importlib.util.spec_from_loader("release", loader)
    assert spec
    made = importlib.util.module_from_spec(spec)
    sys.modules["release"] = made
    loader.exec_module(made)
    return made


release = release_script()


class Refusals(unittest.TestCase):
    """What is asked of the log of wrong bodies, where each that stands in this tree was noted as refused."""

    def setUp(self) -> None:
        self.asked: list[tuple[object, ...]] = []
        self.wrote = ""
        patch = mock.patch.object(release, "told", self.told)
        patch.start()
        self.addCleanup(patch.stop)
        self.all = f"{len([*TOP.glob('crates/*/wrong/*.edit')])} refused, 0 failed"

    def told(self, *words: object) -> str:
        """Stands for a run of tools/wrong."""
        self.asked.append(words[1:])
        return self.wrote

    def refusals(self, text: str) -> str:
        """What a release tells of a log with this text."""
        with tempfile.TemporaryDirectory() as room:
            log = Path(room) / "log"
            log.write_text(text)
            said: str = release.refusals(log)
            return said

    def test_all_have_to_be_refused(self) -> None:
        self.assertIn(self.all, self.refusals(f"kif/takes_a_list_for_a_name: refused\n{self.all}\n"))
        self.assertEqual(self.asked, [("--compare",)])
        for text in ("", "1 refused, 0 failed\n", f"{self.all}\nkilled\n", self.all.replace("0 failed", "1 failed")):
            with self.subTest(text=text), self.assertRaises(release.Failure):
                self.refusals(text)

    def test_they_are_tried_where_there_is_no_log(self) -> None:
        with self.assertRaises(release.Failure):
            release.refusals(None)
        self.wrote = f"{self.all}\n"
        self.assertIn(self.all, release.refusals(None))
        self.assertEqual(self.asked, [("--all",), ("--all",), ("--compare",)])


class Archive(unittest.TestCase):
    """One archive of all that is in the folder of a release."""

    made = release.Origin("1.2.3", "0" * 40, 1_700_000_000, "Ann <ann@example.org>", "kit")

    def test_all_stands_in_one_folder_with_one_owner_and_one_time(self) -> None:
        with tempfile.TemporaryDirectory() as room:
            folder = Path(room) / "release"
            (folder / "games").mkdir(parents=True)
            (folder / "gdlsolve").write_text("a program")
            (folder / "gdlsolve").chmod(0o755)
            (folder / "games/a.kif").write_text("(role a)")
            release.settle(folder, self.made.seconds)
            first = release.archive(folder, self.made)
            bytes_of_first = first.read_bytes()
            self.assertEqual(first.name, "gdlsolve-1.2.3-amd64.tar.gz")
            self.assertEqual(release.archive(folder, self.made).read_bytes(), bytes_of_first)
            with tarfile.open(first) as packed:
                entries = packed.getmembers()
        names = ["gdlsolve-1.2.3", "gdlsolve-1.2.3/games", "gdlsolve-1.2.3/games/a.kif", "gdlsolve-1.2.3/gdlsolve"]
        self.assertEqual(sorted(entry.name for entry in entries), names)
        self.assertEqual({(entry.uid, entry.uname, entry.mtime) for entry in entries}, {(0, "root", 1_700_000_000)})
        self.assertEqual({entry.name: entry.mode for entry in entries}["gdlsolve-1.2.3/gdlsolve"], 0o755)


class Lacking(unittest.TestCase):
    """What is told before anything is proved."""

    def test_each_tool_is_named_with_its_package(self) -> None:
        with mock.patch.object(release.shutil, "which", lambda tool: None if tool in ("rt", "strip") else f"/bin/{tool}"):
            with mock.patch.object(release, "builder", lambda: ""):
                told = release.lacking()
        modules = "a Python with pip (python3-pip), setuptools (python3-setuptools), wheel (python3-wheel)"
        self.assertEqual(told, ["rt", "strip (binutils)", modules])

    def test_nothing_is_proved_where_something_is_lacking(self) -> None:
        with tempfile.TemporaryDirectory() as room, mock.patch.object(release, "lacking", lambda: ["cc (gcc)"]):
            with mock.patch.object(release, "prove") as proving, self.assertRaisesRegex(release.Failure, "no cc"):
                release.release(Path(room) / "release", None, None)
            proving.assert_not_called()


if __name__ == "__main__":
    unittest.main()
