"""The package as pip builds and installs it: what is inside, and the commands that it brings."""

import os
import shutil
import subprocess
import sys
import tempfile
import unittest
import zipfile
from collections.abc import Sequence
from pathlib import Path

import gdlsolve
from tests import PROGRAM, TOP

COMMANDS = ("gdlsolve", "gdlsolve-cluster", "gdlsolve-manager", "gdlsolve-page", "gdlsolve-player", "gdlsolve-tournament")
NEEDED = ("pip", "setuptools", "wheel")
LIBRARY = TOP / "c/out/libgdlsolve.so"


def builder() -> str | None:
    """A Python that can build a wheel without a network, where there is one."""
    seek = f"import importlib.util as u, sys; sys.exit(not all(map(u.find_spec, {NEEDED!r})))"
    for python in dict.fromkeys([sys.executable, "/usr/bin/python3"]):
        if Path(python).exists() and not subprocess.run([python, "-c", seek], check=False).returncode:
            return python
    return None


def why_not() -> str:
    """Why no wheel is built; empty where one is."""
    if builder() is None:
        return f"no Python has {', '.join(NEEDED)}"
    if LIBRARY.exists() and subprocess.run([TOP / "c/build", "--fresh"], capture_output=True, check=False).returncode:
        return f"{LIBRARY} is older than what it is made of"
    return ""


class Wheel(unittest.TestCase):
    python: str
    room: Path
    file: Path

    @classmethod
    def setUpClass(cls) -> None:
        why = why_not()
        if why:
            raise unittest.SkipTest(f"no wheel is built: {why}")
        cls.python = str(builder())
        room = tempfile.TemporaryDirectory()
        cls.addClassCleanup(room.cleanup)
        cls.room = Path(room.name)
        # A copy, so that nothing is left beside the sources.
        shutil.copytree(TOP / "python", cls.room / "python", ignore=shutil.ignore_patterns("__pycache__", "build", "*.egg-info"))
        for name in ("c", "LICENSE-APACHE", "LICENSE-MIT", "COPYRIGHT"):
            (cls.room / name).symlink_to(TOP / name)
        cls.pip("wheel", "--wheel-dir", str(cls.room), str(cls.room / "python"))
        [cls.file] = cls.room.glob("*.whl")

    @classmethod
    def pip(cls, what: str, *words: str) -> None:
        """Runs pip, which fetches nothing."""
        own = ["--quiet", "--no-deps", "--no-index"] + (["--no-build-isolation"] if what == "wheel" else [])
        done = subprocess.run([cls.python, "-m", "pip", what, *own, *words], capture_output=True, text=True, check=False)
        if done.returncode:
            raise AssertionError(done.stdout + done.stderr)

    def ran(self, words: Sequence[str], folder: Path) -> str:
        """What a command of the installed package writes."""
        known = {**os.environ, "PYTHONPATH": str(folder)}
        if PROGRAM:
            known["GDLSOLVE_PROGRAM"] = " ".join(PROGRAM)
        done = subprocess.run(words, env=known, cwd=self.room, capture_output=True, text=True, check=False)
        self.assertEqual(done.returncode, 0, done.stderr)
        return done.stdout

    def test_all_is_inside(self) -> None:
        with zipfile.ZipFile(self.file) as packed:
            names = set(packed.namelist())
            metadata = packed.read(f"gdlsolve-{gdlsolve.__version__}.dist-info/METADATA").decode()
        package = TOP / "python/gdlsolve"
        sources = {str(file.relative_to(package.parent)) for file in package.rglob("*.py")}
        pages = {f"gdlsolve/page/{name}" for name in ("page.html", "page.css", "icon.svg")}
        pages.add("gdlsolve/manager/serve/match.css")
        scripts = {str(file.relative_to(package.parent)) for file in package.rglob("*.js")}
        self.assertIn("gdlsolve/page/scripts/page.js", scripts)
        self.assertLessEqual(sources | pages | scripts | {"gdlsolve/py.typed"}, names)
        self.assertEqual("gdlsolve/libgdlsolve.so" in names, LIBRARY.exists())
        for line in (f"Version: {gdlsolve.__version__}", "License: Apache-2.0 OR MIT", "Requires-Python: >=3.11", "Classifier: Typing :: Typed"):
            self.assertIn(line, metadata)

    def test_each_command_starts(self) -> None:
        folder = self.room / "installed"
        self.pip("install", "--target", str(folder), str(self.file))
        self.assertEqual({file.name for file in (folder / "bin").iterdir()}, set(COMMANDS))
        for name in COMMANDS:
            self.assertIn("gdlsolve", self.ran([self.python, str(folder / "bin" / name), "--help"], folder))
        rules = str(TOP / "games/nim.kif")
        told = self.ran([self.python, str(folder / "bin/gdlsolve"), "solve", "--role", "first", "--depth", "7", rules], folder)
        self.assertTrue(told.startswith("value 100\n"), told)


if __name__ == "__main__":
    unittest.main()
