"""The types of the package, its tests, and the scripts of bench/, tests/, tools/ and examples/, by mypy where it is there."""

import importlib.util
import os
import shutil
import subprocess
import tempfile
import unittest
from pathlib import Path

from tests import TOP

MYPY = shutil.which("mypy") or shutil.which("mypy", path="/usr/bin")

MISSING = [name for name in ("aiohttp", "httpx") if importlib.util.find_spec(name) is None]


def scripts(folder: Path) -> list[str]:
    """The Python files of a folder, also those without an ending."""
    found = []
    for file in sorted(folder.iterdir()):
        if file.is_file():
            with file.open("rb") as text:
                first = text.readline()
            if file.suffix == ".py" or (first.startswith(b"#!") and b"python" in first):
                found.append(str(file))
    return found


@unittest.skipUnless(MYPY, "types are not looked at: there is no mypy")
@unittest.skipIf(MISSING, f"types are not looked at: there is no {', '.join(MISSING)} (python3-..)")
class Types(unittest.TestCase):
    def test_all_of_python(self) -> None:
        own = [str(TOP / "python" / part) for part in ("gdlsolve", "tests", "tests/run", "setup.py")]
        others = [file for folder in ("examples", "bench", "tests", "tools", "tools/lint", "tools/tests") for file in scripts(TOP / folder)]
        with tempfile.TemporaryDirectory() as kept:
            words = [str(MYPY), "--strict", "--scripts-are-modules", "--cache-dir", kept, *own, *others]
            env = {**os.environ, "MYPYPATH": f"{TOP / 'python'}:{TOP / 'bench'}:{TOP / 'tests'}:{TOP / 'tools'}:{TOP / 'tools/tests'}"}
            done = subprocess.run(words, cwd=TOP, env=env, capture_output=True, text=True)
        self.assertEqual(done.returncode, 0, done.stdout + done.stderr)


if __name__ == "__main__":
    unittest.main()
