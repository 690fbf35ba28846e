"""Tests of the package: python3 -B -m unittest discover -s python/tests -t python

They run over whatever is there. The library is tested where c/build has built it; a program is the one that `GDLSOLVE_PROGRAM` names,
else the one that `rt ci` or `./gdlsolve --prove` has left. Where there is no library the program answers all, and what needs the library
is left out, which is told. `GDLSOLVE_LONG_TESTS=1` asks for more of some tests, and with `GDLSOLVE_NOTHING=1` neither has to be there.
"""
import os
import runpy
import subprocess
import sys
import unittest
from collections.abc import Sequence
from pathlib import Path

from gdlsolve.solver import library, program

TOP = Path(__file__).resolve().parent.parent.parent
GAMES = sorted((TOP / "games").glob("*.kif"))
# A game that no search comes to the end of within minutes: connect four on a large board.
ENDLESS = "connect_four_8x8"
ENDLESS_RULES = str(runpy.run_path(str(TOP / "bench/boards"))["description"](8, 8))
LONG_TESTS = os.environ.get("GDLSOLVE_LONG_TESTS") == "1"


def _program() -> list[str]:
    """The words that start a program, where there is one."""
    given = program.named()
    left = [TOP / "crates/gdlsolve/out/gdlsolve", TOP / "out/gdlsolve"]
    places = [Path(word) for word in given] if len(given) == 1 else left
    return [str(file.absolute()) for file in places if os.access(file, os.X_OK)][:1] or given


def _no_library() -> str:
    """Why there is no library; empty where there is one."""
    file = library.file()
    if file is None:
        return f"{library.NAME} is not built: c/build builds it"
    try:
        library.by_library(file, ["--version"], b"")
    except (OSError, AttributeError) as fault:
        return f"{file}: {fault}"
    return ""


PROGRAM = _program()
NO_LIBRARY = _no_library()
needs_library = unittest.skipIf(NO_LIBRARY, f"the library is not tested: {NO_LIBRARY}")
needs_program = unittest.skipUnless(PROGRAM, "there is no program beside the library")
if PROGRAM and (NO_LIBRARY or program.named()):
    os.environ[program.VARIABLE] = " ".join(PROGRAM)
if NO_LIBRARY and not PROGRAM and os.environ.get("GDLSOLVE_NOTHING") != "1":
    raise RuntimeError(f"there is nothing to test: no program, and {NO_LIBRARY}")


def known(**more: str) -> dict[str, str]:
    """The environment of a process that finds the package, and what answers here."""
    return {**os.environ, "PYTHONPATH": str(TOP / "python"), "PYTHONDONTWRITEBYTECODE": "1", **more}


def ran(words: Sequence[str], rules: bytes) -> tuple[int, bytes, bytes]:
    """What the program does: its exit status, its output, and what it says to people."""
    done = subprocess.run([*PROGRAM, *words], input=rules, capture_output=True, check=False)
    return done.returncode, done.stdout, done.stderr


def package(*words: object) -> list[str]:
    """The words that start a module of the package."""
    return [sys.executable, "-m", *map(str, words)]
