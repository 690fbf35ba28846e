"""The program that a worker asks.

It is the one that `GDLSOLVE_PROGRAM` names, or else the command of this package, whose sum is that
of its library.
"""

from __future__ import annotations

import hashlib
import shutil
import sys
from collections.abc import Callable, Sequence
from functools import lru_cache
from pathlib import Path

from gdlsolve.solver import program
from gdlsolve.solver.calls import answers
from gdlsolve.solver.program import VARIABLE, Ran, Stopped

__all__ = ["VARIABLE", "Ran", "Stopped", "digest", "run"]


@lru_cache(8)
def _sum(path: Path, changed: int, size: int) -> str:
    """The sum of a file. It is taken once for each time of change and size."""
    return hashlib.sha256(path.read_bytes()).hexdigest()


def _sum_of(path: Path) -> str:
    """The sum of a file as it is now."""
    known = path.stat()
    return _sum(path, known.st_mtime_ns, known.st_size)


def digest() -> str:
    """The SHA-256 of the program, or of the library where that answers. Of a command of several
    words it is that of the files among them, one behind the other."""
    found = answers()
    if isinstance(found, Path):
        return _sum_of(found)
    first = shutil.which(found[0])
    files = [Path(each) for each in (first, *found[1:]) if each and Path(each).is_file()]
    if not files:
        raise FileNotFoundError(2, "there is no such program", found[0])
    sums = [_sum_of(each) for each in files]
    return sums[0] if len(sums) == 1 else hashlib.sha256(" ".join(sums).encode()).hexdigest()


def run(words: Sequence[str], rules: bytes, stopped: Callable[[], bool] | None = None) -> Ran:
    """A run of the program in a child process, which ends with this one, or where it is stopped."""
    found = answers()
    command = [sys.executable, "-P", "-m", "gdlsolve"] if isinstance(found, Path) else found
    return program.run(command, words, rules, stopped, program.environment())
