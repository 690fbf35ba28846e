"""A file of what was found, so that a run that ended early goes on where it was.

Each line is JSON: a sum, the key of a state, and what is known of it. A line that is not whole, or
whose sum is another, is passed over.
"""

from __future__ import annotations

import hashlib
import json
from dataclasses import dataclass
from pathlib import Path

from gdlsolve.cluster.tree import GREATEST, LEAST


@dataclass
class Known:
    """What is known of a state: the bounds of its value, the lines behind the value, and whether
    its moves were looked at."""

    low: int = LEAST
    high: int = GREATEST
    told: tuple[str, ...] | None = None
    split: bool = False

    def add(self, further: Known) -> None:
        """Takes in what else is known."""
        self.low, self.high = max(self.low, further.low), min(self.high, further.high)
        self.told = self.told or further.told
        self.split = self.split or further.split


def key_of(parts: tuple[str, ...]) -> str:
    """The key of a state: a sum over the program, the rules, the options and the history."""
    return hashlib.sha256(json.dumps(parts).encode()).hexdigest()


def _sum(body: str) -> str:
    """The sum of a line."""
    return hashlib.sha256(body.encode()).hexdigest()[:16]


def _read(line: str) -> tuple[str, Known] | None:
    """What a line says, where it is one of a journal."""
    found, _, body = line.partition(" ")
    if found != _sum(body):
        return None
    key, low, high, told, split = json.loads(body)
    return key, Known(low, high, None if told is None else tuple(told), split)


class Journal:
    """The file, or without a name none: then nothing is known, and nothing is kept."""

    def __init__(self, path: Path | None):
        self._path = path
        self._known: dict[str, Known] = {}
        if path is not None:
            # One that cannot be written is told now, and not behind the first answer, which may take long.
            path.open("a").close()
            for line in path.read_text(errors="replace").splitlines():
                found = _read(line)
                if found is not None:
                    self._known.setdefault(found[0], Known()).add(found[1])

    def known(self, key: str) -> Known | None:
        """What is known of a state."""
        return self._known.get(key)

    def note(self, key: str, found: Known) -> None:
        """Adds a line. It begins with a line feed, so that one that was cut off does no harm."""
        if self._path is None:
            return
        told = None if found.told is None else list(found.told)
        body = json.dumps([key, found.low, found.high, told, found.split])
        with self._path.open("a") as book:
            book.write(f"\n{_sum(body)} {body}\n")
