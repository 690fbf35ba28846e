"""The messages of the protocol of general game playing, as texts: lists of names and lists.

What is read is in lower case and without comments, as the solver reads it; so are names of matches.
"""

from __future__ import annotations

import re
from dataclasses import dataclass

from gdlsolve.solver.terms import Malformed, terms, trees

# No message is longer: the solver takes no longer rules, and the other words are few.
MOST_BYTES = 2 << 20
# Words that some servers say for those of the protocol.
ALIASES = {"ping": "info", "replay": "play", "kill": "abort", "quit": "abort"}
# The words of a match, whose name stands behind them.
OF_MATCH = {"start", "play", "stop", "abort"}
PARTS = {"info": 0, "preview": 2, "start": 5, "play": 2, "stop": 2, "abort": 1}
# A longer clock is taken as this one, in seconds: a week.
LONGEST_CLOCK = 604_800.0
# The name of a match is no longer, as each line that is told of it begins with it.
LONGEST_NAME = 256


class Crowded(Exception):
    """There are too many messages at once."""


def tree(text: str) -> str:
    """The canonical text of the one tree of a text."""
    found = trees(text)
    if len(found) != 1:
        raise Malformed(f"{len(found)} trees, and not one")
    return found[0]


def parts_of(text: str) -> list[str]:
    """The parts of a list."""
    if not text.startswith("("):
        raise Malformed(f"no list: {text[:40]}")
    return terms(text[1:-1])


def clock(text: str) -> float:
    """A number of seconds."""
    if not re.fullmatch(r"[0-9]{1,9}(\.[0-9]{1,9})?", text):
        raise Malformed(f"no number of seconds: {text[:40]}")
    return min(float(text), LONGEST_CLOCK)


@dataclass(frozen=True)
class Message:
    """A message: its word, and the parts behind it."""

    word: str
    parts: tuple[str, ...]

    @classmethod
    def of(cls, text: str) -> Message:
        """The message that a text is."""
        whole = tree(text)
        words = parts_of(whole) if whole.startswith("(") else [whole]
        if not words:
            raise Malformed("an empty message")
        word, *parts = words
        word = ALIASES.get(word, word)
        if word not in PARTS:
            raise Malformed(f"no message begins with {word[:40]}")
        if len(parts) != PARTS[word]:
            raise Malformed(f"{word} has {PARTS[word]} parts, and not {len(parts)}")
        if word in OF_MATCH and len(parts[0]) > LONGEST_NAME:
            raise Malformed(f"the name of a match has at most {LONGEST_NAME} characters")
        return cls(word, tuple(parts))


def turn(text: str) -> tuple[str, ...] | None:
    """The moves of the last turn, or none before the first one."""
    return None if text in ("nil", "()") else tuple(parts_of(text))
