"""What a server tells on standard error: lines of JSON, each of them whole."""

from __future__ import annotations

import json
import sys
import threading
from contextlib import suppress
from typing import Any

_one_at_a_time = threading.Lock()


def note(told: dict[str, Any]) -> None:
    """Writes a line at once, which no other mixes with. Where that is full or gone nothing is written, and all goes on."""
    line = f"{json.dumps(told)}\n"
    if sys.stderr is not None:
        with _one_at_a_time, suppress(OSError):
            sys.stderr.write(line)
            sys.stderr.flush()


def shown(text: str, most: int = 200) -> str:
    """The beginning of a text that a stranger wrote, as a terminal may show it: without codes that it would obey."""
    return "".join(letter if letter.isprintable() else "\N{REPLACEMENT CHARACTER}" for letter in text[:most])


def missing(fault: ModuleNotFoundError) -> str:
    """What people are told of a library that is not there."""
    return f"there is no {fault.name}: apt-get install python3-{fault.name}, or pip install {fault.name}\n"
