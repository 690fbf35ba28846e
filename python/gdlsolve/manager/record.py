"""The record of a match, as JSON."""

from __future__ import annotations

import json
import math
import re
import time
from dataclasses import asdict, dataclass, field
from pathlib import Path

from gdlsolve.solver.answers import State


def is_of(value: object, kind: str) -> bool:
    """Whether a value is of the kind that a field of a record is declared with. A number of seconds is at least 0, and finite."""
    if kind.startswith("list["):
        return isinstance(value, list) and all(is_of(each, kind[len("list[") : -1]) for each in value)
    if kind == "float":
        return isinstance(value, (int, float)) and not isinstance(value, bool) and 0 <= value < math.inf
    return type(value).__name__ == kind


@dataclass
class Record:
    """A match as JSON tells it, with the names that the repository of GGP matches has for them. Errors are texts, empty where the role's
    own move was played. Each state is the text of what holds there, and there is one more than turns; times are milliseconds."""

    matchId: str
    game: str
    rules: str
    roles: list[str]
    players: list[str]
    startClock: float
    playClock: float
    startTime: int
    moves: list[list[str]] = field(default_factory=list)
    errors: list[list[str]] = field(default_factory=list)
    seconds: list[list[float]] = field(default_factory=list)
    states: list[str] = field(default_factory=list)
    stateTimes: list[int] = field(default_factory=list)
    playerNamesFromHost: list[str] = field(default_factory=list)
    isCompleted: bool = False
    isAborted: bool = False
    state: str = State.OPEN.value
    goalValues: list[int] = field(default_factory=list)

    def write(self, file: Path | None) -> None:
        """Puts the record in place of the last one, whole or not at all."""
        if file is not None:
            new = file.with_name(file.name + ".new")
            new.write_text(json.dumps(asdict(self), indent=1) + "\n")
            new.replace(file)

    @classmethod
    def read(cls, file: Path) -> Record:
        """The record in a file."""
        try:
            told = json.loads(file.read_text())
            found = cls(**{name: told[name] for name in cls.__dataclass_fields__ if name in told})
        except (KeyError, TypeError, ValueError, RecursionError) as fault:
            raise ValueError(f"{file} is no record of a match: {fault!r}") from None
        for name, each in cls.__dataclass_fields__.items():
            if not is_of(getattr(found, name), str(each.type)):
                raise ValueError(f"{file} is no record of a match: {name} has something else than {each.type}")
        lengths = {len(found.moves), len(found.errors), len(found.seconds)}
        if len(lengths) != 1 or len(found.players) != len(found.roles):
            raise ValueError(f"{file} is no record of a match: its lists differ in length")
        return found


def name_of(text: str) -> str:
    """A text as one name: with a space or a bracket in it messages would be others."""
    return re.sub(r"[^A-Za-z0-9_.+-]", "_", text)


def now() -> int:
    """Milliseconds since 1970."""
    return time.time_ns() // 1_000_000
