"""The matches of an archive, where the page has one: a list of them, and the record of one."""

from __future__ import annotations

import json
import sqlite3
from dataclasses import asdict
from pathlib import Path
from typing import Any

from gdlsolve.manager.archive import Archive, Entry

# So many are listed, those that were begun last.
MOST = 500


def _told(entry: Entry) -> dict[str, Any]:
    """A match as what JSON can tell."""
    seats = [{"role": role, "player": player, "goal": goal} for role, player, goal in entry.seats]
    return {"number": entry.number, "game": entry.game, "begun": entry.begun, "seats": seats, "failed": entry.failed}


class Matches:
    """The archive in a file, or none. It is opened for each question, as a tournament may go on over it."""

    def __init__(self, file: Path | None) -> None:
        self.file = file

    def _archive(self) -> Archive:
        """The archive."""
        if self.file is None:
            raise ValueError("This page has no archive.")
        return Archive(self.file)

    def all(self) -> dict[str, Any]:
        """The matches that are over, the last first."""
        if self.file is None:
            return {"matches": []}
        try:
            with self._archive() as archive:
                over = [entry for entry in archive.entries() if entry.stage.is_over]
        except sqlite3.Error as fault:
            raise ValueError(f"The archive cannot be read: {fault}.") from None
        return {"matches": [_told(entry) for entry in sorted(over, key=lambda each: -each.begun)[:MOST]]}

    def one(self, told: dict[str, Any]) -> dict[str, Any]:
        """The record of a match, as a text."""
        number = told.get("match")
        if not isinstance(number, int) or not 0 < number < 1 << 53:
            raise ValueError("The match is a number from 1 on.")
        try:
            with self._archive() as archive:
                return {"text": json.dumps(asdict(archive.record(number)), indent=1)}
        except sqlite3.Error as fault:
            raise ValueError(f"The archive cannot be read: {fault}.") from None
