"""The archive of a match server: that of a tournament, with who has signed up, and which matches were replayed.

All threads of the server ask it, one after the other. Whatever belongs together is written at once.
"""

from __future__ import annotations

import hashlib
import hmac
import threading
from dataclasses import dataclass
from itertools import groupby
from pathlib import Path

from gdlsolve.manager.archive import Archive, Entry, Game, Match, Stage, first_of
from gdlsolve.manager.record import Record, now
from gdlsolve.manager.schedule import Pairing
from gdlsolve.manager.serve.fair import Meeting
from gdlsolve.manager.standings import Played

# The version of what stands in the archive beside a tournament's.
VERSION = 1
SCHEMA = f"""
BEGIN;
CREATE TABLE IF NOT EXISTS entrants (
  name TEXT PRIMARY KEY REFERENCES players, key TEXT NOT NULL, isHere INTEGER NOT NULL CHECK (isHere IN (0, 1)), since INTEGER NOT NULL) STRICT;
CREATE TABLE IF NOT EXISTS verdicts (match INTEGER PRIMARY KEY REFERENCES matches, fault TEXT NOT NULL, time INTEGER NOT NULL) STRICT;
PRAGMA user_version = {VERSION};
COMMIT;
"""
# So many names may be known: ratings of more take too long.
MOST_PLAYERS = 100
TAKEN = "This name is taken. Who has its token may sign up by it again."
SAME_ADDRESS = "Another player has this address. A player takes one role of a match."
CROWDED = "There are as many players as this server takes."


@dataclass(frozen=True)
class Listed:
    """A match for a list, with why it does not count: empty where it does, and none where it was not replayed yet."""

    entry: Entry
    fault: str | None


@dataclass(frozen=True)
class Waiting:
    """A match that waits: its number, its players and its game."""

    number: int
    meeting: Meeting


def sum_of_token(token: str) -> str:
    """What is kept of a token."""
    return hashlib.sha256(token.encode()).hexdigest()


class Store:
    """The archive in a file, which is made where there is none. It is closed at the end of a `with`."""

    def __init__(self, file: Path):
        self.lock = threading.RLock()
        self.archive = Archive(file, writes=True, is_shared=True)
        try:
            [(version,)] = self.archive.rows("PRAGMA user_version")
            if version > VERSION:
                raise ValueError(f"{file} was written by a later version")
            self.archive.base.executescript(SCHEMA)
        except BaseException:
            self.archive.base.close()
            raise

    def __enter__(self) -> Store:
        return self

    def __exit__(self, *_: object) -> None:
        with self.lock:
            self.archive.base.close()

    def here(self) -> dict[str, str]:
        """The players who are here, with their addresses."""
        with self.lock:
            return dict(self.archive.rows("SELECT name, url FROM entrants JOIN players USING (name) WHERE isHere ORDER BY name"))

    def knows(self, name: str) -> bool:
        """Whether there is or was a player of this name."""
        with self.lock:
            return bool(self.archive.rows("SELECT 1 FROM players WHERE name = ?", name))

    def holds(self, name: str, token: str) -> bool:
        """Whether a player was given this token."""
        with self.lock:
            found = self.archive.rows("SELECT key FROM entrants WHERE name = ?", name)
        return bool(found) and hmac.compare_digest(found[0][0], sum_of_token(token))

    def hindrance(self, name: str, url: str, token: str) -> str:
        """Why a player cannot be here; empty where it can."""
        with self.lock:
            is_known = self.knows(name)
            if is_known and not self.holds(name, token):
                return TAKEN
            if any(other != name and place == url for other, place in self.here().items()):
                return SAME_ADDRESS
            [(count,)] = self.archive.rows("SELECT count(*) FROM players")
            return CROWDED if not is_known and count >= MOST_PLAYERS else ""

    def sign_up(self, name: str, url: str, token: str) -> str:
        """Puts down that a player is here. One who was here before has to have this token. Gives why it cannot be, or nothing."""
        with self.lock, self.archive.base as base:
            why = self.hindrance(name, url, token)
            if not why:
                base.execute("INSERT INTO players VALUES (?, ?) ON CONFLICT DO UPDATE SET url = excluded.url", (name, url))
                base.execute(
                    "INSERT INTO entrants VALUES (?, ?, 1, ?) ON CONFLICT DO UPDATE SET isHere = 1, since = excluded.since",
                    (name, sum_of_token(token), now()),
                )
            return why

    def leave(self, name: str, token: str) -> bool:
        """Puts down that a player is not here any more. One who has no match is forgotten. Whether it had this token."""
        with self.lock, self.archive.base as base:
            if not self.holds(name, token):
                return False
            if self.archive.rows("SELECT 1 FROM seats WHERE player = ? LIMIT 1", name):
                base.execute("UPDATE entrants SET isHere = 0 WHERE name = ?", (name,))
            else:
                base.execute("DELETE FROM entrants WHERE name = ?", (name,))
                base.execute("DELETE FROM players WHERE name = ?", (name,))
            return True

    def go_on(self) -> None:
        """Has the matches wait that were running when the last server ended."""
        with self.lock, self.archive.base as base:
            base.execute("UPDATE matches SET state = ? WHERE state = ?", (Stage.WAITING.value, Stage.RUNNING.value))

    def past(self) -> list[Meeting]:
        """The matches so far, in the order in which they were begun."""
        with self.lock:
            rows = self.archive.rows(
                "SELECT matches.id, sum, player FROM seats JOIN matches ON matches.id = match JOIN games ON games.id = game"
                " ORDER BY begun, matches.id, place"
            )
        return [Meeting(key[1], tuple(row[2] for row in each)) for key, each in groupby(rows, first_of(2))]

    def waiting(self) -> list[Waiting]:
        """The matches that wait, in their order."""
        with self.lock:
            rows = self.archive.rows(
                "SELECT matches.id, sum, player FROM seats JOIN matches ON matches.id = match JOIN games ON games.id = game"
                " WHERE state = 'waiting' ORDER BY matches.id, place"
            )
        return [Waiting(key[0], Meeting(key[1], tuple(row[2] for row in each))) for key, each in groupby(rows, first_of(2))]

    def put_in(self, game: Game, meeting: Meeting, before: int, seed: str) -> int:
        """Puts in a match that was played so many times before, and gives its number."""
        with self.lock, self.archive.base:
            return self.archive.put_in(game, self.archive.key(game), Pairing(before, 0, meeting.seats), seed)

    def begin(self, number: int, clocks: tuple[float, float]) -> Match:
        """Marks a match as one that is running."""
        with self.lock:
            return self.archive.begin(number, now(), clocks)

    def give_back(self, number: int) -> None:
        """Has a match wait again."""
        with self.lock:
            self.archive.give_back(number)

    def undo(self, match: Match) -> None:
        """Has a match wait again whose players were told nothing of it."""
        with self.lock:
            self.archive.undo(match)

    def note(self, number: int, record: Record, unready: dict[str, str], fault: str | None) -> None:
        """Puts down a match that is over, and why it does not count: empty where it does, and none where nobody knows yet."""
        with self.lock, self.archive.base:
            self.archive.put_down(number, record, unready)
            if fault is not None:
                self._judge(number, fault)

    def judge(self, number: int, fault: str) -> None:
        """Puts down why a match does not count; empty where it does."""
        with self.lock, self.archive.base:
            self._judge(number, fault)

    def _judge(self, number: int, fault: str) -> None:
        """The same, as a part of what is written at once."""
        self.archive.base.execute("INSERT OR REPLACE INTO verdicts VALUES (?, ?, ?)", (number, fault, now()))

    def unjudged(self) -> list[int]:
        """The matches that were played and not replayed, those of one game behind each other."""
        with self.lock:
            rows = self.archive.rows("SELECT id FROM matches WHERE state = 'played' AND id NOT IN (SELECT match FROM verdicts) ORDER BY game, id")
        return [number for (number,) in rows]

    def record(self, number: int) -> Record:
        """The record of a match that is over."""
        with self.lock:
            return self.archive.record(number)

    def unready(self, number: int) -> list[str]:
        """Why the player of each role was not ready, empty where it was."""
        with self.lock:
            return self.archive.unready(number)

    def results(self) -> list[list[Played]]:
        """What came of the players of each match that counts."""
        with self.lock:
            rows = self.archive.rows(
                "SELECT seats.match, place, player, goal, unready FROM seats JOIN verdicts USING (match) JOIN matches ON matches.id = seats.match"
                " WHERE fault = '' AND state = 'played' ORDER BY seats.match, place"
            )
            wrong = self.archive.rows("SELECT match, place, error FROM turns WHERE error <> '' ORDER BY match, place, turn")
        errors = {key: [error for _, _, error in each] for key, each in groupby(wrong, first_of(2))}
        return [
            [Played(player, goal, errors.get((match, place), ()), unready) for match, place, player, goal, unready in each]
            for _, each in groupby(rows, first_of(1))
        ]

    def listed(self, before: int, most: int) -> list[Listed]:
        """So many matches that were begun, with lesser numbers than this one, the last first."""
        with self.lock:
            rows = self.archive.rows(
                "SELECT matches.id, games.name, state, begun, fault FROM matches JOIN games ON games.id = game"
                " LEFT JOIN verdicts ON match = matches.id WHERE state <> 'waiting' AND matches.id < ? ORDER BY matches.id DESC LIMIT ?",
                before, most,
            )
            return [self._listed(*row) for row in rows]

    def one(self, number: int) -> Listed | None:
        """A match that was begun, as it is listed."""
        return next((each for each in self.listed(number + 1, 1) if each.entry.number == number), None)

    def _listed(self, number: int, game: str, state: str, begun: int, fault: str | None) -> Listed:
        """A match for a list."""
        seats = tuple(self.archive.rows("SELECT role, player, goal FROM seats WHERE match = ? ORDER BY place", number))
        [(failed,)] = self.archive.rows("SELECT count(*) FROM turns WHERE match = ? AND error <> ''", number)
        return Listed(Entry(number, game, Stage(state), begun, seats, failed), fault)

    def played_of(self) -> dict[str, int]:
        """How many matches of each game were played to their end, by the sum of its rules."""
        with self.lock:
            return dict(self.archive.rows("SELECT sum, count(*) FROM matches JOIN games ON games.id = game WHERE state = 'played' GROUP BY sum"))
