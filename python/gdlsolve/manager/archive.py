"""An archive of matches: a file of SQLite with games, players, matches and their turns.

A match is put in as one that waits, is marked when it is begun, and gets its turns and goals at once when it is over. So a process that is
killed leaves no half of a match, and one that was running is known.
"""

from __future__ import annotations

import fcntl
import hashlib
import sqlite3
from collections.abc import Callable, Iterable, Iterator, Sequence
from contextlib import contextmanager
from dataclasses import dataclass
from enum import Enum
from itertools import groupby
from operator import itemgetter
from pathlib import Path
from typing import Any
from urllib.parse import quote

from gdlsolve.manager.record import Record, name_of
from gdlsolve.manager.schedule import Pairing, Seats
from gdlsolve.solver.answers import State

# Tells a file that is an archive from other files of SQLite.
OWN = 0x67646C61
SCHEMA = f"""
PRAGMA application_id = {OWN};
CREATE TABLE games (id INTEGER PRIMARY KEY, name TEXT NOT NULL, sum TEXT NOT NULL UNIQUE, rules TEXT NOT NULL) STRICT;
CREATE TABLE players (name TEXT PRIMARY KEY, url TEXT NOT NULL) STRICT;
CREATE TABLE matches (
  id INTEGER PRIMARY KEY, game INTEGER NOT NULL REFERENCES games, round INTEGER NOT NULL, seed TEXT NOT NULL,
  state TEXT NOT NULL CHECK (state IN ('waiting', 'running', 'played', 'broken off')),
  name TEXT NOT NULL DEFAULT '', begun INTEGER NOT NULL DEFAULT 0,
  startClock REAL NOT NULL DEFAULT 0, playClock REAL NOT NULL DEFAULT 0, stands TEXT NOT NULL DEFAULT 'open') STRICT;
CREATE TABLE seats (
  match INTEGER NOT NULL REFERENCES matches, place INTEGER NOT NULL, role TEXT NOT NULL, player TEXT NOT NULL REFERENCES players,
  url TEXT NOT NULL DEFAULT '', unready TEXT NOT NULL DEFAULT '', goal INTEGER, PRIMARY KEY (match, place)) STRICT;
CREATE TABLE turns (
  match INTEGER NOT NULL REFERENCES matches, turn INTEGER NOT NULL, place INTEGER NOT NULL,
  move TEXT NOT NULL, error TEXT NOT NULL, seconds REAL NOT NULL, PRIMARY KEY (match, turn, place)) STRICT;
CREATE TABLE positions (
  match INTEGER NOT NULL REFERENCES matches, turn INTEGER NOT NULL, time INTEGER NOT NULL, holds TEXT NOT NULL,
  PRIMARY KEY (match, turn)) STRICT;
"""


class Stage(Enum):
    """How far a match is. One that is stuck, or not over after as many turns as may be, is broken off."""

    WAITING = "waiting"
    RUNNING = "running"
    PLAYED = "played"
    BROKEN_OFF = "broken off"

    @property
    def is_over(self) -> bool:
        """Whether it is not played again."""
        return self in (Stage.PLAYED, Stage.BROKEN_OFF)


@dataclass(frozen=True)
class Game:
    """A game: the name of its file, its rules, and its roles in their order."""

    name: str
    rules: str
    roles: tuple[str, ...]

    @property
    def sum(self) -> str:
        """What tells its rules from others."""
        return sum_of(self.rules)


@dataclass(frozen=True)
class Match:
    """A match that is not over: its number, what its moves at random come from, its record as yet without turns, and under which name
    the players at these addresses may still know it from before."""

    number: int
    seed: str
    record: Record
    last_name: str
    last_urls: tuple[str, ...]


@dataclass(frozen=True)
class Entry:
    """A match of the archive for a list: its number, game and stage, when it was begun in milliseconds since 1970, who took which role
    with which goal, and how many moves failed."""

    number: int
    game: str
    stage: Stage
    begun: int
    seats: tuple[tuple[str, str, int | None], ...]
    failed: int


def sum_of(rules: str) -> str:
    """The sum of a text of rules."""
    return hashlib.sha256(rules.encode()).hexdigest()


def first_of(count: int) -> Callable[[Any], Any]:
    """What gives the first parts of a row."""
    return itemgetter(slice(count))


@contextmanager
def alone(file: Path) -> Iterator[None]:
    """Holds that no other tournament, and no match server, writes to an archive. The mark goes with the process, however that ends."""
    with file.open("ab") as mark:
        try:
            fcntl.flock(mark, fcntl.LOCK_EX | fcntl.LOCK_NB)
        except BlockingIOError:
            raise ValueError(f"{file}: another tournament or a match server goes on over it") from None
        yield


def opened(file: Path, writes: bool, is_shared: bool) -> sqlite3.Connection:
    """The base in a file, which is made where there is none and it is to be written. One that is shared is asked by several threads, of
    which each waits for the others."""
    if not writes and not file.is_file():
        raise FileNotFoundError(2, "No such file or directory", str(file))
    # What a killed process has left half written is mended by who reads it next, so that one opens it for that too.
    place = f"file:{quote(str(file.absolute()))}?mode={'rwc' if writes else 'rw'}"
    base = sqlite3.connect(place, uri=True, check_same_thread=not is_shared)
    try:
        if writes and base.execute("SELECT count(*) FROM sqlite_master").fetchone()[0] == 0:
            base.executescript(f"BEGIN; {SCHEMA} COMMIT;")
        if base.execute("PRAGMA application_id").fetchone()[0] != OWN:
            raise ValueError(f"{file} is no archive of matches")
        base.execute("PRAGMA foreign_keys = ON")
    except sqlite3.DatabaseError as fault:
        base.close()
        raise ValueError(f"{file} is no archive of matches: {fault}") from None
    except BaseException:
        base.close()
        raise
    return base


class Archive:
    """The archive in a file. It is closed at the end of a `with`."""

    def __init__(self, file: Path, writes: bool = False, is_shared: bool = False):
        self.file, self.base = file, opened(file, writes, is_shared)

    def __enter__(self) -> Archive:
        return self

    def __exit__(self, *_: object) -> None:
        self.base.close()

    def rows(self, question: str, *values: object) -> list[Any]:
        """The rows that a question finds."""
        return self.base.execute(question, values).fetchall()

    def add(self, games: Sequence[Game], players: dict[str, str], pairings: Iterable[Pairing], seed: str) -> list[int]:
        """Puts in what is not there of games, players with their addresses, and matches. Gives the numbers of the matches, in order."""
        with self.base as base:
            keys = [self.key(game) for game in games]
            base.executemany("INSERT INTO players VALUES (?, ?) ON CONFLICT DO UPDATE SET url = excluded.url", players.items())
            there = self.pairings()
            return [self._number(there, games[each.game], keys[each.game], each, seed) for each in pairings]

    def key(self, game: Game) -> int:
        """The number of a game, which is put in where it is not there."""
        self.base.execute("INSERT OR IGNORE INTO games (name, sum, rules) VALUES (?, ?, ?)", (game.name, game.sum, game.rules))
        [(found,)] = self.rows("SELECT id FROM games WHERE sum = ?", game.sum)
        return int(found)

    def pairings(self) -> dict[tuple[int, int, Seats], int]:
        """The number of each match by its round, its game and who takes which role."""
        rows = self.rows("SELECT match, round, game, player FROM seats JOIN matches ON id = match ORDER BY match, place")
        return {(key[1], key[2], tuple(row[3] for row in each)): key[0] for key, each in groupby(rows, first_of(3))}

    def _number(self, there: dict[tuple[int, int, Seats], int], game: Game, key: int, pairing: Pairing, seed: str) -> int:
        """The number of a match, which is put in where it is not there."""
        known = there.get((pairing.round, key, pairing.seats))
        return self.put_in(game, key, pairing, seed) if known is None else known

    def put_in(self, game: Game, key: int, pairing: Pairing, seed: str) -> int:
        """Puts in a match of a game with this number, and gives the number of the match."""
        own = f"{seed}.{game.sum[:16]}.{pairing.round}.{' '.join(pairing.seats)}"
        [(made,)] = self.rows("INSERT INTO matches (game, round, seed, state) VALUES (?, ?, ?, 'waiting') RETURNING id", key, pairing.round, own)
        seats = [(made, place, role, player) for place, (role, player) in enumerate(zip(game.roles, pairing.seats))]
        self.base.executemany("INSERT INTO seats (match, place, role, player) VALUES (?, ?, ?, ?)", seats)
        return int(made)

    def stage(self, number: int) -> Stage:
        """How far a match is."""
        found = self.rows("SELECT state FROM matches WHERE id = ?", number)
        if not found:
            raise ValueError(f"{self.file} has no match {number}")
        return Stage(found[0][0])

    def stages(self) -> dict[Stage, int]:
        """How many matches are how far."""
        return {Stage(stage): count for stage, count in self.rows("SELECT state, count(*) FROM matches GROUP BY state ORDER BY state")}

    def begin(self, number: int, now: int, clocks: tuple[float, float]) -> Match:
        """Marks a match as one that is running, under a name that no player knows yet."""
        with self.base as base:
            [(seed, last, game)] = self.rows(
                "SELECT seed, matches.name, games.name FROM matches JOIN games ON game = games.id WHERE matches.id = ?", number
            )
            urls = self.rows("SELECT url FROM seats WHERE match = ? ORDER BY place", number)
            base.execute("UPDATE seats SET url = (SELECT url FROM players WHERE name = player) WHERE match = ?", (number,))
            base.execute(
                "UPDATE matches SET state = 'running', name = ?, begun = ?, startClock = ?, playClock = ? WHERE id = ?",
                (f"{name_of(Path(game).stem)}.{number}.{now}", now, *clocks, number),
            )
        return Match(number, seed, self._record(number), last, tuple(url for (url,) in urls))

    def give_back(self, number: int) -> None:
        """Has a match wait again."""
        with self.base as base:
            base.execute("UPDATE matches SET state = 'waiting' WHERE id = ?", (number,))

    def undo(self, match: Match) -> None:
        """Has a match wait again whose players were told nothing of it: under its last name they may know it still."""
        with self.base as base:
            base.execute("UPDATE matches SET state = 'waiting', name = ? WHERE id = ?", (match.last_name, match.number))
            urls = [(url, match.number, place) for place, url in enumerate(match.last_urls)]
            base.executemany("UPDATE seats SET url = ? WHERE match = ? AND place = ?", urls)

    def note(self, number: int, record: Record, unready: dict[str, str]) -> None:
        """Puts down a match that is over, and which roles had players that were not ready, and why."""
        with self.base:
            self.put_down(number, record, unready)

    def put_down(self, number: int, record: Record, unready: dict[str, str]) -> None:
        """The same, as a part of what is written at once."""
        stage = Stage.PLAYED if record.isCompleted else Stage.BROKEN_OFF
        goals = dict(zip(record.roles, record.goalValues))
        seats = [(unready.get(role, ""), goals.get(role), number, place) for place, role in enumerate(record.roles)]
        turns = [
            (number, turn, place, *each)
            for turn, lists in enumerate(zip(record.moves, record.errors, record.seconds))
            for place, each in enumerate(zip(*lists))
        ]
        positions = [(number, turn, *each) for turn, each in enumerate(zip(record.stateTimes, record.states))]
        self.base.execute("UPDATE matches SET state = ?, stands = ? WHERE id = ?", (stage.value, record.state, number))
        self.base.executemany("UPDATE seats SET unready = ?, goal = ? WHERE match = ? AND place = ?", seats)
        self.base.executemany("INSERT INTO turns VALUES (?, ?, ?, ?, ?, ?)", turns)
        self.base.executemany("INSERT INTO positions VALUES (?, ?, ?, ?)", positions)

    def played(self) -> list[int]:
        """The numbers of the matches that were played to their end, those of one game behind each other."""
        return [number for (number,) in self.rows("SELECT id FROM matches WHERE state = 'played' ORDER BY game, id")]

    def record(self, number: int) -> Record:
        """The record of a match that is over."""
        stage = self.stage(number)
        if not stage.is_over:
            raise ValueError(f"match {number} is {stage.value}")
        found = self._record(number)
        if self.rows("SELECT sum FROM games JOIN matches ON game = games.id WHERE matches.id = ?", number) != [(sum_of(found.rules),)]:
            raise ValueError(f"match {number} has rules that were changed")
        return found

    def unready(self, number: int) -> list[str]:
        """Why the player of each role was not ready, empty where it was."""
        return [why for (why,) in self.rows("SELECT unready FROM seats WHERE match = ? ORDER BY place", number)]

    def _record(self, number: int) -> Record:
        """The record of a match as far as it is there."""
        [told] = self.rows(
            "SELECT matches.name, games.name, rules, startClock, playClock, begun, state, stands FROM matches JOIN games ON game = games.id"
            " WHERE matches.id = ?", number,
        )
        name, game, rules, start, play, begun, state, stands = told
        roles, players, urls, goals = zip(*self.rows("SELECT role, player, url, goal FROM seats WHERE match = ? ORDER BY place", number))
        made = Record(name, game, rules, list(roles), list(urls), start, play, begun, playerNamesFromHost=list(players))
        rows = self.rows("SELECT turn, move, error, seconds FROM turns WHERE match = ? ORDER BY turn, place", number)
        for _, each in groupby(rows, first_of(1)):
            _, moves, errors, seconds = zip(*each)
            made.moves.append(list(moves))
            made.errors.append(list(errors))
            made.seconds.append(list(seconds))
        for time, holds in self.rows("SELECT time, holds FROM positions WHERE match = ? ORDER BY turn", number):
            made.stateTimes.append(time)
            made.states.append(holds)
        made.state, made.isCompleted = stands, stands == State.ENDED.value
        made.isAborted = state == Stage.BROKEN_OFF.value and stands == State.OPEN.value
        made.goalValues = [goal for goal in goals if goal is not None]
        return made

    def entries(self) -> list[Entry]:
        """All matches, for a list."""
        failed = dict(self.rows("SELECT match, count(*) FROM turns WHERE error <> '' GROUP BY match"))
        rows = self.rows(
            "SELECT match, games.name, state, begun, role, player, goal FROM seats JOIN matches ON matches.id = match"
            " JOIN games ON games.id = game ORDER BY match, place"
        )
        return [
            Entry(number, game, Stage(state), begun, tuple(row[4:] for row in each), failed.get(number, 0))
            for (number, game, state, begun), each in groupby(rows, first_of(4))
        ]
