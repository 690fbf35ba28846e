"""A tournament: each game of some is played by each choice of players, with the roles taken by turns, and an archive keeps all matches.

    python -P -m gdlsolve.manager.tournament GAME.. --player NAME=URL.. --archive FILE

Called again it goes on where it was. `--table`, `--matches` and `--record` tell what is in an archive.
"""

from __future__ import annotations

import argparse
import json
import secrets
import sqlite3
import sys
import threading
from collections.abc import Sequence
from concurrent.futures import FIRST_COMPLETED, Future, wait
from dataclasses import asdict
from datetime import datetime, timezone
from functools import partial
from importlib import import_module
from pathlib import Path

import gdlsolve
from gdlsolve.console import keys
from gdlsolve.console.streams import put, say
from gdlsolve.manager.archive import Archive, Entry, Match, alone
from gdlsolve.manager.client import checked
from gdlsolve.manager.command import FAULTS, add_clocks, check_clocks, hear_signals, line_of
from gdlsolve.manager.leading import forget, lead, outcome, read
from gdlsolve.manager.record import name_of, now
from gdlsolve.manager.referee import BEAT, FAREWELL, RANDOM, Referee
from gdlsolve.manager.schedule import schedule
from gdlsolve.manager.standings import Judge, standings
from gdlsolve.player.background import begun


class Tournament:
    """Leads matches of an archive, some at once, and notes each when it is over. The archive is asked by this thread alone."""

    def __init__(self, archive: Archive, judge: Judge, given: argparse.Namespace):
        self.archive, self.judge, self.given = archive, judge, given
        self.stopped = threading.Event()
        self.going: dict[Future[Referee], int] = {}
        self.failed = 0

    def led(self, match: Match) -> Referee:
        """Leads a match to its end."""
        forget(match)
        return lead(match, self.given.slack, self.given.turns, self.stopped)

    def begin(self, number: int) -> None:
        """Begins a match."""
        match = self.archive.begin(number, now(), (self.given.start, self.given.play))
        self.going[begun(partial(self.led, match))] = number

    def note(self, number: int, found: Future[Referee]) -> str:
        """Puts down what came of a match, and tells it."""
        fault = found.exception()
        if isinstance(fault, Exception):
            self.failed += 1
            self.archive.give_back(number)
            return f"match {number} could not be played: {line_of(fault, 'its rules').strip()}"
        referee = found.result()
        self.archive.note(number, referee.record, referee.failed)
        wrong = self.judge.fault(referee.record)
        return outcome(number, referee.record, referee.failed) + (f"; it does not count: {wrong}" if wrong else "")

    def play(self, numbers: Sequence[int]) -> None:
        """Plays these matches. Where it is ended before, those that go on are ended at their players."""
        waiting, done = iter(numbers), 0
        try:
            while True:
                while len(self.going) < self.given.at_once and (number := next(waiting, None)) is not None:
                    self.begin(number)
                if not self.going:
                    return
                for found in wait(self.going, BEAT, FIRST_COMPLETED).done:
                    done += 1
                    say(f"{done} of {len(numbers)}: {self.note(self.going[found], found)}\n")
                    del self.going[found]
        finally:
            self.stopped.set()
            wait(self.going, FAREWELL + 2 * BEAT)


def played(given: argparse.Namespace) -> int:
    """Plays what is not played yet, and tells the table. The exit status."""
    if any(url != RANDOM for url in given.player.values()):
        # Where it is not there that is told before a match is begun.
        import_module("httpx")
    games = list({game.sum: game for game in map(read, given.games)}.values())
    for game in games:
        if len(game.roles) > len(given.player):
            raise ValueError(f"{game.name} has {len(game.roles)} roles, and there are {len(given.player)} players: name further ones, as r2=random")
    pairings = schedule(sorted(given.player), [len(game.roles) for game in games], given.rounds)
    with alone(given.archive), Archive(given.archive, writes=True) as archive, Judge() as judge:
        numbers = archive.add(games, given.player, pairings, given.seed or secrets.token_hex(8))
        tournament = Tournament(archive, judge, given)
        tournament.play([number for number in numbers if not archive.stage(number).is_over])
        tell_table(archive, judge)
    return 1 if tournament.failed else 0


def tell_table(archive: Archive, judge: Judge) -> None:
    """Tells the table of all matches that count, and what does not count."""
    found, faults = standings(archive, judge, archive.played())
    counts = ", ".join(f"{count} {stage.value}" for stage, count in archive.stages().items())
    put(f"{found.table()}matches: {counts or 'none'}\n".encode())
    say("".join(f"{fault}\n" for fault in faults))


def line(entry: Entry) -> str:
    """A match in a line."""
    date = datetime.fromtimestamp(entry.begun / 1000, timezone.utc).strftime("%Y-%m-%d %H:%M:%S") if entry.begun else "-"
    seats = ", ".join(f"{player} as {role} {'-' if goal is None else goal}" for role, player, goal in entry.seats)
    return f"{entry.number}  {date}  {entry.game}  {entry.stage.value}  {seats}" + (f"; {entry.failed} failed moves" if entry.failed else "")


def told(given: argparse.Namespace) -> int:
    """Tells what an archive has. The exit status."""
    with Archive(given.archive) as archive, Judge() as judge:
        if given.record is not None:
            put(f"{json.dumps(asdict(archive.record(given.record)), indent=1)}\n".encode())
        elif given.matches:
            put("".join(f"{line(entry)}\n" for entry in archive.entries()).encode())
        else:
            tell_table(archive, judge)
    return 0


def player(text: str) -> tuple[str, str]:
    """The name of a player and its address."""
    name, is_there, url = text.partition("=")
    if not (name and is_there) or name != name_of(name):
        raise argparse.ArgumentTypeError(f"{text} is no NAME=URL with a name of letters, digits, and the signs _ . + -")
    try:
        return name, url if url == RANDOM else checked(url)
    except ValueError as fault:
        raise argparse.ArgumentTypeError(str(fault)) from None


def words() -> argparse.ArgumentParser:
    """What the command line knows."""
    own = keys.name("gdlsolve-tournament", "gdlsolve.manager.tournament")
    known = argparse.ArgumentParser(prog=own, description="Has players meet in games, and rates them.")
    known.add_argument("--version", action="version", version=f"gdlsolve {gdlsolve.__version__}")
    known.add_argument("games", type=Path, nargs="*", metavar="GAME", help="the rules of a game")
    known.add_argument("--archive", type=Path, required=True, metavar="FILE", help="where all matches are kept")
    known.add_argument("--player", type=player, action="append", default=[], metavar="NAME=URL", help="a player: a URL or random")
    known.add_argument("--rounds", type=int, default=1, help="each choice of players meets so often")
    add_clocks(known)
    known.add_argument("--at-once", type=int, default=1, metavar="N", help="so many matches at once")
    known.add_argument("--seed", help="what moves at random come from")
    told = known.add_mutually_exclusive_group()
    told.add_argument("--table", action="store_true", help="tell the table of the archive alone")
    told.add_argument("--matches", action="store_true", help="tell the matches of the archive alone")
    told.add_argument("--record", type=int, metavar="ID", help="tell the record of a match of the archive alone")
    return known


def options(given: Sequence[str] | None) -> argparse.Namespace:
    """What the command line asks for."""
    known = words()
    found = known.parse_args(given)
    found.tells = found.table or found.matches or found.record is not None
    if found.tells == bool(found.games or found.player):
        known.error("either games and players, or one of --table, --matches and --record")
    if not found.tells and not (found.games and found.player):
        known.error("a tournament has games and players")
    urls = [url for _, url in found.player if url != RANDOM]
    if len(dict(found.player)) < len(found.player) or len(set(urls)) < len(urls):
        known.error("two players have one name, or one address: a player takes one role of a match")
    found.player = dict(found.player)
    check_clocks(known, found)
    if found.turns < 0 or found.rounds < 1 or found.at_once < 1:
        known.error("--turns is a number from 0 on, --rounds and --at-once from 1 on")
    return found


@keys.quiet
def main(words: Sequence[str] | None = None) -> int:
    """The command `gdlsolve-tournament`."""
    given = options(words)
    hear_signals()
    try:
        return told(given) if given.tells else played(given)
    except sqlite3.Error as fault:
        say(f"{given.archive}: {fault}\n")
    except FAULTS as fault:
        say(line_of(fault, given.archive))
    return 1


if __name__ == "__main__":
    sys.exit(main())
