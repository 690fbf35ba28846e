"""Where matches go on: it begins them one after the other, replays each that is over, and has the ratings ready.

One thread does all of this. A match is led in a thread of its own.
"""

from __future__ import annotations

import threading
import time
from collections.abc import Sequence
from concurrent.futures import FIRST_COMPLETED, Future, wait
from dataclasses import dataclass
from functools import partial
from typing import Any

from gdlsolve.console.notes import shown
from gdlsolve.console.streams import say
from gdlsolve.manager.archive import Game, Match
from gdlsolve.manager.command import line_of
from gdlsolve.manager.leading import forget, lead, outcome
from gdlsolve.manager.record import Record
from gdlsolve.manager.referee import BEAT, FAREWELL, RANDOM, Referee
from gdlsolve.manager.serve.entry import is_free
from gdlsolve.manager.serve.fair import Meeting, Past, Slot, chosen
from gdlsolve.manager.serve.store import Store, Waiting
from gdlsolve.manager.standings import Judge, Rank, Standings
from gdlsolve.player.background import begun
from gdlsolve.solver.engine import Broken
from gdlsolve.solver.faults import Ended

# A player that does not answer, or is busy, is asked again after so many seconds, and a game that could not be played is left alone for so long.
REST = 30.0
# A line that is told is cut behind so many letters.
LONGEST_LINE = 1000


class Absent(Exception):
    """Players of a match do not answer, or are busy. They were told nothing of it."""

    def __init__(self, match: Match, names: Sequence[str]):
        super().__init__(f"not available: {', '.join(names)}")
        self.match, self.names = match, names


@dataclass(frozen=True)
class Terms:
    """How matches are played: the clocks, for how long beyond them an answer counts, and so many turns; how many at once, and what moves at
    random come from."""

    start: float
    play: float
    slack: float
    turns: int
    at_once: int
    seed: str


@dataclass(frozen=True)
class View:
    """What the pages tell of it: the ratings, and who does not answer or is busy."""

    ranks: Sequence[Rank] = ()
    absent: frozenset[str] = frozenset()


class Hall:
    """Leads matches between the players who are here, until it is stopped."""

    def __init__(self, store: Store, judge: Judge, games: Sequence[Game], terms: Terms):
        self.store, self.judge, self.games, self.terms = store, judge, {game.sum: game for game in games}, terms
        self.stopped = threading.Event()
        self.going: dict[Future[Referee], Waiting] = {}
        # Who is asked whether it is free again, and from when on whom and which games are tried again.
        self.asked: dict[Future[bool], str] = {}
        self.rests: dict[str, float] = {}
        self.absent: dict[str, float] = {}
        self.past, self.standings = Past(), Standings()
        self.ranks: Sequence[Rank] = ()
        self.view = View()

    def run(self) -> None:
        """Goes on where the last server was, until it is stopped. Then matches are ended at their players."""
        try:
            self.take_up()
            while not self.stopped.is_set():
                self.begin_some()
                self.hear()
        finally:
            self.stopped.set()
            wait(self.going, FAREWELL + 2 * BEAT)

    def take_up(self) -> None:
        """Takes up what is in the archive. What was played and not replayed, as a tournament leaves it, is replayed now."""
        self.store.go_on()
        self.past = Past(self.store.past())
        for number in self.store.unjudged():
            if self.stopped.is_set():
                return
            self.take_in(number)
        for each in self.store.results():
            self.standings.count(each)
        self.ranks = self.standings.ranks()
        self.show()

    def take_in(self, number: int) -> None:
        """Replays a match of the archive, and puts down whether it counts."""
        try:
            fault = self.replayed(self.store.record(number))
        except ValueError as changed:
            fault = str(changed)
        if fault is not None:
            self.store.judge(number, fault)

    def show(self) -> None:
        """Has the pages tell what has changed."""
        self.view = View(self.ranks, frozenset(self.absent))

    def free(self) -> set[str]:
        """The players who are here, have answered, and are in no match."""
        busy = {name for each in self.going.values() for name in each.meeting.seats}
        return self.store.here().keys() - busy - self.absent.keys()

    def next(self) -> Waiting | None:
        """The next match: one that waits, where all of its players are free, or else a new one."""
        free, now = self.free(), time.monotonic()
        self.rests = {game: until for game, until in self.rests.items() if until > now}
        for each in self.store.waiting():
            if free.issuperset(each.meeting.seats) and each.meeting.game not in self.rests:
                return each
        slots = [Slot(game.sum, len(game.roles)) for game in self.games.values() if game.sum not in self.rests]
        meeting = chosen(sorted(free), slots, self.past)
        return None if meeting is None else Waiting(self.put_in(meeting), meeting)

    def put_in(self, meeting: Meeting) -> int:
        """Puts a new match into the archive."""
        before = self.past.often[meeting]
        self.past.add(meeting)
        return self.store.put_in(self.games[meeting.game], meeting, before, self.terms.seed)

    def begin_some(self) -> None:
        """Begins as many matches as may go on, and asks whom nobody has heard of for long."""
        while len(self.going) < self.terms.at_once and (each := self.next()) is not None:
            match = self.store.begin(each.number, (self.terms.start, self.terms.play))
            self.going[begun(partial(self.led, match))] = each
        here, now = self.store.here(), time.monotonic()
        for name, until in list(self.absent.items()):
            if name not in here:
                del self.absent[name]
            elif until <= now and name not in self.asked.values():
                self.asked[begun(partial(is_free, here[name]))] = name

    def led(self, match: Match) -> Referee:
        """Leads a match, once all of its players are free. One that knows it from before may be busy with it."""
        forget(match)
        both = zip(match.record.playerNamesFromHost, match.record.players)
        asked = {name: begun(partial(is_free, url)) for name, url in both if url != RANDOM}
        if silent := [name for name, found in asked.items() if not found.result()]:
            raise Absent(match, silent)
        return lead(match, self.terms.slack, self.terms.turns, self.stopped)

    def hear(self) -> None:
        """Waits a little for what comes to its end, and puts it down."""
        if not (self.going or self.asked):
            self.stopped.wait(BEAT)
            return
        waited: list[Future[Any]] = [*self.going, *self.asked]
        done = wait(waited, BEAT, FIRST_COMPLETED).done
        for answered in [each for each in self.asked if each in done]:
            self.answered(self.asked.pop(answered), answered)
        for over in [each for each in self.going if each in done]:
            self.note(self.going.pop(over), over)
        if done:
            self.show()

    def answered(self, name: str, found: Future[bool]) -> None:
        """Puts down whether a player is free again."""
        if found.exception() is None and found.result():
            self.absent.pop(name, None)
        else:
            self.absent[name] = time.monotonic() + REST

    def note(self, each: Waiting, found: Future[Referee]) -> None:
        """Puts down what came of a match, and tells it."""
        fault, until = found.exception(), time.monotonic() + REST
        if fault is None:
            referee = found.result()
            self.count(each.number, referee.record, referee.failed)
            return
        if not isinstance(fault, Exception):
            raise fault
        if isinstance(fault, Absent):
            self.store.undo(fault.match)
            self.absent.update(dict.fromkeys(fault.names, until))
        else:
            self.store.give_back(each.number)
            self.rests[each.meeting.game] = until
        self.tell(f"match {each.number} could not be played: {line_of(fault, 'its rules')}")

    def count(self, number: int, record: Record, unready: dict[str, str]) -> None:
        """Puts down a match that is over, and counts it where it was played to its end and is replayed."""
        fault = self.replayed(record) if record.isCompleted else None
        self.store.note(number, record, unready, fault)
        if fault == "":
            self.standings.add(record, [unready.get(role, "") for role in record.roles])
            self.ranks = self.standings.ranks()
        self.tell(outcome(number, record, unready) + (f"; it does not count: {fault}" if fault else ""))

    def replayed(self, record: Record) -> str | None:
        """Why a match does not count; empty where it does, and none where the solver does not tell."""
        try:
            return self.judge.fault(record)
        except (Broken, Ended, OSError, MemoryError) as fault:
            self.tell(f"{record.matchId} was not replayed: {fault}")
            return None

    def tell(self, text: str) -> None:
        """Writes a line for whoever started the server."""
        say(f"{shown(text.strip(), LONGEST_LINE)}\n")
