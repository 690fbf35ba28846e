"""A referee, who leads a match for players over HTTP.

Each player has the start clock to get ready, and the play clock for each move. For one that fails,
and for a role that is `random`, a legal move is chosen at random. The record of the match is JSON;
it is written behind each turn, and a match that was broken off goes on from it.
"""

from __future__ import annotations

import random
import threading
from collections.abc import Callable, Sequence
from concurrent.futures import Future, wait
from contextlib import suppress
from functools import partial
from pathlib import Path

import gdlsolve
from gdlsolve.console.notes import shown
from gdlsolve.manager.client import NOTHING, Told, post
from gdlsolve.manager.record import Record, now
from gdlsolve.player.background import begun
from gdlsolve.player.messages import tree
from gdlsolve.solver import unrolled
from gdlsolve.solver.answers import Position, State
from gdlsolve.solver.calls import answer
from gdlsolve.solver.engine import readable
from gdlsolve.solver.history import Turn, history_text
from gdlsolve.solver.terms import Malformed, trees

RANDOM = "random"
# For so many seconds a wait lasts at most, before it is begun again.
BEAT = 0.5
# So long a player may take for what ends a match, in seconds.
FAREWELL = 5.0


class Stopped(Exception):
    """The match was given up by who has it led."""


def told_by(found: Future[Told], stopped: threading.Event) -> Told:
    """What was told, once it is, or `Stopped`. A key that is struck just before a wait begins is seen at its end, so none is long."""
    while not stopped.is_set():
        if wait([found], BEAT).done:
            return found.result()
    raise Stopped


class Referee:
    """Leads a match: tells the players, takes their moves, and keeps the record. Another thread may stop it."""

    def __init__(self, record: Record, dice: random.Random, slack: float, file: Path | None, stopped: threading.Event | None = None):
        self.record, self.dice, self.slack, self.file = record, dice, slack, file
        self.stopped = stopped or threading.Event()
        # Players are told the rules as they are, also where these have to be written out to be played.
        self.rules = unrolled.playable(record.rules.encode(), answer)
        self.here: Position = gdlsolve.moves(self.rules, self.turns)
        # The roles whose players were not ready, and why.
        self.failed: dict[str, str] = {}
        self.observe()

    @property
    def turns(self) -> list[Turn]:
        """The turns so far."""
        return [tuple(moves) for moves in self.record.moves]

    def observe(self) -> None:
        """Puts down the states that are not in the record yet."""
        record = self.record
        while len(record.states) <= len(record.moves):
            holds = gdlsolve.state(self.rules, self.turns[: len(record.states)]).holds
            record.states.append(f"({' '.join(f'(true {each})' for each in holds)})")
            record.stateTimes.append(now())

    def tell(self, message: Callable[[str], str], seconds: float) -> list[Told]:
        """What each player says to the message to its role; those at random are not asked."""
        if self.stopped.is_set():
            raise Stopped

        def one(role: str, player: str) -> Told:
            if player == RANDOM:
                return NOTHING
            return post(player, message(role), seconds)

        both = zip(self.record.roles, self.record.players)
        return [told_by(found, self.stopped) for found in [begun(partial(one, *each)) for each in both]]

    def tell_turn(self, word: str, last: Sequence[Turn], seconds: float) -> list[Told]:
        """What each player says to a message with the last of these turns."""
        text = f"({word} {self.record.matchId} {history_text(last[-1:]) or 'NIL'})"
        return self.tell(lambda role: text, seconds)

    def start(self) -> dict[str, str]:
        """Begins the match at each player, and tells it the turns so far. Gives what failed."""
        record = self.record
        rules = "(" + " ".join(trees(record.rules)) + ")"
        clocks = f"{record.startClock:g} {record.playClock:g}"
        told = self.tell(
            lambda role: f"(START {record.matchId} {role} {rules} {clocks})",
            record.startClock + self.slack,
        )
        turns = self.turns
        for done in range(len(turns)):
            self.tell_turn("PLAY", turns[:done], record.playClock + self.slack)
        return {
            role: shown(one.error or one.text or "no answer")
            for role, player, one in zip(record.roles, record.players, told)
            if player != RANDOM and (one.text or "").lower() != "ready"
        }

    def move(self, role: str, told: Told) -> tuple[str, str]:
        """The move of a role, and what was wrong with its own."""
        legal, error = self.here.legal[role], told.error
        if told.text is not None:
            try:
                own = tree(told.text)
                if own in legal:
                    return own, ""
            except Malformed:
                pass
            error = f"not legal: {shown(told.text)}"
        return self.dice.choice(legal), error

    def turn(self) -> None:
        """Plays a turn."""
        record = self.record
        told = self.tell_turn("PLAY", self.turns, record.playClock + self.slack)
        found = [self.move(role, one) for role, one in zip(record.roles, told)]
        record.moves.append([move for move, _ in found])
        record.errors.append([error for _, error in found])
        record.seconds.append([one.seconds for one in told])
        self.here = gdlsolve.moves(self.rules, self.turns)
        self.observe()

    def note(self) -> None:
        """Puts down how the match stands."""
        self.record.state = self.here.state.value
        self.record.isCompleted = self.here.state is State.ENDED
        self.record.goalValues = [self.here.goals[role] for role in self.here.goals]
        self.record.write(self.file)

    def play(self, most_turns: int) -> Record:
        """Plays to the end, or to so many turns. Where it is ended before, or the record cannot be written, the match is broken off at its
        players too."""
        self.record.isAborted = False
        # A record that cannot be written is told before the players have begun.
        self.note()
        try:
            return self.led(most_turns)
        except BaseException:
            self.break_off()
            raise

    def break_off(self) -> None:
        """Ends the match at its players, who would else wait for turns, and says so in the record."""
        self.record.isAborted = True
        # The players are told, also where it was stopped.
        self.stopped = threading.Event()
        with suppress(OSError):
            self.note()
        with suppress(ValueError, ImportError):
            self.tell(lambda role: f"(ABORT {self.record.matchId})", FAREWELL)

    def led(self, most_turns: int) -> Record:
        """Begins at the players, and plays to the end, or to so many turns."""
        self.failed = self.start()
        self.note()
        while self.here.state is State.OPEN and len(self.record.moves) < most_turns:
            self.turn()
            self.note()
        if self.here.state is State.OPEN:
            self.record.isAborted = True
            self.note()
        self.tell_turn("STOP", self.turns, FAREWELL)
        return self.record


def roles_of(rules: str) -> list[str]:
    """The roles of a game, also of one that has to be written out."""
    played = unrolled.playable(rules.encode(), answer)
    with readable():
        return list(gdlsolve.check(played).roles)
