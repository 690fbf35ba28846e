"""The matches of a player, for servers of general game playing.

It takes the messages INFO, START, PREVIEW, PLAY, STOP and ABORT over HTTP, several matches at once.
Both clocks are used for a search that gets deeper, with random play beside it. Whatever the solver
does, an answer is given before the clock, and where anything of the position is known it is a legal
move. On standard error each turn is told as a line of JSON.
"""

from __future__ import annotations

import threading
import time
from collections.abc import Callable, Sequence
from functools import partial

from gdlsolve.player import child
from gdlsolve.player.match import Match, Options, Start
from gdlsolve.player.messages import Crowded, Message, turn
from gdlsolve.player.umpire import NO_ANSWER
from gdlsolve.solver.engine import Children
from gdlsolve.solver.faults import Refusal
from gdlsolve.solver.history import Turn
from gdlsolve.solver.terms import Malformed

# By so much the priority of a process that tells how play stands is greater than that of those that think, where that is not above the player's.
BEFORE = 5
# A message of more letters is a long one, of which so many are read or wait for that.
LONG, MOST_LONG = 1 << 16, 8


class Player:
    """The matches of a player, by their names."""

    def __init__(self, options: Options, command: Sequence[str] | None = None):
        self.options = options
        self.children = Children(2 * options.matches + 2, command or child.command(options.memory, options.nice))
        # Those that tell how play stands come before those that think.
        self.umpires = Children(options.matches, command or child.command(options.memory, max(options.nice - BEFORE, 0)), spare=1)
        self.matches: dict[str, Match] = {}
        self.lock = threading.Lock()
        self.reading = threading.Lock()
        self.places = threading.Semaphore(MOST_LONG)

    def read(self, text: str) -> Message:
        """The message that a text is. Long ones are read one after the other, as that takes much memory, and few of them wait."""
        if len(text) <= LONG:
            return Message.of(text)
        if not self.places.acquire(blocking=False):
            raise Crowded
        try:
            with self.reading:
                return Message.of(text)
        finally:
            self.places.release()

    def answer(self, text: str, arrived: float) -> str:
        """The answer to a message that arrived at this time."""
        message = self.read(text)
        match message.word, message.parts:
            case "info", _:
                return self.info()
            case "preview", _:
                return "ready"
            case "start", (name, *parts):
                return self.start(name, Start.of(*parts).within(self.options.longest), arrived)
            case "play", (name, behind):
                return self.play(name, turn(behind), arrived)
            case "stop", (name, *_):
                return "done" if self.end(name) else "busy"
            case _, (name, *_):
                return "aborted" if self.end(name) else "busy"
        raise Malformed(message.word)

    def info(self) -> str:
        """Who plays, and whether a further match can be begun."""
        is_free = len(self.matches) < self.options.matches
        status = "available" if is_free else "busy"
        return f"((name {self.options.name}) (status {status}) (species alien))"

    def forget(self) -> None:
        """Gives up the matches of which nothing was heard for long, where there is no room else."""
        if len(self.matches) < self.options.matches:
            return
        for name, match in list(self.matches.items()):
            start = match.start
            patience = self.options.idle + start.start_clock + 2 * start.play_clock
            if match.heard + patience < time.monotonic():
                del self.matches[name]
                match.close()

    def place(self, name: str, start: Start) -> tuple[Match | None, bool]:
        """The match of this name, where it is this one or there is room, and whether it is new."""
        with self.lock:
            known = self.matches.get(name)
            if known is not None:
                return (known if known.start == start else None), False
            self.forget()
            if len(self.matches) >= self.options.matches:
                return None, False
            made = Match(name, start, self.options, self.children, self.umpires)
            made.lock.acquire()
            self.matches[name] = made
            return made, True

    def start(self, name: str, start: Start, arrived: float) -> str:
        """Begins a match. One that was begun is not begun again."""
        match, is_new = self.place(name, start)
        if match is None:
            return "busy"
        if not is_new:
            return self.waited(match, partial(self.begun, name, match))
        try:
            match.prepare(arrived)
        except BaseException as fault:
            self.end(name)
            if not isinstance(fault, (Refusal, *NO_ANSWER)):
                raise
            match.tell(not_played=str(fault) or "no answer within the start clock")
            return "busy"
        finally:
            match.lock.release()
        return "ready" if self.matches.get(name) is match else "busy"

    def begun(self, name: str, match: Match) -> str:
        """Whether a match was begun, once that is known."""
        with match.lock:
            return "ready" if self.matches.get(name) is match else "busy"

    def waited(self, match: Match, work: Callable[[], str]) -> str:
        """What a message of a match comes to, where not too many wait already."""
        if not match.places.acquire(blocking=False):
            return "busy"
        try:
            return work()
        finally:
            match.places.release()

    def play(self, name: str, behind: Turn | None, arrived: float) -> str:
        """The move in a match."""
        match = self.matches.get(name)
        return "busy" if match is None else self.waited(match, partial(match.play, behind, arrived))

    def end(self, name: str) -> bool:
        """Ends a match, where there is one."""
        with self.lock:
            match = self.matches.pop(name, None)
        if match is not None:
            match.close()
        return match is not None

    def close(self) -> None:
        """Ends all matches."""
        for name in list(self.matches):
            self.end(name)
        self.children.close()
        self.umpires.close()
