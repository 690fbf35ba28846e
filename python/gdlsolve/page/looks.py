"""Looks ahead: what moves are worth, and which move the solver plays, turn by turn deeper.

A look runs in threads of its own and can be asked at any time how far it is. It ends where the
values are settled, at the greatest depth, when its time is over, or when it is stopped.

Within a depth a role is sure of some value, where unfinished play is worth nothing, and can still
hope for another, where it is worth all. Where both are the same, no further turn changes it. Each
of the two is asked of a session of its own, for all moves at once: so no move is looked at less
deep than another.
"""

from __future__ import annotations

import itertools
import random
import threading
import time
from collections.abc import Callable, Iterator
from concurrent.futures import FIRST_EXCEPTION, ThreadPoolExecutor, wait
from contextlib import ExitStack, contextmanager, suppress
from dataclasses import asdict, dataclass, field
from functools import partial
from typing import Any, TypeVar

from gdlsolve.page.sessions import Sessions
from gdlsolve.player.gates import Gates
from gdlsolve.player.thinking import Thinking
from gdlsolve.player.thinking import Choice as Chosen
from gdlsolve.player.tree_search import Question
from gdlsolve.solver.answers import Position, Solution, State, Worth
from gdlsolve.solver.deepening import MOST_TURNS
from gdlsolve.solver.engine import Broken, Engine, Late, Limit, readable
from gdlsolve.solver.faults import Misuse
from gdlsolve.solver.history import Turn, behind

# So long nobody may ask for a look before it is given up, in seconds.
FORGOTTEN = 30.0
# So often it is seen whether somebody still waits for news, or whether the solver has to move, in seconds.
BEAT = 0.1
# So long the sessions of a look may take to read the rules, in seconds. Its own time begins behind that.
PATIENCE = 30.0
FOREVER = 1e7
# So long the threads of a player's thoughts may take to end, in seconds.
SOON = 0.5
# So long the gates for random matches are built before the solver's time begins, in seconds.
REHEARSAL = 0.75
# Of so many turns it is told what they are worth, at most.
MOST_REPLIES = 200

Told = TypeVar("Told")


def said(fault: BaseException) -> str:
    """What people are told where there is no answer."""
    if isinstance(fault, MemoryError):
        return "The engine wants more memory than there is."
    if isinstance(fault, RecursionError):
        return "Too many lists are open inside each other."
    if isinstance(fault, Late):
        return "The engine gave no answer in time."
    if isinstance(fault, Broken):
        return f"The engine ended in the middle of a question. {fault}".rstrip()
    return str(fault)


@dataclass
class Choice:
    """A move, or a whole turn, with what it is worth as far as was looked, and best play from it on."""

    move: str
    line: tuple[Turn, ...] = ()
    low: int = 0
    high: int = 100
    depth: int = 0

    def is_settled(self) -> bool:
        """Whether no further turn changes the value."""
        return self.low == self.high


@dataclass(frozen=True)
class Asked:
    """What a look is about: rules, a role, and the history before it."""

    rules: bytes
    role: str
    after: tuple[Turn, ...]
    seconds: float | None
    deepest: int = MOST_TURNS

    def words(self, command: str, depth: int, unfinished: int) -> list[str]:
        """The words of a question for the role."""
        return [command, "--role", self.role, "--depth", str(depth), "--unfinished", str(unfinished)]


@dataclass
class Look:
    """A look that goes on in a thread, with what is known so far."""

    asked: Asked
    sessions: Sessions
    given_up: threading.Event = field(default_factory=threading.Event)
    changed: threading.Condition = field(default_factory=threading.Condition)
    version: int = 0
    depth: int = 0
    ended: str = ""
    why: str = ""
    choices: list[Choice] = field(default_factory=list)
    best: Chosen | None = None
    seen: float = field(default_factory=time.monotonic)
    # When its time is over; nothing before the rules are read.
    until: float | None = None
    # When its time began, and how long it was at it when what is known was found.
    begun: float | None = None
    took: float = 0.0

    def start(self, work: Callable[[Look], str]) -> None:
        """Begins the work, which says at its end how it ended."""
        threading.Thread(target=self._run, args=(work,), daemon=True).start()

    def _run(self, work: Callable[[Look], str]) -> None:
        """Does the work, and notes how it ended, whatever went wrong."""
        try:
            ended, why = work(self), ""
        except Late as fault:
            ended = self._over()
            why = said(fault) if ended == "failed" else ""
        except Exception as fault:
            ended, why = "failed", said(fault)
        self.given_up.set()
        with self.changed:
            self.ended, self.why = ended, why
            self._tell()

    def _over(self) -> str:
        """Why an answer is not waited for any more."""
        if self.given_up.is_set():
            return "stopped"
        return "failed" if self.until is None else "time"

    def stop(self) -> None:
        """Gives the look up. It ends soon."""
        self.given_up.set()

    def note(self, depth: int) -> None:
        """Something more is known, so deep."""
        with self.changed:
            self.depth = depth
            self._tell()

    def _tell(self) -> None:
        """Wakes those who wait for news."""
        self.took = time.monotonic() - self.begun if self.begun is not None else 0.0
        self.version += 1
        self.changed.notify_all()

    def wait(self, seen: int, longest: float, is_gone: Callable[[], bool]) -> None:
        """Waits until more is known than what was seen, so long at most. Where the one who asks goes
        meanwhile, the look is given up."""
        end = time.monotonic() + longest
        with self.changed:
            while not self.changed.wait_for(lambda: self.version > seen, BEAT):
                if is_gone():
                    self.stop()
                if time.monotonic() >= end:
                    return

    def told(self, seen: int, longest: float, is_gone: Callable[[], bool]) -> dict[str, Any]:
        """What is known, as soon as it is more than what was seen, or after so many seconds."""
        self.seen = time.monotonic()
        self.wait(seen, longest, is_gone)
        with self.changed:
            self.seen = time.monotonic()
            return {
                "version": self.version,
                "depth": self.depth,
                "seconds": self.took,
                "ended": self.ended,
                "why": self.why,
                "moves": [asdict(choice) for choice in self.choices],
                "best": asdict(self.best) if self.best else None,
            }

    def forgotten(self) -> bool:
        """Whether nobody has asked for it for long."""
        return time.monotonic() - self.seen > FORGOTTEN

    def limit(self) -> Limit:
        """Until when an answer is waited for."""
        return Limit(self.until or time.monotonic() + PATIENCE, self.given_up)

    def at_once(self, *asks: Callable[[], Told]) -> list[Told]:
        """What these answer, asked at once. Where one fails, the others are given up."""
        with ThreadPoolExecutor(len(asks)) as threads:
            asked = [threads.submit(each) for each in asks]
            done, _ = wait(asked, return_when=FIRST_EXCEPTION)
            for fault in filter(None, [each.exception() for each in done]):
                if not isinstance(fault, Late):
                    self.given_up.set()
                    raise fault
            return [each.result() for each in asked]

    @contextmanager
    def engines(self, **kinds: Read) -> Iterator[tuple[Position, list[Engine]]]:
        """How play stands where the look begins, and an engine of each kind that has read the rules. The time
        of the look begins with that."""
        with ExitStack() as stack:
            made = [stack.enter_context(self.sessions.engine(self.asked.rules, kind)) for kind in kinds]
            both = zip(kinds.values(), made)
            here, *_ = self.at_once(*[partial(read, engine, self.asked.after, self.limit()) for read, engine in both])
            seconds = FOREVER if self.asked.seconds is None else self.asked.seconds
            self.begun = time.monotonic()
            self.until = self.begun + seconds
            yield here, made

    def learn(self, depth: int, sure: Known, hoped: Known) -> None:
        """Takes what was found within a depth. What is settled stays as it is."""
        with self.changed, readable():
            for choice in self.choices:
                if not choice.is_settled():
                    (choice.low, choice.line), (choice.high, _) = sure[choice.move], hoped[choice.move]
                    choice.depth = depth
        self.note(depth)


# What has an engine read its rules, and tells how play stands.
Read = Callable[[Engine, tuple[Turn, ...], Limit], Position]
# What is found of each choice: a value, and the line of play.
Known = dict[str, tuple[int, tuple[Turn, ...]]]
Find = Callable[[Look, Engine, int, int], Known]


def _rehearse(engine: Engine, after: tuple[Turn, ...], limit: Limit) -> Position:
    """Has an engine begin to build the gates for random matches too."""
    soon = Limit(time.monotonic() + 2 * REHEARSAL, limit.given_up)
    with suppress(Misuse, Late, Broken):
        Gates(engine).ask(["legal"], (), REHEARSAL, soon)
    return engine.moves(after, limit)


def _of_moves(look: Look, engine: Engine, depth: int, unfinished: int) -> Known:
    """What each move of the role is worth within a depth, by one question. Lines are asked for with what is sure."""
    words = look.asked.words("values", depth, unfinished) + ["--lines"] * (not unfinished)
    lines = engine.ask([*words, *behind(look.asked.after)], look.limit())
    with readable():
        return {each.move: (each.value, each.line) for each in Worth.each_of(lines)}


def _of_turns(look: Look, engine: Engine, depth: int, unfinished: int) -> Known:
    """What each turn is worth within a depth, asked together. What is settled is not asked again."""
    left = [choice for choice in look.choices if not choice.is_settled()]
    words = look.asked.words("solve", depth - 1, unfinished)
    batch = [[*words, *behind((*look.asked.after, choice.line[0]))] for choice in left]
    told = engine.ask_all(batch, look.limit())
    with readable():
        found = [Solution.of(lines) for lines in told]
    return {choice.move: (each.value, (choice.line[0], *each.line)) for choice, each in zip(left, found)}


def _deepen(look: Look, find: Find, choices: list[Choice], sure: Engine, hope: Engine) -> str:
    """Looks at all choices, turn by turn deeper."""
    look.choices = choices
    look.note(0)
    for depth in range(1, look.asked.deepest + 1):
        if all(choice.is_settled() for choice in choices):
            return "settled"
        asks = [partial(find, look, engine, depth, worth) for engine, worth in ((sure, 0), (hope, 100))]
        look.learn(depth, *look.at_once(*asks))
    return "settled" if all(choice.is_settled() for choice in choices) else "depth"


def values(look: Look) -> str:
    """What each legal move of the role is worth."""
    with look.engines(sure=Engine.moves, hope=Engine.moves) as (here, (sure, hope)):
        legal = here.legal.get(look.asked.role, ()) if here.state is State.OPEN else ()
        return _deepen(look, _of_moves, [Choice(move) for move in legal], sure, hope)


def replies(look: Look) -> str:
    """What each turn is worth that can be played next."""
    with look.engines(sure=Engine.moves, hope=Engine.moves) as (here, (sure, hope)):
        turns = itertools.product(*here.legal.values()) if here.state is State.OPEN else iter(())
        choices = [Choice(" ".join(turn), (turn,)) for turn in itertools.islice(turns, MOST_REPLIES)]
        return _deepen(look, _of_turns, choices, sure, hope)


def choose(look: Look) -> str:
    """The move that the solver plays: as the player chooses it in so much time."""
    with look.engines(deep=Engine.moves, quick=Engine.moves, gates=_rehearse) as (here, (deep, quick, built)):
        legal = here.legal.get(look.asked.role, ()) if here.state is State.OPEN else ()
        if len(legal) > 1:
            asked = Question(look.asked.role, look.asked.after, here, look.until or 0.0, look.asked.deepest)
            return _think(look, Thinking(asked, deep, quick, random.Random(), gates=Gates(built)), built)
        look.best = Chosen(legal[0], None, 0, False, 0) if legal else None
        return "settled"


def _end(thinking: Thinking, built: Engine) -> None:
    """Ends the player's thoughts, and its process for random matches where that hangs."""
    thinking.stop.set()
    for thread in thinking.threads:
        thread.join(SOON)
    if any(thread.is_alive() for thread in thinking.threads):
        built.close()
    for thread in thinking.threads:
        thread.join()


def _think(look: Look, thinking: Thinking, built: Engine) -> str:
    """Has the player think, and takes its move."""
    asked, search = thinking.question, thinking.search
    try:
        while not look.given_up.is_set() and thinking.goes_on() and not search.settled.is_set():
            if time.monotonic() >= asked.until:
                break
            thinking.wait(min(asked.until, time.monotonic() + BEAT))
            if search.deepest is not None and search.deepest[0] > look.depth:
                look.note(search.deepest[0])
        look.best = found = thinking.choice()
    finally:
        _end(thinking, built)
    if found.is_settled:
        return "settled"
    return "stopped" if look.given_up.is_set() else "time"
