"""A match of a player: what was played, what is known of it, and the engines that work for it.

From START on it is thought of the position that was reached, also where the player has no choice, and behind an answer until the next turn
comes. It ends where the value is settled, and where no message comes for longer than the clocks allow. Which moves are legal is found out
first, by a process of its own; only then is it thought of.
"""

from __future__ import annotations

import itertools
import random
import threading
import time
from collections.abc import Sequence
from concurrent.futures import Future
from dataclasses import dataclass, replace
from functools import partial
from typing import Any

from gdlsolve.console.notes import note
from gdlsolve.player.background import begun
from gdlsolve.player.gates import Gates
from gdlsolve.player.guessing import likely
from gdlsolve.player.messages import LONGEST_NAME, clock, parts_of
from gdlsolve.player.thinking import Choice, Thinking
from gdlsolve.player.tree_search import MOST_DEPTH, Node, Question
from gdlsolve.player.umpire import MOST_AHEAD, PATIENCE, Umpire, first
from gdlsolve.solver import unrolled
from gdlsolve.solver.answers import Position, State
from gdlsolve.solver.engine import Children, Engine, Limit
from gdlsolve.solver.faults import Refusal
from gdlsolve.solver.history import Turn
from gdlsolve.solver.terms import Malformed

# A message may come so long behind the clock by which it is due, in seconds. Then the match is idle.
TARDY = 10.0
# So many messages of a match may wait for it at once.
MOST_WAITING = 8
# The legal moves of so many turns are kept, for a guess.
MOST_SEEN = 32


@dataclass(frozen=True)
class Options:
    """What a player is started with."""

    name: str = "gdlsolve"
    matches: int = 4
    margin: float = 0.5
    depth: int = MOST_DEPTH
    idle: float = 600.0
    is_quiet: bool = False
    whole: bool = False
    # A longer clock is taken as this one, in seconds.
    longest: float = 3600.0
    # So many MiB each process of the solver may take, where that is not 0, and so much lower its priority is.
    memory: int = 1024
    nice: int = 5

    def allowed(self, seconds: float) -> float:
        """How long to think on a clock of so many seconds."""
        return seconds - min(self.margin, seconds / 2)


@dataclass(frozen=True)
class Start:
    """What the message START tells of a match."""

    role: str
    rules: str
    start_clock: float
    play_clock: float

    @classmethod
    def of(cls, role: str, rules: str, start: str, play: str) -> Start:
        """What the parts of the message tell."""
        return cls(role, "\n".join(parts_of(rules)), clock(start), clock(play))

    def within(self, longest: float) -> Start:
        """The same with clocks that are no longer."""
        return replace(self, start_clock=min(self.start_clock, longest), play_clock=min(self.play_clock, longest))


@dataclass(frozen=True)
class Answer:
    """A move that was told, the turn that it was asked behind, and when it was told."""

    behind: Turn | None
    move: str
    at: float


class Match:
    """A match. One message is answered at a time."""

    def __init__(self, name: str, start: Start, options: Options, children: Children, umpires: Children):
        self.name, self.start, self.options = name, start, options
        self.umpire = Umpire(Engine(start.rules, umpires))
        self.quick = Engine(start.rules, children)
        self.deep = Engine(start.rules, children)
        self.gates = Gates(Engine(start.rules, children))
        self.lock = threading.Lock()
        self.places = threading.Semaphore(MOST_WAITING)
        self.heard = time.monotonic()
        self.roles: tuple[str, ...] = ()
        self.turns: tuple[Turn, ...] = ()
        # What the turns may be as well, where a turn came that was equal to the one before.
        self.otherwise: tuple[Turn, ...] | None = None
        # The position behind the turns, with what random play found behind it.
        self.tree: Node | None = None
        # The own legal moves in the last turns, and those behind other replies to the turn before the last.
        self.seen: dict[int, tuple[str, ...]] = {}
        self.beside: list[tuple[str, ...]] = []
        self.answer: Answer | None = None
        self.thinking: Thinking | None = None

    def engines(self) -> tuple[Engine, ...]:
        """All that ask for the match."""
        return self.umpire.engine, self.quick, self.deep, self.gates.engine

    def take_rules(self, limit: Limit) -> None:
        """Has a game that is told as games are found written out, and plays what was written."""
        asked = self.umpire.engine

        def ask(words: Sequence[str], rules: bytes) -> list[str]:
            asked.rules = rules
            return asked.ask(words, limit)

        told = asked.rules
        written = unrolled.written_out(told, ask) if self.options.whole else unrolled.playable(told, ask)
        for engine in self.engines():
            engine.rules = written

    def prepare(self, arrived: float) -> None:
        """Reads the rules, and thinks on the first turn while the start clock runs."""
        until = arrived + self.options.allowed(self.start.start_clock)
        self.take_rules(Limit(until))
        self.roles = self.umpire.engine.check(Limit(until)).roles
        if self.start.role not in self.roles:
            raise Malformed(f"{self.start.role[:40]} is no role")
        here = self.umpire.engine.moves((), Limit(until))
        self.tree = Node(here)
        if here.state is State.OPEN:
            # The first turn may be asked for at the end of the start clock.
            self.think(here, arrived + self.start.start_clock + TARDY).wait(until, for_move=False)

    def think(self, here: Position, until: float) -> Thinking:
        """Thinks of the position that was reached, in place of what was thought of before."""
        if self.thinking is not None:
            self.thinking.stop.set()
        asked = Question(self.start.role, self.turns, here, until, self.options.depth)
        self.thinking = Thinking(asked, self.deep, self.quick, random.Random(), self.tree, self.gates)
        return self.thinking

    def may_follow(self, turn: Turn) -> bool:
        """Whether a turn can be the next one. Where it is not known here, the solver will say."""
        if self.tree is None:
            return True
        legal = self.tree.here.legal
        return self.tree.here.state is State.OPEN and all(move in legal[role] for role, move in zip(self.roles, turn))

    def is_equal(self, behind: Turn | None) -> bool:
        """Whether a turn is that of the last answer, and may be the next one as well."""
        return self.answer is not None and behind is not None and behind == self.answer.behind and self.may_follow(behind)

    def is_repeated(self, behind: Turn | None, arrived: float) -> bool:
        """Whether a message asks again for what was answered: it is the same, and came before that, or cannot be the next turn."""
        if self.answer is None or behind is None:
            return self.answer is not None
        return behind == self.answer.behind and (arrived < self.answer.at or not self.may_follow(behind))

    def play(self, behind: Turn | None, arrived: float) -> str:
        """The move behind a turn, or `nil` where there is none to make."""
        if behind is not None and len(behind) != len(self.roles):
            raise Malformed(f"a turn has {len(self.roles)} moves, and not {len(behind)}")
        with self.lock:
            if self.tree is None and self.answer is None:
                # It could not be begun.
                return "busy"
            self.heard = time.monotonic()
            is_equal, before = self.is_equal(behind), self.turns
            if self.answer and self.is_repeated(behind, arrived):
                self.otherwise = (*before, behind) if behind is not None and is_equal else self.otherwise
                return self.answer.move
            try:
                move = self.followed(behind, arrived)
            except Refusal as refusal:
                # A turn that was not legal changes nothing.
                self.tell(refused=str(refusal))
                return self.answer.move if self.answer else "nil"
            if is_equal:
                self.otherwise = before
            elif self.otherwise is not None and behind is not None:
                self.otherwise = (*self.otherwise, behind)
            self.answer = Answer(behind, move, time.monotonic())
            return move

    def followed(self, behind: Turn | None, arrived: float) -> str:
        """The move behind a turn. Where that is not legal as equal turns were taken, and is as they may be taken otherwise, they are."""
        try:
            if behind is not None and not self.may_follow(behind):
                raise Refusal("refused H2 NotLegal")
            return self.move(behind, arrived)
        except Refusal:
            if self.otherwise is None:
                raise
        known = self.turns, self.tree
        self.turns, self.tree = self.otherwise, None
        try:
            move = self.move(behind, arrived)
        except Refusal:
            self.turns, self.tree = known
            raise
        self.otherwise = None
        return move

    def position(self, turns: tuple[Turn, ...], until: float) -> Position | None:
        """How play stands, where that is told in time. It is also worked out without the solver; and where half of the time has not been
        enough, or the last question has no answer yet, a process that thinks is asked as well."""
        now = time.monotonic()
        half = now if self.umpire.is_late() else (now + until) / 2
        asked = [self.umpire.ask(turns, until), begun(partial(self.gates.legal, turns, until))]
        here = first(asked[:1], half)
        if here is None:
            here = first([*asked, begun(partial(self.quick.moves, turns, Limit(until + PATIENCE)))], until)
        return here

    def reached(self, behind: Turn | None, until: float) -> Position | None:
        """How play stands behind a turn, which from now on is part of the history."""
        turns = self.turns if behind is None else (*self.turns, behind)
        node = self.tree
        if behind is not None:
            if self.thinking is not None:
                self.thinking.stop.set()
            self.umpire.ahead_of, self.beside = None, self.replied(node)
            node = node.next.get(behind) if node is not None else None
        here = node.here if node is not None else self.umpire.known.get(turns) or self.position(turns, until)
        self.turns = turns
        self.tree = node or (Node(here) if here is not None else None)
        return here

    def replied(self, node: Node | None) -> list[tuple[str, ...]]:
        """The own legal moves behind the turns that were known as such that might follow a position."""
        known = [*self.umpire.known.values(), *(each.here for each in list(node.next.values() if node else ()))]
        return [here.legal[self.start.role] for here in known if here.state is State.OPEN]

    def look_ahead(self, node: Node, move: str) -> None:
        """Has it found out how play stands behind the turns that may come next, with the move that was chosen."""
        seats = [(move,) if role == self.start.role else node.here.legal[role] for role in self.roles]
        replies = (turn for turn in itertools.product(*seats) if turn not in node.next)
        self.umpire.look_ahead(self.turns, list(itertools.islice(replies, MOST_AHEAD)))

    def move(self, behind: Turn | None, arrived: float) -> str:
        """The move behind a turn."""
        until = arrived + self.options.allowed(self.start.play_clock)
        idle = arrived + self.start.play_clock + TARDY
        here = self.reached(behind, until)
        if here is None:
            begun(partial(self.recover, self.turns, self.umpire.asked, idle))
            return self.guess()
        if here.state is not State.OPEN:
            return "nil"
        move = self.chosen(here, until, idle)
        if self.tree is not None:
            self.look_ahead(self.tree, move)
        return move

    def chosen(self, here: Position, until: float, idle: float) -> str:
        """The move in the position that was reached."""
        legal, thinking = self.noted(here), self.thinking
        if thinking is None or thinking.question.turns != self.turns or not thinking.is_of_use():
            thinking = self.think(here, idle)
        thinking.stop.until = idle
        if len(legal) == 1:
            return legal[0]
        choice = thinking.for_move(until)
        self.tell_choice(choice)
        return choice.move

    def noted(self, here: Position) -> tuple[str, ...]:
        """The own legal moves in the position that was reached, which are kept for a guess in later turns."""
        turn, legal = len(self.turns), here.legal[self.start.role]
        self.seen[turn] = legal
        self.seen.pop(turn - MOST_SEEN, None)
        return legal

    def guess(self) -> str:
        """A move where nothing is told of the position."""
        self.tell(guess=True)
        own = self.roles.index(self.start.role)
        return likely(len(self.turns), self.beside, self.seen, {turn[own] for turn in self.turns}) or "nil"

    def recover(self, turns: tuple[Turn, ...], asked: Future[Position], until: float) -> None:
        """Waits until it is found out how play stands, where that was not told in time, and goes on from there."""
        here = asked.result(max(until - time.monotonic(), 0))
        with self.lock:
            if self.turns == turns and self.tree is None and here.state is State.OPEN:
                self.tree = Node(here)
                self.noted(here)
                self.think(here, until)

    def tell(self, **what: Any) -> None:
        """Writes what happened on standard error."""
        if not self.options.is_quiet:
            told = {"match": self.name, "role": self.start.role[:LONGEST_NAME], "turn": len(self.turns) + 1}
            note({**told, **what})

    def tell_choice(self, choice: Choice) -> None:
        """Writes what was chosen."""
        self.tell(
            move=choice.move,
            value=choice.value,
            depth=choice.depth,
            settled=choice.is_settled,
            tried=choice.tried,
        )

    def close(self) -> None:
        """Ends all work for the match at once, also that for an answer which is waited for."""
        if self.thinking is not None:
            self.thinking.stop.set()
        for engine in self.engines():
            engine.close()
