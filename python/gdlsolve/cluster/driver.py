"""The one who asks: keeps the tree, sends questions to an engine, and takes in their answers."""

from __future__ import annotations

import hashlib
import shutil
import tempfile
import time
from collections import Counter
from collections.abc import Callable, Iterable, Iterator
from concurrent.futures import FIRST_COMPLETED, CancelledError, Future, wait
from dataclasses import dataclass, field, replace
from itertools import product
from pathlib import Path
from typing import Protocol

from gdlsolve.cluster import program, task
from gdlsolve.cluster.faults import Contradiction, Failed, Lost, OtherProgram
from gdlsolve.cluster.journal import Journal, Known, key_of
from gdlsolve.cluster.task import OPEN, End, Outcome, Question
from gdlsolve.cluster.tree import Move, Need, Node, goals, line_needs, turn_of, value_needs, widest
from gdlsolve.solver.answers import Position, State
from gdlsolve.solver.faults import Misuse, Refusal
from gdlsolve.solver.history import Turn, history_text
from gdlsolve.solver.replies import Reply, Status, is_too_wide, lines_of
from gdlsolve.solver.terms import terms
from gdlsolve.solver.unrolled import words as whole_words

# So often a question is asked of a program or an engine that fails.
TRIES = 3
# So often the driver looks whether a question should be split, in seconds.
BEAT = 0.1
# So long it waits after something was lost, in seconds.
PAUSE = 0.5


class Submits(Protocol):
    """What an executor is needed for."""

    def submit(self, call: Callable[[Question], Outcome], question: Question, /) -> Future[Outcome]:
        """Has a call made somewhere."""


@dataclass(frozen=True)
class Engine:
    """An executor, how many workers it has, each of which takes a question at a time, whether it is
    there, and how many processors a worker has, or 0 where it is Dask that knows."""

    executor: Submits
    width: Callable[[], int]
    alive: Callable[[], bool] = lambda: True
    processors: int = 1


@dataclass(frozen=True)
class Sought:
    """What is sought: the answer of `solve` to these rules, with these options but for the depth,
    so many turns ahead, behind a history. The language is `--whole` where the rules were written out
    and have more inputs than commands take without."""

    rules: bytes
    role: str
    depth: int
    worth: tuple[str, ...]
    after: str
    language: tuple[str, ...] = ()

    def options(self, depth: int) -> tuple[str, ...]:
        """The options of `solve` but for the history."""
        return ("--role", self.role, "--depth", str(depth), *self.worth, *self.language)

    def history(self, turns: tuple[Turn, ...]) -> str:
        """The text of the history and the turns behind it."""
        return f"{self.after} {history_text(turns)}".strip()


@dataclass(frozen=True)
class Manner:
    """How it is sought: after how many seconds a question may be split, where answers are kept, how
    many seconds the engine may be gone, who is told what happens, whether the parts alone are asked
    for, and never the whole, and how many MiB of a program may keep what positions are worth."""

    split: float = 2.0
    journal: Path | None = None
    patience: float = 120.0
    log: Callable[[str], None] = lambda line: None
    parts: bool = False
    table: int | None = None


@dataclass
class Counts:
    """How many questions were sent, stopped, lost and failed, how many states were looked at, and
    how many seconds the answers took."""

    sent: int = 0
    stopped: int = 0
    lost: int = 0
    failed: int = 0
    split: int = 0
    seconds: float = 0.0


@dataclass
class Asked:
    """A question that is out."""

    node: Node
    low: int
    high: int
    stop: Path
    begun: float = field(default_factory=time.monotonic)


def _local(words: list[str], rules: bytes) -> Reply:
    """The reply of the program on this machine, which answers or refuses."""
    ran = program.run(words, rules)
    if ran.status == Status.NO_MEMORY:
        raise MemoryError
    if ran.status == Status.MISUSE:
        said = ran.errors.decode(errors="replace").strip()
        raise Misuse(said or "the program takes none of these words")
    if ran.status not in (Status.ANSWER, Status.REFUSED):
        raise Failed(f"the program ended with {ran.status} on this machine")
    return Reply(Status(ran.status), ran.output, ran.errors)


def written_out(rules: bytes, tighten: bool) -> bytes:
    """A game as it is found, written out on this machine as rules that every command takes."""
    found = _local(whole_words(tighten), rules)
    if found.status == Status.REFUSED:
        found.lines()
    return found.output


class Driver:
    """One solve over an engine."""

    def __init__(self, sought: Sought, engine: Engine, manner: Manner):
        self.sought, self.engine, self.manner = sought, engine, manner
        self.counts = Counts()
        self._journal = Journal(manner.journal)
        self._digest = program.digest()
        self._rules_sum = hashlib.sha256(sought.rules).hexdigest()
        unfinished = [int(word) for word in sought.worth if word.isdecimal()]
        self._goals = sorted({*goals(sought.rules), *unfinished})
        self._running: dict[Future[Outcome], Asked] = {}
        self._failures: Counter[Node] = Counter()
        self._role = sought.role
        self._losing: tuple[float, float] | None = None
        self._stops = Path()
        # The state of the whole question, where that is asked. One program keeps what it finds, and so
        # is mostly ahead of several that know nothing of each other.
        self._whole: Node | None = None

    def reply(self) -> Reply:
        """The reply of `solve`."""
        closed = self._asked_here()
        if closed is not None:
            return closed
        root = Node((), self.sought.depth)
        self._whole = None if self.manner.parts else root
        self._stops = Path(tempfile.mkdtemp(prefix="gdlsolve-"))
        try:
            self._recall(root)
            if not root.moves:
                self._look_at(root)
            self._finish(lambda: value_needs(root))
            self._whole = None
            self.manner.log(f"value {root.low}")
            self._finish(lambda: line_needs(root))
            return Reply(Status.ANSWER, self._lines(root))
        finally:
            for future in list(self._running):
                self._stop(future)
            shutil.rmtree(self._stops, ignore_errors=True)

    def _asked_here(self) -> Reply | None:
        """The same, where what answers is such a program."""
        try:
            return self._closed()
        except Misuse:
            raise
        except (ValueError, LookupError) as fault:
            raise Failed(f"the program of this machine gives no answer: {fault!r}") from None

    def _closed(self) -> Reply | None:
        """The reply where there is no turn to come: a refusal, or the value of the state itself."""
        after = ["--after", self.sought.after]
        first = _local(["solve", *self.sought.options(0), *after], self.sought.rules)
        if is_too_wide(first, self.sought.language, self.sought.rules):
            self.sought = replace(self.sought, language=("--whole",))
            first = _local(["solve", *self.sought.options(0), *after], self.sought.rules)
        if first.status != Status.ANSWER or self.sought.depth == 0:
            return first
        self._role = lines_of(_local(["show"], self.sought.role.encode()).output)[0]
        here = Position.of(lines_of(_local(["moves", *self.sought.language, *after], self.sought.rules).output))
        return None if here.state is State.OPEN else first

    # The tree.

    def _key(self, node: Node) -> str:
        """The key of a state in the journal."""
        options = self.sought.options(node.depth)
        history = self.sought.history(node.turns)
        return key_of((self._digest, self._rules_sum, *options, history))

    def _look_at(self, node: Node) -> None:
        """Looks at the moves of a state, and on where there is but one way to go on."""
        while True:
            words = ["moves", *self.sought.language, "--after", self.sought.history(node.turns)]
            told = _local(words, self.sought.rules)
            position = Position.of(told.lines())
            if position.state is not State.OPEN:
                node.closed = True
                return
            self.counts.split += 1
            self._journal.note(self._key(node), Known(split=True))
            replies = self._grow(node, position)
            for reply in replies:
                self._recall(reply)
            node = replies[0]
            if len(replies) > 1 or node.depth < 2 or node.moves or not node.open:
                return

    def _grow(self, node: Node, position: Position) -> list[Node]:
        """Puts the moves of a state into the tree, and gives the states behind them."""
        own = self._role
        if own not in position.legal:
            raise Contradiction(f"{own} has no move in a state that is open")
        moves = []
        for chosen in position.legal[own]:
            move = Move(chosen, node)
            choices: dict[str, tuple[str, ...]] = {**position.legal, own: (chosen,)}
            for turn in product(*choices.values()):
                move.replies.append(Node((*node.turns, turn), node.depth - 1, move))
            moves.append(move)
        node.moves = moves
        return [reply for move in moves for reply in move.replies]

    def _recall(self, node: Node) -> None:
        """Takes in what the journal knows of a state."""
        known = self._journal.known(self._key(node))
        if known is None:
            return
        node.told = known.told
        node.narrow(known.low, known.high)
        if known.split:
            self._look_at(node)

    # What is out.

    def _finish(self, needs: Callable[[], Iterator[Need]]) -> None:
        """Has asked what is needed until nothing is."""
        while True:
            wanted = list(needs())
            nodes = {need.node for need in wanted}
            for future, asked in list(self._running.items()):
                if asked.node not in nodes:
                    self._stop(future)
            if not wanted:
                return
            self._send_all(wanted)
            self._watch()
            if not self._running:
                time.sleep(BEAT)
            wait(list(self._running), timeout=BEAT, return_when=FIRST_COMPLETED)
            for future in [future for future in self._running if future.done()]:
                self._take(future)

    def _send_all(self, wanted: list[Need]) -> None:
        """Sends what is wanted most, as many as the engine can work at. Where it can work at more,
        the question that is out for longest is split."""
        free = self.engine.width() - len(self._running)
        out = {asked.node for asked in self._running.values()}
        busy = Counter(need.group for need in wanted if need.node in out)
        for alone in (True, False):
            for need in wanted:
                if free <= 0:
                    return
                if need.node in out or (need.node.moves and need.node is not self._whole):
                    continue
                if alone and need.group is not None and busy[need.group]:
                    continue
                if not self._send(need):
                    return
                out.add(need.node)
                busy[need.group] += 1
                free -= 1
        if free > 0:
            self._split_one(wanted)

    def _split_one(self, wanted: list[Need]) -> None:
        """Looks at the moves of the state that was asked for longest, where that is long enough."""
        nodes = {need.node for need in wanted}
        begun = [
            (asked.begun, place, asked.node)
            for place, asked in enumerate(self._running.values())
            if asked.node in nodes and not asked.node.moves and not asked.node.closed
            if asked.node.depth > 1 and time.monotonic() - asked.begun >= self.manner.split
        ]
        if begun:
            node = min(begun)[2]
            self.manner.log(f"split {history_text(node.turns)}")
            self._look_at(node)

    def _send(self, need: Need) -> bool:
        """Sends a question. Where the engine is gone for the moment nothing is sent."""
        node = need.node
        low, high = widest(need.low, need.high, self._goals)
        stop = self._stops / str(self.counts.sent)
        options, after = self.sought.options(node.depth), self.sought.history(node.turns)
        how = low, high, self._digest, str(stop), self.engine.processors, self.manner.table
        question = Question(self.sought.rules, options, after, *how)
        try:
            future = self.engine.executor.submit(task.answer, question)
        except OSError as fault:
            self._lose(f"not sent: {fault}")
            return False
        self._running[future] = Asked(node, low, high, stop)
        self.counts.sent += 1
        return True

    def _stop(self, future: Future[Outcome]) -> None:
        """Says that an answer is not wanted any more."""
        asked = self._running.pop(future)
        asked.stop.touch()
        future.cancel()
        self.counts.stopped += 1

    # What comes back.

    def _watch(self) -> None:
        """Waits for an engine that is gone, so long as the patience lasts."""
        if not self.engine.alive():
            self._lose("the engine is gone")

    def _lose(self, what: str) -> None:
        """Notes that something was lost, and gives up where that goes on for too long."""
        now = time.monotonic()
        self.counts.lost += 1
        self.manner.log(what)
        first, last = self._losing or (now, now)
        first = first if now - last <= self.manner.patience else now
        self._losing = first, now
        if now - first > self.manner.patience:
            raise Lost(what)
        time.sleep(PAUSE)

    def _fail(self, node: Node, what: str) -> None:
        """Notes that a question failed, and gives up at the third time."""
        self.counts.failed += 1
        self._failures[node] += 1
        self.manner.log(f"failed: {history_text(node.turns)}: {what}")
        if self._failures[node] >= TRIES:
            raise Failed(f"{history_text(node.turns)}: {what}")

    def _take(self, future: Future[Outcome]) -> None:
        """Takes in what became of a question."""
        asked = self._running.pop(future)
        try:
            outcome = future.result()
        except CancelledError:
            outcome = Outcome(End.STOPPED, ())
        except Exception as fault:
            self._fail(asked.node, f"{type(fault).__name__}: {fault}")
            return
        match outcome.end:
            case End.ANSWERED:
                self._learn(asked, outcome)
            case End.STOPPED:
                self._lose(f"lost: {history_text(asked.node.turns)}")
            case End.FAILED:
                self._fail(asked.node, " ".join(outcome.lines))
            case End.REFUSED:
                raise Refusal(outcome.lines[0])
            case End.MISUSED:
                raise Misuse("\n".join(outcome.lines[1:]) or outcome.lines[0])
            case End.OTHER_PROGRAM:
                raise OtherProgram(f"a worker's is {outcome.lines[0]}, and not {self._digest}")

    def _learn(self, asked: Asked, outcome: Outcome) -> None:
        """Takes in an answer."""
        self._losing = None
        self.counts.seconds += outcome.seconds
        node = asked.node
        window = (asked.low, asked.high) if outcome.processors == 1 else OPEN
        found = reading(outcome.lines, *window)
        self.manner.log(f"{outcome.seconds:.3f} s {history_text(node.turns)}: {outcome.lines[0]}")
        node.told = node.told or found.told
        node.narrow(found.low, found.high)
        self._journal.note(self._key(node), found)

    def _lines(self, root: Node) -> bytes:
        """The reply, once all of it is known."""
        value, node = root.low, root
        if root.told is not None:
            return "".join(f"{line}\n" for line in (f"value {value}", *root.told)).encode()
        turns: list[Iterable[str]] = []
        move, _ = turn_of(root, value)
        while node.told is None:
            _, node = turn_of(node, value)
            turns.append(node.turns[-1])
        turns += [parts[2:] for parts in map(terms, node.told[1:])]
        lines = [f"value {value}", f"move {move.own}"]
        lines += [" ".join(["line", str(place), *turn]) for place, turn in enumerate(turns, 1)]
        return "".join(f"{line}\n" for line in lines).encode()


def reading(lines: tuple[str, ...], low: int, high: int) -> Known:
    """What the answer to a question in a window says."""
    word, _, number = (lines[0] if lines else "").partition(" ")
    found = int(number) if number.isdecimal() else -1
    if word == "value" and low < found < high and lines[1:2] and lines[1].startswith("move "):
        return Known(found, found, lines[1:])
    if word == "at-most" and found == low:
        return Known(high=found)
    if word == "at-least" and found == high:
        return Known(low=found)
    raise Contradiction(f"no answer between {low} and {high}: {' '.join(lines[:2])!r}")
