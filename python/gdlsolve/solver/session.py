"""Many questions over rules that are read once, by a child process: one that has a handle of the library, or one that asks the program,
`gdlsolve serve`."""
from __future__ import annotations

import errno
import threading
from collections.abc import Iterator, Sequence
from contextlib import contextmanager
from pathlib import Path
from types import TracebackType
from typing import Protocol

from gdlsolve.solver import library, program, timed
from gdlsolve.solver.answers import Description, Network, Outside, Position, Solution, Standing, Values
from gdlsolve.solver.commands import CHECK, MOVES, NET, SHOW, STATE, Bound, Command, Told, solving, solving_within, valuing
from gdlsolve.solver.engine import BEAT, Broken, Child, Children, Late, Limit
from gdlsolve.solver.faults import Cancelled, Ended, TimedOut
from gdlsolve.solver.handles import has_handles
from gdlsolve.solver.history import History, behind, history_text, one_line
from gdlsolve.solver.program import by_program, check_words
from gdlsolve.solver.replies import WRITTEN_OUT, Reply, Status
from gdlsolve.solver.rules import Rules, bytes_of, warn
from gdlsolve.solver.unrolled import reply as written_reply
from gdlsolve.solver.unrolled import words as whole_words

# So many seconds a child has to give back what its rules took, at the end of a session.
FORGETS = 1.0


def program_words() -> list[str]:
    """The words that start the program: the one that a variable of the environment names, else that of the package or of the clone."""
    found = program.words()
    if not found:
        raise FileNotFoundError(f"there is no program: ./gdlsolve --prove builds it, or {program.VARIABLE} names another")
    return found


class Asked(Protocol):
    """What a session asks."""

    def stand(self, rules: bytes, limit: Limit) -> None:
        """Takes other rules, which stand from then on. Where that is broken off those of before stand."""

    def reply(self, words: Sequence[str], limit: Limit) -> Reply:
        """The reply to words, over the rules that stand."""

    def history(self, after: History) -> str:
        """The text of a history, as it is taken here."""

    def close(self) -> None:
        """Ends it."""


class _ByChild:
    """A child process. One whose answer is not waited for any more is ended, and the next question is asked of another."""

    def __init__(self, children: Children):
        self._children = children
        self._child: Child | None = None
        self._rules = b""

    def stand(self, rules: bytes, limit: Limit) -> None:
        """Takes other rules, which are read where they are first asked over."""
        self._rules = rules

    def reply(self, words: Sequence[str], limit: Limit) -> Reply:
        """The reply to words, over the rules that stand."""
        check_words(words)
        child, self._child = self._child, None
        self._child, [told] = self._children.ask(child, [words], self._rules, limit)
        return timed.checked(told)

    def close(self) -> None:
        """Gives the child back to others, without the memory that its rules took."""
        child, self._child = self._child, None
        if child is None:
            return
        try:
            if not child.lives():
                raise Broken("it has ended")
            child.ask([["show"]], b"", Limit.of(FORGETS))
            self._children.give_back(child)
        except (Late, Broken):
            child.end()


class ByProgram(_ByChild):
    """A child that asks a process of the program. What explains a refusal is asked of another process."""

    def __init__(self, command: Sequence[str]):
        self._command = program.absolute(command)
        if program.found(self._command[0]) is None:
            raise FileNotFoundError(errno.ENOENT, "there is no such program", self._command[0])
        super().__init__(timed.children("--session", *self._command))

    def reply(self, words: Sequence[str], limit: Limit) -> Reply:
        """The reply to words, over the rules that stand. Rules that were written out may have more inputs."""
        told, rules = super().reply(words, limit), self._rules
        asked = [*words, "--whole"] if rules.startswith(WRITTEN_OUT) else words

        def explain() -> str:
            return by_program(self._command, asked, rules).errors.decode(errors="replace")

        return told if told.errors else Reply(told.status, told.output, explain=explain)

    def history(self, after: History) -> str:
        """The text of a history, in one line, as a session of the program reads it."""
        return one_line(after)


class ByLibrary(_ByChild):
    """A child that asks a handle of the library."""

    def __init__(self, file: Path):
        self._file = file
        super().__init__(timed.of_library(file))

    def reply(self, words: Sequence[str], limit: Limit) -> Reply:
        """The reply to words, over the rules that stand."""
        return timed.explained(self._file, words, self._rules, super().reply(words, limit))

    def history(self, after: History) -> str:
        """The text of a history."""
        return history_text(after)


def begun(named: str | Path | None) -> Asked:
    """What answers a session: the program that is named, here or by the variable of the environment, else a handle of the library, else the
    program of the package or of the clone."""
    if named:
        return ByProgram([str(named)])
    file = None if program.named() else library.file()
    if file and has_handles(file):
        return ByLibrary(file)
    return ByProgram(program_words())


class Whole:
    """One of these, over games as they are found: each is written out once, when it comes to stand. Where that is refused, each question is."""

    def __init__(self, asked: Asked, named: str | Path | None, tighten: bool):
        self._asked, self._named, self._tighten = asked, named, tighten
        self._refused: Reply | None = None

    def stand(self, rules: bytes, limit: Limit) -> None:
        """Takes another game, which stands from then on."""
        stopped = timed.stops(limit)
        if self._named:
            written = by_program([str(self._named)], whole_words(self._tighten), rules, stopped)
        else:
            written = written_reply(rules, self._tighten, stopped)
        refused = None if written.status == Status.ANSWER else written
        self._asked.stand(rules if refused else written.output, limit)
        self._refused = refused

    def reply(self, words: Sequence[str], limit: Limit) -> Reply:
        """The reply to words, over what was written out."""
        return self._refused or self._asked.reply(words, limit)

    def history(self, after: History) -> str:
        """The text of a history, as it is taken here."""
        return self._asked.history(after)

    def close(self) -> None:
        """Ends it."""
        self._asked.close()


class Session:
    """Questions over rules that are read once. It is closed by `close`, or at the end of a `with`.

    The calls are those of the package without their first argument, and several threads may call at once: each waits for those before
    it. `ProcessLookupError` tells that the session has ended. A child process answers, by a handle of the library, or by the program that is
    named, or where there is no library by that of the package. With `whole` the rules are a game as it is found, which is written out, and with
    `tighten` only what play can come to is stated of it.

    A question has so many seconds as its `timeout` says, or else that of the session, from when it is asked; `TimedOut` tells that they were
    over. `cancel` gives up what other threads have asked, which `Cancelled` tells them. Behind both, and behind a key, further questions are
    answered as ever: the child that searched is ended, and another one reads the rules.
    """

    def __init__(
        self, rules: Rules, program: str | Path | None = None, *, whole: bool = False, tighten: bool = False, timeout: float | None = None
    ):
        self._lock = threading.Lock()
        self._timeout = timeout
        self._given_up, self._closed = threading.Event(), threading.Event()
        asked = begun(program)
        self._is_whole = whole or tighten
        self._asked: Asked = Whole(asked, program, tighten) if self._is_whole else asked
        try:
            self._stand(rules, None)
        except BaseException:
            self.close()
            raise

    def __enter__(self) -> Session:
        return self

    def __exit__(self, kind: type[BaseException] | None, fault: BaseException | None, trace: TracebackType | None) -> None:
        self.close()

    def close(self) -> None:
        """Ends the session. What is still asked is given up."""
        self._closed.set()
        with self._lock:
            self._asked.close()

    def cancel(self) -> None:
        """Gives up all that other threads have asked and that is not answered yet."""
        given_up, self._given_up = self._given_up, threading.Event()
        given_up.set()

    def _begin(self, limit: Limit) -> None:
        """Waits for the questions before this one."""
        while not self._lock.acquire(timeout=BEAT):
            if limit.left() <= 0:
                raise Late

    @contextmanager
    def _turn(self, timeout: float | None) -> Iterator[Limit]:
        """The turn of a question, and how long it may take."""
        seconds, given_up = self._timeout if timeout is None else timeout, self._given_up
        limit = Limit.of(seconds, given_up).within(self._closed)
        try:
            self._begin(limit)
            try:
                if self._closed.is_set():
                    raise Late
                yield limit
            finally:
                self._lock.release()
        except (Late, program.Stopped):
            raise self._why(seconds, given_up) from None
        except Broken as fault:
            raise Ended(str(fault)) from None

    def _why(self, seconds: float | None, given_up: threading.Event) -> Exception:
        """Why a question has no answer."""
        if self._closed.is_set():
            return ProcessLookupError("the session has ended")
        return Cancelled("the question was given up") if given_up.is_set() else TimedOut(f"no answer within {seconds} s")

    def stand(self, rules: Rules, *, timeout: float | None = None) -> None:
        """Takes other rules, which stand from then on."""
        self._stand(rules, timeout)

    def _stand(self, rules: Rules, timeout: float | None) -> None:
        """The same, called by what somebody else calls."""
        text = bytes_of(rules)
        with self._turn(timeout) as limit:
            self._asked.stand(text, limit)
        if not self._is_whole:
            warn(text, 3)

    def reply(self, words: Sequence[str], *, timeout: float | None = None) -> Reply:
        """The reply to the words of the program, over the rules that stand. It raises `MemoryError` for want of memory."""
        with self._turn(timeout) as limit:
            return self._asked.reply(words, limit)

    def _told(self, command: Command[Told], timeout: float | None, after: History = "") -> Told:
        """What the answer to a command says."""
        words = [*command.words, *behind(self._asked.history(after))]
        return command.read(self.reply(words, timeout=timeout).lines())

    def show(self, *, timeout: float | None = None) -> tuple[str, ...]:
        """The canonical text of each tree."""
        return self._told(SHOW, timeout)

    def check(self, *, timeout: float | None = None) -> Description:
        """What the rules have."""
        return self._told(CHECK, timeout)

    def net(self, *, timeout: float | None = None) -> Network:
        """How large the network of the rules is."""
        return self._told(NET, timeout)

    def moves(self, after: History = "", *, timeout: float | None = None) -> Position:
        """How play stands after a history."""
        return self._told(MOVES, timeout, after)

    def state(self, after: History = "", *, timeout: float | None = None) -> Standing:
        """How play stands after a history, and which base propositions hold."""
        return self._told(STATE, timeout, after)

    def solve(
        self, role: str, depth: int, *, at_bound: Bound = "zero", unfinished: int | None = None, after: History = "", timeout: float | None = None
    ) -> Solution:
        """What a role can be sure of, as `gdlsolve.solve` tells it."""
        return self._told(solving(role, depth, at_bound, unfinished), timeout, after)

    def solve_within(
        self, role: str, depth: int, low: int, high: int, *, at_bound: Bound = "zero", unfinished: int | None = None, after: History = "",
        timeout: float | None = None,
    ) -> Solution | Outside:
        """The same between two bounds, as `gdlsolve.solve_within` tells it."""
        return self._told(solving_within(role, depth, low, high, at_bound, unfinished), timeout, after)

    def values(
        self, role: str, depth: int, *, at_bound: Bound = "zero", unfinished: int | None = None, after: History = "", timeout: float | None = None
    ) -> Values:
        """What each legal move of a role makes sure of, as `gdlsolve.values` tells it."""
        return self._told(valuing(role, depth, at_bound, unfinished), timeout, after)
