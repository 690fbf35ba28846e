"""Questions to the solver that end in time, for the player, the page and searches by time.

Each question goes to a child process, which is ended where the answer is late, where the question
is given up, and where the process that asks ends. A child that answered takes further questions, so
that its start is paid for once. This is the one place that knows how the solver is asked.
"""

from __future__ import annotations

import math
import os
import select
import signal
import socket
import subprocess
import sys
import threading
import time
from collections.abc import Iterator, Sequence
from contextlib import contextmanager
from dataclasses import asdict, dataclass

from gdlsolve.solver.answers import Description, Position, Solution
from gdlsolve.solver.faults import Misuse
from gdlsolve.solver.history import Turn, behind
from gdlsolve.solver.program import environment
from gdlsolve.solver.replies import NO_REPLY, Reply, Status
from gdlsolve.solver.terms import terms

# What starts a child process, and what starts one that reads rules once where it can. No module of the current folder is read.
OWN_COMMAND = (sys.executable, "-P", "-m", "gdlsolve.solver.child")
SESSION_COMMAND = (*OWN_COMMAND, "--session")
# So often a question that is waited for looks whether it has been given up, in seconds.
BEAT = 0.02
# And so often where it cannot be given up.
LONGEST_PAUSE = 3600.0
# No reply is longer: a line for each of 4,096 moves of at most 4,096 bytes.
MOST_BYTES = 1 << 25
# A request that is not taken within so many seconds is not taken at all.
LONGEST_SEND = 60.0


class Late(Exception):
    """The answer was not there in time, or the question was given up."""


class Broken(Exception):
    """The child process ended, or wrote what is no reply."""


@contextmanager
def readable() -> Iterator[None]:
    """What cannot be read as an answer is told as such."""
    try:
        yield
    except Misuse:
        raise
    except (ValueError, LookupError, TypeError) as fault:
        raise Broken(f"no answer: {fault!r}") from None


class Limit:
    """Until when an answer is waited for, by `monotonic`; once it is given up, a grace longer, and
    once who asks is closed, no longer at all."""

    def __init__(
        self, until: float, given_up: threading.Event | None = None, grace: float = 0.0
    ):
        self.until, self.given_up, self.grace = until, given_up, grace
        self.closed: threading.Event | None = None

    @classmethod
    def of(cls, seconds: float | None, given_up: threading.Event | None = None) -> Limit:
        """So many seconds from now on, or no end."""
        return cls(math.inf if seconds is None else time.monotonic() + seconds, given_up)

    def may_end(self) -> bool:
        """Whether there may be an end."""
        return self.until < math.inf or self.given_up is not None or self.closed is not None

    def pause(self) -> int:
        """How long may be waited before this is asked again, in milliseconds; at most 0 where the time is over."""
        left = self.left()
        seconds = LONGEST_PAUSE if self.given_up is None and self.closed is None else BEAT
        return math.ceil(min(left, seconds) * 1000)

    def within(self, closed: threading.Event) -> Limit:
        """The same for one who asks that may be closed."""
        self.closed = closed
        return self

    def left(self) -> float:
        """How many seconds are left; at most 0 where the time is over."""
        now = time.monotonic()
        if self.given_up is not None and self.given_up.is_set():
            self.until, self.given_up = min(self.until, now + self.grace), None
        if self.closed is not None and self.closed.is_set():
            self.until = min(self.until, now)
        return self.until - now


class Child:
    """A process that answers, at the other end of a socket."""

    def __init__(self, command: Sequence[str]):
        self.rules: bytes | None = None
        self.unread = bytearray()
        self.owner = os.getpid()
        ours, theirs = socket.socketpair()
        try:
            # A group of its own, so that a key that ends the asker does not end it first.
            self.process = subprocess.Popen(
                command,
                stdin=theirs.fileno(),
                stdout=theirs.fileno(),
                env=environment(),
                process_group=0,
            )
        except BaseException:
            ours.close()
            raise
        finally:
            theirs.close()
        self.socket = ours

    def lives(self) -> bool:
        """Whether the process is there, for this one: it is none of a process that was forked off the one who started it."""
        return self.owner == os.getpid() and self.process.poll() is None

    def end(self) -> None:
        """Ends the process, and the program that it may have started."""
        if self.owner != os.getpid():
            # Nobody here may wait for it.
            self.process.returncode = 0
            self.socket.close()
            return
        if self.lives():
            try:
                os.killpg(self.process.pid, signal.SIGKILL)
            except OSError:
                self.process.kill()
        self.process.wait()
        self.socket.close()

    def send(self, requests: bytes, limit: Limit) -> None:
        """Writes requests."""
        self.socket.settimeout(min(max(limit.left(), 0.001), LONGEST_SEND))
        try:
            self.socket.sendall(requests)
        except TimeoutError:
            if limit.left() > 0:
                raise Broken("a request was not taken") from None
            raise Late from None
        except OSError as fault:
            raise Broken(str(fault)) from None

    def receive(self, limit: Limit) -> None:
        """Reads some bytes of a reply."""
        poll = select.poll()
        poll.register(self.socket, select.POLLIN)
        while (pause := limit.pause()) > 0:
            if poll.poll(pause):
                try:
                    found = self.socket.recv(1 << 16)
                except OSError as fault:
                    raise Broken(str(fault)) from None
                if not found:
                    raise Broken("the solver's process ended")
                self.unread += found
                return
        raise Late

    def line(self, limit: Limit) -> bytes:
        """A line of a reply."""
        while (end := self.unread.find(b"\n")) < 0:
            if len(self.unread) > MOST_BYTES:
                raise Broken("a line without an end")
            self.receive(limit)
        return self.taken(end + 1)[:-1]

    def taken(self, size: int) -> bytes:
        """So many bytes, which were read."""
        found = bytes(self.unread[:size])
        del self.unread[:size]
        return found

    def reply(self, limit: Limit) -> Reply:
        """The next reply."""
        line = self.line(limit)
        words = line.split()
        if len(words) != 3 or not all(word.isdigit() for word in words):
            raise Broken(f"no reply: {line[:80]!r}")
        status, size, more = map(int, words)
        if status not in {*Status, NO_REPLY} or size + more > MOST_BYTES:
            raise Broken(f"no reply: {line[:80]!r}")
        while len(self.unread) < size + more:
            self.receive(limit)
        output, said = self.taken(size), self.taken(more)
        if status == NO_REPLY:
            raise Broken(said.decode(errors="replace"))
        return Reply(Status(status), output, said)

    def ask(self, batch: Sequence[Sequence[str]], rules: bytes, limit: Limit) -> list[Reply]:
        """The replies to commands over rules, which are sent where they are not those of before."""
        if self.rules != rules:
            self.send(b"rules %d\n" % len(rules) + rules, limit)
            self.rules = rules
        requests = [b"batch %d\n" % len(batch)]
        for words in batch:
            text = b"".join(word.encode() + b"\0" for word in words)
            requests.append(b"words %d\n" % len(text) + text)
        self.send(b"".join(requests), limit)
        found = [self.reply(limit) for _ in batch]
        if self.unread:
            raise Broken("more than a reply")
        return found


class Children:
    """Processes that stand ready for engines: so many are spare, and at most so many are idle. Those
    that are asked are at work."""

    def __init__(self, most: int, command: Sequence[str] | None = None, spare: int = 2):
        self.most, self.spare = max(most, spare), spare
        self.command = list(command or SESSION_COMMAND)
        self.idle: list[Child] = []
        self.at_work: set[Child] = set()
        self.change = threading.Condition()
        self.is_closed = False
        if spare:
            threading.Thread(target=self._fill, daemon=True).start()

    def _fill(self) -> None:
        """Starts processes until enough are spare, whenever one was taken."""
        while True:
            with self.change:
                self.change.wait_for(lambda: self.is_closed or len(self.idle) < self.spare)
                if self.is_closed:
                    return
            try:
                self.give_back(Child(self.command))
            except OSError:
                time.sleep(BEAT)

    def take(self, rules: bytes | None = None) -> Child:
        """A process that is idle: one that has these rules, or else that which has been so for longest, or a new one."""
        with self.change:
            while self.idle:
                known = (place for place, child in enumerate(self.idle) if child.rules == rules)
                child = self.idle.pop(next(known, 0))
                self.change.notify()
                if child.lives():
                    return child
                child.end()
        try:
            return Child(self.command)
        except OSError as fault:
            raise Broken(str(fault)) from None

    def give_back(self, child: Child) -> None:
        """Keeps a process for others, or ends it where there are enough."""
        with self.change:
            if not self.is_closed and len(self.idle) < self.most:
                self.idle.append(child)
                return
        child.end()

    @contextmanager
    def _working(self, child: Child) -> Iterator[None]:
        """A process that is asked. Where it gives no answer it is ended."""
        with self.change:
            self.at_work.add(child)
        try:
            yield
        except BaseException:
            child.end()
            raise
        finally:
            with self.change:
                self.at_work.discard(child)

    def ask(
        self, child: Child | None, batch: Sequence[Sequence[str]], rules: bytes, limit: Limit
    ) -> tuple[Child, list[Reply]]:
        """The replies of a child, and that child. One that is late is ended; one that ended by
        itself is replaced once."""
        if child is not None and not child.lives():
            child.end()
            child = None
        for is_last in (False, True):
            asked = child or self.take(rules)
            try:
                with self._working(asked):
                    return asked, asked.ask(batch, rules, limit)
            except BaseException as fault:
                child = None
                if is_last or not isinstance(fault, Broken):
                    raise
        raise Broken("no child was asked")

    def close(self) -> None:
        """Ends all that are idle, and later those that come back."""
        with self.change:
            self.is_closed = True
            idle, self.idle = self.idle, []
            self.change.notify()
        for child in idle:
            child.end()


class Pool:
    """Answers over any rules, so many questions at once at most; the others wait."""

    def __init__(self, most: int, command: Sequence[str] | None = None, spare: int = 0):
        self.most = most
        self.children = Children(most, command or OWN_COMMAND, spare)
        self.places = threading.Semaphore(most)
        self.closed = threading.Event()

    def ask(self, words: Sequence[str], rules: bytes, limit: Limit, own: threading.Semaphore | None = None) -> Reply:
        """The reply to a command over rules. Who has places of its own waits for none of the others."""
        limit.within(self.closed)
        places = own or self.places
        while not places.acquire(timeout=BEAT):
            if limit.left() <= 0:
                raise Late
        try:
            if limit.left() <= 0:
                raise Late
            child, [found] = self.children.ask(None, [words], rules, limit)
        finally:
            places.release()
        self.children.give_back(child)
        return found

    def close(self) -> None:
        """Asks no more. Questions that are under way are given up."""
        self.closed.set()
        self.children.close()


@dataclass(frozen=True)
class Playouts:
    """So many random matches, of so many turns at most, behind which play is worth `unfinished`."""

    matches: int
    turns: int
    unfinished: int
    seed: int

    def words(self) -> list[str]:
        """The options that ask for them."""
        return [word for name, number in asdict(self).items() for word in (f"--{name}", str(number))]


class Engine:
    """Answers over one text of rules, one question at a time, by a child that it keeps."""

    def __init__(self, rules: str, children: Children):
        self.rules = rules.encode()
        self.children = children
        self.child: Child | None = None
        self.lock = threading.Lock()
        self.closed = threading.Event()

    def ask_all(self, batch: Sequence[Sequence[str]], limit: Limit) -> list[list[str]]:
        """The lines of the answers to commands, which are asked together."""
        if not self.lock.acquire(timeout=max(limit.within(self.closed).left(), 0.001)):
            raise Late
        try:
            if self.closed.is_set():
                raise Late
            child, self.child = self.child, None
            self.child, found = self.children.ask(child, batch, self.rules, limit)
        finally:
            self.lock.release()
            if self.closed.is_set():
                self.close()
        with readable():
            return [each.lines() for each in found]

    def ask(self, words: Sequence[str], limit: Limit) -> list[str]:
        """The lines of the answer."""
        return self.ask_all([words], limit)[0]

    def check(self, limit: Limit) -> Description:
        """What the rules have."""
        lines = self.ask(["check"], limit)
        with readable():
            return Description.of(lines)

    def moves(self, turns: Sequence[Turn], limit: Limit) -> Position:
        """How play stands after a history."""
        lines = self.ask(["moves", *behind(turns)], limit)
        with readable():
            return Position.of(lines)

    def read(self, limit: Limit) -> None:
        """Has its process read the rules, where it has not yet."""
        if self.child is None or self.child.rules != self.rules:
            self.moves((), limit)

    def positions(self, histories: Sequence[Sequence[Turn]], limit: Limit) -> list[Position]:
        """How play stands after each of these histories."""
        told = self.ask_all([["moves", *behind(turns)] for turns in histories], limit)
        with readable():
            return list(map(Position.of, told))

    def solve(
        self, role: str, depth: int, turns: Sequence[Turn], unfinished: int, limit: Limit
    ) -> Solution:
        """What a role can be sure of, with play that goes on at the depth worth `unfinished`."""
        words = ["solve", "--role", role, "--depth", str(depth), "--unfinished", str(unfinished)]
        lines = self.ask([*words, *behind(turns)], limit)
        with readable():
            return Solution.of(lines)

    def close(self) -> None:
        """Asks no more. A question that is under way is given up."""
        self.closed.set()
        if self.lock.acquire(blocking=False):
            child, self.child = self.child, None
            self.lock.release()
            if child is not None:
                self.children.give_back(child)
