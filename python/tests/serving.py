"""Players over HTTP for tests, on the loopback alone, and what is said to them."""

from __future__ import annotations

import re
import sys
import tempfile
import threading
import time
import urllib.error
import urllib.request
from collections.abc import Callable, Sequence
from contextlib import suppress
from dataclasses import replace
from pathlib import Path
from typing import Any
from unittest import SkipTest, TestCase

from gdlsolve.player.access import Door
from gdlsolve.player.match import Options
from gdlsolve.player.player import Player
from gdlsolve.solver.engine import SESSION_COMMAND, Broken, Children, Engine, Limit
from tests import ENDLESS, ENDLESS_RULES, PROGRAM, TOP

HANGING = Path(__file__).with_name("hanging.py")
# A machine may be busy: so long an answer is waited for that has to come.
LONG = 60.0
# Processes that ask the program in sessions, or the library where there is no program.
SESSIONS = [*SESSION_COMMAND, *PROGRAM]


def pace() -> float:
    """How many times slower than a machine that is not busy this one is now, from 1 to 6."""
    begun = time.monotonic()
    children = Children(1, spare=0)
    Engine("(role a)", children).check(Limit(begun + LONG))
    took = time.monotonic() - begun
    children.close()
    return min(max(took / 0.4, 1.0), 6.0)


# Clocks of tests are so many times longer.
PACE = pace()


def clocks(start: float, play: float) -> str:
    """The clocks of a match at the pace of this machine."""
    return f"{start * PACE:.1f} {play * PACE:.1f}"


def is_alive(process: int) -> bool:
    """Whether a process runs; one that ended and is not yet waited for does not."""
    try:
        return Path(f"/proc/{process}/stat").read_text().rsplit(")", 1)[1].split()[0] != "Z"
    except (FileNotFoundError, ProcessLookupError):
        return False


def started_by(process: int) -> list[int]:
    """The processes that a process has started."""
    found: list[int] = []
    for children in Path(f"/proc/{process}/task").glob("*/children"):
        # A thread may end at any time.
        with suppress(FileNotFoundError, ProcessLookupError):
            found += map(int, children.read_text().split())
    return found


def all_started_by(process: int) -> set[int]:
    """Those, and all that they have started."""
    own = started_by(process)
    return set(own).union(*map(all_started_by, own))


def until(test: Callable[[], object], seconds: float = 180.0) -> bool:
    """Whether something comes to be within so long."""
    end = time.monotonic() + seconds
    while not test() and time.monotonic() < end:
        time.sleep(0.02)
    return bool(test())


def processor_time(process: int) -> int:
    """What a process has used of processors, in ticks of a hundredth of a second; 0 where there is none."""
    try:
        words = Path(f"/proc/{process}/stat").read_text().rsplit(")", 1)[1].split()
    except (FileNotFoundError, ProcessLookupError):
        return 0
    return int(words[11]) + int(words[12])


def wait_for_end(process: int, seconds: float = LONG) -> bool:
    """Whether a process ends in time."""
    until = time.monotonic() + seconds
    while is_alive(process) and time.monotonic() < until:
        time.sleep(0.02)
    return not is_alive(process)


def rules_of(game: str) -> str:
    """The rules of a game as a message tells them."""
    text = ENDLESS_RULES if game == ENDLESS else (TOP / f"games/{game}.kif").read_text()
    return "(" + re.sub(r";[^\n]*", "", text) + ")"


def post(url: str, message: str | bytes, seconds: float = LONG) -> tuple[int, str]:
    """The status and the text of the answer to a message."""
    body = message if isinstance(message, bytes) else message.encode()
    try:
        with urllib.request.urlopen(urllib.request.Request(url, body), timeout=seconds) as found:
            return found.status, found.read().decode()
    except urllib.error.HTTPError as fault:
        with fault:
            return fault.code, fault.read().decode()


class Asking(TestCase):
    """Tests that ask engines."""

    def setUp(self) -> None:
        self.children = Children(4, SESSIONS)
        self.addCleanup(self.children.close)

    def engine(self, rules: str) -> Engine:
        """An engine that has begun its work."""
        made = Engine(rules, self.children)
        self.addCleanup(made.close)
        made.check(Limit(time.monotonic() + LONG))
        return made


class Served:
    """A player that serves while a test runs."""

    def __init__(self, test: TestCase, command: Sequence[str] | None = None, door: Door = Door(), **options: Any):
        try:
            from gdlsolve.player.server import Server
        except ModuleNotFoundError as fault:
            raise SkipTest(f"there is no {fault.name} (python3-{fault.name})") from None
        self.player = Player(Options(is_quiet=True, **options), command or SESSIONS)
        self.faults: list[dict[str, Any]] = []
        self.server = Server(replace(door, port=0), self.player.options.matches, self.player.answer, self.faults.append)
        self.port = self.server.port
        self.url = f"http://127.0.0.1:{self.port}"
        self.server.__enter__()
        test.addCleanup(self.close)
        self.warm()

    def warm(self) -> None:
        """Waits until the processes of the solver that stand ready do, where they answer at all."""
        engines = [Engine("(role a)", pool) for pool in (self.player.children, self.player.children, self.player.umpires)]
        for engine in engines:
            with suppress(Broken):
                engine.check(Limit(time.monotonic() + LONG))
        for engine in engines:
            engine.close()

    def close(self) -> None:
        """Ends the player."""
        self.player.close()
        self.server.__exit__()

    def says(self, message: str) -> str:
        """The answer to a message that is one."""
        status, text = post(self.url, message)
        if status != 200:
            raise AssertionError(f"{status} {text}")
        return text

    def start(self, name: str, game: str, role: str, clocks: str) -> str:
        """The answer to the message that begins a match."""
        return self.says(f"(START {name} {role} {rules_of(game)} {clocks})")


class Held:
    """The command of a solver that hangs at what a test, or a class of tests, says."""

    def __init__(self, test: TestCase | type[TestCase]):
        folder = tempfile.TemporaryDirectory()
        (test.addClassCleanup if isinstance(test, type) else test.addCleanup)(folder.cleanup)
        self.file = Path(folder.name) / "held"
        self.at("")
        self.command = [sys.executable, str(HANGING), str(self.file), "--session", *PROGRAM]

    def at(self, words: str) -> None:
        """From now on it hangs at these commands, or gives no answer where a `!` stands behind one, or is late where `~` and seconds do."""
        self.file.write_text(words)

    def hung(self, least: int = 1) -> set[int]:
        """The processes that hang, and those that they have started; none before so many hang."""
        marks = self.file.parent.glob(f"{self.file.name}.*")
        hang = {number for number in (int(mark.suffix[1:]) for mark in marks) if is_alive(number)}
        return hang.union(*map(started_by, hang)) if len(hang) >= least else set()
