"""The program: its runs, as a child process that ends with this one, and what they reply.

`GDLSOLVE_PROGRAM` names a program that answers in place of the library: its file, or a command.
"""

from __future__ import annotations

import ctypes
import errno
import os
import shlex
import shutil
import signal
import subprocess
import time
from collections.abc import Callable, Mapping, Sequence
from dataclasses import dataclass
from functools import cache
from pathlib import Path

from gdlsolve.solver.faults import Ended, Misuse
from gdlsolve.solver.replies import Reply, Status

VARIABLE = "GDLSOLVE_PROGRAM"
NAME = "gdlsolve"
# The folder of the package, and the clone that it may stand in.
PACKAGE = Path(__file__).resolve().parent.parent
CLONE = PACKAGE.parent.parent
# How long a child is waited for before it is asked again whether its answer is still wanted: at
# first, and at most, in seconds.
FIRST_BEAT = 0.01
LAST_BEAT = 0.1
# So often it is looked at what a child has become, in seconds.
SHORTEST = 0.0002
SETPRIV = "setpriv"
PR_SET_PDEATHSIG = 1
ORPHANED = 70
# Words that ask for a text, and not for an answer over rules.
ASKS_FOR_HELP = frozenset({"--help", "-h", "--version", "-V"})
# What may tell that an answer is not wanted any more.
Stops = Callable[[], bool] | None

_prctl = getattr(ctypes.CDLL(None), "prctl", None)


@dataclass(frozen=True)
class Ran:
    """What a run gave: the exit status, or below 0 the signal that ended it; both outputs."""

    status: int
    output: bytes
    errors: bytes


class Stopped(Exception):
    """The answer is not wanted any more, so the program was killed."""


def found(name: str) -> str | None:
    """The whole path of a program: of one that a path names, or else of the first of that name in the folders of `PATH`. Of these such count
    alone as have a whole path themselves, so that no program of the current folder is run by chance."""
    if os.sep in name:
        return shutil.which(os.path.abspath(name))
    folders = os.environ.get("PATH", os.defpath).split(os.pathsep)
    return shutil.which(name, path=os.pathsep.join(filter(os.path.isabs, folders)) or os.devnull)


def absolute(command: Sequence[str]) -> list[str]:
    """A command with the whole path of its program, where there is one."""
    return [*(found(name) or name for name in command[:1]), *command[1:]]


def named() -> list[str]:
    """The words that start the program that is named, with its whole path, or none where none is."""
    text = os.environ.get(VARIABLE) or ""
    try:
        return absolute([text] if os.sep in text and Path(text).is_file() else shlex.split(text))
    except ValueError as fault:
        raise ImportError(f"{VARIABLE} names no command: {fault}: {text}") from None


def own() -> Path | None:
    """The program inside of the package, or that of the clone in which the package stands."""
    places = (PACKAGE / "bin" / NAME, CLONE / "out" / NAME)
    return next((file for file in places if os.access(file, os.X_OK)), None)


def words() -> list[str]:
    """The words that start the program that is named, or else its own, or none where there is none."""
    file = own()
    return named() or ([str(file)] if file else [])


def environment() -> dict[str, str]:
    """The environment, in which this package is found. Nothing in it stands for the current folder."""
    further = [os.path.abspath(folder) for folder in os.environ.get("PYTHONPATH", "").split(os.pathsep) if folder]
    path = os.pathsep.join([str(PACKAGE.parent), *further])
    return {**os.environ, "PYTHONPATH": path}


def dies_with(parent: int) -> Callable[[], None]:
    """What a child does first: it asks to be killed when the one who started it ends."""

    def begin() -> None:
        if _prctl is not None:
            _prctl(PR_SET_PDEATHSIG, int(signal.SIGKILL), 0, 0, 0)
            if os.getppid() != parent:
                os._exit(ORPHANED)

    return begin


@cache
def _setpriv() -> tuple[str, ...]:
    """The words that have a command killed when the one who started it ends, where the system has such. A fork of a large process, which
    is the other way, takes several times as long as the start of a program."""
    file, nothing = found(SETPRIV), found("true")
    words = (str(file), "--pdeathsig", "KILL", "--")
    if file and nothing and subprocess.run([*words, nothing], capture_output=True, check=False).returncode == 0:
        return words
    return ()


def _become(child: subprocess.Popen[bytes]) -> None:
    """Waits until a child that `setpriv` starts is the program, and so ends with this process. Before, nothing may be asked of it."""
    name = Path(f"/proc/{child.pid}/comm")
    try:
        while child.poll() is None and name.read_text() == f"{SETPRIV}\n":
            time.sleep(SHORTEST)
    except (FileNotFoundError, ProcessLookupError):
        pass


def started(command: Sequence[str], known: Mapping[str, str] | None) -> subprocess.Popen[bytes]:
    """A child that ends with this process, or before with the thread that has started it."""
    file = found(command[0])
    if file is None:
        raise FileNotFoundError(errno.ENOENT, "there is no such program", command[0])
    child = subprocess.Popen(
        [*_setpriv(), file, *command[1:]],
        stdin=subprocess.PIPE,
        stdout=subprocess.PIPE,
        stderr=subprocess.PIPE,
        env=known,
        preexec_fn=None if _setpriv() else dies_with(os.getpid()),
    )
    _become(child)
    return child


def _outputs(
    child: subprocess.Popen[bytes], rules: bytes, stopped: Stops
) -> tuple[bytes, bytes]:
    """The outputs of a child, to which the rules are given."""
    if stopped is None:
        return child.communicate(rules)
    pending: bytes | None = rules
    beat = FIRST_BEAT
    while True:
        try:
            return child.communicate(pending, timeout=beat)
        except subprocess.TimeoutExpired:
            pending, beat = None, min(2 * beat, LAST_BEAT)
            if stopped():
                raise Stopped from None


def run(
    command: Sequence[str],
    words: Sequence[str],
    rules: bytes,
    stopped: Stops = None,
    known: Mapping[str, str] | None = None,
) -> Ran:
    """A run of a command with these words, in an environment, which ends with this process, or
    where it is stopped."""
    with started([*command, *words], known) as child:
        try:
            output, errors = _outputs(child, rules, stopped)
        except BaseException:
            child.kill()
            child.communicate()
            raise
    return Ran(child.returncode, output, errors)


def check_words(words: Sequence[str]) -> None:
    """Holds that no word has a character 0."""
    for word in words:
        if "\0" in word:
            raise Misuse(f"a word has a character 0: {word!r}")


def by_program(command: Sequence[str], words: Sequence[str], rules: bytes, stopped: Stops = None) -> Reply:
    """The reply of a program to words without a character 0. `Stopped` tells that it was stopped before."""
    ran = run(command, words, rules, stopped)
    if ran.status == Status.NO_MEMORY:
        raise MemoryError
    if ran.status not in set(Status):
        said = ran.errors.decode(errors="replace").strip()
        raise Ended(f"{command[0]} ended with status {ran.status}. {said}".rstrip())
    status = Status(ran.status)
    if status == Status.MISUSE:
        return Reply(status, ran.errors)
    if status == Status.ANSWER and (ASKS_FOR_HELP & set(words) or words[:1] == ["help"]):
        return Reply(Status.MISUSE, ran.output)
    return Reply(status, ran.output, ran.errors)
