"""Questions that a key or a clock ends, over any rules.

The library answers in the calling thread, which hears nothing before it is done. So a search, and whatever has to be done in so many
seconds, is asked of a child process that has the library too. It is ended where its answer is not waited for any more, stands ready for the
next question where it has answered, and ends with this process.
"""
from __future__ import annotations

import atexit
import os
import threading
from collections.abc import Callable, Iterator, Sequence
from contextlib import contextmanager
from functools import cache
from pathlib import Path

from gdlsolve.solver import calls, program
from gdlsolve.solver.calls import is_of_program
from gdlsolve.solver.engine import OWN_COMMAND, Broken, Children, Late, Limit
from gdlsolve.solver.faults import Ended, TimedOut
from gdlsolve.solver.library import command_of, told_by_library
from gdlsolve.solver.program import check_words
from gdlsolve.solver.replies import Reply, Status
from gdlsolve.solver.rules import Rules, bytes_of

# Commands that may take long.
SEARCHES = (["solve"], ["values"])
# So many child processes are kept that have nothing to do.
IDLE = 4
_first = threading.Lock()


@cache
def _children(words: tuple[str, ...]) -> Children:
    """The child processes that such words of the command line start."""
    made = Children(IDLE, [*OWN_COMMAND, *words], spare=0)
    atexit.register(made.close)
    return made


# A process that is forked off this one shares no child with it.
os.register_at_fork(after_in_child=_children.cache_clear)


def children(*words: str) -> Children:
    """The same, for all that is asked here: several threads may be the first."""
    with _first:
        return _children(words)


def of_library(file: Path) -> Children:
    """Those that keep a handle of a library."""
    return children("--library", str(file))


def stops(limit: Limit) -> Callable[[], bool] | None:
    """Tells whether the time is over, where it ever is."""
    return (lambda: limit.left() <= 0) if limit.may_end() else None


def checked(told: Reply) -> Reply:
    """A reply, but for want of memory, which is raised."""
    if told.status == Status.NO_MEMORY:
        raise MemoryError
    return told


def by_child(file: Path, words: Sequence[str], rules: bytes, limit: Limit) -> Reply:
    """The reply of the library to words without a character 0, in a child process."""
    standing = of_library(file)
    child, [told] = standing.ask(None, [words], rules, limit)
    standing.give_back(child)
    return explained(file, words, rules, checked(told))


def explained(file: Path, words: Sequence[str], rules: bytes, told: Reply) -> Reply:
    """The same reply, which explains itself where it is a refusal of the library."""
    if told.errors:
        return told
    return told_by_library(file, command_of(words), rules, told.status, told.output)


@contextmanager
def in_time(seconds: float | None) -> Iterator[Limit]:
    """A limit of so many seconds. Where it is passed, or there is no answer, that is told as it is to those who ask."""
    try:
        yield Limit.of(seconds)
    except (Late, program.Stopped):
        raise TimedOut(f"no answer within {seconds} s") from None
    except Broken as fault:
        raise Ended(str(fault)) from None


def within(words: Sequence[str], rules: Rules, limit: Limit) -> Reply:
    """The reply to the words of the program, over these rules, in time."""
    check_words(words)
    if limit.left() <= 0:
        raise Late
    text, found = bytes_of(rules), calls.answers()
    may_be_long = limit.may_end() or list(words[:1]) in SEARCHES
    if may_be_long and isinstance(found, Path) and not is_of_program(words):
        return by_child(found, words, text, limit)
    return calls.reply(words, text, stops(limit))


def reply(words: Sequence[str], rules: Rules, timeout: float | None = None) -> Reply:
    """The reply to the words of the program, over these rules. It raises `MemoryError` for want of memory, and `TimedOut` where it is not
    there within so many seconds. What else stands in place of an answer is a reply."""
    with in_time(timeout) as limit:
        return within(words, rules, limit)
