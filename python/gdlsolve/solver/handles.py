"""Handles of the library: rules that are read once, over which many commands are asked."""
from __future__ import annotations

import ctypes
import threading
import weakref
from collections.abc import Callable, Sequence
from dataclasses import dataclass
from functools import cache
from pathlib import Path
from typing import cast

from gdlsolve.solver.calls import is_of_program, reply
from gdlsolve.solver.library import command_of, in_room, told_by_library
from gdlsolve.solver.replies import Reply, Status, is_too_wide


@dataclass(frozen=True)
class _Calls:
    """The functions of a library that open a handle, ask over it and close it."""

    open: Callable[..., int]
    ask: Callable[..., int]
    close: Callable[[int], None]


@cache
def _calls(library: Path) -> _Calls:
    """Those of a library. `AttributeError` tells that it has none."""
    file = ctypes.CDLL(str(library))
    opens, asks, closes = file.gdlsolve_open, file.gdlsolve_ask, file.gdlsolve_close
    text = [ctypes.c_char_p, ctypes.c_size_t]
    opens.restype, opens.argtypes = ctypes.c_uint32, [*text, ctypes.POINTER(ctypes.c_void_p)]
    asks.restype, asks.argtypes = ctypes.c_uint32, [ctypes.c_void_p, *text, *text, ctypes.POINTER(ctypes.c_size_t)]
    closes.restype, closes.argtypes = None, [ctypes.c_void_p]
    return _Calls(opens, asks, cast(Callable[[int], None], closes))


def has_handles(library: Path) -> bool:
    """Whether a library has handles."""
    try:
        _calls(library)
    except (OSError, AttributeError):
        return False
    return True


class Handle:
    """A handle on rules. Several threads may ask at once: each waits for those before it. It is closed by `close`, or when it is let go.
    `ProcessLookupError` tells that it is closed."""

    def __init__(self, library: Path, rules: bytes):
        self._lock = threading.Lock()
        self._calls = _calls(library)
        place = ctypes.c_void_p()
        if self._calls.open(rules, len(rules), ctypes.byref(place)) == Status.NO_MEMORY:
            raise MemoryError
        assert place.value is not None
        self._place = place.value
        self._closing = weakref.finalize(self, self._calls.close, self._place)
        # When Python ends, a thread may still be at a call.
        self._closing.atexit = False

    def ask(self, command: bytes) -> tuple[Status, bytes]:
        """The status and the reply to a command, as `gdlsolve_reply` tells them. It raises `MemoryError` for want of memory, and the handle
        may be asked again."""
        with self._lock:
            if not self._closing.alive:
                raise ProcessLookupError("the session has ended")
            return in_room(self._calls.ask, [self._place, command, len(command)])

    def close(self) -> None:
        """Closes it, which does nothing where it is closed."""
        with self._lock:
            self._closing()


class ByHandle:
    """A handle of the library, and what answers in its place what it does not take."""

    def __init__(self, file: Path):
        self._file = file
        self._rules = b""
        self._handle: Handle | None = None

    def stand(self, rules: bytes) -> None:
        """Takes other rules, which stand from then on."""
        old, self._handle = self._handle, Handle(self._file, rules)
        self._rules = rules
        if old:
            old.close()

    def reply(self, words: Sequence[str]) -> Reply:
        """The reply to words, over the rules that stand."""
        if self._handle is None:
            raise ProcessLookupError("no rules stand")
        if is_of_program(words):
            return reply(words, self._rules)
        command = command_of(words)
        told = told_by_library(self._file, command, self._rules, *self._handle.ask(command))
        return reply(words, self._rules) if is_too_wide(told, words, self._rules) else told

    def close(self) -> None:
        """Closes the handle."""
        if self._handle:
            self._handle.close()
            self._handle = None
