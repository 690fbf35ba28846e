"""Ctrl-C ends a command of the package without a word: also while its modules are still read, and while Python ends.

To import this is what does it, where this process is such a command. So it comes before all else that is imported.
"""

from __future__ import annotations

import os
import signal
import sys
from collections.abc import Callable
from functools import wraps
from types import FrameType
from typing import NoReturn, ParamSpec

Given = ParamSpec("Given")
# The exit status of what a key has ended.
STOPPED = 130
COMMANDS = ("gdlsolve", "gdlsolve-cluster", "gdlsolve-manager", "gdlsolve-page", "gdlsolve-player", "gdlsolve-tournament")


def is_command() -> bool:
    """Whether this process is a command: a script that pip has made, or a module that `python -m` is about to find."""
    name = os.path.basename(sys.argv[0]) if sys.argv else ""
    return name == "-m" or name in COMMANDS


def name(script: str, module: str) -> str:
    """What a command calls itself: it is as it was started."""
    return script if os.path.basename(sys.argv[0]) == script else f"python -m {module}"


def _end(number: int, frame: FrameType | None) -> NoReturn:
    """Ends this process at once. What it has started ends with it."""
    os._exit(STOPPED)


def _take(old: object, new: Callable[[int, FrameType | None], NoReturn]) -> bool:
    """Has a key do something else, where it does what is expected. It may also be that it does nothing, as for what `nohup` starts."""
    is_so = signal.getsignal(signal.SIGINT) is old
    if is_so:
        signal.signal(signal.SIGINT, new)
    return is_so


def quiet(command: Callable[Given, int]) -> Callable[Given, int]:
    """A command that a key ends with its status, wherever it is."""

    @wraps(command)
    def run(*given: Given.args, **named: Given.kwargs) -> int:
        is_own = _take(_end, signal.default_int_handler)
        try:
            return command(*given, **named)
        except KeyboardInterrupt:
            return STOPPED
        finally:
            if is_own:
                _take(signal.default_int_handler, _end)

    return run


if is_command():
    _take(signal.default_int_handler, _end)
