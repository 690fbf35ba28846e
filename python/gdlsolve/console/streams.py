"""The three streams of a command, each of which may be closed, full or gone. Python has none for one that is closed."""

from __future__ import annotations

import os
import sys
from collections.abc import Callable
from typing import TextIO


class StreamFault(Exception):
    """Standard input or output failed, or is closed. The text is what the program says of it."""


def hush(stream: TextIO) -> None:
    """Drops what a stream that failed has not written, so that Python does not try it again at its end."""
    os.dup2(os.open(os.devnull, os.O_WRONLY), stream.fileno())


def put(output: bytes) -> None:
    """Writes to standard output. Python has none where it is closed."""
    if sys.stdout is None:
        raise StreamFault("write fault")
    try:
        sys.stdout.buffer.write(output)
        sys.stdout.buffer.flush()
    except OSError as fault:
        hush(sys.stdout)
        raise StreamFault("write fault") from fault


def put_line(line: str) -> None:
    """Writes a line of a server to standard output. That may also be closed: it serves all the same."""
    if sys.stdout is not None:
        put(f"{line}\n".encode())


def say(text: str) -> None:
    """Tells people something, where they can be told."""
    if sys.stderr is None:
        return
    try:
        sys.stderr.write(text)
        sys.stderr.flush()
    except OSError:
        hush(sys.stderr)


def served(place: str, serve: Callable[[], None]) -> int:
    """Writes a line that tells the place of a server, and has it serve until a key ends it. Gives the exit status."""
    try:
        put_line(place)
        serve()
    except StreamFault as fault:
        say(f"{fault}\n")
        return 1
    except KeyboardInterrupt:
        pass
    return 0


def on_input() -> bytes:
    """The bytes of standard input."""
    if sys.stdin is None:
        raise StreamFault("read fault")
    try:
        return sys.stdin.buffer.read()
    except OSError as fault:
        raise StreamFault("read fault") from fault
