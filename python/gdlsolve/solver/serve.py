"""A process of the program, `gdlsolve serve`, which keeps rules from one question to the next, and the lines that it reads."""
from __future__ import annotations

import subprocess
from collections.abc import Callable, Iterator, Sequence
from itertools import pairwise
from typing import IO

from gdlsolve.solver.faults import Misuse
from gdlsolve.solver.replies import Reply, Status
from gdlsolve.solver.terms import Malformed, trees

# So many bytes of requests are written before a frame is read; a pipe takes twice as many.
AT_ONCE = 1 << 15


def _is_list(word: str) -> bool:
    """Whether a word begins with a bracket, and so goes on over all lists behind it."""
    return word.startswith("(")


def _is_one(word: str) -> bool:
    """Whether a session reads a text as one word: lists alone, or what has neither blanks nor brackets."""
    if ";" in word or "\n" in word:
        return False
    if not _is_list(word):
        return bool(word) and not set(" \t\r()") & set(word)
    try:
        return word.endswith(")") and all(map(_is_list, trees(word)))
    except Malformed:
        return False


def line_of(words: Sequence[str]) -> bytes:
    """The line that asks for these words. For some there is none, as for an empty one, or two lists that follow each other."""
    if not all(map(_is_one, words)) or any(_is_list(one) and _is_list(next) for one, next in pairwise(words)):
        raise Misuse(f"no line has these words: {list(words)!r}")
    return " ".join(words).encode() + b"\n"


class Process:
    """A process of `gdlsolve serve`, which is asked one request after the other, or of `gdlsolve serve --whole`. `ProcessLookupError` tells
    that it has ended."""

    def __init__(self, command: Sequence[str], begin: Callable[[], None] | None = None, *, whole: bool = False):
        words = ["serve", "--whole"] if whole else ["serve"]
        self.is_whole = whole
        self._process = subprocess.Popen([*command, *words], stdin=subprocess.PIPE, stdout=subprocess.PIPE, preexec_fn=begin)
        assert self._process.stdin is not None and self._process.stdout is not None
        self._requests: IO[bytes] = self._process.stdin
        self._frames: IO[bytes] = self._process.stdout

    def close(self) -> None:
        """Ends the process."""
        self._process.kill()
        self._process.wait()
        self._frames.close()
        try:
            self._requests.close()
        except BrokenPipeError:
            pass

    def _frame(self) -> Reply:
        """The next frame."""
        status, size = map(int, self._frames.readline().split())
        output = self._frames.read(size)
        if len(output) < size:
            raise EOFError
        return Reply(Status(status), output)

    def exchange(self, requests: Sequence[bytes]) -> list[Reply]:
        """The frames of requests, which are written before the first frame is read. Together they are no longer than a pipe."""
        try:
            self._requests.write(b"".join(requests))
            self._requests.flush()
            return [self._frame() for _ in requests]
        except (OSError, ValueError, EOFError):
            raise ProcessLookupError("the session has ended") from None

    def replies(self, lines: Sequence[bytes]) -> Iterator[Reply]:
        """The replies to lines, of which as many are written at once as a pipe takes."""
        start, size = 0, 0
        for end, line in enumerate(lines):
            if start < end and size + len(line) > AT_ONCE:
                yield from self.exchange(lines[start:end])
                start, size = end, 0
            size += len(line)
        yield from self.exchange(lines[start:])

    def stand(self, rules: bytes) -> None:
        """Takes other rules, which stand from then on."""
        [told] = self.exchange([b"rules %d\n" % len(rules) + rules])
        if told.status == Status.NO_MEMORY:
            raise MemoryError
