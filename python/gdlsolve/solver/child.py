"""The child process of an engine: it answers questions on its standard input, which is a socket.

    python -m gdlsolve.solver.child [--session] [PROGRAM WORDS..]
    python -m gdlsolve.solver.child --library FILE

A request is a line `rules N` and then N bytes of rules, or a line `words N` and then N bytes, which
are the words of a command with a byte 0 behind each. The reply to words, over the last rules, is a
line `STATUS SIZE SIZE` and then the bytes of the reply and of what is said to people. Where there is
none, the status is 70, and what is said tells why. A line `batch N` says that the next N requests
are words, which are answered together. The words of the command line start a program that answers;
without any, the package does. With `--session` the program reads rules once, and then says nothing
to people; where there is no program, a handle of the library does so, and with `--library` that of
this one. The words `legal` and `playouts` are answered in Python, without the program. The end of
input ends the process, whatever it does, and so does the end of the one who has started it.
"""

from __future__ import annotations

import os
import select
import sys
import threading
from collections.abc import Iterator, Sequence
from dataclasses import replace
from pathlib import Path
from typing import IO

from gdlsolve.solver import library, program
from gdlsolve.solver.calls import reply
from gdlsolve.solver.faults import Ended, Misuse
from gdlsolve.solver.handles import ByHandle, has_handles
from gdlsolve.solver.program import by_program
from gdlsolve.solver.propnet import Rehearsal
from gdlsolve.solver.replies import NO_REPLY, WRITTEN_OUT, Reply, Status
from gdlsolve.solver.serve import Process, line_of

# So often it is looked whether the one who asks is still there, in milliseconds, where the end of the socket does not tell.
LOOK = 1000
# Commands that are answered in Python, and those that no session knows.
OWN = (["legal"], ["playouts"])
ALONE = (["unroll"], ["lint"])


class InSession:
    """A program that is asked in a session, as far as it knows any."""

    def __init__(self, command: Sequence[str]):
        self.command = command
        self.rules: bytes | None = None
        self.process: Process | None = None
        self.knows = True

    def standing(self, rules: bytes) -> Process:
        """The process over these rules."""
        is_whole = rules.startswith(WRITTEN_OUT)
        made = self.process
        if made is None or made.is_whole != is_whole:
            if made is not None:
                made.close()
            made = Process(self.command, program.dies_with(os.getpid()), whole=is_whole)
            self.process, self.rules = made, None
        if self.rules is not rules:
            self.rules = None
            made.stand(rules)
            self.rules = rules
        return made

    def asked(self, lines: Sequence[bytes], rules: bytes) -> list[Reply]:
        """The replies to lines."""
        try:
            process = self.standing(rules)
        except ProcessLookupError:
            self.knows = False
            raise
        return list(process.replies(lines))

    def replies(self, batch: Sequence[Sequence[str]], rules: bytes) -> list[Reply] | None:
        """The replies to commands, where a session takes them."""
        try:
            return self.asked(list(map(line_of, batch)), rules) if self.knows else None
        except Misuse:
            return None
        except ProcessLookupError as fault:
            if self.knows:
                raise Ended(str(fault)) from None
            return None


class InHandle:
    """A handle of the library."""

    def __init__(self, file: Path):
        self.handle = ByHandle(file)
        self.rules: bytes | None = None

    def reply(self, words: Sequence[str]) -> Reply:
        """The reply to a command. The one who asks can ask the library itself to explain it."""
        told = self.handle.reply(words)
        return replace(told, explain=None) if told.explain else told

    def replies(self, batch: Sequence[Sequence[str]], rules: bytes) -> list[Reply]:
        """The replies to commands."""
        if self.rules is not rules:
            self.rules = None
            self.handle.stand(rules)
            self.rules = rules
        return list(map(self.reply, batch))


def session_of(command: Sequence[str]) -> InSession | InHandle | None:
    """What keeps rules: the program that these words start, or that of the package, or else the library."""
    known = command or program.words()
    if known:
        return InSession(known)
    file = library.file()
    return InHandle(file) if file and has_handles(file) else None


class Answers:
    """What answers: the program that the words start, or the package."""

    def __init__(self, words: Sequence[str]):
        kind, further = words[:1], list(words[1:])
        self.command = [] if kind == ["--library"] else further if kind == ["--session"] else list(words)
        self.session: InSession | InHandle | None = None
        if kind == ["--library"]:
            self.session = InHandle(Path(further[0]))
        elif kind == ["--session"]:
            self.session = session_of(further)
        self.rehearsal = Rehearsal()

    def alone(self, words: Sequence[str], rules: bytes) -> Reply:
        """The reply to one command without a session."""
        try:
            return by_program(self.command, words, rules) if self.command else reply(words, rules)
        except MemoryError:
            return Reply(Status.NO_MEMORY, b"")

    def by_solver(self, batch: Sequence[Sequence[str]], rules: bytes) -> list[Reply]:
        """The replies of the solver to commands over rules."""
        takes = self.session and batch and not any(words[:1] in ALONE for words in batch)
        found = self.session.replies(batch, rules) if self.session and takes else None
        return [self.alone(words, rules) for words in batch] if found is None else found

    def replies(self, batch: Sequence[Sequence[str]], rules: bytes) -> list[Reply]:
        """The replies to commands over rules."""
        solved = iter(self.by_solver([words for words in batch if words[:1] not in OWN], rules))
        return [self.rehearsal.reply(words, rules) if words[:1] in OWN else next(solved) for words in batch]


def told(answers: Answers, batch: Sequence[Sequence[str]], rules: bytes) -> Iterator[bytes]:
    """What is written for commands."""
    try:
        found = answers.replies(batch, rules)
    except MemoryError:
        found = [Reply(Status.NO_MEMORY, b"") for _ in batch]
    except (Ended, ImportError, OSError) as fault:
        said = str(fault).encode()
        yield from (b"%d 0 %d\n" % (NO_REPLY, len(said)) + said for _ in batch)
        return
    for each in found:
        said = each.told().encode()
        yield b"%d %d %d\n" % (each.status, len(each.output), len(said))
        yield each.output + said


def watch(socket: int, asker: int) -> None:
    """Waits until nobody is at the other end, or the process that asks has ended and another one that it has forked off keeps that end open.
    Then it ends this process."""
    poll = select.poll()
    poll.register(socket, select.POLLRDHUP)
    while not poll.poll(LOOK) and os.getppid() == asker:
        pass
    os._exit(1)


def request(source: IO[bytes]) -> tuple[bytes, bytes] | None:
    """The kind of the next request and its bytes, or its number where it has none; nothing at the end."""
    line = source.readline()
    if not line:
        return None
    kind, size = line.split()
    return kind, size if kind == b"batch" else source.read(int(size))


def commands(source: IO[bytes], first: bytes, many: int) -> Iterator[list[str]]:
    """So many commands, the first of which was read."""
    texts = [first, *(text for _, text in filter(None, (request(source) for _ in range(many - 1))))]
    return (text.decode().split("\0")[:-1] for text in texts)


def serve(answers: Answers, source: IO[bytes], sink: IO[bytes]) -> None:
    """Answers until the input ends."""
    rules, many = b"", 1
    while (found := request(source)) is not None:
        kind, text = found
        if kind == b"batch":
            many = int(text)
        elif kind == b"rules":
            rules = text
        else:
            batch = list(commands(source, text, many))
            sink.write(b"".join(told(answers, batch, rules)))
            sink.flush()
            many = 1


def run(answers: Answers) -> None:
    """Answers, and ends without a word where nobody is at the other end any more."""
    threading.Thread(target=watch, args=(sys.stdin.fileno(), os.getppid()), daemon=True).start()
    try:
        serve(answers, sys.stdin.buffer, sys.stdout.buffer)
    except OSError:
        os._exit(1)


if __name__ == "__main__":
    run(Answers(sys.argv[1:]))
