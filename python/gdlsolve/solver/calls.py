"""The call of the solver: words and rules in, status and bytes out.

The library answers, in the calling thread, which hears no key and no clock before. Where
`GDLSOLVE_PROGRAM` names a program, that answers in its place, as a child process.
"""
from collections.abc import Sequence
from pathlib import Path

from gdlsolve.solver import library, program
from gdlsolve.solver.library import by_library
from gdlsolve.solver.program import Stops, by_program, check_words
from gdlsolve.solver.replies import Reply, Status, is_too_wide
from gdlsolve.solver.rules import Rules, bytes_of

# Commands that the library does not have.
OF_PROGRAM = (["lint"], ["unroll"])


def answers() -> Path | list[str]:
    """What answers: the words that start a program, or the file of the library. It is the program that `GDLSOLVE_PROGRAM` names, else the
    library, else the program of the package or of the clone."""
    found = program.named() or library.file() or program.words()
    if found:
        return found
    package, built = library.FOLDERS
    places = f"{library.NAME} is neither in {package} nor in {built}: c/build builds it"
    raise ImportError(f"{places}; or let {program.VARIABLE} name a program")


def is_of_program(words: Sequence[str]) -> bool:
    """Whether the library does not take these words, and the program does."""
    return list(words[:1]) in OF_PROGRAM or "--whole" in words


def reply(words: Sequence[str], rules: Rules, stopped: Stops = None) -> Reply:
    """The reply to the words of the program, over these rules, in the calling thread; `timed.reply` is for searches. It raises `MemoryError`
    for want of memory alone. The library has no `lint`, no `unroll` and no `--whole`, which the program of the package or of the clone answers
    in its place. Of rules that were written out there may be as many inputs as `--whole` takes. A program may be stopped, a call of the library
    may not; `program.Stopped` tells it."""
    check_words(words)
    text = bytes_of(rules)
    found = answers()
    if is_of_program(words) and isinstance(found, Path):
        found = program.words()
        if not found:
            said = f"{' '.join(words)} is answered by the program alone: ./gdlsolve --prove builds it, or {program.VARIABLE} names one\n"
            return Reply(Status.MISUSE, said.encode())
    told = by_library(found, words, text) if isinstance(found, Path) else by_program(found, words, text, stopped)
    return reply([*words, "--whole"], text, stopped) if is_too_wide(told, words, text) else told


def is_own(version: Reply) -> bool:
    """Whether a reply to `--version` is that of this solver, and not of some other program."""
    return version.output.startswith(b"gdlsolve ")


def answer(words: Sequence[str], rules: Rules) -> list[str]:
    """The lines of the answer to a command, where it is one."""
    return reply(words, rules).lines()
