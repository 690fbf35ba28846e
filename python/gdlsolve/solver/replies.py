"""The reply to words over rules: its status, its bytes, and the lines of an answer."""
from collections.abc import Callable, Sequence
from dataclasses import dataclass, field
from enum import IntEnum

from gdlsolve.solver.faults import Misuse, Refusal

# The status of a child process that has no reply.
NO_REPLY = 70
# How the first line begins of what is written out of a game as it is found.
WRITTEN_OUT = (b"; Shown: ", b"; Tested and not shown: ")
TOO_WIDE = b"refused N1 TooMany inputs\n"


class Status(IntEnum):
    """What kind of reply it is. The numbers are the exit statuses of the program, but that help and the version are a `MISUSE`."""

    ANSWER = 0
    MISUSE = 1
    REFUSED = 2
    NO_MEMORY = 3


@dataclass(frozen=True)
class Reply:
    """The bytes of a reply, its kind, and what a program says beside it to people."""

    status: Status
    output: bytes
    errors: bytes = b""
    explain: Callable[[], str] | None = field(default=None, compare=False, repr=False)

    def told(self) -> str:
        """What is said to people. What explains a refusal is asked for where it was not said with it."""
        if self.explain and self.status == Status.REFUSED:
            return self.explain()
        return self.errors.decode(errors="replace")

    def lines(self) -> list[str]:
        """The lines of an answer. What is none is raised."""
        if self.status == Status.NO_MEMORY:
            raise MemoryError
        if self.status == Status.MISUSE:
            raise Misuse(self.output.decode(errors="replace").rstrip("\n"))
        lines = lines_of(self.output)
        if self.status == Status.REFUSED:
            raise Refusal(lines[0], self.told)
        return lines


def lines_of(output: bytes) -> list[str]:
    """The lines of an answer or a refusal."""
    return output.decode().splitlines()


def is_too_wide(told: Reply, words: Sequence[str], rules: bytes) -> bool:
    """Whether rules that were written out have more inputs than these words take, and may have no more than they take with `--whole`."""
    return told.status == Status.REFUSED and told.output == TOO_WIDE and "--whole" not in words and rules.startswith(WRITTEN_OUT)
