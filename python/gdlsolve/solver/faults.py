"""What is raised where there is no answer."""
import re
from collections.abc import Callable
from functools import cached_property

from gdlsolve.solver.terms import terms


class Refusal(Exception):
    """The rules, the role or the history have a fault, or pass a limit.

    `code` and `name` are those of the fault, as `G4` and `Recursive`; the table in docs/USAGE.md has them all. `values` are what
    stands behind them: an offset, an item or a turn as a number, and what is named as a text. `str` of it is the line of the program.

    `explanation` is what the program tells on standard error, for people. `source` is the text in which the fault stands, `<input>`,
    `--after` or `--role`; `line` and `column` are its place there, each counted from 1, and `text` is that line of it as it is shown, each of
    them `None` where no place is told. The library is asked for them when one of them is first read; a program has told them.
    """

    def __init__(self, line: str, explain: Callable[[], str] = str):
        super().__init__(line)
        _, self.code, self.name, *values = terms(line)
        self.values: tuple[int | str, ...] = tuple(int(value) if place == 0 and value.isdecimal() else value for place, value in enumerate(values))
        self._explain = explain

    @cached_property
    def explanation(self) -> str:
        """What explains it."""
        return self._explain()

    @cached_property
    def _place(self) -> re.Match[str] | None:
        """The first line of the explanation, taken apart, and the line behind it, where it tells a place."""
        return re.match(r"(?P<source>[^:\n]*):(?:(?P<line>\d+):(?P<column>\d+):.*\n(?P<text>.*))?", self.explanation)

    def _told(self, part: str) -> str | None:
        """A part of the place."""
        return self._place.group(part) if self._place else None

    @property
    def source(self) -> str | None:
        """The text in which the fault stands."""
        return self._told("source")

    @property
    def line(self) -> int | None:
        """The line of the fault."""
        told = self._told("line")
        return None if told is None else int(told)

    @property
    def column(self) -> int | None:
        """The column of the fault, in characters."""
        told = self._told("column")
        return None if told is None else int(told)

    @property
    def text(self) -> str | None:
        """The line of the text in which the fault stands, as it is shown."""
        return self._told("text")


class Misuse(ValueError):
    """The arguments make no command, as a depth above 64. The message is that of the program."""


class Ended(RuntimeError):
    """What answers ended without a reply, as a program does that is killed."""


class TimedOut(TimeoutError):
    """There was no answer within the seconds that a question had."""


class Cancelled(Exception):
    """A question was given up, as `Session.cancel` asked for."""
