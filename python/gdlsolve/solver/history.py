"""Histories: the turns of a match, and the text of them that `--after` takes."""
from collections.abc import Sequence

from gdlsolve.solver.terms import COMMENT

# A move of each role.
Turn = tuple[str, ...]
# The text of a history, or its turns.
History = str | Sequence[Sequence[str]]


def history_text(after: History) -> str:
    """The text of a history."""
    return after if isinstance(after, str) else " ".join("(" + " ".join(turn) + ")" for turn in after)


def behind(after: History) -> list[str]:
    """The option that tells a history, where there is one."""
    text = history_text(after)
    return ["--after", text] if text else []


def one_line(after: History) -> str:
    """The text of a history without its comments and line feeds."""
    return " ".join(COMMENT.sub(" ", history_text(after)).split())
