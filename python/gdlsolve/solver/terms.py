"""Texts of names and lists: the trees of any text, and the parts of a line in canonical form."""
import re
from collections.abc import Iterator
from functools import lru_cache

TOKEN = re.compile(r"[()]|[^\t-\r ();]+")
COMMENT = re.compile(r";[^\n]*")
# Longer lines are not kept: one may be a whole message.
LONGEST_KEPT = 256


class Malformed(ValueError):
    """A text is not what it should be. The message says why."""


def tokens(text: str) -> list[str]:
    """The brackets and the names of a text, in lower case and without comments."""
    return TOKEN.findall(COMMENT.sub(" ", text).lower())


def trees(text: str) -> list[str]:
    """The canonical text of each tree of a text.

    >>> trees("(PLAY m.1 NIL) ; the first\\n( a )")
    ['(play m.1 nil)', '(a)']
    """
    found: list[str] = []
    depth, parts = 0, list[str]()
    for token in tokens(text):
        depth += (token == "(") - (token == ")")
        if depth < 0:
            raise Malformed("a bracket closes nothing")
        parts.append(token)
        if depth == 0:
            found.append(" ".join(parts).replace("( ", "(").replace(" )", ")"))
            parts = []
    if depth:
        raise Malformed("a bracket is closed nowhere")
    return found


def _parts(line: str) -> Iterator[str]:
    """The parts of a line that has brackets."""
    depth = start = 0
    for place, letter in enumerate(line):
        depth += (letter == "(") - (letter == ")")
        if letter == " " and depth == 0:
            yield line[start:place]
            start = place + 1
    if start < len(line):
        yield line[start:]


def _taken_apart(line: str) -> tuple[str, ...]:
    """The parts of a line."""
    return tuple(_parts(line) if "(" in line else line.split())


# Answers over one game have few lines, and these again and again.
_known = lru_cache(1024)(_taken_apart)


def terms(line: str) -> list[str]:
    """The names and lists of a line in canonical form.

    >>> terms("line 1 (mark 1 1) noop")
    ['line', '1', '(mark 1 1)', 'noop']
    """
    return list(_known(line) if len(line) <= LONGEST_KEPT else _taken_apart(line))
