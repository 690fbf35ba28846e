"""Rules as they are given, and what is most likely not meant by them."""
import os
import re
import warnings
from functools import lru_cache
from pathlib import Path

from gdlsolve.solver.terms import Malformed, trees

# Their bytes, their text, or the file that they stand in.
Rules = bytes | str | os.PathLike[str]
HEAD = re.compile(r"\((?:<= )?\(?([^\s()]+)")
# What rules have to state, so that anything is true or can be done.
RANGES = ("base", "input")


class RulesWarning(UserWarning):
    """Rules were answered over as they stand, and are most likely meant otherwise."""


def bytes_of(rules: Rules) -> bytes:
    """Rules as bytes."""
    if isinstance(rules, os.PathLike):
        return Path(rules).read_bytes()
    return rules.encode() if isinstance(rules, str) else bytes(rules)


@lru_cache(4)
def unstated(rules: bytes) -> tuple[str, ...]:
    """Which of `base` and `input` no item states."""
    try:
        heads = {found[1] for found in map(HEAD.match, trees(rules.decode("latin-1"))) if found}
    except Malformed:
        return ()
    return tuple(word for word in RANGES if word not in heads)


def warn(rules: bytes, depth: int) -> None:
    """Warns whoever asked, so many calls above this one, of rules that do not state what may be true or done."""
    if missing := unstated(rules):
        words = " and ".join(f"`{word}`" for word in missing)
        warnings.warn(f"no item states {words}, so nothing is true or can be done there; whole=True takes a game as it is found", RulesWarning, depth + 1)
