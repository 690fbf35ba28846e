"""What holds in a state.

An engine with the command `state` tells it. Of one without, it is asked for by rules in which play
never ends and a role has a further move `(see P)` for each P that holds, which `moves` then lists.
"""

from __future__ import annotations

from collections.abc import Callable, Sequence

from gdlsolve.solver.faults import Misuse, Refusal
from gdlsolve.solver.history import Turn, behind
from gdlsolve.solver.terms import terms, tokens

Ask = Callable[[Sequence[str], bytes], list[str]]


def _fresh(name: str, taken: set[str]) -> str:
    """A name that is not taken."""
    names = (f"{name}_{number}" for number in range(10**6))
    return next(each for each in names if each not in taken)


def watching(rules: bytes, role: str, asked: str) -> tuple[bytes, str]:
    """Rules in which a role has a move for each term that `asked` says, and the name of that move.
    `asked` is `true` for what holds, `base` for what can ever hold."""
    words = tokens(rules.decode("latin-1"))
    taken = set(words)
    renamed = {name: _fresh(name, taken) for name in ("legal", "input", "terminal")}
    see = _fresh("see", taken)
    text = " ".join(renamed.get(word, word) for word in words)
    text += f"""
(<= (legal ?r ?m) ({renamed["legal"]} ?r ?m))
(<= (input ?r ?m) ({renamed["input"]} ?r ?m))
(<= (input {role} ({see} ?p)) (base ?p))
(<= (legal {role} ({see} ?p)) ({asked} ?p))"""
    return text.encode("latin-1"), see


def _seen(rules: bytes, role: str, asked: str, after: Sequence[Turn], ask: Ask) -> list[str] | None:
    """The terms for which a role has a move in rules that watch."""
    text, see = watching(rules, role, asked)
    start = f"({see} "
    try:
        told = ask(["moves", *behind(after)], text)
    except Refusal:
        return None
    found = [terms(line) for line in told]
    return [line[2][len(start):-1] for line in found
            if line[0] == "legal" and line[1] == role and line[2].startswith(start)]


def base(rules: bytes, role: str, ask: Ask) -> list[str]:
    """All that can ever hold, as far as the engine can tell it."""
    return _seen(rules, role, "base", (), ask) or []


def facts(rules: bytes, role: str, after: Sequence[Turn], ask: Ask) -> list[str] | None:
    """What holds behind a history, or nothing where the engine cannot tell."""
    try:
        told = ask(["state", *behind(after)], rules)
    except Misuse:
        return _seen(rules, role, "true", after, ask)
    return [terms(line)[1] for line in told if line.startswith("true ")]
