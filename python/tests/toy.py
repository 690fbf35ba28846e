"""Small games made of a number, and a program over them, that answers by the definitions alone.

A state is the text of its history: what it has follows from the number and that text.
"""
import random
import re
from collections.abc import Callable, Sequence
from functools import lru_cache
from itertools import product

from gdlsolve.cluster.program import Ran

GOALS = (0, 25, 50, 75, 100)
Turn = tuple[str, ...]
Found = tuple[int, tuple[Turn, ...]]


def rules_of(number: int) -> bytes:
    """The rules of a game. A goal has to stand in them as a name."""
    return f"(toy {number}) (goals {' '.join(map(str, GOALS))})".encode()


@lru_cache(None)
def state(number: int, history: str) -> tuple[str, tuple[tuple[str, tuple[str, ...]], ...], int]:
    """How play stands: the word for it, the moves of each role, and the goal of every role."""
    chance = random.Random(f"{number} {history}")
    roles = ("x", "y", "z")[: 1 + number % 3]
    kind = chance.random()
    word = "open" if not history or kind > 0.2 else "stuck" if kind < 0.04 else "ended"
    legal = tuple((role, tuple(f"m{k}" for k in range(chance.randint(1, 3)))) for role in roles)
    return word, legal, chance.choice(GOALS)


@lru_cache(None)
def best(number: int, history: str, depth: int, own: str, worth: int) -> Found:
    """The value of a state, and the line behind it."""
    word, legal, goal = state(number, history)
    if word == "ended":
        return goal, ()
    if word == "stuck":
        return 0, ()
    if depth == 0:
        return worth, ()
    found: Found | None = None
    for chosen in dict(legal)[own]:
        least: Found | None = None
        for turn in product(*((chosen,) if role == own else moves for role, moves in legal)):
            further = f"{history} ({' '.join(turn)})".strip()
            value, line = best(number, further, depth - 1, own, worth)
            if least is None or value < least[0]:
                least = value, (turn, *line)
        if least is not None and (found is None or least[0] > found[0]):
            found = least
    assert found is not None
    return found


def solved(number: int, options: dict[str, str]) -> list[str]:
    """The lines of an answer to `solve`."""
    own, depth, history = options["--role"], int(options["--depth"]), options.get("--after", "")
    value, line = best(number, history, depth, own, int(options.get("--unfinished", "0")))
    low, high = map(int, options.get("--window", "-1:101").split(":"))
    if value <= low:
        return [f"at-most {low}"]
    roles = [role for role, _ in state(number, history)[1]]
    move = line[0][roles.index(own)] if line else "none"
    if value >= high:
        return [f"at-least {high}"] + ([f"move {move}"] if line else [])
    turns = [f"line {place} {' '.join(turn)}" for place, turn in enumerate(line, 1)]
    return [f"value {value}", f"move {move}", *turns]


def told(number: int, history: str) -> list[str]:
    """The lines of an answer to `moves`."""
    word, legal, goal = state(number, history)
    if word == "ended":
        return ["state ended", *(f"goal {role} {goal}" for role, _ in legal)]
    return [f"state {word}"] + [f"legal {role} {move}" for role, moves in legal for move in moves]


def run(words: Sequence[str], rules: bytes, stopped: Callable[[], bool] | None = None) -> Ran:
    """The program."""
    if words[0] == "show":
        return Ran(0, rules + b"\n", b"")
    number = int(re.findall(rb"\d+", rules)[0])
    options = dict(zip(words[1::2], words[2::2]))
    history = options.get("--after", "")
    lines = told(number, history) if words[0] == "moves" else solved(number, options)
    return Ran(0, "".join(f"{line}\n" for line in lines).encode(), b"")
