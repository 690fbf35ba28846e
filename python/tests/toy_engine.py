"""A program over toy games, that answers in place of the solver where nothing but a match is of account. It needs nothing of the package.

    toy_engine.py WORDS..        the rules on standard input
    toy_engine.py serve

A game has the roles that its rules state, and as many turns as `(turns N)` says. In each turn each role says 1, 2 or 3, and its goal is
ten times what it has said in all."""

from __future__ import annotations

import re
import sys
from collections.abc import Sequence

MOVES = ("(say 1)", "(say 2)", "(say 3)")
ANSWER, MISUSE, REFUSED = 0, 1, 2


def rules_of(roles: str, turns: int) -> str:
    """The rules of a game with these roles."""
    return f"{' '.join(f'(role {role})' for role in roles.split())} (base (turn 0)) (input r (say 1)) (turns {turns})\n"


def position(command: str, roles: Sequence[str], turns: int, history: str) -> tuple[int, str]:
    """The status and the answer to `moves` or `state`."""
    found = [re.findall(r"\(say \d+\)|[a-z]+", turn) for turn in re.findall(r"\(((?:\(say \d+\)|[a-z]+|\s)+)\)", history)]
    for number, turn in enumerate(found, 1):
        if len(turn) != len(roles):
            return REFUSED, f"refused H1 BadForm {number}\n"
        if number > turns:
            return REFUSED, f"refused H3 Over {number}\n"
        for role, move in zip(roles, turn):
            if move not in MOVES:
                return REFUSED, f"refused H2 NotLegal {number} {role}\n"
    is_over = len(found) == turns
    lines = [f"state {'ended' if is_over else 'open'}"]
    if command == "state":
        lines.append(f"true (turn {len(found)})")
    elif is_over:
        lines += [f"goal {role} {10 * sum(int(turn[place][5:-1]) for turn in found)}" for place, role in enumerate(roles)]
    else:
        lines += [f"legal {role} {move}" for role in roles for move in MOVES]
    return ANSWER, "".join(f"{line}\n" for line in lines)


def answered(words: Sequence[str], rules: str) -> tuple[int, str]:
    """The status and the answer to a command."""
    if list(words) == ["--version"]:
        return ANSWER, "gdlsolve toy\n"
    roles = re.findall(r"\(role (\w+)\)", rules)
    if not roles:
        return REFUSED, "refused G6 NoRole\n"
    if words[0] == "check":
        return ANSWER, f"items 1\nalternatives 1\nrelations 1\nroles {' '.join(roles)}\n"
    if words[0] in ("moves", "state"):
        return position(words[0], roles, int(re.findall(r"\(turns (\d+)\)", rules)[0]), words[2] if len(words) > 2 else "")
    return MISUSE, f"no such command: {words[0]}\n"


def serve() -> None:
    """A session."""
    rules = ""
    while line := sys.stdin.buffer.readline().decode():
        status, told = ANSWER, ""
        if line.startswith("rules "):
            rules = sys.stdin.buffer.read(int(line.split()[1])).decode()
        else:
            command, _, history = line.strip().partition(" --after ")
            status, told = answered([command, "--after", history], rules)
        sys.stdout.write(f"{status} {len(told)}\n{told}")
        sys.stdout.flush()


def main() -> int:
    if sys.argv[1:] == ["serve"]:
        serve()
        return 0
    status, told = answered(sys.argv[1:], "" if sys.argv[1:] == ["--version"] else sys.stdin.read())
    sys.stdout.write(told)
    return status


if __name__ == "__main__":
    sys.exit(main())
