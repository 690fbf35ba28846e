#!/usr/bin/env -S python3 -B
"""Referees a match: one role is played by the solver at a depth, and each other role takes a legal move at random.

    PYTHONPATH=python examples/referee.py games/tic_tac_toe.kif --depth 4 --seed 7

It prints a table of the turns, and the goals. The same seed gives the same match. A game as it is found is written out first. All that
is asked of a match is asked in one session of the program, which reads the rules once."""
import argparse
import random
from pathlib import Path

from gdlsolve import Misuse, Position, Refusal, Session, State
from gdlsolve.solver import unrolled
from gdlsolve.solver.calls import answer

Turn = tuple[str, ...]


def options() -> argparse.Namespace:
    words = argparse.ArgumentParser(description=__doc__, formatter_class=argparse.RawDescriptionHelpFormatter)
    words.add_argument("rules", type=Path, help="the rules of the game")
    words.add_argument("--role", help="the role of the solver; without it, the first one")
    words.add_argument("--depth", type=int, default=3, help="how many turns the solver looks ahead")
    words.add_argument("--at-bound", choices=["zero", "goal"], default="zero", help="what a state is worth there")
    words.add_argument("--seed", help="what the random moves come from; without it, each match is another")
    words.add_argument("--turns", type=int, default=200, help="after so many turns the match is broken off")
    return words.parse_args()


def chosen(session: Session, role: str, position: Position, played: list[Turn], given: argparse.Namespace, dice: random.Random) -> str:
    """The move of a role."""
    if role != given.role:
        return dice.choice(position.legal[role])
    found = session.solve(role, given.depth, at_bound=given.at_bound, after=played)
    return found.move or position.legal[role][0]


def play(session: Session, given: argparse.Namespace) -> tuple[list[Turn], Position]:
    """The turns of a match, and how it stands behind them."""
    dice = random.Random(given.seed)
    played: list[Turn] = []
    position = session.moves()
    while position.state is State.OPEN and len(played) < given.turns:
        played.append(tuple(chosen(session, role, position, played, given, dice) for role in position.legal))
        position = session.moves(played)
    return played, position


def print_table(rows: list[list[str]]) -> None:
    """Prints rows of texts, each column as wide as its longest one."""
    widths = [max(map(len, column)) for column in zip(*rows)]
    for row in rows:
        print("  ".join(text.ljust(width) for text, width in zip(row, widths)).rstrip())


def main() -> None:
    given = options()
    with Session(unrolled.playable(given.rules.read_bytes(), answer)) as session:
        roles = session.check().roles
        given.role = given.role or roles[0]
        if given.role not in roles:
            raise SystemExit(f"{given.role} is none of the roles {', '.join(roles)}")
        played, position = play(session, given)
    heads = [f"{role} (solver)" if role == given.role else f"{role} (random)" for role in roles]
    print_table([["turn", *heads], *([str(turn), *moves] for turn, moves in enumerate(played, 1))])
    match position.state:
        case State.ENDED:
            print_table([["goal", ""], *([role, str(goal)] for role, goal in position.goals.items())])
        case State.STUCK:
            print("stuck: some role has no legal move")
        case State.OPEN:
            print(f"broken off after {len(played)} turns")


if __name__ == "__main__":
    try:
        main()
    except (Refusal, Misuse, OSError, ImportError) as fault:
        raise SystemExit(str(fault))
    except KeyboardInterrupt:
        raise SystemExit(130)
