#!/usr/bin/env -S python3 -B
"""Play a game at the terminal; the solver takes all other roles.

    PYTHONPATH=python examples/play.py games/tic_tac_toe.kif --role xplayer --time 2

Your legal moves are listed. Type the number of one or the move itself, `back` to take back your last
move, or `quit`. Behind each move of the solver stands what it is sure of, if nothing can change
that any more, or else what it is worth as far as it looked, with 50 for what is unfinished."""

from __future__ import annotations

import argparse
import random
import sys
import time
from pathlib import Path

import gdlsolve
from gdlsolve import Position, State
from gdlsolve.console.streams import hush
from gdlsolve.player.thinking import Choice, Thinking
from gdlsolve.player.tree_search import Question
from gdlsolve.solver import unrolled
from gdlsolve.solver.calls import answer
from gdlsolve.solver.engine import Children, Engine
from gdlsolve.solver.history import Turn

# A move of the solver takes no longer, in seconds: a day.
LONGEST = 86_400


def options() -> argparse.Namespace:
    words = argparse.ArgumentParser(
        description=__doc__, formatter_class=argparse.RawDescriptionHelpFormatter
    )
    words.add_argument("rules", type=Path, help="the rules of the game")
    words.add_argument("--role", help="your role; without it, the first one")
    words.add_argument("--time", type=float, default=2.0, help="seconds for a move of the solver")
    given = words.parse_args()
    if not 0 <= given.time <= LONGEST:
        words.error(f"--time is a number of seconds from 0 to {LONGEST}")
    return given


class Table:
    """A game at which one role is played at the terminal."""

    def __init__(self, rules: str, role: str | None, seconds: float):
        self.rules, self.seconds = rules, seconds
        self.roles = gdlsolve.check(rules).roles
        self.role = role or self.roles[0]
        if self.role not in self.roles:
            raise SystemExit(f"{role} is none of the roles {', '.join(self.roles)}")
        self.children = Children(2)
        self.deep, self.quick = Engine(rules, self.children), Engine(rules, self.children)
        self.turns: list[Turn] = []

    def choose(self, role: str, here: Position) -> str:
        """The solver's move for a role, which is told with what is known of it."""
        if len(here.legal[role]) == 1:
            return here.legal[role][0]
        until = time.monotonic() + self.seconds
        question = Question(role, tuple(self.turns), here, until)
        thinking = Thinking(question, self.deep, self.quick, random.Random())
        thinking.wait(until)
        found = thinking.choice()
        print(f"{role}: {found.move}  {told(found)}")
        return found.move

    def ask(self, here: Position) -> str | None:
        """The move that is typed, or nothing where the last one is taken back."""
        legal = here.legal[self.role]
        if len(legal) == 1:
            print(f"you: {legal[0]}")
            return legal[0]
        for number, move in enumerate(legal, 1):
            print(f"  {number}  {move}")
        while True:
            try:
                word = " ".join(input("> ").split()).lower()
            except EOFError:
                print()
                raise SystemExit(0) from None
            if word == "quit":
                raise SystemExit(0)
            if word == "back":
                return None
            if word.isdecimal() and 1 <= int(word) <= len(legal):
                return legal[int(word) - 1]
            if word in legal:
                return word
            print("a number, a legal move, back or quit")

    def take_back(self) -> None:
        """Takes back the turns from the last one on in which the player had a choice."""
        while self.turns:
            self.turns.pop()
            if len(gdlsolve.moves(self.rules, self.turns).legal[self.role]) > 1:
                return

    def turn(self, here: Position) -> None:
        """Plays a turn. The player moves first, and the solver does not look."""
        own = self.ask(here)
        if own is None:
            self.take_back()
            return
        self.turns.append(
            tuple(own if role == self.role else self.choose(role, here) for role in self.roles)
        )

    def play(self) -> Position:
        """Plays to the end."""
        print(f"you are {self.role}")
        while (here := gdlsolve.moves(self.rules, self.turns)).state is State.OPEN:
            self.turn(here)
        return here


def told(choice: Choice) -> str:
    """What is known of a move."""
    if choice.value is None:
        return ""
    if choice.is_settled:
        return f"(sure of {choice.value})"
    return f"({choice.value} within {choice.depth} turns)"


def main() -> None:
    given = options()
    # A game as it is found is written out first, and in comments any byte may stand.
    rules = unrolled.playable(given.rules.read_bytes(), answer).decode(errors="replace")
    here = Table(rules, given.role, given.time).play()
    if here.state is State.STUCK:
        print("stuck: some role has no legal move")
    for role, goal in here.goals.items():
        print(f"{role} {goal}")


if __name__ == "__main__":
    try:
        main()
    except gdlsolve.Refusal as refusal:
        sys.exit(str(refusal))
    except (ImportError, RuntimeError) as fault:
        # The second is that of a stream that is closed, or of a program that has ended.
        sys.exit(str(fault))
    except OSError as fault:
        if fault.filename:
            sys.exit(f"{fault.filename}: {fault.strerror}")
        hush(sys.stdout)
        sys.exit("write fault")
    except KeyboardInterrupt:
        sys.exit(130)
