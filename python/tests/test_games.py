"""The games of the repository, by the library and by the program."""
import shlex
import unittest
from pathlib import Path

import gdlsolve
from gdlsolve import Solution, Status, reply
from gdlsolve.solver import library
from gdlsolve.solver.commands import Bound
from tests import GAMES, needs_library, needs_program, ran


def stored(game: Path) -> tuple[list[str], bytes]:
    """The words of the stored solve of a game, and its answer."""
    first, answer = game.with_suffix(".solve").read_bytes().split(b"\n", 1)
    return shlex.split(first.decode()), answer


def told_again(solution: Solution) -> str:
    """The lines that tell a solution."""
    lines = [f"value {solution.value}", f"move {solution.move or 'none'}"]
    lines += [" ".join(["line", str(turn), *moves]) for turn, moves in enumerate(solution.line, 1)]
    return "".join(f"{line}\n" for line in lines)


class Games(unittest.TestCase):
    def test_there_are_games(self) -> None:
        self.assertGreaterEqual(len(GAMES), 22)

    def test_stored_answers(self) -> None:
        for game in GAMES:
            with self.subTest(game=game.stem):
                words, answer = stored(game)
                told = reply(words, game.read_bytes())
                self.assertEqual((told.status, told.output), (Status.ANSWER, answer))

    @needs_library
    @needs_program
    def test_the_program_writes_the_same_bytes(self) -> None:
        file = library.file()
        assert file is not None
        for game in GAMES:
            rules = game.read_bytes()
            words, _ = stored(game)
            for command in (words, ["show"], ["check"], ["net"], ["moves"], ["solve", "--role", "no one", "--depth", "1"]):
                with self.subTest(game=game.stem, command=command):
                    told = library.by_library(file, command, rules)
                    self.assertEqual((told.status, told.output), ran(command, rules)[:2])

    def test_solutions_say_what_the_answers_say(self) -> None:
        for game in GAMES:
            with self.subTest(game=game.stem):
                words, answer = stored(game)
                options = dict(zip(words[1::2], words[2::2]))
                bound: Bound = "goal" if options.get("--at-bound") == "goal" else "zero"
                found = gdlsolve.solve(
                    game.read_text(), options["--role"], int(options["--depth"]), after=options.get("--after", ""), at_bound=bound
                )
                self.assertEqual(told_again(found), answer.decode())

    def test_the_line_is_a_history(self) -> None:
        for game in GAMES:
            with self.subTest(game=game.stem):
                words, _ = stored(game)
                options = dict(zip(words[1::2], words[2::2]))
                before = options.get("--after", "")
                found = gdlsolve.solve(game.read_bytes(), options["--role"], int(options["--depth"]), after=before)
                turns = " ".join(f"({' '.join(turn)})" for turn in found.line)
                position = gdlsolve.moves(game.read_bytes(), f"{before} {turns}")
                if position.state is gdlsolve.State.ENDED:
                    self.assertEqual(position.goals[options["--role"]], found.value)
