"""Matches at random and legal moves in Python, held against the solver's."""

import random
import time
import unittest

import gdlsolve
from gdlsolve import Misuse, Position, State, Status
from gdlsolve.player.gates import Gates
from gdlsolve.solver.engine import Limit, Playouts
from gdlsolve.solver.grounding import Grounding, TooLarge
from gdlsolve.solver.history import Turn
from gdlsolve.solver.propnet import NOT_YET, TOO_LARGE, Lanes, Rehearsal
from tests import GAMES, TOP
from tests.serving import LONG, Asking

MARKS = (TOP / "games/tic_tac_toe.kif").read_text()
# So long a match of a test is at most.
TURNS = 30
# Rules in which each kind of literal stands, and roles and moves are lists.
ALL_KINDS = """
(role (p 1)) (role (p 2)) (number 0) (number 1) (number 2) (more 0 1) (more 1 2)
(<= (base (heap ?n)) (number ?n)) (base (turn (p 1))) (base (turn (p 2)))
(<= (base (told ?n)) (number ?n))
(init (heap 2)) (init (turn (p 1))) (init (elsewhere 1))
(<= (input ?r (take ?n)) (role ?r) (number ?n)) (<= (input ?r wait) (role ?r))
(<= (legal ?r (take ?n)) (true (turn ?r)) (true (heap ?m)) (or (more ?n ?m) (and (number ?n) (not (distinct ?n ?m)))) (distinct ?n 0))
(<= (legal ?r wait) (role ?r) (not (true (turn ?r))))
(<= (legal ?r never) (role ?r))
(<= (next (heap ?k)) (true (heap ?m)) (does ?r (take ?n)) (less ?m ?n ?k))
(less 2 1 1) (less 2 2 0) (less 1 1 0)
(<= (next (turn ?r)) (role ?r) (not (true (turn ?r))))
(<= (next (told ?n)) (does (p 1) (take ?n)) (not (true (told ?n))))
(<= over (true (heap 0))) (<= terminal over)
(<= (goal ?r 007) (role ?r)) (<= (goal ?r 30) (role ?r)) (<= (goal ?r 100) (true (turn ?r)) over) (<= (goal ?r 101) (role ?r))
"""


def lanes(rules: str) -> Lanes:
    """The gates of rules."""
    return Lanes(Grounding(rules))


class Play(unittest.TestCase):
    def same(self, rules: str, seed: int) -> None:
        """Goes through a match at random, and compares all positions."""
        own, dice, turns = lanes(rules), random.Random(seed), list[Turn]()
        while True:
            here = gdlsolve.moves(rules, turns)
            self.assertEqual(own.position(tuple(turns)), here, turns)
            if here.state is not State.OPEN or len(turns) == TURNS:
                return
            turns.append(tuple(map(dice.choice, here.legal.values())))

    def test_positions_are_those_of_the_solver(self) -> None:
        for game in GAMES:
            with self.subTest(game=game.stem):
                self.same(game.read_text(), len(game.stem))

    def test_every_kind_of_literal(self) -> None:
        for seed in range(4):
            self.same(ALL_KINDS, seed)

    def test_there_are_as_many_instances_as_the_network_has(self) -> None:
        for game in GAMES:
            with self.subTest(game=game.stem):
                found = Grounding(game.read_text())
                self.assertEqual(len(found.instances), gdlsolve.net(game.read_bytes()).instances)

    def test_goals_at_random_are_fair(self) -> None:
        rules = (TOP / "games/matching_pennies.kif").read_text()
        goals = lanes(rules).playouts((), 4000, 9, 50, random.Random(1))
        self.assertEqual(sum(goals.values()), 400_000)
        for each in goals.values():
            self.assertAlmostEqual(each / 4000, 50, delta=5)

    def test_a_match_that_is_broken_off(self) -> None:
        self.assertEqual(lanes(MARKS).playouts((), 10, 3, 50, random.Random(1)), {"xplayer": 500, "oplayer": 500})

    def test_what_is_too_large(self) -> None:
        numbers = "".join(f"(n {number})" for number in range(50))
        rules = f"(role a) {numbers} (<= (p ?x ?y ?z) (n ?x) (n ?y) (n ?z))"
        with self.assertRaises(TooLarge):
            lanes(rules)
        told = Rehearsal().reply(["legal", "--seconds", "30"], rules.encode())
        self.assertEqual((told.status, told.output.decode().strip()), (Status.MISUSE, TOO_LARGE))

    def test_what_takes_long_is_built_piece_by_piece(self) -> None:
        numbers = "".join(f"(n {number})" for number in range(16))
        slow = f"{MARKS} {numbers} (<= (p ?w) (n ?w) (n ?x) (n ?y) (n ?z) (m ?z)) (m none)"
        rehearsal, rules, pieces = Rehearsal(), slow.encode(), 0
        while (told := rehearsal.reply(["legal", "--seconds", "0.02"], rules)).status == Status.MISUSE:
            self.assertEqual(told.output.decode().strip(), NOT_YET)
            pieces += 1
        self.assertGreater(pieces, 2)
        self.assertEqual(Position.of(told.lines()), gdlsolve.moves(MARKS))

    def test_what_takes_too_long_is_given_up_for_other_rules(self) -> None:
        numbers = "".join(f"(n {number})" for number in range(200))
        rules = f"(role a) {numbers} (<= (p ?w) (n ?w) (n ?x) (n ?y) (n ?z) (m ?z)) (m none)"
        rehearsal = Rehearsal()
        self.assertEqual(rehearsal.reply(["legal", "--seconds", "0.05"], rules.encode()).status, Status.MISUSE)
        building = rehearsal.building
        assert building is not None
        self.assertEqual(rehearsal.reply(["legal", "--seconds", "30"], MARKS.encode()).status, Status.ANSWER)
        building.give(LONG)
        self.assertTrue(building.is_over)


class Asked(Asking):
    def gates(self) -> Gates:
        """The gates of a game, which are there."""
        made = Gates(self.engine(MARKS))
        while made.are_wanted():
            made.build()
        self.assertTrue(made.are_there)
        return made

    def test_legal_moves_without_the_solver(self) -> None:
        until, turns = time.monotonic() + LONG, [("(mark 2 2)", "noop")]
        gates = Gates(self.engine(MARKS))
        self.assertEqual(gates.legal(turns, until), gdlsolve.moves(MARKS, turns))
        for turn in (("(mark 2 2)", "(mark 1 1)"), ("noop",), ("x", "noop")):
            with self.assertRaises(gdlsolve.Refusal):
                gates.legal([turn], until)

    def test_matches_at_random(self) -> None:
        asked, gates = Playouts(32, 200, 50, 1), self.gates()
        goals = gates.goals([], asked)
        self.assertEqual(sum((goals or {}).values()), 3200)
        ended = [("(mark 1 1)", "noop"), ("noop", "(mark 2 1)"), ("(mark 1 2)", "noop"), ("noop", "(mark 2 2)"), ("(mark 1 3)", "noop")]
        self.assertEqual(gates.goals(ended, asked), {"xplayer": 3200, "oplayer": 0})

    def test_gates_of_a_process_that_ended_are_built_again(self) -> None:
        gates = self.gates()
        assert gates.engine.child is not None
        gates.engine.child.process.kill()
        gates.engine.child.process.wait()
        while not gates.goals([], Playouts(1, 9, 50, 1)):
            self.assertFalse(gates.are_none)

    def test_hundreds_of_matches_a_second(self) -> None:
        gates, asked = self.gates(), Playouts(32, 200, 50, 1)
        took = []
        for _ in range(20):
            begun = time.monotonic()
            gates.goals([], asked)
            took.append(time.monotonic() - begun)
        self.assertGreater(32 / min(took), 300)

    def test_positions_behind_many_histories(self) -> None:
        engine, moves = self.engine(MARKS), gdlsolve.moves(MARKS).legal["xplayer"]
        histories = [[(move, "noop")] for move in moves]
        found = engine.positions(histories, Limit(time.monotonic() + LONG))
        self.assertEqual(found, [gdlsolve.moves(MARKS, turns) for turns in histories])
        with self.assertRaises(Misuse):
            engine.ask_all([["moves"], ["no such command"]], Limit(time.monotonic() + LONG))


if __name__ == "__main__":
    unittest.main()
