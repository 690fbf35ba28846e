"""What is played: settled values, what is best where nothing is settled, and lost games."""

import random
import time
import unittest
from collections.abc import Callable
from unittest.mock import patch

import gdlsolve
from gdlsolve.player.gates import Gates
from gdlsolve.player.thinking import Choice, Thinking
from gdlsolve.player.tree_search import Question
from gdlsolve.solver.engine import Children, Engine, Playouts
from gdlsolve.solver.history import Turn
from tests import ENDLESS_RULES, TOP
from tests.serving import LONG, Asking, Held, until

# One role, which loses at once or one turn later.
LOST = """
(role a) (base start) (base later) (base end) (init start)
(input a quick) (input a slow) (input a go)
(<= (legal a quick) (true start)) (<= (legal a slow) (true start)) (<= (legal a go) (true later))
(<= (next later) (does a slow)) (<= (next end) (does a quick)) (<= (next end) (does a go))
(<= terminal (true end))
"""
# One role, which has 60 for sure, or goes on for ever.
SURE = """
(role a) (base on) (base end) (init on) (input a stay) (input a take)
(<= (legal a stay) (true on)) (<= (legal a take) (true on))
(<= (next on) (does a stay)) (<= (next end) (does a take))
(<= terminal (true end)) (<= (goal a 60) (true end))
"""


# What takes a second to be found, and is of no account.
SLOW = "".join(f"(n {number})" for number in range(22)) + "(<= (p ?w) (n ?w) (n ?x) (n ?y) (n ?z) (m ?z)) (m none)"

Enough = Callable[[Thinking], bool]


def later() -> float:
    """A time that does not come while a test runs that passes."""
    return time.monotonic() + 2 * LONG


def never(thinking: Thinking) -> bool:
    """It has to be settled."""
    return False


def thinks(depth: int, matches: int) -> Enough:
    """Enough are a search to a depth, and so many matches at random."""

    def enough(thinking: Thinking) -> bool:
        deepest = thinking.search.deepest
        return (deepest[0] if deepest else 0) >= depth and thinking.simulation.matches >= matches

    return enough


class Choices(Asking):
    def choice(
        self, rules: str, role: str, enough: Enough, turns: tuple[Turn, ...] = (), depth: int = 64
    ) -> Choice:
        """What is chosen once enough was thought, or it is settled."""
        deep, quick = self.engine(rules), self.engine(rules)
        return self.thought(rules, Question(role, turns, gdlsolve.moves(rules, turns), later(), depth), enough, deep, quick)

    def thought(self, rules: str, question: Question, enough: Enough, deep: Engine, quick: Engine) -> Choice:
        """The same with engines that are given."""
        thinking = Thinking(question, deep, quick, random.Random(1))
        while not (thinking.search.settled.wait(0.05) or enough(thinking)):
            self.assertLess(time.monotonic(), question.until, "not enough was thought")
        found = thinking.choice()
        deep.close()
        quick.close()
        self.assertIn(found.move, question.legal)
        return found

    def test_settled_values_end_the_search(self) -> None:
        for game, role, value in [
            ("nim", "first", 100),
            ("cake", "anna", 30),
            ("matching_pennies", "a", 0),
            ("domineering", "upright", 100),
            ("dead_end", "walker", 80),
        ]:
            with self.subTest(game=game):
                rules = (TOP / f"games/{game}.kif").read_text()
                found = self.choice(rules, role, never)
                self.assertEqual((found.value, found.is_settled), (value, True))
                best = gdlsolve.solve(rules, role, found.depth).value
                self.assertEqual(best, value)

    def test_tic_tac_toe_is_not_given_away_at_depth_5(self) -> None:
        rules = (TOP / "games/tic_tac_toe.kif").read_text()
        for opening in ("(mark 1 1)", "(mark 2 2)", "(mark 1 2)"):
            with self.subTest(opening=opening):
                first = (opening, "noop")
                found = self.choice(rules, "oplayer", thinks(5, 2000), (first,), 5)
                self.assertEqual((found.value, found.is_settled), (50, False))
                turns = [first, ("noop", found.move)]
                self.assertEqual(gdlsolve.solve(rules, "xplayer", 7, after=turns).value, 50)

    def searched(self, quick: Engine, enough: Enough) -> Thinking:
        """What was thought, and ended, on the first move of a large game, all moves of which have one value for long."""
        question = Question("red", (), gdlsolve.moves(ENDLESS_RULES), later())
        thinking = Thinking(question, self.engine(ENDLESS_RULES), quick, random.Random(1))
        self.assertTrue(until(lambda: enough(thinking)))
        thinking.stop.set()
        for thread in thinking.threads:
            thread.join()
        self.assertEqual(set(thinking.search.equal), set(question.legal))
        return thinking

    def test_among_moves_of_one_value_random_matches_choose(self) -> None:
        thinking = self.searched(self.engine(ENDLESS_RULES), thinks(2, 50))
        found = thinking.choice()
        self.assertEqual((found.move, found.value, found.is_settled), (thinking.simulation.ranking()[0], 50, False))

    def test_where_random_matches_say_nothing_any_of_them_is_played(self) -> None:
        none = Children(1, ["false"], spare=0)
        self.addCleanup(none.close)
        thinking = self.searched(Engine(ENDLESS_RULES, none), thinks(2, 0))
        self.assertGreater(len({thinking.choice().move for _ in range(50)}), 1)

    def test_what_is_lost_is_held_out_longest(self) -> None:
        found = self.choice(LOST, "a", never)
        self.assertEqual((found.move, found.value, found.is_settled), ("slow", 0, True))

    def test_more_than_half_for_sure_is_taken_where_nothing_is_settled(self) -> None:
        found = self.choice(SURE, "a", thinks(4, 100))
        self.assertEqual((found.move, found.value, found.is_settled), ("take", 60, False))

    def test_behind_an_answer_its_move_alone_is_tried(self) -> None:
        rules = (TOP / "games/tic_tac_toe.kif").read_text()
        question = Question("xplayer", (), gdlsolve.moves(rules), later(), 2)
        thinking = Thinking(question, self.engine(rules), self.engine(rules), random.Random(1))
        self.addCleanup(thinking.stop.set)
        simulation = thinking.simulation

        def tried(more: int) -> dict[str, int]:
            """How often each move was tried, once so many more matches were played."""
            enough = simulation.matches + more
            self.assertTrue(until(lambda: simulation.matches > enough, LONG))
            return {move: simulation.tried(move) for move in question.legal}

        tried(300)
        found = thinking.for_move(time.monotonic())
        # A match that was under way may still be one behind another move.
        first, last = tried(100), tried(300)
        self.assertEqual([move for move in question.legal if last[move] > first[move]], [found.move])

    def test_gates_are_built_from_question_to_question(self) -> None:
        rules = (TOP / "games/tic_tac_toe.kif").read_text() + SLOW
        gates, deep, quick, here = Gates(self.engine(rules)), self.engine(rules), self.engine(rules), gdlsolve.moves(rules)
        with patch("gdlsolve.player.gates.PIECE", 0.02):
            gates.build()
            child = gates.engine.child
            self.assertTrue(gates.are_wanted())
            questions = 0
            while not gates.are_there:
                questions += 1
                thinking = Thinking(Question("xplayer", (), here, later(), 2), deep, quick, random.Random(1), None, gates)
                enough = gates.spent + 0.1
                self.assertTrue(until(lambda: gates.are_there or gates.spent > enough, LONG))
                thinking.choice()
                self.assertFalse(gates.are_none)
        self.assertGreater(questions, 1)
        # Matches that were asked for may still be under way, and then it has its process in hand.
        self.assertTrue(until(lambda: gates.engine.child is child, LONG))
        self.assertGreater(sum((gates.goals((), Playouts(32, 200, 50, 1)) or {}).values()), 0)

    def test_a_process_that_reads_the_rules_goes_on_with_that(self) -> None:
        rules, held = (TOP / "games/tic_tac_toe.kif").read_text(), Held(self)
        children = Children(4, held.command)
        self.addCleanup(children.close)
        held.at("moves~2 solve~2")
        deep, quick = Engine(rules, children), Engine(rules, children)
        thinking = Thinking(Question("xplayer", (), gdlsolve.moves(rules), later()), deep, quick, random.Random(1))
        self.assertTrue(until(lambda: len(children.at_work) == 2))
        reading = set(children.at_work)
        thinking.stop.set()
        for thread in thinking.threads:
            thread.join()
        self.assertEqual({deep.child, quick.child}, reading)
        deep.close()
        quick.close()

    def test_a_search_that_never_answers_leaves_random_play(self) -> None:
        rules = (TOP / "games/tic_tac_toe.kif").read_text()
        none = Children(1, ["false"], spare=0)
        self.addCleanup(none.close)
        quick = self.engine(rules)
        question = Question("xplayer", (), gdlsolve.moves(rules), later())
        found = self.thought(rules, question, thinks(0, 500), Engine(rules, none), quick)
        self.assertEqual((found.value, found.is_settled), (None, False))
        self.assertGreater(found.tried, 50)


if __name__ == "__main__":
    unittest.main()
