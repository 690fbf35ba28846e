"""The driver of `gdlsolve.cluster` over engines that do all that an engine may do."""
import random
import tempfile
import threading
import unittest
from collections import Counter
from collections.abc import Callable
from concurrent.futures import Future, ThreadPoolExecutor
from pathlib import Path
from typing import Any
from unittest.mock import patch

from gdlsolve.cluster import Contradiction, Failed, Lost, OtherProgram, command, driver, sought, task
from gdlsolve.cluster.driver import Driver, Engine, Manner, Sought, Submits, reading
from gdlsolve.cluster.engines import Share
from gdlsolve.cluster.journal import Journal, Known
from gdlsolve.cluster.program import Ran
from gdlsolve.cluster.task import End, Outcome, Question
from gdlsolve.cluster.tree import Node, goals, widest
from gdlsolve.solver.faults import Misuse, Refusal
from tests import toy

SEEDS = range(60)
Call = Callable[[Question], Outcome]


class Wild:
    """An executor that works at what was sent in any order, twice at times, loses some of it, has
    faults of its own, and answers also what is not wanted any more."""

    def __init__(self, seed: int, faults: bool = True):
        self.chance = random.Random(seed)
        self.faults = faults
        self.waiting: list[tuple[Future[Outcome], Call, Question]] = []
        self.bad: Counter[str] = Counter()
        self.sent = 0
        self.more = threading.Condition()
        self.ended = False
        self.thread = threading.Thread(target=self.work, daemon=True)
        self.thread.start()

    def submit(self, call: Call, question: Question, /) -> Future[Outcome]:
        future: Future[Outcome] = Future()
        with self.more:
            self.sent += 1
            self.waiting.append((future, call, question))
            self.more.notify()
        return future

    def work(self) -> None:
        while True:
            with self.more:
                self.more.wait_for(lambda: bool(self.waiting) or self.ended)
                if self.ended:
                    return
                place = self.chance.randrange(len(self.waiting))
                future, call, question = self.waiting.pop(place)
            self.answer(future, call, question)

    def answer(self, future: Future[Outcome], call: Call, question: Question) -> None:
        """Gives an answer, or what stands in its place: at most twice for one question."""
        outcome = call(question)
        if self.chance.random() < 0.3:
            outcome = call(question)
        if not future.set_running_or_notify_cancel():
            return
        way = self.chance.randrange(6) if self.faults and self.bad[question.after] < 2 else 9
        self.bad[question.after] += way < 3
        if way == 0:
            future.set_exception(OSError("a worker is gone"))
        elif way == 1:
            future.set_result(Outcome(End.FAILED, ("status -9",)))
        elif way == 2:
            future.set_result(Outcome(End.STOPPED, ()))
        else:
            future.set_result(outcome)

    def close(self) -> None:
        with self.more:
            self.ended = True
            self.more.notify()
        self.thread.join()


class Toys(unittest.TestCase):
    """Games of tests.toy in place of the program."""

    def setUp(self) -> None:
        for name, stand_in in (("run", toy.run), ("digest", lambda: "toy")):
            patched = patch(f"gdlsolve.cluster.program.{name}", stand_in)
            patched.start()
            self.addCleanup(patched.stop)
        waits = patch.object(driver, "PAUSE", 0.0)
        waits.start()
        self.addCleanup(waits.stop)

    def asked(self, seed: int, depth: int = 4) -> Sought:
        return sought(toy.rules_of(seed), "x", depth, ("--unfinished", str(seed % 4 * 25)), "")

    def want(self, seed: int, depth: int = 4) -> bytes:
        words = ["solve", "--role", "x", "--depth", str(depth), "--unfinished", str(seed % 4 * 25)]
        return toy.run(words, toy.rules_of(seed)).output

    def found(
        self, seed: int, executor: Submits, width: int = 4, processors: int = 1, **manner: Any
    ) -> tuple[Driver, bytes]:
        engine = Engine(executor, lambda: width, processors=processors)
        asked = Driver(self.asked(seed), engine, Manner(**manner))
        return asked, asked.reply().output


class Answers(Toys):
    def test_any_order_and_any_loss_give_the_same_bytes(self) -> None:
        for seed in SEEDS:
            with self.subTest(seed=seed):
                executor = Wild(seed)
                width = 1 + seed % 7
                split, processors = 0.0 if seed % 2 else 9.0, 1 + seed % 3
                parts = seed % 5 == 0
                _, output = self.found(seed, executor, width, processors, split=split, parts=parts)
                executor.close()
                self.assertEqual(output, self.want(seed))

    def test_splits_happen(self) -> None:
        splits = 0
        for seed in range(20):
            executor = Wild(seed, faults=False)
            asked, output = self.found(seed, executor, 12, split=0.0)
            executor.close()
            self.assertEqual(output, self.want(seed))
            splits += asked.counts.split > 1
        self.assertGreater(splits, 5)

    def test_a_journal_that_is_complete_asks_for_nothing(self) -> None:
        for seed in range(12):
            with self.subTest(seed=seed), tempfile.TemporaryDirectory() as room:
                book = Path(room) / "journal"
                executor = Wild(seed)
                self.found(seed, executor, 6, split=0.0, journal=book)
                before = executor.sent
                self.assertEqual(self.found(seed, executor, 6, journal=book)[1], self.want(seed))
                self.assertEqual(executor.sent, before)
                executor.close()

    def test_a_journal_that_was_cut_off_is_of_use(self) -> None:
        for seed in range(12):
            with self.subTest(seed=seed), tempfile.TemporaryDirectory() as room:
                book = Path(room) / "journal"
                executor = Wild(seed, faults=False)
                self.found(seed, executor, 6, split=0.0, journal=book)
                whole = book.read_bytes()
                book.write_bytes(whole[: len(whole) * 2 // 3])
                self.assertEqual(self.found(seed, executor, 6, journal=book)[1], self.want(seed))
                executor.close()


class Always:
    """An executor that answers each question in the same way, at once."""

    def __init__(self, answer: Callable[[Future[Outcome], Call, Question], object]):
        self.answer, self.sent = answer, 0

    def submit(self, call: Call, question: Question, /) -> Future[Outcome]:
        self.sent += 1
        future: Future[Outcome] = Future()
        self.answer(future, call, question)
        return future


def gives(outcome: Outcome) -> Always:
    return Always(lambda future, call, question: future.set_result(outcome))


class Whole(Toys):
    """The whole question is asked beside its parts, and either tells the answer."""

    def test_either_is_enough(self) -> None:
        for is_whole in (True, False):
            for seed in range(12):

                def answer(future: Future[Outcome], call: Call, question: Question) -> None:
                    if (question.after == "") is is_whole:
                        future.set_result(call(question))

                with self.subTest(seed=seed, is_whole=is_whole):
                    executor = Always(answer)
                    self.assertEqual(self.found(seed, executor, 40)[1], self.want(seed))

    def histories(self, width: int, lost: int = 0, **manner: Any) -> list[str]:
        """The histories that are asked for, of which the first are lost."""
        asked: list[str] = []

        def answer(future: Future[Outcome], call: Call, question: Question) -> None:
            asked.append(question.after)
            if len(asked) > lost:
                future.set_result(call(question))
            else:
                future.cancel()

        self.assertEqual(self.found(2, Always(answer), width, **manner)[1], self.want(2))
        return asked

    def test_one_worker_is_asked_for_the_whole_alone(self) -> None:
        self.assertEqual(self.histories(1), [""])
        self.assertEqual(self.histories(1, 2), ["", "", ""])

    def test_parts_alone_are_asked_for_where_that_is_wanted(self) -> None:
        for width in (1, 2, 9):
            asked = self.histories(width, parts=True)
            self.assertTrue(asked)
            self.assertNotIn("", asked)


class Faults(Toys):
    def test_what_fails_is_tried_three_times(self) -> None:
        executor = gives(Outcome(End.FAILED, ("status -9",)))
        with self.assertRaises(Failed):
            self.found(1, executor, 1)
        self.assertEqual(executor.sent, 3)

    def test_an_engine_that_breaks_is_tried_three_times(self) -> None:
        fault = RuntimeError("broken")
        executor = Always(lambda future, call, question: future.set_exception(fault))
        with self.assertRaises(Failed):
            self.found(1, executor, 1)
        self.assertEqual(executor.sent, 3)

    def test_refusals_and_misuse_are_raised_at_once(self) -> None:
        for outcome, fault in (
            (Outcome(End.REFUSED, ("refused N1 TooMany base",)), Refusal),
            (Outcome(End.MISUSED, ("status 1", "no such option")), Misuse),
            (Outcome(End.OTHER_PROGRAM, ("another",)), OtherProgram),
            (Outcome(End.ANSWERED, ("value 50",)), Contradiction),
            (Outcome(End.ANSWERED, ("at-most 3",)), Contradiction),
            (Outcome(End.ANSWERED, ()), Contradiction),
        ):
            with self.subTest(end=outcome.end, lines=outcome.lines):
                executor = gives(outcome)
                with self.assertRaises(fault):
                    self.found(1, executor, 1)
                self.assertEqual(executor.sent, 1)

    def test_what_is_lost_is_sent_again_within_the_patience(self) -> None:
        executor = Always(lambda future, call, question: future.cancel())
        with self.assertRaises(Lost):
            self.found(1, executor, 1, patience=0.2)
        self.assertGreater(executor.sent, 1)

    def test_an_engine_that_is_gone_is_waited_for_within_the_patience(self) -> None:
        def gone(future: Future[Outcome], call: Call, question: Question) -> None:
            raise OSError("no connection")

        with self.assertRaises(Lost):
            self.found(1, Always(gone), 1, patience=0.2)
        silent = Engine(Always(lambda future, call, question: None), lambda: 1, lambda: False)
        with self.assertRaises(Lost):
            Driver(self.asked(1), silent, Manner(patience=0.2)).reply()

    def test_another_program_is_refused(self) -> None:
        def other(question: Question) -> Outcome:
            with patch("gdlsolve.cluster.program.digest", lambda: "other"):
                return task.answer(question)

        executor = Always(lambda future, call, question: future.set_result(other(question)))
        with self.assertRaises(OtherProgram):
            self.found(1, executor, 1)

    def test_two_answers_that_cannot_both_be_true(self) -> None:
        found = Driver(self.asked(1), Engine(gives(Outcome(End.STOPPED, ())), lambda: 1), Manner())
        root = Node((), 2)
        found._look_at(root)
        root.moves[0].replies[0].narrow(50, 100)
        with self.assertRaises(Contradiction):
            root.moves[0].replies[0].narrow(0, 49)

    def test_no_room_is_left_behind(self) -> None:
        with tempfile.TemporaryDirectory() as room, patch.object(tempfile, "tempdir", room):
            with ThreadPoolExecutor(2) as pool:
                self.found(3, pool)
            with self.assertRaises(Failed):
                self.found(1, gives(Outcome(End.FAILED, ())), 1)
            self.assertEqual(list(Path(room).iterdir()), [])

    def test_the_depth_is_one(self) -> None:
        for depth in (-1, 65):
            with self.assertRaises(Misuse):
                sought(b"", "x", depth, (), "")


class Processors(unittest.TestCase):
    """How many processors a worker answers with."""

    def test_several_are_a_cut_without_a_window(self) -> None:
        asked = Question(b"", ("--role", "x", "--depth", "3"), "(a b)", 0, 50, "", None)
        ways = {
            1: ["--window", "0:50"],
            2: ["--table", "128", "--cut", "2"],
            16: ["--table", "1024", "--cut", "16"],
            40: ["--table", "1024", "--cut", "16"],
        }
        for processors, how in ways.items():
            want = ["solve", "--role", "x", "--depth", "3", *how, "--after", "(a b)"]
            self.assertEqual(asked.words(processors), want)

    def test_without_dask_a_worker_has_one(self) -> None:
        self.assertEqual([task._processors(number) for number in (0, 1, 3)], [1, 1, 3])

    def test_numbers_of_the_command(self) -> None:
        self.assertEqual([command.here("4"), command.here("2x3")], [Share(1, 4), Share(2, 3)])
        self.assertEqual([command.of_mpi("4"), command.of_mpi("2x3")], [Share(4, 1), Share(2, 3)])
        for text in ("0", "-1", "x2", "2x", "2x0", "0x2", "2x2x2", "a", ""):
            for read in (command.here, command.of_mpi):
                with self.subTest(text=text), self.assertRaises(ValueError):
                    read(text)


class Parts(unittest.TestCase):
    def test_goals_are_the_numbers_that_stand_as_names(self) -> None:
        rules = b"(goal x 70)(goal y 5;30\n)(p 101 007 a40 40a 4)(q 100)"
        self.assertEqual(goals(rules), [0, 4, 5, 70, 100])

    def test_windows_are_made_as_wide_as_may_be(self) -> None:
        self.assertEqual(widest(49, 50, [0, 50, 100]), (0, 50))
        self.assertEqual(widest(50, 51, [0, 50, 100]), (50, 100))
        self.assertEqual(widest(-1, 1, [0, 50]), (-1, 50))
        self.assertEqual(widest(50, 60, [0, 50]), (50, 101))

    def test_answers_are_read(self) -> None:
        self.assertEqual(reading(("value 50", "move a"), 0, 100), Known(50, 50, ("move a",)))
        self.assertEqual(reading(("at-most 0",), 0, 100), Known(0, 0))
        self.assertEqual(reading(("at-least 50", "move a"), 0, 50), Known(50, 100))
        for lines in (("value 0", "move a"), ("value 100", "move a"), ("at-least 7",), ("no",)):
            with self.assertRaises(Contradiction):
                reading(lines, 0, 100)

    def test_a_journal_takes_no_line_that_was_changed(self) -> None:
        with tempfile.TemporaryDirectory() as room:
            book = Path(room) / "journal"
            Journal(book).note("a", Known(10, 90))
            Journal(book).note("a", Known(50, 100, ("move b",)))
            self.assertEqual(Journal(book).known("a"), Known(50, 90, ("move b",)))
            book.write_text(book.read_text().replace("50, 100,", "60, 100,"))
            self.assertEqual(Journal(book).known("a"), Known(10, 90))
            self.assertIsNone(Journal(book).known("b"))
        self.assertIsNone(Journal(None).known("a"))

    def test_statuses_say_how_a_question_ended(self) -> None:
        known = {0: End.ANSWERED, 1: End.MISUSED, 2: End.REFUSED}
        for status, end in {**known, 3: End.FAILED, 4: End.FAILED, -9: End.FAILED}.items():
            self.assertIs(task._end(Ran(status, b"", b"")), end)


if __name__ == "__main__":
    unittest.main()
