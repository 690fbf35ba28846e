"""Tournaments: ratings, who plays whom, the archive, and what becomes of it where a process or a player is killed."""

import io
import json
import math
import os
import random
import signal
import sqlite3
import subprocess
import tempfile
import threading
import time
import unittest
from collections import Counter
from collections.abc import Iterator, Sequence
from contextlib import closing, contextmanager, redirect_stderr
from itertools import combinations, permutations
from pathlib import Path
from unittest.mock import patch

from gdlsolve.manager.archive import Archive, Game, Stage, alone
from gdlsolve.manager.leading import read
from gdlsolve.manager.ratings import PRIOR, SCALE, Result, beats, inverse, likeliest, points, ratings
from gdlsolve.manager.record import Record
from gdlsolve.manager.referee import Referee
from gdlsolve.manager.schedule import Pairing, schedule
from gdlsolve.manager.standings import HEAD, Judge, Standings, standings
from gdlsolve.manager.tournament import Tournament, options
from gdlsolve.page import records
from gdlsolve.solver import program
from tests import PROGRAM, known, needs_program, package
from tests.odd import Odd
from tests.serving import LONG, PACE
from tests.test_manager import game

MODULE = "gdlsolve.manager.tournament"
# Clocks at the pace of this machine.
CLOCKS = ["--start", f"{10 * PACE:.1f}", "--play", f"{PACE:.1f}", "--slack", f"{2 * PACE:.1f}"]
AT_RANDOM = ["--player", "ann=random", "--player", "bob=random"]
HEARS = signal.SIG_IGN not in map(signal.getsignal, (signal.SIGINT, signal.SIGTERM, signal.SIGHUP))


def results(told: str, times: int = 1) -> list[Result]:
    """Results of pairs of players with names of one letter: `ab` where the first won, and `a=b` at a draw."""
    return times * [Result(pair[0], pair[-1], 0.5 if "=" in pair else 1.0) for pair in told.split()]


class Ratings(unittest.TestCase):
    def test_three_of_four(self) -> None:
        found = ratings(results("ab ab ab ba"))
        # With the draw of the prior these are 3.05 points of 4.1.
        half = 200 * math.log10(3.05 / 1.05)
        self.assertAlmostEqual(found["a"].rating, 1500 + half, 6)
        self.assertAlmostEqual(found["b"].rating, 1500 - half, 6)
        self.assertAlmostEqual(half, 92.6, 1)
        for each in found.values():
            self.assertAlmostEqual(each.error, SCALE / 2 / math.sqrt(3.05 * 1.05 / 4.1), 6)

    def test_many_of_such_are_as_far_apart_as_elo_says(self) -> None:
        found = ratings(results("ab ab ab ba", 1000))
        self.assertAlmostEqual(found["a"].rating - found["b"].rating, 400 * math.log10(3), 1)

    def test_who_is_equal_has_the_mean(self) -> None:
        for told in "ab bc ca", "a=b", "ab ba", "ab bc cd da", "a=b c=d":
            with self.subTest(told=told):
                found = ratings(results(told))
                self.assertEqual({round(each.rating, 6) for each in found.values()}, {1500})
                self.assertEqual(len({round(each.error, 6) for each in found.values()}), 1)

    def test_who_won_all_is_rated_too(self) -> None:
        found = ratings(results("ab", 10))
        self.assertAlmostEqual(found["a"].rating, 1500 + 200 * math.log10(10.05 / 0.05), 6)
        longer = ratings(results("ab", 10_000))
        self.assertTrue(found["a"].rating < longer["a"].rating < 4000, longer)
        line = ratings(results("ab bc cd de ef fg gh", 50))
        self.assertEqual(sorted(line, key=lambda name: -line[name].rating), list("abcdefgh"))
        self.assertTrue(all(math.isfinite(each.rating) and math.isfinite(each.error) for each in line.values()))

    def test_errors_shrink_as_the_root_of_the_matches(self) -> None:
        told = "ab ab ba bc bc cb ca a=c"
        once = ratings(results(told, 10))
        for times in 4, 25, 100:
            more = ratings(results(told, 10 * times))
            for name, each in once.items():
                with self.subTest(times=times, name=name):
                    self.assertAlmostEqual(each.error / more[name].error / math.sqrt(times), 1, 2)

    def test_each_has_as_many_points_as_are_expected(self) -> None:
        dice = random.Random(1)
        names = [f"p{number}" for number in range(12)]
        pairs = [(one, other) for one in names for other in names if one != other]
        told = [Result(*dice.choice(pairs), dice.choice((0, 0.5, 1, 1))) for _ in range(300)]
        won, found = points(names, told), likeliest(points(names, told))
        for one in range(12):
            expected = sum((won[one][other] + won[other][one]) * beats(found[one], found[other]) for other in range(12))
            self.assertAlmostEqual(sum(won[one]), expected, 6)
        self.assertAlmostEqual(sum(sum(row) for row in won), 300 + PRIOR * 66, 6)
        rated = ratings(told)
        self.assertAlmostEqual(sum(each.rating for each in rated.values()) / 12, 1500, 6)

    def test_an_inverse_is_one(self) -> None:
        dice = random.Random(2)
        for size in 1, 2, 5, 20:
            matrix = [[dice.uniform(-1, 1) * (one != other or size == 1) for other in range(size)] for one in range(size)]
            other = list(zip(*inverse(matrix)))
            for place, row in enumerate(matrix):
                for at, column in enumerate(other):
                    self.assertAlmostEqual(sum(map(float.__mul__, row, column)), float(place == at), 8)

    def test_nobody_who_met_nobody(self) -> None:
        self.assertEqual(ratings([]), {})


class Schedule(unittest.TestCase):
    def test_both_sides(self) -> None:
        found = [each.seats for each in schedule(["a", "b", "c"], [2], 1)]
        self.assertEqual(found, [("a", "b"), ("b", "a"), ("a", "c"), ("c", "a"), ("b", "c"), ("c", "b")])
        self.assertEqual([each.seats for each in schedule(["a", "b"], [1], 1)], [("a",), ("b",)])

    def test_each_plays_each_role_alike_and_meets_each_other_alike(self) -> None:
        for count in range(1, 7):
            players = list("abcdef")[:count]
            for roles in range(1, min(count, 4) + 1):
                for rounds in 1, 2, 3:
                    with self.subTest(players=count, roles=roles, rounds=rounds):
                        found = list(schedule(players, [roles], rounds))
                        self.assertEqual(len(found), rounds * roles * math.comb(count, roles))
                        self.assertTrue(all(len({*each.seats}) == roles for each in found))
                        taken = Counter(seat for each in found for seat in enumerate(each.seats))
                        self.assertEqual((len(taken), len({*taken.values()})), (roles * count, 1))
                        met = Counter(pair for each in found for pair in combinations(sorted(each.seats), 2))
                        self.assertLessEqual(len({*met.values()}), 1)

    def test_each_order_comes_with_the_rounds(self) -> None:
        found = [each.seats for each in schedule("abcd", [4], 6)]
        self.assertEqual(sorted(found), sorted(permutations("abcd")))

    def test_rounds_go_over_all_games(self) -> None:
        found = [(each.round, each.game) for each in schedule("ab", [2, 1], 2)]
        self.assertEqual(found, [(0, 0), (0, 0), (0, 1), (0, 1), (1, 0), (1, 0), (1, 1), (1, 1)])


class Counts(unittest.TestCase):
    def record(self, players: Sequence[str], goals: Sequence[int], errors: Sequence[Sequence[str]] = ()) -> Record:
        """The record of a match, as far as the table looks at it."""
        names, turns = list(players), [list(turn) for turn in errors]
        return Record("m", "g", "", names, names, 1.0, 1.0, 0, errors=turns, playerNamesFromHost=names, isCompleted=True, goalValues=list(goals))

    def test_each_other_player_of_a_match_counts(self) -> None:
        found = Standings()
        found.add(self.record("abc", (60, 40, 40)), ["", "", ""])
        self.assertEqual(found.results, [Result("a", "b", 1), Result("a", "c", 1), Result("b", "c", 0.5)])
        counts = {name: (each.matches, each.wins, each.draws, each.losses, each.goals) for name, each in found.counts.items()}
        self.assertEqual(counts, {"a": (1, 2, 0, 0, 60), "b": (1, 0, 1, 1, 40), "c": (1, 0, 1, 1, 40)})

    def test_what_failed_is_marked(self) -> None:
        found = Standings()
        found.add(self.record("ab", (0, 0), [("late", ""), ("not legal: x", ""), ("Connection refused", ""), ("", "")]), ["", ""])
        found.add(self.record("ab", (0, 0), [("", "")]), ["", "busy"])
        counts = {name: (each.late, each.illegal, each.silent, each.marked) for name, each in found.counts.items()}
        self.assertEqual(counts, {"a": (1, 1, 1, 1), "b": (0, 0, 0, 1)})

    def test_the_table(self) -> None:
        found = Standings()
        for _ in range(3):
            found.add(self.record("ab", (100, 0)), ["", ""])
        found.add(self.record("c", (50,)), [""])
        head, *rows = found.table().splitlines()
        self.assertEqual(head.split(), list(HEAD))
        self.assertEqual([row.split()[0] for row in rows], ["a", "b", "c"])
        self.assertEqual(rows[2].split(), ["c", "-", "-", "1", "0", "0", "0", "50.0", "0", "0", "0", "0"])
        self.assertEqual({len(line) for line in [head, *rows]}, {len(head)})


class Tournaments(unittest.TestCase):
    def setUp(self) -> None:
        room = tempfile.TemporaryDirectory()
        self.addCleanup(room.cleanup)
        self.file = Path(room.name) / "matches.db"

    def words(self, *words: str) -> list[str]:
        """The words of a tournament over the archive of this test."""
        return [*words, "--archive", str(self.file)]

    def ran(self, *words: str) -> tuple[int, str, str]:
        """What becomes of a tournament."""
        done = subprocess.run(package(MODULE, *self.words(*words)), capture_output=True, env=known(), text=True, check=False)
        return done.returncode, done.stdout, done.stderr

    def played(self, *words: str) -> str:
        """The table of a tournament in which all goes well."""
        status, output, errors = self.ran(*words)
        self.assertEqual(status, 0, errors)
        return output

    def change(self, statement: str, *values: object) -> None:
        """Changes the archive behind its back."""
        with closing(sqlite3.connect(self.file)) as base, base:
            base.execute(statement, values)

    @contextmanager
    def going(self, *words: str) -> Iterator[subprocess.Popen[str]]:
        """A tournament that goes on in a child process."""
        pipe = subprocess.PIPE
        with subprocess.Popen(package(MODULE, *self.words(*words)), stdout=pipe, stderr=pipe, env=known(), text=True) as child:
            try:
                yield child
            finally:
                child.kill()


class Plays(Tournaments):
    def test_all_is_played_once_and_told(self) -> None:
        words = [game("rock_paper_scissors"), game("cake"), game("four_moves"), *AT_RANDOM, "--player", "cid=random", "--seed", "1"]
        status, output, errors = self.ran(*words, "--at-once", "3")
        self.assertEqual((status, len(errors.splitlines())), (0, 6 + 3 + 3), errors)
        rows = {name: numbers for name, *numbers in map(str.split, output.splitlines()[1:4])}
        self.assertEqual(set(rows), {"ann", "bob", "cid"})
        self.assertEqual({tuple(row[2:3] + row[7:]) for row in rows.values()}, {("8", "0", "0", "0", "0")})
        self.assertAlmostEqual(sum(int(row[0]) for row in rows.values()), 4500, delta=2)
        self.assertEqual(output.splitlines()[4:], ["matches: 12 played"])
        self.assertEqual(self.ran(*words), (0, output, ""))
        self.assertEqual(self.ran("--table"), (0, output, ""))
        listed = self.played("--matches").splitlines()
        self.assertEqual(len(listed), 12)
        date = r"\d{4}-\d\d-\d\d \d\d:\d\d:\d\d"
        self.assertRegex(listed[0], rf"^1  {date}  rock_paper_scissors\.kif  played  ann as left \d+, bob as right \d+$")

    def test_the_same_seed_has_the_same_moves(self) -> None:
        found = []
        for name in "one", "two":
            self.file = self.file.with_name(name)
            self.played(game("nim"), *AT_RANDOM, "--seed", "7")
            with Archive(self.file) as archive:
                found.append([archive.record(number).moves for number in archive.played()])
        self.assertEqual(found[0], found[1])
        self.assertGreater(len({str(moves) for moves in found[0]}), 1)

    def test_further_rounds_and_players_add_to_it(self) -> None:
        self.played(game("matching_pennies"), *AT_RANDOM)
        with Archive(self.file) as archive:
            before = [archive.record(number) for number in archive.played()]
        self.assertIn("matches: 4 played\n", self.played(game("matching_pennies"), *AT_RANDOM, "--rounds", "2"))
        self.assertIn("matches: 8 played\n", self.played(game("matching_pennies"), *AT_RANDOM, "--player", "cid=random"))
        with Archive(self.file) as archive:
            self.assertEqual([archive.record(each.number) for each in archive.entries()][:2], before)

    def test_a_match_is_told_as_its_record(self) -> None:
        kept: list[Record] = []
        play = Referee.play

        def keeps(referee: Referee, most_turns: int) -> Record:
            kept.append(play(referee, most_turns))
            return kept[-1]

        given = options(self.words(game("nim"), *AT_RANDOM))
        with patch.object(Referee, "play", keeps), redirect_stderr(io.StringIO()), Archive(self.file, writes=True) as archive, Judge() as judge:
            numbers = archive.add([read(given.games[0])], given.player, schedule(["ann", "bob"], [2], 1), "1")
            Tournament(archive, judge, given).play(numbers[1:])
            self.assertEqual([archive.record(2)], kept)
            self.assertEqual((archive.stage(1), archive.played()), (Stage.WAITING, [2]))
        told = self.played("--record", "2")
        file = self.file.with_suffix(".json")
        file.write_text(told)
        self.assertEqual(Record.read(file), kept[0])
        self.assertEqual(records.record(told).turns, kept[0].moves)
        self.assertEqual(json.loads(told)["playerNamesFromHost"], ["bob", "ann"])
        manager = subprocess.run(package("gdlsolve.manager", "--resume", str(file)), capture_output=True, env=known(), text=True, check=False)
        self.assertEqual((manager.returncode, manager.stderr), (0, ""))

    def test_what_is_not_over_in_time_does_not_count(self) -> None:
        output = self.played(game("nim"), *AT_RANDOM, "--turns", "1")
        self.assertEqual(output.splitlines()[1:], ["matches: 2 broken off"])
        record = json.loads(self.played("--record", "1"))
        self.assertEqual((len(record["moves"]), record["state"], record["isAborted"]), (1, "open", True))
        self.assertEqual(self.ran(game("nim"), *AT_RANDOM), (0, output, ""))

    def test_players_that_fail_do_not_stop_it(self) -> None:
        def slow(text: str) -> str:
            time.sleep(3)
            return "ready"

        illegal, late = Odd(self, lambda text: "ready" if text.startswith("(START") else "noop"), Odd(self, slow)
        urls = ["illegal=" + illegal.url, "late=" + late.url, "gone=http://127.0.0.1:1"]
        players = [word for url in urls for word in ("--player", url)]
        clocks = ["--start", "0.2", "--play", "0.2", "--slack", "0.5"]
        status, output, errors = self.ran(game("matching_pennies"), *players, *clocks, "--at-once", "6")
        self.assertEqual(status, 0, errors)
        rows = {name: list(map(int, numbers[-4:])) for name, *numbers in map(str.split, output.splitlines()[1:4])}
        # On a busy machine the others may be late too.
        self.assertEqual({name: (sum(row[:3]), row[3]) for name, row in rows.items()}, dict.fromkeys(("illegal", "late", "gone"), (4, 4)))
        self.assertEqual(rows["late"], [4, 0, 0, 4])
        self.assertIn("was not ready: late", errors)


class Archives(Tournaments):
    def test_it_goes_on_where_it_was_killed(self) -> None:
        ended, is_asked = threading.Event(), threading.Event()
        self.addCleanup(ended.set)

        def says(text: str) -> str:
            if text.startswith("(START"):
                return "ready"
            if len([each for each in odd.heard if each.startswith("(START")]) == 3:
                is_asked.set()
                ended.wait(LONG)
            return "h"

        odd = Odd(self, says)
        words = [game("matching_pennies"), "--player", f"odd={odd.url}", *AT_RANDOM, "--play", "600"]
        with self.going(*words) as child:
            self.assertTrue(is_asked.wait(LONG))
            status, _, errors = self.ran(*words)
            self.assertEqual((status, errors), (1, f"{self.file}: another tournament or a match server goes on over it\n"))
            self.assertIn(" played, 1 running, ", self.played("--table"))
            child.send_signal(signal.SIGKILL)
        with Archive(self.file) as archive:
            [running] = [entry.number for entry in archive.entries() if entry.stage is Stage.RUNNING]
            before = {number: archive.record(number) for number in archive.played()}
            with self.assertRaises(ValueError):
                archive.record(running)
        ended.set()
        self.assertIn("matches: 6 played\n", self.played(*words))
        with Archive(self.file) as archive:
            self.assertEqual({number: archive.record(number) for number in before}, before)
            self.assertEqual((running, archive.played(), len(archive.pairings())), (5, [1, 2, 3, 4, 5, 6], 6))
            again = archive.record(running).matchId
        names = [text.split()[1] for text in odd.heard if text.startswith("(START")]
        # The one that ran is ended before it begins under another name.
        self.assertEqual([name.split(".")[1] for name in names], ["3", "4", "5", "5", "6"])
        self.assertEqual(len({*names}), 5)
        self.assertEqual([text for text in odd.heard if "ABORT" in text], [f"(ABORT {names[2]})"])
        self.assertLess(odd.heard.index(f"(ABORT {names[2]})"), next(at for at, text in enumerate(odd.heard) if text.startswith(f"(START {again} ")))

    @unittest.skipUnless(HEARS, "a signal is of no account here")
    def test_a_signal_ends_it_at_the_players_too(self) -> None:
        for number, status in (signal.SIGINT, 130), (signal.SIGTERM, 143):
            ended, is_asked = threading.Event(), threading.Event()
            self.addCleanup(ended.set)
            self.file = self.file.with_name(number.name)

            def says(text: str, ended: threading.Event = ended, is_asked: threading.Event = is_asked) -> str:
                if text.startswith("(PLAY"):
                    is_asked.set()
                    ended.wait(LONG)
                return "ready"

            odd = Odd(self, says)
            words = [game("matching_pennies"), "--player", f"odd={odd.url}", "--player", "a=random", "--play", "600"]
            with self.subTest(signal=number.name), self.going(*words) as child:
                self.assertTrue(is_asked.wait(LONG))
                child.send_signal(number)
                self.assertEqual(child.communicate(timeout=LONG), ("", ""))
                self.assertEqual(child.returncode, status)
                self.assertTrue(odd.heard[-1].startswith("(ABORT matching_pennies.1."), odd.heard)
                self.assertEqual(self.played("--table").splitlines()[1:], ["matches: 1 running, 1 waiting"])

    def test_what_was_changed_does_not_count(self) -> None:
        self.played(game("matching_pennies"), *AT_RANDOM, "--rounds", "4")
        for change in (
            "UPDATE seats SET goal = 100 - goal WHERE match = 2",
            "UPDATE seats SET goal = goal + 1 WHERE match = 3 AND place = 0",
            "UPDATE turns SET move = 'noop' WHERE match = 4 AND place = 0",
            "DELETE FROM turns WHERE match = 5",
            "UPDATE turns SET move = 'h t' WHERE match = 6 AND place = 0",
            "UPDATE turns SET move = 'h) (h' WHERE match = 7 AND place = 0",
        ):
            self.change(change)
        status, output, errors = self.ran("--table")
        self.assertEqual(status, 0)
        noted, refused = "it notes ended ", "its moves are refused: "
        faults = [noted, noted, f"{refused}refused H2 NotLegal 1 a", noted, "a move is not one term", f"{refused}a bracket closes nothing"]
        for number, (line, why) in enumerate(zip(errors.splitlines(), faults, strict=True), 2):
            self.assertTrue(line.startswith(f"match {number} does not count: {why}"), line)
        self.assertEqual([row.split()[3] for row in output.splitlines()[1:3]], ["2", "2"])
        self.change("UPDATE games SET rules = rules || ' '")
        self.assertEqual(self.ran("--table")[2].count(" has rules that were changed\n"), 8)

    def test_each_is_replayed_by_one_session(self) -> None:
        self.played(game("rock_paper_scissors"), game("matching_pennies"), *AT_RANDOM)
        with Archive(self.file) as archive, Judge() as judge:
            found, faults = standings(archive, judge, archive.played())
            self.assertEqual((faults, len(found.results)), ([], 4))
            first = judge.session
            record = archive.record(4)
            self.assertEqual((judge.fault(record), judge.session), ("", first))
            record.goalValues.reverse()
            self.assertRegex(judge.fault(record), "^it notes ended .*, and the solver tells ended ")

    @needs_program
    def test_a_game_as_it_is_found_is_played_and_replayed(self) -> None:
        rules = "(role a) (role b) (init (step 0)) (succ 0 1) (<= (legal ?p (say ?n)) (role ?p) (true (step ?m)) (succ ?m ?n))\n" \
            "(<= (next (step ?n)) (true (step ?m)) (succ ?m ?n)) (<= terminal (true (step 1))) (goal a 60) (goal b 40)\n"
        file = self.file.with_name("found.kif")
        file.write_text(rules)
        # The library writes nothing out.
        with patch.dict(os.environ, {program.VARIABLE: " ".join(PROGRAM)}):
            output = self.played(str(file), *AT_RANDOM)
        self.assertEqual([row.split()[3:8] for row in output.splitlines()[1:3]], [["2", "1", "0", "1", "50.0"]] * 2)

    def test_one_at_a_time_and_of_one_kind(self) -> None:
        with alone(self.file), self.assertRaisesRegex(ValueError, "another tournament or a match server goes on over it"), alone(self.file):
            pass
        for text in b"this is no base" * 100, b"":
            self.file.write_bytes(text)
            with self.subTest(text=text[:20]), self.assertRaisesRegex(ValueError, "is no archive of matches"):
                Archive(self.file)
        with closing(sqlite3.connect(self.file)) as base:
            base.execute("CREATE TABLE others (x)")
        with self.assertRaisesRegex(ValueError, "is no archive of matches"):
            Archive(self.file, writes=True)

    def test_what_is_put_in_twice_is_there_once(self) -> None:
        games = [Game("g.kif", "(role a) (role b)", ("a", "b"))]
        with Archive(self.file, writes=True) as archive:
            first = archive.add(games, {"x": "random", "y": "random"}, schedule("xy", [2], 1), "1")
            again = archive.add(games, {"x": "random", "y": "http://127.0.0.1:1"}, schedule("xy", [2], 2), "2")
            self.assertEqual((first, again), ([1, 2], [1, 2, 3, 4]))
            self.assertEqual(archive.begin(1, 5, (1.0, 1.0)).record.players, ["random", "http://127.0.0.1:1"])
            self.assertEqual(archive.begin(1, 6, (1.0, 1.0)).last_name, "g.1.5")
            with self.assertRaises(IndexError):
                archive.add(games, {}, [Pairing(2, 0, ("x", "y")), Pairing(2, 1, ("x", "y"))], "1")
            self.assertEqual(archive.stages(), {Stage.RUNNING: 1, Stage.WAITING: 3})


class Killed(Tournaments):
    @contextmanager
    def player(self) -> Iterator[tuple[subprocess.Popen[str], str]]:
        """A player in a process of its own, and its address."""
        # Also a program is tested that takes more memory than a player lets it.
        command = package("gdlsolve.player", "--port", "0", "--quiet", "--memory", "0")
        with subprocess.Popen(command, stdout=subprocess.PIPE, stderr=subprocess.DEVNULL, env=known(), text=True) as child:
            try:
                assert child.stdout is not None
                line = child.stdout.readline()
                if not line:
                    self.skipTest("no player starts")
                yield child, f"http://{line.split()[-1]}"
            finally:
                child.kill()

    def test_a_player_that_is_killed_does_not_stop_it(self) -> None:
        with self.player() as (_, one), self.player() as (other, two):
            players = ["--player", f"stays={one}", "--player", f"dies={two}", "--player", "dice=random"]
            with self.going(game("nim"), game("rock_paper_scissors"), *players, *CLOCKS, "--at-once", "2") as child:
                assert child.stderr is not None
                lines = [child.stderr.readline() for _ in range(3)]
                other.kill()
                output, errors = child.communicate(timeout=600)
            self.assertEqual(child.returncode, 0, [*lines, errors])
        rows = {name: numbers for name, *numbers in map(str.split, output.splitlines()[1:4])}
        self.assertEqual({name: row[2] for name, row in rows.items()}, {"stays": "8", "dies": "8", "dice": "8"}, output)
        self.assertGreater(int(rows["dies"][9]), 0, output)
        self.assertGreater(int(rows["dies"][10]), 0, output)
        self.assertLess(int(rows["stays"][10]), 8, output)
        self.assertEqual(rows["dice"][7:], ["0"] * 4, output)
        self.assertEqual(output.splitlines()[4:], ["matches: 12 played"])
        with Archive(self.file) as archive:
            self.assertEqual(archive.stages(), {Stage.PLAYED: 12})
            self.assertEqual({len(archive.record(number).moves) > 0 for number in archive.played()}, {True})


class Words(Tournaments):
    def test_words_that_are_none(self) -> None:
        nim = game("nim")
        wrong: list[list[str]] = [
            [], [nim], AT_RANDOM, [nim, *AT_RANDOM, "--table"], ["--table", "--matches"], [nim, "--player", "random"],
            [nim, "--player", "a b=random"], [nim, "--player", "a=ftp://x"], [nim, *AT_RANDOM, "--player", "ann=random"],
            [nim, "--player", "a=http://x:1", "--player", "b=http://x:1"], [nim, *AT_RANDOM, "--rounds", "0"],
            [nim, *AT_RANDOM, "--at-once", "0"], [nim, *AT_RANDOM, "--play", "nan"], [nim, *AT_RANDOM, "--turns", "-1"],
        ]
        for words in wrong:
            with self.subTest(words=words), redirect_stderr(io.StringIO()), self.assertRaises(SystemExit) as ended:
                options(self.words(*words))
            self.assertEqual(ended.exception.code, 2)
        self.assertEqual(self.ran()[0], 2)

    def test_what_is_wrong_is_told_in_a_line(self) -> None:
        broken = self.file.with_name("broken.kif")
        broken.write_text("(role a")
        for words, want in (
            (["no such file", *AT_RANDOM], "no such file: No such file or directory\n"),
            ([game("cake"), *AT_RANDOM], "cake.kif has 3 roles, and there are 2 players: name further ones, as r2=random\n"),
            (["--table"], f"{self.file}: No such file or directory\n"),
        ):
            with self.subTest(words=words):
                self.assertEqual(self.ran(*words), (1, "", want))
                self.assertFalse(self.file.exists())
        self.assertTrue(self.ran(str(broken), *AT_RANDOM)[2].startswith(f"{broken}: refused K4 Unclosed 0\n"))
        self.played(game("matching_pennies"), *AT_RANDOM)
        self.assertEqual(self.ran("--record", "9"), (1, "", f"{self.file} has no match 9\n"))
        self.file = self.file.with_name("no such folder") / "archive"
        self.assertEqual(self.ran(game("nim"), *AT_RANDOM), (1, "", f"{self.file}: No such file or directory\n"))


if __name__ == "__main__":
    unittest.main()
