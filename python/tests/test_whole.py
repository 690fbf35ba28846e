"""Games as they are found: written out for each call, in sessions, at the command line, in matches, and on the page."""
import json
import os
import random
import subprocess
import tempfile
import time
import unittest
import warnings
from collections.abc import Callable
from pathlib import Path
from unittest.mock import patch

import gdlsolve
from gdlsolve import Misuse, Refusal, Session, State
from gdlsolve.manager.command import made, options, resumed
from gdlsolve.manager.record import Record
from gdlsolve.manager.referee import Referee
from gdlsolve.page.desk import SHOWN as PROVED, TESTED, WRITTEN, Desk
from gdlsolve.player.gates import Gates
from gdlsolve.solver import program, unrolled
from gdlsolve.solver.calls import answer
from gdlsolve.solver.engine import Engine, Limit, Pool
from tests import GAMES, PROGRAM, TOP, known, needs_library, needs_program, package, ran
from tests.found import BEGINS, FOUND, LISTED, NEVER
from tests.serving import LONG, Asking, Served, clocks

RECURSIVE = "refused G4 Recursive 9"
# A relation that changes with the state and rests on itself, of which a rule asks two atoms of its own, or one behind an `or`.
WAYS = "(role a) (base p) (input a go) (legal a go) (init p) (next p) (link 1 2) (link 2 3) (<= terminal (way 1 3)) (goal a 100)"
JOINED = WAYS + "(<= (way ?x ?y) (link ?x ?y) (true p)) (<= (way ?x ?z) (way ?x ?y) (way ?y ?z))"
EITHER = WAYS + "(<= (way ?x ?y) (link ?x ?y) (true p)) (<= (way ?x ?z) (way ?x ?y) (or (link ?y ?z) (way ?y ?z)))"
# A relation that rests on itself over so many facts that nothing shows what is written of it.
PLAIN = "(role a) (base p) (input a go) (legal a go) (init p) (next p) (goal a 100) (<= terminal (far 3))"
FAR = PLAIN + "(far 0) (<= (far ?y) (far ?x) (succ ?x ?y))" + "".join(f"(succ {place} {place + 1})" for place in range(1400))
# A queen on a board of eight by eight, with every way from each square to each other as a move.
QUEEN = "".join(f"(n {place})" for place in range(8)) + (
    "(role a) (init (at 0 0)) (<= (legal a (go ?x ?y ?u ?v)) (true (at ?x ?y)) (n ?x) (n ?y) (n ?u) (n ?v))"
    "(<= (next (at ?u ?v)) (does a (go ?x ?y ?u ?v))) (<= terminal (true (at 7 7))) (<= (goal a 100) (true (at 7 7)))"
    "(<= (goal a 0) (not (true (at 7 7)))) (legal a stay) (<= (next (at ?x ?y)) (does a stay) (true (at ?x ?y)))"
)
NAMED = patch.dict(os.environ, {program.VARIABLE: " ".join(PROGRAM)})


def setUpModule() -> None:
    """The program answers, as the library writes nothing out."""
    if PROGRAM:
        NAMED.start()
        unittest.addModuleCleanup(NAMED.stop)


TURNS = [("(say 2)", "noop")]


def asked(words: object, rules: bytes) -> list[str]:
    """What answers where nothing writes rules out."""
    if words == ["unroll"]:
        raise Misuse("no such command")
    assert isinstance(words, list)
    return gdlsolve.reply(words, rules).lines()


@needs_program
class Texts(unittest.TestCase):
    def test_what_is_stated(self) -> None:
        for text, want in (
            (FOUND, False),
            ("(base p) (input a go)", True),
            ("(<= (base p) q) (<= (input ?r go) (role ?r))", True),
            ("(base p) (legal a input)", False),
            ("(input a go)", False),
            ("(base", True),
        ):
            with self.subTest(text=text[:30]):
                self.assertIs(unrolled.states_all(text.encode()), want)
        self.assertTrue(all(unrolled.states_all(game.read_bytes()) for game in GAMES))

    def test_what_is_not_stated_is_warned_of(self) -> None:
        asked: tuple[Callable[[str], object], ...] = gdlsolve.moves, gdlsolve.state, gdlsolve.net, lambda rules: gdlsolve.solve(rules, "a", 1), lambda rules: Session(rules).close()
        for ask in asked:
            for text, missing in (QUEEN, "`base` and `input`"), (PLAIN.replace("(base p)", ""), "`base`"):
                with self.assertWarns(gdlsolve.RulesWarning) as caught:
                    ask(text)
                self.assertTrue(str(caught.warning).startswith(f"no item states {missing}, so"))
                self.assertEqual(caught.filename, __file__)
        with warnings.catch_warnings():
            warnings.simplefilter("error")
            gdlsolve.check(QUEEN)
            gdlsolve.moves(QUEEN, whole=True)
            gdlsolve.moves(PLAIN)
            Session(QUEEN, tighten=True).close()

    def test_only_what_play_can_come_to_is_stated(self) -> None:
        # No piece ever stands on the second square.
        stated = PLAIN + "(base (at 1)) (base (at 2)) (init (at 1)) (<= (next (at ?x)) (true (at ?x)))"
        self.assertEqual([gdlsolve.net(stated, tighten=tighten).base for tighten in (False, True)], [3, 2])
        with Session(stated, tighten=True) as session:
            self.assertEqual(session.net().base, 2)

    def test_a_file_stands_for_its_rules(self) -> None:
        with tempfile.TemporaryDirectory() as room:
            file = Path(room, "found.kif")
            file.write_text(FOUND)
            self.assertEqual(gdlsolve.moves(file, whole=True), gdlsolve.moves(FOUND, whole=True))
            self.assertEqual(gdlsolve.unroll(file), gdlsolve.unroll(FOUND))
            with Session(file, whole=True) as session:
                self.assertEqual(session.moves(), gdlsolve.moves(FOUND, whole=True))
            with self.assertRaises(FileNotFoundError):
                gdlsolve.check(Path(room, "none.kif"))

    def test_what_is_played(self) -> None:
        stands = GAMES[0].read_bytes()
        self.assertIs(unrolled.playable(stands, answer), stands)
        for text in (FOUND, LISTED):
            self.assertEqual(unrolled.playable(text.encode(), answer), gdlsolve.unroll(text).encode())
        for text, code in ((NEVER, "U1"), ("(role a", "K4"), ("", "G6")):
            with self.subTest(text=text), self.assertRaises(Refusal) as caught:
                unrolled.playable(text.encode(), answer)
            self.assertEqual(caught.exception.code, code)

    def test_the_first_line_says_what_is_shown(self) -> None:
        games = sorted((TOP / "games/found").glob("*.kif"))
        self.assertEqual(len(games), 10)
        for game in games:
            with self.subTest(game=game.stem):
                self.assertTrue(unrolled.is_shown(gdlsolve.unroll(game.read_bytes()).encode()))
        for text in (JOINED, EITHER):
            self.assertTrue(unrolled.is_shown(gdlsolve.unroll(text).encode()))
            self.assertTrue(unrolled.is_shown(gdlsolve.unroll(text, tighten=True).encode()))
        written = gdlsolve.unroll(FAR)
        self.assertTrue(written.startswith("; Tested and not shown: "))
        self.assertFalse(unrolled.is_shown(written.encode()))

    def test_what_is_written_out_may_have_more_inputs(self) -> None:
        written = gdlsolve.unroll(QUEEN)
        self.assertEqual(gdlsolve.net(written).inputs, 4097)
        found = gdlsolve.solve(written, "a", 1)
        self.assertEqual((found.value, found.move), (100, "(go 0 0 7 7)"))
        stated = written.split("\n", 1)[1]
        with self.assertRaises(Refusal) as caught:
            gdlsolve.net(stated)
        self.assertEqual(caught.exception.code, "N1")
        with Session(QUEEN, whole=True) as session:
            self.assertEqual(session.net().inputs, 4097)
            self.assertEqual(session.moves([("(go 0 0 7 7)",)]).goals, {"a": 100})
            session.stand(FOUND)
            self.assertEqual(session.net(), gdlsolve.net(gdlsolve.unroll(FOUND)))
        told = package("gdlsolve", "solve", "--whole", "--role", "a", "--depth", "1")
        ended = subprocess.run(told, input=QUEEN.encode(), capture_output=True, env=known(), check=False)
        self.assertEqual((ended.returncode, ended.stdout.splitlines()[:2]), (0, [b"value 100", b"move (go 0 0 7 7)"]))

    def test_inputs_that_are_too_many_are_stated_anew(self) -> None:
        numbers = " ".join(f"(n {number})" for number in range(70))
        rules = f"{numbers} (role a) (base p) (init p) (<= (input a (go ?x ?y)) (n ?x) (n ?y)) (<= (legal a (go ?x ?x)) (n ?x) (true p))"
        with self.assertRaises(Refusal) as caught:
            gdlsolve.moves(rules)
        self.assertEqual(caught.exception.code, "N1")
        played = unrolled.playable(rules.encode(), answer)
        self.assertEqual(len(gdlsolve.moves(played).legal["a"]), 70)

    def test_without_a_program_rules_stand_as_they_are(self) -> None:
        self.assertEqual(unrolled.playable(LISTED.encode(), asked), LISTED.encode())
        with self.assertRaises(Refusal) as caught:
            unrolled.playable(FOUND.encode(), asked)
        self.assertEqual(str(caught.exception), RECURSIVE)


@needs_program
class Calls(unittest.TestCase):
    @needs_library
    def test_beside_the_library_the_program_writes_out(self) -> None:
        with patch.dict(os.environ), patch.object(program, "own", lambda: Path(PROGRAM[0])):
            del os.environ[program.VARIABLE]
            written = ran(["unroll"], FOUND.encode())[1].decode()
            self.assertEqual(gdlsolve.unroll(FOUND), written)
            self.assertEqual(gdlsolve.moves(FOUND, TURNS, whole=True), gdlsolve.moves(written, TURNS))

    def test_they_are_over_what_the_program_writes(self) -> None:
        status, written, _ = ran(["unroll"], FOUND.encode())
        self.assertEqual((status, gdlsolve.unroll(FOUND)), (0, written.decode()))
        tight = ran(["unroll", "--tighten"], FOUND.encode())[1]
        self.assertEqual(gdlsolve.unroll(FOUND, tighten=True), tight.decode())
        self.assertEqual(gdlsolve.check(FOUND, whole=True), gdlsolve.check(written))
        self.assertEqual(gdlsolve.net(FOUND, whole=True), gdlsolve.net(written))
        for after in (list[tuple[str, str]](), TURNS):
            self.assertEqual(gdlsolve.moves(FOUND, after, whole=True), gdlsolve.moves(written, after))
            self.assertEqual(gdlsolve.state(FOUND, after, whole=True), gdlsolve.state(written, after))
        self.assertEqual(gdlsolve.values(FOUND, "one", 5, whole=True), gdlsolve.values(written, "one", 5))
        found = gdlsolve.solve(FOUND.encode(), "one", 5, whole=True)
        self.assertEqual((found.value, found.move), (100, BEGINS))
        self.assertEqual(gdlsolve.solve_within(FOUND, "one", 5, 0, 50, whole=True).move, BEGINS)

    def test_refusals(self) -> None:
        with self.assertRaises(Refusal) as caught:
            gdlsolve.check(FOUND)
        self.assertEqual(str(caught.exception), RECURSIVE)
        for text in (NEVER, "(role a", "", "(role a) (<= (p ?x) (not (q ?x)))"):
            want = ran(["unroll"], text.encode())[1].decode().strip()
            with self.subTest(text=text), self.assertRaises(Refusal) as caught:
                gdlsolve.moves(text, whole=True)
            self.assertEqual(str(caught.exception), want)

    def test_refusals_are_explained(self) -> None:
        for text, place, words in (
            ("(role a)\n(<= p (not (or q r)))(<= q p)", (2, 1), "refused U1 NotStratified: p > not q > p\n"),
            ("(role a)(<= q (not (or p q r)))\n(<= (p ?x) (not (or (q ?x) r)))", (2, 8), "refused G3 Unsafe: no positive literal of the body binds ?x\n"),
            ("(role a)\n(num z)(<= (num (s ?x)) (num ?x))", (None, None), "refused U2 TooMany: an atom of more than 4096 bytes"),
            ("(role a)\n(<= (next p) (or (base p) q))", (2, 1), "refused U3 Unstated: no item states `base`\n"),
            ("(role a", (1, 1), "refused K4 Unclosed: this bracket is closed nowhere\n"),
        ):
            with self.subTest(text=text), self.assertRaises(Refusal) as caught:
                gdlsolve.moves(text, whole=True)
            refused = caught.exception
            self.assertEqual((refused.source, refused.line, refused.column), ("<input>", *place))
            self.assertIn(words, refused.explanation)

    def test_sessions(self) -> None:
        written = gdlsolve.unroll(FOUND)
        with Session(FOUND, PROGRAM[0], whole=True) as session:
            self.assertEqual(session.check(), gdlsolve.check(written))
            self.assertEqual(session.moves(TURNS), gdlsolve.moves(written, TURNS))
            self.assertEqual(session.solve("one", 5).move, BEGINS)
            session.stand(NEVER)
            for _ in range(2):
                with self.assertRaises(Refusal) as caught:
                    session.moves()
                self.assertEqual(caught.exception.code, "U1")
            session.stand(GAMES[0].read_bytes())
            self.assertEqual(session.check().roles, gdlsolve.check(GAMES[0].read_bytes()).roles)
        with Session(FOUND, PROGRAM[0]) as session, self.assertRaises(Refusal):
            session.check()


@needs_program
class Command(unittest.TestCase):
    def command(self, *words: object) -> tuple[int, bytes]:
        """What the command does with a found game."""
        done = subprocess.run(package("gdlsolve", *words), input=FOUND.encode(), capture_output=True, env=known(), check=False)
        return done.returncode, done.stdout

    def test_answers_are_those_of_the_pipe(self) -> None:
        for tighten in (False, True):
            written = gdlsolve.unroll(FOUND, tighten=tighten).encode()
            more = ["--tighten"] if tighten else []
            for words in (["check"], ["net"], ["moves"], ["state", "--after", "((say 2) noop)"], ["solve", "--role", "one", "--depth", "5"],
                          ["values", "--role", "two", "--depth", "3", "--lines"], ["solve", "--role", "one", "--depth", "3", "--deepen"]):
                with self.subTest(words=words, tighten=tighten):
                    self.assertEqual(self.command(*words, "--whole", *more), ran(words, written)[:2])
        status, output = self.command("solve", "--role", "one", "--time", 60, "--whole", "--json")
        self.assertEqual((status, json.loads(output)["settled"]), (0, True))

    def test_refusals_are_those_of_unroll(self) -> None:
        with tempfile.TemporaryDirectory() as folder:
            game = Path(folder) / "never.kif"
            game.write_text(NEVER)
            want = ran(["unroll"], NEVER.encode())[:2]
            self.assertEqual(self.command("moves", "--whole", game), want)
            self.assertEqual(self.command("unroll", "--tighten", game), want)
            self.assertEqual(json.loads(self.command("moves", "--whole", "--json", game)[1])["refused"], "U1")
        self.assertEqual(self.command("moves"), (2, f"{RECURSIVE}\n".encode()))
        for words in (["unroll"], ["show"], ["lint"]):
            self.assertEqual(self.command(*words, "--whole")[0], 1)
        self.assertEqual(self.command("--whole")[0], 1)


def played(words: list[str], seed: int = 1) -> Record:
    """The record of a match with these words for the manager."""
    given = options(words)
    record = resumed(given) if given.resume else made(given)
    return Referee(record, random.Random(seed), 60.0, given.record or given.resume).play(given.turns)


@needs_program
class Matches(Asking):
    def setUp(self) -> None:
        super().setUp()
        folder = tempfile.TemporaryDirectory()
        self.addCleanup(folder.cleanup)
        self.folder = Path(folder.name)

    def game(self, text: str) -> str:
        """A file with a game."""
        file = self.folder / "game.kif"
        file.write_text(text)
        return str(file)

    def test_player_against_player(self) -> None:
        served = [Served(self, whole=whole) for whole in (False, True)]
        players = [word for each in served for word in ("--player", each.url)]
        start, play = clocks(60, 60).split()
        for text in (FOUND, LISTED):
            record = played([self.game(text), "--start", start, "--play", play, *players])
            self.assertEqual((record.rules, record.state, record.goalValues), (text, "ended", [100, 0]))
            self.assertEqual({error for turn in record.errors for error in turn}, {""})
            self.assertEqual(record.moves[0][0], BEGINS)
            self.assertEqual(len(record.states), len(record.moves) + 1)

    def test_a_match_goes_on(self) -> None:
        file = self.folder / "match.json"
        part = played([self.game(FOUND), "--record", str(file), "--turns", "1"])
        self.assertEqual((part.state, len(part.moves)), ("open", 1))
        self.assertEqual(played(["--resume", str(file)]).state, "ended")

    def test_what_is_played_without_the_solver(self) -> None:
        asked = Gates(self.engine(gdlsolve.unroll(FOUND)))
        self.assertEqual(asked.legal(TURNS, time.monotonic() + LONG), gdlsolve.moves(FOUND, TURNS, whole=True))

    def test_an_engine_has_rules_written_out(self) -> None:
        asked = Engine(FOUND, self.children)
        self.addCleanup(asked.close)
        self.assertEqual(asked.ask(["unroll"], Limit(time.monotonic() + LONG)), gdlsolve.unroll(FOUND).splitlines())

    def test_what_is_not_played(self) -> None:
        served = Served(self)
        self.assertEqual(served.says(f"(START m a ({NEVER}) 60 60)"), "busy")
        self.assertEqual(served.player.matches, {})


@needs_program
class Page(unittest.TestCase):
    def setUp(self) -> None:
        folder = tempfile.TemporaryDirectory()
        self.addCleanup(folder.cleanup)
        (Path(folder.name) / "said.kif").write_text(FOUND)
        self.desk = Desk(Pool(2), Path(folder.name))
        self.addCleanup(self.desk.close)

    def test_a_game_of_the_folder_is_written_out(self) -> None:
        told = self.desk.open({"name": "said"})
        self.assertEqual((told["text"], told["roles"], told["whole"]), (FOUND, ("one", "two"), False))
        self.assertIn(WRITTEN, told["notes"])
        here = self.desk.position({"game": told["id"], "after": [["(say 2)", "noop"]]})
        self.assertEqual((here["state"], here["legal"]["two"]), (State.OPEN.value, ("(say 3)", "(say 4)")))
        self.assertEqual(here["facts"], ["(control two)", "(said 2)"])

    def test_a_text_is_written_out_where_that_is_asked_for(self) -> None:
        refused = self.desk.open({"text": FOUND})["refused"]
        self.assertEqual((refused["told"], refused["whole"]), (RECURSIVE, True))
        self.assertIn(WRITTEN, self.desk.open({"text": FOUND, "whole": True})["notes"])
        listed = self.desk.open({"text": LISTED})
        self.assertTrue(listed["whole"])
        self.assertIn(WRITTEN, self.desk.open({"text": LISTED, "whole": True})["notes"])
        for text, note in ((FOUND, PROVED), (JOINED, PROVED), (EITHER, PROVED), (FAR, TESTED)):
            self.assertEqual(self.desk.open({"text": text, "whole": True})["notes"][:2], [WRITTEN, note])
        stands = self.desk.open({"text": GAMES[0].read_text(), "whole": True})
        self.assertEqual((stands["whole"], WRITTEN in stands["notes"]), (False, False))

    def test_refusals_of_what_is_written_out(self) -> None:
        refused = self.desk.open({"text": NEVER, "whole": True})["refused"]
        self.assertEqual((refused["code"], refused["line"], refused["whole"]), ("U1", 1, False))
        self.assertIn("through a not", refused["cause"])


if __name__ == "__main__":
    unittest.main()
