"""Matches over HTTP: player against player, players that fail, records, and matches that go on."""

import json
import random
import signal
import socket
import subprocess
import tempfile
import threading
import time
import unittest
from collections.abc import Sequence
from concurrent.futures import ThreadPoolExecutor
from contextlib import suppress
from pathlib import Path

import gdlsolve
from gdlsolve import State
from gdlsolve.manager.client import post
from gdlsolve.manager.command import made, options, resumed
from gdlsolve.manager.record import Record
from gdlsolve.manager.referee import Referee
from gdlsolve.page import records
from tests import TOP, known, package
from tests.odd import Odd
from tests.serving import LONG, PACE, Served

# Clocks at the pace of this machine.
CLOCKS = ["--start", f"{20 * PACE:.1f}", "--play", f"{2 * PACE:.1f}", "--slack", f"{3 * PACE:.1f}"]
# Games, and what roles are sure of from the start: nothing less is the goal of the match.
MATCHES: list[tuple[str, dict[str, int]]] = [
    ("tic_tac_toe", {}),
    ("hexapawn", {"black": 100}),
    ("nim", {"first": 100}),
    ("domineering", {"upright": 100}),
    ("connect_three", {"red": 50, "black": 50}),
    ("auction", {"east": 50, "west": 50}),
    ("cake", {"anna": 30}),
    ("rock_paper_scissors", {}),
    ("blotto", {}),
    ("lights_out", {"player": 100}),
    ("queens", {"player": 100}),
    ("dead_end", {"walker": 80}),
    ("breakthrough_3x4", {}),
]


def game(name: str) -> str:
    """The file of a game."""
    return str(TOP / f"games/{name}.kif")


def played(words: Sequence[str], seed: int = 1) -> Record:
    """The record of a match with these words for the manager."""
    given = options(words)
    record = resumed(given) if given.resume else made(given)
    file = given.record or given.resume
    return Referee(record, random.Random(seed), given.slack, file).play(given.turns)


class Raw:
    """A server that sends these bytes to who comes first, and then a byte now and then where it drips."""

    def __init__(self, told: bytes, drips: bool = False):
        self.told, self.drips = told, drips
        self.socket = socket.create_server(("127.0.0.1", 0))

    def __enter__(self) -> str:
        threading.Thread(target=self.serve, daemon=True).start()
        return f"http://127.0.0.1:{self.socket.getsockname()[1]}"

    def serve(self) -> None:
        with suppress(OSError), self.socket.accept()[0] as link:
            link.recv(4096)
            link.sendall(self.told)
            while self.drips:
                time.sleep(0.2)
                link.sendall(b"x")

    def __exit__(self, *_: object) -> None:
        self.socket.close()


class Matches(unittest.TestCase):
    def judge(self, record: Record) -> None:
        """The record tells a match by the rules, and its goals."""
        position = gdlsolve.moves(record.rules, record.moves)
        self.assertEqual((record.state, record.isCompleted), ("ended", True))
        self.assertEqual(position.state, State.ENDED)
        self.assertEqual(dict(zip(record.roles, record.goalValues)), position.goals)

    def test_player_against_player(self) -> None:
        # A player takes one role of a match.
        served = [Served(self, matches=4) for _ in range(3)]

        def play(name: str) -> Record:
            roles = gdlsolve.check(Path(game(name)).read_bytes()).roles
            players = [each.url for each, _ in zip(served, roles)]
            words = [word for player in players for word in ("--player", player)]
            return played([game(name), *CLOCKS, *words])

        with ThreadPoolExecutor(4) as threads:
            records = list(threads.map(play, [name for name, _ in MATCHES]))
        for record, (name, sure) in zip(records, MATCHES):
            with self.subTest(game=name):
                self.judge(record)
                self.assertEqual({error for turn in record.errors for error in turn}, {""})
                goals = dict(zip(record.roles, record.goalValues))
                for role, least in sure.items():
                    self.assertGreaterEqual(goals[role], least)
        self.assertEqual([each.player.matches for each in served], [{}] * 3)

    def test_against_moves_at_random(self) -> None:
        served = Served(self)
        for seed in range(3):
            players = ["--player", "random", "--player", served.url]
            record = played([game("hexapawn"), *CLOCKS, *players], seed)
            self.judge(record)
            self.assertEqual(record.goalValues, [0, 100])
        alone = [played([game("draft")], 5).moves for _ in range(2)]
        self.assertEqual(alone[0], alone[1])

    def test_players_that_fail_have_moves_at_random(self) -> None:
        def slow(text: str) -> str:
            time.sleep(3)
            return "ready"

        for says, error, clock in [
            (lambda text: "noop", "not legal: noop", "60"),
            (lambda text: "((", "not legal: ((", "60"),
            (lambda text: "", "not legal: ", "60"),
            (lambda text: None, "status 500", "60"),
            (slow, "late", "0.2"),
        ]:
            odd = Odd(self, says)
            words = ["--start", clock, "--play", clock, "--slack", "0", "--player", odd.url]
            record = played([game("matching_pennies"), *words])
            self.judge(record)
            self.assertEqual((len(record.errors), record.errors[0][1]), (1, ""))
            self.assertTrue(record.errors[0][0].startswith(error), record.errors)
        record = played([game("matching_pennies"), "--player", "http://127.0.0.1:1"])
        self.judge(record)
        self.assertNotEqual(record.errors[0][0], "")

    def test_what_a_player_writes_is_no_code_for_a_terminal(self) -> None:
        odd = Odd(self, lambda text: "\x1b[2J\u202e" + "x" * 900_000)
        words = ["--start", "60", "--play", "60", "--player", odd.url]
        done = subprocess.run(package("gdlsolve.manager", game("matching_pennies"), *words), capture_output=True, env=known(), text=True)
        self.assertRegex(done.stderr, r"^not ready: a: \ufffd\[2J\ufffdx{195}\n$")
        self.assertEqual(done.returncode, 0)

    def test_heads_that_are_none_are_told_as_errors(self) -> None:
        for head in b"Content-Length: " + b"9" * 5_000, b"A: " + b"9" * 200_000, b"\x00", b"Transfer-Encoding: chunked\r\n\r\n-1":
            with self.subTest(head=head[:20]), Raw(b"HTTP/1.1 200 OK\r\n" + head + b"\r\n\r\nready") as url:
                told = post(url, "(INFO)", LONG)
                self.assertIsNone(told.text)
                self.assertRegex(told.error, "^[ -~]{1,200}$")

    def test_an_answer_that_drips_is_late(self) -> None:
        with Raw(b"HTTP/1.1 200 OK\r\n\r\n", drips=True) as url:
            begun = time.monotonic()
            self.assertEqual(post(url, "(INFO)", 1.0).error, "late")
            self.assertLess(time.monotonic() - begun, LONG)

    def test_what_players_are_told(self) -> None:
        odd = Odd(self, lambda text: "READY" if text.startswith("(START") else " H\n")
        words = ["--id", "m", "--start", "7", "--play", "1.5", "--player", odd.url]
        record = played([game("matching_pennies"), *words])
        self.assertEqual([move for move, _ in record.moves], ["h"])
        start, play, stop = odd.heard
        self.assertRegex(start, r"^\(START m a \(\(role a\) .*\) 7 1.5\)$")
        self.assertEqual(play, "(PLAY m NIL)")
        self.assertEqual(stop, f"(STOP m (h {record.moves[0][1]}))")

    def test_a_match_has_one_name_whatever_the_file_is_called(self) -> None:
        odd = Odd(self, lambda text: "ready" if text.startswith("(START") else "h")
        with tempfile.TemporaryDirectory() as room:
            rules = Path(room) / "two (old) pennies.kif"
            rules.write_bytes(Path(game("matching_pennies")).read_bytes())
            record = played([str(rules), "--player", odd.url])
        self.assertRegex(record.matchId, r"^two__old__pennies\.\d+$")
        self.assertEqual(record.game, "two (old) pennies.kif")
        self.assertTrue(odd.heard[0].startswith(f"(START {record.matchId} a ("))


class Records(unittest.TestCase):
    def setUp(self) -> None:
        folder = tempfile.TemporaryDirectory()
        self.addCleanup(folder.cleanup)
        self.file = Path(folder.name) / "match.json"

    def test_a_record_is_read_as_it_was_written(self) -> None:
        record = played([game("nim"), "--record", str(self.file)])
        self.assertEqual(Record.read(self.file), record)
        told = json.loads(self.file.read_text())
        self.assertEqual(told["roles"], ["first", "second"])
        self.assertEqual(len(told["moves"]), len(told["seconds"]))
        self.assertEqual(len(told["moves"]) + 1, len(told["states"]))
        self.assertEqual(told["playerNamesFromHost"], ["random", "random"])
        holds = gdlsolve.state(record.rules, record.moves).holds
        self.assertEqual(records.canonical(told["states"][-1]), [f"({' '.join(f'(true {each})' for each in holds)})"])
        self.assertEqual((told["isCompleted"], told["isAborted"]), (True, False))

    def test_the_page_steps_through_a_record(self) -> None:
        record = played([game("nim"), "--record", str(self.file)])
        found = records.record(self.file.read_text())
        self.assertEqual((found.game, found.rules, found.turns), ("nim", record.rules, record.moves))

    def test_a_record_with_less_in_it_is_read(self) -> None:
        played([game("nim"), "--record", str(self.file), "--turns", "2"])
        told = json.loads(self.file.read_text())
        self.assertEqual((told["isCompleted"], told["isAborted"]), (False, True))
        for name in ("states", "stateTimes", "playerNamesFromHost", "isAborted"):
            del told[name]
        self.file.write_text(json.dumps(told))
        whole = played(["--resume", str(self.file)])
        self.assertEqual((whole.state, len(whole.states), whole.isAborted), ("ended", len(whole.moves) + 1, False))

    def test_a_match_goes_on(self) -> None:
        served = Served(self)
        clocks = [*CLOCKS, "--id", "m"]
        players = ["--player", served.url, "--player", "random"]
        record = ["--record", str(self.file)]
        part = played([game("tic_tac_toe"), *clocks, *players, *record, "--turns", "3"])
        self.assertEqual((part.state, len(part.moves)), ("open", 3))
        whole = played(["--resume", str(self.file), "--slack", f"{3 * PACE:.1f}"])
        self.assertEqual((whole.state, whole.matchId), ("ended", "m.3"))
        self.assertEqual(whole.moves[:3], part.moves)
        self.assertEqual({error for turn in whole.errors for error in turn}, {""})
        self.assertEqual(Record.read(self.file), whole)
        self.assertEqual(served.player.matches, {})

    def test_what_is_no_record(self) -> None:
        good = played([game("nim")])
        good.write(self.file)
        told = json.loads(self.file.read_text())
        for bad in ({}, [], {**told, "moves": []}, {**told, "players": []}, "x"):
            self.file.write_text(json.dumps(bad))
            with self.subTest(bad=str(bad)[:40]), self.assertRaises(ValueError):
                Record.read(self.file)
        for text in "{", "[" * 100_000:
            self.file.write_text(text)
            with self.assertRaises(ValueError):
                Record.read(self.file)

    def test_a_record_with_something_else_in_it_is_told_in_a_line(self) -> None:
        good = played([game("nim")])
        good.write(self.file)
        told = json.loads(self.file.read_text())
        turns = len(good.moves)
        bad: dict[str, object] = {"rules": 5, "roles": 5, "players": [1, 2], "startClock": "5", "playClock": -1, "states": None}
        for name, value in {**bad, "moves": [[1, 2]] * turns, "errors": [5] * turns, "seconds": None}.items():
            self.file.write_text(json.dumps({**told, name: value}))
            with self.subTest(name=name), self.assertRaisesRegex(ValueError, f"{self.file} is no record of a match: {name} has "):
                Record.read(self.file)
        self.file.write_text(json.dumps({**told, "roles": ["one", "two"]}))
        with self.assertRaisesRegex(ValueError, "its roles are not those of its rules"):
            played(["--resume", str(self.file)])


class Program(unittest.TestCase):
    def ran(self, *words: str) -> tuple[int, str, str]:
        command = package("gdlsolve.manager", *words)
        done = subprocess.run(command, capture_output=True, env=known(), check=False, text=True)
        return done.returncode, done.stdout, done.stderr

    def test_it_is_started_by_one_command(self) -> None:
        status, output, errors = self.ran(game("nim"), "--id", "m", "--seed", "1")
        self.assertEqual((status, errors), (0, ""))
        ended = r"^m: ended after \d+ turns, 0 failed moves\nfirst \d+\nsecond \d+\n$"
        self.assertRegex(output, ended)

    def test_a_record_that_cannot_be_written_is_told_before_a_player_has_begun(self) -> None:
        odd = Odd(self, lambda text: "ready")
        status, output, errors = self.ran(game("nim"), "--player", odd.url, "--record", "/no such folder/match.json")
        self.assertEqual((status, output), (1, ""))
        self.assertIn("/no such folder/match.json", errors)
        self.assertEqual(odd.heard, [])

    @unittest.skipIf(signal.SIG_IGN in map(signal.getsignal, (signal.SIGINT, signal.SIGTERM, signal.SIGHUP)), "a signal is of no account here")
    def test_a_key_breaks_the_match_off_at_once_and_at_the_players_too(self) -> None:
        self.broken_off_by(signal.SIGINT, 130)

    @unittest.skipIf(signal.SIG_IGN in map(signal.getsignal, (signal.SIGINT, signal.SIGTERM, signal.SIGHUP)), "a signal is of no account here")
    def test_a_signal_does_the_same(self) -> None:
        self.broken_off_by(signal.SIGTERM, 143)
        self.broken_off_by(signal.SIGHUP, 129)

    def broken_off_by(self, number: signal.Signals, status: int) -> None:
        """A signal ends a match whose player is asked."""
        ended, is_asked = threading.Event(), threading.Event()
        self.addCleanup(ended.set)

        def hang(text: str) -> str:
            if text.startswith("(PLAY"):
                is_asked.set()
                ended.wait(600)
            return "ready"

        odd = Odd(self, hang)
        with tempfile.TemporaryDirectory() as room:
            file = Path(room) / "match.json"
            words = [game("nim"), "--id", "m", "--player", odd.url, "--play", "600", "--record", str(file)]
            pipe = subprocess.PIPE
            with subprocess.Popen(package("gdlsolve.manager", *words), stdout=pipe, stderr=pipe, env=known()) as manager:
                try:
                    self.assertTrue(is_asked.wait(120))
                    manager.send_signal(number)
                    self.assertEqual(manager.communicate(timeout=120), (b"", b""))
                finally:
                    manager.kill()
            record = Record.read(file)
        self.assertEqual((manager.returncode, record.isAborted, record.state), (status, True, "open"))
        self.assertEqual(odd.heard[-1], "(ABORT m)")

    def test_an_output_that_is_full_is_told_in_a_line(self) -> None:
        with open("/dev/full", "w") as full:
            command = package("gdlsolve.manager", game("nim"))
            done = subprocess.run(command, stdout=full, stderr=subprocess.PIPE, env=known(), check=False, text=True)
        self.assertEqual((done.returncode, done.stderr), (1, "write fault\n"))

    def test_a_library_that_is_not_there_is_told_with_its_package(self) -> None:
        with tempfile.TemporaryDirectory() as room:
            Path(room, "httpx.py").write_text("raise ModuleNotFoundError('no', name='httpx')\n")
            command, path = package("gdlsolve.manager", game("nim"), "--player", "http://127.0.0.1:1"), f"{room}:{TOP / 'python'}"
            done = subprocess.run(command, env=known(PYTHONPATH=path), capture_output=True, text=True, timeout=120)
        self.assertEqual((done.returncode, done.stdout, done.stderr), (1, "", "there is no httpx: apt-get install python3-httpx, or pip install httpx\n"))

    def test_a_refusal_is_told_with_the_file(self) -> None:
        with tempfile.TemporaryDirectory() as room:
            rules = Path(room) / "broken.kif"
            rules.write_text("(role a")
            status, output, errors = self.ran(str(rules))
        self.assertEqual((status, output), (1, ""))
        self.assertTrue(errors.startswith(f"{rules}: refused K4 Unclosed 0\n"), errors)

    def test_what_is_wrong_is_told_in_a_line_that_names_it(self) -> None:
        for words, want in (
            (["no such file"], "no such file: No such file or directory\n"),
            (["--resume", "no such file"], "no such file: No such file or directory\n"),
            ([game("nim"), "--player", "http://127.0.0.1:99999"], "http://127.0.0.1:99999 is no http://HOST:PORT\n"),
            ([game("nim"), "--player", "http://[::1"], "http://[::1 is no http://HOST:PORT\n"),
        ):
            with self.subTest(words=words):
                self.assertEqual(self.ran(*words), (1, "", want))
        words = package("gdlsolve.manager", game("nim"))
        done = subprocess.run(words, capture_output=True, env=known(GDLSOLVE_PROGRAM="true"), check=False, text=True)
        self.assertEqual((done.returncode, done.stdout, done.stderr), (1, "", "no answer: KeyError('items')\n"))

    def test_words_that_are_none(self) -> None:
        self.assertEqual(self.ran()[0], 2)
        self.assertEqual(self.ran(game("nim"), "--turns", "-1")[0], 2)
        for clock in "-1", "nan", "inf":
            self.assertEqual(self.ran(game("nim"), "--play", clock)[0], 2)
        for name in "a b", "a)", "":
            self.assertEqual(self.ran(game("nim"), "--id", name)[0], 2)
        self.assertEqual(self.ran("no such file")[0], 1)
        self.assertEqual(self.ran(game("nim"), "--player", "ftp://x")[0], 1)
        self.assertEqual(self.ran(game("nim"), *["--player", "random"] * 3)[0], 1)


if __name__ == "__main__":
    unittest.main()
