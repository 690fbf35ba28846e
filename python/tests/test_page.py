"""The server of the page over the engine: games, refusals, positions, looks, records, guards."""

import http.client
import json
import os
import random
import re
import signal
import socket
import subprocess
import tempfile
import threading
import time
import unittest
from collections.abc import Iterator, Sequence
from concurrent.futures import ThreadPoolExecutor
from contextlib import contextmanager
from pathlib import Path
from typing import Any
from unittest.mock import patch

from gdlsolve.manager.archive import Archive, Game
from gdlsolve.manager.schedule import Pairing
from gdlsolve.page import looks, places, records, server, sessions, state
from gdlsolve.page.desk import MOST_LOOKS, Desk
from gdlsolve.page.matches import Matches
from gdlsolve.page.server import Server
from gdlsolve.solver.answers import Worth
from gdlsolve.solver.engine import Child, Children, Engine, Limit, Pool
from gdlsolve.solver.faults import Refusal
from gdlsolve.solver.replies import Reply
from gdlsolve.web import guarded
from tests import ENDLESS, ENDLESS_RULES, TOP, known, package
from tests.serving import Held, processor_time, until

MARKS = (TOP / "games/tic_tac_toe.kif").read_bytes()
# How deep a look goes before it is stopped.
DEEP = 5
# What is given up ends within so many seconds, also on a busy machine.
SOON = 20.0
UNSAFE = "(role a) ; one\n(base p)\n  (<= (next p) (not (true ?x)))\n"


def children(parent: int) -> set[int]:
    """The processes below a process."""
    found: set[int] = set()
    for each in Path("/proc").glob("[0-9]*/stat"):
        try:
            before, _, after = each.read_text().rpartition(")")
        except OSError:
            continue
        if int(after.split()[1]) == parent and after.split()[0] != "Z":
            number = int(before.split()[0])
            found |= {number} | children(number)
    return found


def alive(processes: set[int]) -> set[int]:
    """Which of the processes are there."""
    return {each for each in processes if Path(f"/proc/{each}").exists()}


class Heard:
    """What sessions are asked while something is tried, and which; or those that are none."""

    def __init__(self, of_sessions: bool = True) -> None:
        self.of_sessions = of_sessions
        self.batches: list[tuple[Child, Sequence[Sequence[str]]]] = []

    def commands(self) -> list[str]:
        """The first words of what was asked."""
        return [words[0] for _, batch in self.batches for words in batch]

    def children(self) -> set[Child]:
        """Those that were asked."""
        return {child for child, _ in self.batches}

    @contextmanager
    def listening(self) -> Iterator[None]:
        """Notes what is asked."""
        ask = Child.ask

        def heard(child: Child, batch: Sequence[Sequence[str]], rules: bytes, limit: Limit) -> list[Reply]:
            if ("--session" in str(child.process.args)) == self.of_sessions:
                self.batches.append((child, batch))
            return ask(child, batch, rules, limit)

        with patch.object(Child, "ask", heard):
            yield


def turns(*moves: str) -> list[list[str]]:
    """Turns of two roles that move in turn."""
    pairs = enumerate(moves)
    return [["noop", move] if place % 2 else [move, "noop"] for place, move in pairs]


class Served(unittest.TestCase):
    """Tests over a server in a thread."""

    desk: Desk
    server: Server
    port: int

    @classmethod
    def command(cls) -> list[str] | None:
        """The command of what answers, where it is another one."""
        return None

    @classmethod
    def setUpClass(cls) -> None:
        cls.desk = Desk(Pool(2, cls.command()), TOP / "games", cls.command())
        cls.server = Server(cls.desk, 0, ["box.example:8080"])
        cls.port = cls.server.server_address[1]
        threading.Thread(target=cls.server.serve_forever, daemon=True).start()

    @classmethod
    def tearDownClass(cls) -> None:
        cls.server.shutdown()
        cls.server.server_close()
        cls.desk.close()

    def request(
        self, method: str, path: str, body: bytes = b"", **headers: str
    ) -> tuple[int, bytes]:
        link = http.client.HTTPConnection("127.0.0.1", self.port, timeout=60)
        named = {name.replace("_", "-"): value for name, value in headers.items()}
        try:
            link.request(method, path, body, named)
            answer = link.getresponse()
            return answer.status, answer.read()
        finally:
            link.close()

    def post(self, path: str, body: bytes, **headers: str) -> tuple[int, bytes]:
        return self.request("POST", path, body, **{"Content_Type": "application/json", **headers})

    def ask(self, what: str, status: int = 200, **question: Any) -> Any:
        found, body = self.post(f"/api/{what}", json.dumps(question).encode())
        self.assertEqual(found, status, body)
        return json.loads(body)

    def opened(self, name: str) -> str:
        if name == ENDLESS:
            return str(self.ask("open", text=ENDLESS_RULES)["id"])
        return str(self.ask("open", name=name)["id"])

    def ended(self, look: int) -> Any:
        """What a look has found at its end."""
        told = {"version": -1, "ended": ""}
        while not told["ended"]:
            told = self.ask("news", look=look, seen=told["version"])
        return told

    def looked(
        self, what: str, name: str, role: str, after: list[list[str]], seconds: float = 60
    ) -> Any:
        about: dict[str, Any] = {"game": self.opened(name), "role": role, "after": after}
        about["seconds"] = seconds
        return self.ended(self.ask(what, **about)["look"])


class Games(Served):
    def test_the_games_of_the_folder(self) -> None:
        games = self.ask("games")["games"]
        stored = sorted(path.stem for path in (TOP / "games").glob("*.kif"))
        self.assertEqual([each["name"] for each in games], stored)
        about = "Tic-tac-toe on a board of three by three cells"
        self.assertIn({"name": "tic_tac_toe", "about": about}, games)

    def test_what_cannot_be_read_in_the_folder_is_passed_over(self) -> None:
        with tempfile.TemporaryDirectory() as room:
            (Path(room) / "folder.kif").mkdir()
            (Path(room) / "gone.kif").symlink_to("no such file")
            (Path(room) / "nim.kif").write_text("; Nim.")
            desk = Desk(self.desk.pool, Path(room))
            self.assertEqual(desk.games()["games"], [{"name": "nim", "about": "Nim"}])

    def test_a_game_is_opened_by_name_or_text(self) -> None:
        told = self.ask("open", name="tic_tac_toe")
        self.assertEqual((told["roles"], told["text"]), (["xplayer", "oplayer"], MARKS.decode()))
        self.assertEqual(self.ask("open", text=MARKS.decode())["roles"], ["xplayer", "oplayer"])
        self.assertIn("no game", self.ask("open", 400, name="../games/nim")["error"])

    def test_rules_of_ones_own_have_a_name_that_no_game_of_the_folder_has(self) -> None:
        text = MARKS.decode()
        self.assertEqual(self.ask("open", text=text)["name"], "pasted")
        for given, want in ("mine", "mine"), ("nim", "nim (a file)"):
            with self.subTest(given=given):
                self.assertEqual(self.ask("open", text=text, name=given)["name"], want)

    def test_a_game_is_read_by_few_questions_and_opened_again_goes_on(self) -> None:
        heard = Heard(of_sessions=False)
        with heard.listening():
            game = self.opened("nim")
        self.assertEqual(heard.commands(), ["check", "moves"])
        rules = self.desk._game({"game": game}).rules
        self.assertEqual(self.opened("nim"), game)
        self.assertIs(self.desk._game({"game": game}).rules, rules)

    def test_a_refusal_is_told_at_its_line(self) -> None:
        told = self.ask("open", text=UNSAFE)["refused"]
        self.assertEqual((told["code"], told["name"], told["line"]), ("G3", "Unsafe", 3))
        told = self.ask("open", text="(role a)\n(base p\n")["refused"]
        self.assertEqual((told["code"], told["line"], told["column"]), ("K4", 2, 1))

    def test_every_stored_game_has_a_position_with_its_state(self) -> None:
        for name in [each["name"] for each in self.ask("games")["games"]]:
            with self.subTest(game=name):
                told = self.ask("open", name=name)
                self.assertEqual(told["notes"], [])
                here = self.ask("position", game=told["id"], after=[])
                self.assertEqual(here["state"], "open")
                self.assertIsNotNone(here["facts"])
                style = TOP / f"games/{name}.board"
                if style.exists() and json.loads(style.read_text()).get("draw", True):
                    self.assertEqual(len(here["boards"]), 1)


class Positions(Served):
    def test_the_board_and_what_else_holds(self) -> None:
        game = self.opened("tic_tac_toe")
        here = self.ask("position", game=game, after=[["(mark 1 3)", "noop"]])
        cells = here["boards"][0]["cells"]
        marks = [["".join(piece["name"] for piece in cell) for cell in row] for row in cells]
        self.assertEqual(marks, [["", "", "x"], ["", "", ""], ["", "", ""]])
        self.assertEqual(here["facts"], ["(control oplayer)"])
        self.assertEqual(here["legal"]["xplayer"], ["noop"])
        self.assertEqual(here["spots"]["oplayer"]["(mark 2 1)"]["press"], [["1", "2"]])

    def test_the_state_is_told_where_play_has_ended(self) -> None:
        game = self.opened("tic_tac_toe")
        after = turns("(mark 1 1)", "(mark 2 1)", "(mark 1 2)", "(mark 2 2)", "(mark 1 3)")
        here = self.ask("position", game=game, after=after)
        self.assertEqual((here["state"], here["legal"]), ("ended", {}))
        self.assertEqual(here["goals"], {"xplayer": 100, "oplayer": 0})
        top = here["boards"][0]["cells"][0]
        self.assertEqual([piece["name"] for cell in top for piece in cell], ["x", "x", "x"])

    def test_a_history_that_does_not_fit_is_told(self) -> None:
        game = self.opened("tic_tac_toe")
        for after, code in ([["noop", "noop"]], "H2"), ([["noop"]], "H1"):
            told = self.ask("position", game=game, after=after)
            self.assertEqual(told["refused"]["code"], code)
        for bad in (None, "", [1], [[1]], ["noop"]):
            told = self.ask("position", 400, game=game, after=bad)
            self.assertIn("is a list", told["error"])
        self.assertIn("not open", self.ask("position", 400, game="0", after=[])["error"])

    def test_positions_of_a_game_are_asked_of_one_session(self) -> None:
        game, heard = self.opened("nim"), Heard()
        self.ask("position", game=game, after=[])
        with heard.listening():
            for _ in range(3):
                self.ask("position", game=game, after=[["(take a 1)", "noop"]])
        self.assertEqual((heard.commands(), len(heard.children())), (["moves", "state"] * 3, 1))

    def test_a_move_that_no_name_could_be_is_no_word_of_a_question(self) -> None:
        game, heard = self.opened("nim"), Heard()
        with heard.listening():
            for bad in "noop)\0--rules\0/etc/passwd\0--after\0(", "noop\nshow", "no\u00e9p":
                told = self.ask("position", 400, game=game, after=[["(take a 1)", bad]])
                self.assertIn("no name has", told["error"])
        self.assertEqual(heard.batches, [])

    def test_what_the_rules_name_stands_in_the_way_of_nothing(self) -> None:
        rules = (
            b"(role a)(base see)(base (see_0 legal_0))(input a go)(legal a go)(init see)"
            b"(<= terminal (true (see_0 legal_0)))"
        )
        pool = self.desk.pool

        def ask(words: Any, text: bytes) -> list[str]:
            if words[0] == "state":
                words = ["no such command"]
            return pool.ask(words, text, Limit(time.monotonic() + 30)).lines()

        self.assertEqual(state.facts(rules, "a", (), ask), ["see"])
        self.assertEqual(sorted(state.base(rules, "a", ask)), ["(see_0 legal_0)", "see"])


class Looks(Served):
    def values(self, told: Any) -> dict[str, tuple[int, int]]:
        return {each["move"]: (each["low"], each["high"]) for each in told["moves"]}

    def test_values_of_moves_are_settled(self) -> None:
        told = self.looked("values", "four_moves", "a", [])
        self.assertEqual(told["ended"], "settled")
        self.assertEqual(sorted(low for low, high in self.values(told).values()), [10, 40, 70, 70])
        told = self.looked("values", "matching_pennies", "a", [])
        self.assertEqual(self.values(told), {"h": (0, 0), "t": (0, 0)})
        self.assertEqual([each["line"] for each in told["moves"]], [[["h", "t"]], [["t", "h"]]])

    def test_a_side_alone_holds_against_two_corners(self) -> None:
        after = turns("(mark 1 1)", "(mark 2 2)", "(mark 3 3)")
        told = self.looked("values", "tic_tac_toe", "oplayer", after)
        held = {move for move, bounds in self.values(told).items() if bounds == (50, 50)}
        self.assertEqual(told["ended"], "settled")
        self.assertEqual(held, {"(mark 1 2)", "(mark 2 1)", "(mark 2 3)", "(mark 3 2)"})

    def test_a_look_tells_how_long_it_was_at_it(self) -> None:
        told = self.looked("values", ENDLESS, "red", [], 1)
        self.assertEqual(told["ended"], "time")
        self.assertGreaterEqual(told["seconds"], 1)
        told = self.looked("values", "four_moves", "a", [])
        self.assertTrue(0 < told["seconds"] < 60, told["seconds"])

    def test_a_look_asks_two_questions_a_depth_for_all_moves(self) -> None:
        heard = Heard()
        with heard.listening():
            told = self.looked("values", "tic_tac_toe", "xplayer", [])
        self.assertEqual((told["ended"], set(self.values(told).values())), ("settled", {(50, 50)}))
        self.assertEqual({each["depth"] for each in told["moves"]}, {told["depth"]})
        self.assertEqual(heard.commands(), ["moves"] * 2 + ["values"] * 2 * told["depth"])
        # The next look goes on with what these two sessions have found.
        more = Heard()
        with more.listening():
            self.looked("values", "tic_tac_toe", "xplayer", turns("(mark 2 2)", "(mark 1 1)"))
        self.assertEqual((len(heard.children()), more.children()), (2, heard.children()))

    def test_turns_are_asked_together(self) -> None:
        heard = Heard()
        with heard.listening():
            told = self.looked("replies", "nim", "second", [])
        sizes = [len(batch) for _, batch in heard.batches]
        self.assertEqual((told["ended"], len(sizes)), ("settled", 2 + 2 * told["depth"]))
        self.assertEqual(sizes[:4], [1, 1, 7, 7])

    def test_lines_are_those_of_best_play(self) -> None:
        told = self.looked("values", "nim", "first", [])
        [best] = [each for each in told["moves"] if each["low"] == 100]
        self.assertEqual(best["line"][0], [best["move"], "noop"])
        end = self.ask("position", game=self.opened("nim"), after=best["line"])
        self.assertEqual(end["goals"], {"first": 100, "second": 0})

    def test_replies_are_turns(self) -> None:
        told = self.looked("replies", "matching_pennies", "b", [])
        won, lost = (100, 100), (0, 0)
        self.assertEqual(self.values(told), {"h h": lost, "h t": won, "t h": won, "t t": lost})

    def test_the_solver_takes_a_win(self) -> None:
        after = turns("(mark 1 1)", "(mark 2 1)", "(mark 1 2)", "(mark 3 3)")
        told = self.looked("choose", "tic_tac_toe", "xplayer", after)
        self.assertEqual((told["best"]["move"], told["best"]["value"]), ("(mark 1 3)", 100))
        self.assertEqual(told["ended"], "settled")

    def test_the_solver_plays_a_move_of_the_greatest_value_that_random_matches_speak_for(self) -> None:
        told = self.looked("choose", ENDLESS, "red", [], 4)
        best = told["best"]
        self.assertEqual((told["ended"], best["is_settled"]), ("time", False))
        self.assertGreater(told["depth"], 0)
        # At the border a disc is in three lines of a board of eight by eight, and all moves have one value.
        self.assertNotIn(best["move"], ("(drop 1)", "(drop 8)"))

    def test_a_look_ends_with_its_time(self) -> None:
        told = self.looked("values", ENDLESS, "red", [], 0.5)
        self.assertEqual(told["ended"], "time")

    def test_a_long_look_is_stopped(self) -> None:
        game = self.opened(ENDLESS)
        look = self.ask("values", game=game, role="red", after=[], seconds=None)["look"]
        self.assertTrue(until(lambda: self.ask("news", look=look, seen=-1)["depth"] >= DEEP))
        self.ask("stop", look=look)
        self.assertEqual(self.ended(look)["ended"], "stopped")
        self.assertTrue(until(lambda: not self.desk.sessions.children.at_work, SOON))
        # Those that stand ready for other questions do nothing: they use less than a quarter of a second.
        ready = {each: processor_time(each) for each in children(os.getpid())}
        time.sleep(1)
        self.assertEqual([each for each in ready if processor_time(each) > ready[each] + 25], [])
        self.assertEqual(self.ask("position", game=game, after=[])["state"], "open")

    def test_a_long_look_is_not_given_up_for_those_that_have_ended(self) -> None:
        about: dict[str, Any] = {"game": self.opened(ENDLESS), "role": "red", "after": [], "seconds": None}
        look = self.ask("values", **about)["look"]
        for _ in range(MOST_LOOKS + 1):
            self.ended(self.ask("values", game=self.opened("matching_pennies"), role="a", after=[], seconds=60)["look"])
        self.assertEqual(self.ask("news", look=look, seen=-1)["ended"], "")
        self.ask("stop", look=look)

    def test_bad_questions_about_looks_are_told(self) -> None:
        game = self.opened("nim")
        about: dict[str, Any] = {"game": game, "role": "first", "after": []}
        told = self.ask("values", 400, **{**about, "role": "third"}, seconds=1)
        self.assertIn("no role", told["error"])
        for seconds in (0, -1, "1", 1e9):
            told = self.ask("values", 400, **about, seconds=seconds)
            self.assertIn("time", told["error"])
        for look in (0, None, "1"):
            self.assertIn("over", self.ask("news", 400, look=look)["error"])
        about["after"] = [["noop", "noop"]]
        number = self.ask("values", **about, seconds=9)["look"]
        told = self.ended(number)
        self.assertEqual((told["ended"], told["why"]), ("failed", "refused H2 NotLegal 1 first"))


class Stops(Served):
    """Looks whose questions hang: two processes are at work at them, until they are given up."""

    held: Held

    @classmethod
    def setUpClass(cls) -> None:
        cls.held = Held(cls)
        super().setUpClass()

    @classmethod
    def command(cls) -> list[str]:
        return cls.held.command

    def begun(self) -> tuple[int, set[int]]:
        """A look, and the processes that are at work at it."""
        self.held.at("")
        about: dict[str, Any] = {"game": self.opened("nim"), "role": "first", "after": []}
        self.held.at("values")
        look: int = self.ask("values", **about, seconds=None)["look"]
        return look, self.hung()

    def hung(self) -> set[int]:
        """The processes of two questions, once both hang."""
        self.assertTrue(until(lambda: self.held.hung(2)))
        return self.held.hung(2)

    def check_ended(self, processes: set[int]) -> None:
        """All these have ended soon, and none is at work."""
        self.assertTrue(until(lambda: not alive(processes), SOON), alive(processes))
        self.assertTrue(until(lambda: not self.desk.sessions.children.at_work, SOON))

    def test_a_position_waits_for_no_look(self) -> None:
        look, _ = self.begun()
        game = self.opened("nim")
        self.assertEqual(self.ask("position", game=game, after=[])["state"], "open")
        self.ask("stop", look=look)

    def test_a_solver_that_knows_nothing_does_not_always_play_the_first_move(self) -> None:
        self.held.at("")
        about: dict[str, Any] = {"game": self.opened("nim"), "role": "first", "after": []}
        self.held.at("solve values playouts legal")
        with patch.object(random.Random, "choice", lambda dice, moves: moves[-1]), patch.object(looks, "REHEARSAL", 0.2):
            told = self.ended(self.ask("choose", **about, seconds=0.5)["look"])
        self.assertEqual((told["ended"], told["best"]["move"]), ("time", "(take c 4)"))

    def test_by_the_button(self) -> None:
        look, processes = self.begun()
        self.ask("stop", look=look)
        self.assertEqual(self.ended(look)["ended"], "stopped")
        self.check_ended(processes)

    def test_by_a_page_that_goes(self) -> None:
        look, processes = self.begun()
        body = json.dumps({"look": look, "seen": 99}).encode()
        link = http.client.HTTPConnection("127.0.0.1", self.port, timeout=60)
        link.request("POST", "/api/news", body, {"Content-Type": "application/json"})
        link.close()
        self.check_ended(processes)
        self.assertEqual(self.ended(look)["ended"], "stopped")

    def test_by_the_end_of_the_desk(self) -> None:
        desk = Desk(Pool(2, self.held.command), TOP / "games", self.held.command)
        self.held.at("")
        about: dict[str, Any] = {"game": desk.open({"name": "nim"})["id"], "role": "first", "after": []}
        self.held.at("values")
        desk.values(about)
        processes = self.hung()
        desk.close()
        self.assertTrue(until(lambda: not alive(processes), SOON), alive(processes))


class Archived(Served):
    def test_matches_of_an_archive_are_listed_and_opened(self) -> None:
        self.assertEqual(self.ask("matches"), {"matches": []})
        self.assertIn("no archive", self.ask("match", 400, match=1)["error"])
        with tempfile.TemporaryDirectory() as room, patch.object(self.desk, "matches", Matches(Path(room) / "archive")) as matches:
            assert matches.file is not None
            with Archive(matches.file, writes=True) as archive:
                rules = (TOP / "games/matching_pennies.kif").read_text()
                pairings = [Pairing(0, 0, ("ann", "bob")), Pairing(0, 0, ("bob", "ann"))]
                archive.add([Game("matching_pennies.kif", rules, ("a", "b"))], {"ann": "random", "bob": "random"}, pairings, "1")
                record = archive.begin(2, 1000, (1.0, 1.0)).record
                record.moves, record.errors, record.seconds = [["h", "t"]], [["", "late"]], [[0.1, 1.0]]
                record.state, record.isCompleted, record.goalValues = "ended", True, [0, 100]
                archive.note(2, record, {})
            seats = [{"role": "a", "player": "bob", "goal": 0}, {"role": "b", "player": "ann", "goal": 100}]
            told = {"number": 2, "game": "matching_pennies.kif", "begun": 1000, "seats": seats, "failed": 1}
            self.assertEqual(self.ask("matches"), {"matches": [told]})
            found = self.ask("record", text=self.ask("match", match=2)["text"])
            self.assertEqual((found["game"], found["turns"]), ("matching_pennies", [["h", "t"]]))
            for number in 1, 3, 0, -1, "2", None, 1 << 70:
                with self.subTest(number=number):
                    self.ask("match", 400, match=number)
            matches.file.write_text("no base" * 1000)
            self.assertIn("is no archive of matches", self.ask("matches", 400)["error"])


class Guards(Served):
    def test_the_files_of_the_page(self) -> None:
        for path in ("/", "/page.css", "/icon.svg", "/?x=1"):
            self.assertEqual(self.request("GET", path)[0], 200)
        for path in ("/server.py", "/../server.py", "/scripts/", "/scripts/../server.py", "/api/games"):
            self.assertEqual(self.request("GET", path)[0], 404)

    def test_each_script_and_what_it_imports(self) -> None:
        scripts = {file.name: file.read_text() for file in (TOP / "python/gdlsolve/page/scripts").iterdir()}
        link = http.client.HTTPConnection("127.0.0.1", self.port, timeout=60)
        self.addCleanup(link.close)
        for name, text in scripts.items():
            link.request("GET", f"/scripts/{name}")
            answer = link.getresponse()
            self.assertEqual((answer.status, answer.read().decode()), (200, text))
            self.assertEqual(answer.getheader("Content-Type"), "text/javascript; charset=utf-8")
            self.assertIn("script-src 'self';", answer.getheader("Content-Security-Policy", ""))
            self.assertLessEqual(set(re.findall(r'from "\./([^"]*)"', text)), set(scripts))

    def test_other_pages_are_not_heard(self) -> None:
        own = f"127.0.0.1:{self.port}"
        for host in ("example.org", f"example.org:{self.port}", "127.0.0.1", ""):
            self.assertEqual(self.request("GET", "/", Host=host)[0], 403)
            self.assertEqual(self.post("/api/games", b"{}", Host=host)[0], 403)
        for origin in (f"http://example.org:{self.port}", f"http://localhost:{self.port}", "http://127.0.0.1:1", "null", ""):
            self.assertEqual(self.post("/api/games", b"{}", Host=own, Origin=origin)[0], 403, origin)
        for host in (own, f"localhost:{self.port}", "box.example:8080"):
            for origin in (f"http://{host}", f"https://{host}"):
                self.assertEqual(self.post("/api/games", b"{}", Host=host, Origin=origin)[0], 200)
        self.assertEqual(self.post("/api/games", b"{}", Content_Type="text/plain")[0], 400)

    def test_nothing_is_said_to_other_pages(self) -> None:
        link = http.client.HTTPConnection("127.0.0.1", self.port, timeout=60)
        self.addCleanup(link.close)
        for method, path in (("GET", "/"), ("POST", "/api/games"), ("OPTIONS", "/api/games")):
            link.request(method, path, b"{}" if method == "POST" else None, {"Content-Type": "application/json"})
            answer = link.getresponse()
            answer.read()
            self.assertEqual([name for name, _ in answer.getheaders() if name.startswith("Access-Control")], [])
            self.assertEqual(answer.status == 200, method != "OPTIONS")

    def test_what_is_no_question(self) -> None:
        for body in (b"", b"[]", b"{", b"\xff"):
            self.assertEqual(self.post("/api/games", body)[0], 400)
        self.assertEqual(self.post("/api/none", b"{}")[0], 404)
        deep = "[" * 100_000
        for path, body in ("/api/games", deep.encode()), ("/api/record", json.dumps({"text": f'{{"moves": {deep}'}).encode()):
            self.assertEqual(self.post(path, body), (400, b'{"error": "Too many lists are open inside each other."}'))
        self.assertEqual(self.post("/api/games", b"{}", Transfer_Encoding="chunked", Content_Length="2")[0], 400)
        for size in "999999999", "9" * 5_000:
            self.assertEqual(self.post("/api/games", b"", Content_Length=size)[0], 413)

    def heard(self, *parts: bytes, pause: float = 0.0) -> bytes:
        """What is answered to parts of a request until the connection ends."""
        with socket.create_connection(("127.0.0.1", self.port), 60) as link:
            try:
                for part in parts:
                    link.sendall(part)
                    time.sleep(pause)
                return b"".join(iter(lambda: link.recv(1 << 16), b""))
            except ConnectionError:
                return b""

    def test_a_request_comes_in_time_as_a_whole(self) -> None:
        head = f"POST /api/games HTTP/1.1\r\nHost: 127.0.0.1:{self.port}\r\nContent-Type: application/json\r\nContent-Length: 1000\r\n\r\n"
        begun = time.monotonic()
        with patch.object(guarded, "COMING", 0.5):
            # Each byte comes soon behind the last, and all together too late.
            self.assertEqual(self.heard(*[b"G"] * 20, pause=0.1), b"")
            self.assertIn(self.heard(head.encode(), *[b" "] * 20, pause=0.1)[:13], (b"", b"HTTP/1.1 408 "))
        with patch.object(guarded, "SILENT", 0.1):
            self.assertEqual(self.heard(), b"")
        self.assertLess(time.monotonic() - begun, SOON)

    def small(self) -> int:
        """The port of a server for two connections."""
        with patch.object(guarded, "MOST_CONNECTIONS", 2):
            made = Server(self.desk, 0)
        threading.Thread(target=made.serve_forever, daemon=True).start()
        self.addCleanup(made.server_close)
        self.addCleanup(made.shutdown)
        return int(made.server_address[1])

    def links(self, port: int, count: int) -> list[http.client.HTTPConnection]:
        """So many connections."""
        found = [http.client.HTTPConnection("127.0.0.1", port, timeout=60) for _ in range(count)]
        for link in found:
            self.addCleanup(link.close)
        return found

    def status(self, link: http.client.HTTPConnection) -> int:
        """The status of an answer; 503 also where the connection was ended before it was read."""
        try:
            link.request("POST", "/api/games", b"{}", {"Content-Type": "application/json"})
            with link.getresponse() as answer:
                answer.read()
                return answer.status
        except ConnectionError:
            return 503

    def test_one_connection_more_takes_the_place_of_one_that_says_nothing(self) -> None:
        links = self.links(self.small(), 5)
        for link in links[:3]:
            self.assertEqual(self.status(link), 200)
        # The first has gone, and the second is still there.
        assert links[0].sock and links[1].sock
        self.assertEqual(links[0].sock.recv(1), b"")
        links[1].auto_open = 0
        self.assertEqual(self.status(links[1]), 200)
        with socket.create_connection(("127.0.0.1", links[0].port), 60) as slow:
            slow.sendall(b"POST /api/games")
            self.assertEqual([self.status(link) for link in links[3:]], [200, 200])
            self.assertEqual(slow.recv(1), b"")

    def test_one_connection_more_is_refused_where_all_others_wait_for_answers(self) -> None:
        links, goes_on = self.links(self.small(), 3), threading.Event()
        self.addCleanup(goes_on.set)
        asked = threading.Semaphore(0)

        def hang(desk: Desk, told: dict[str, Any]) -> dict[str, Any]:
            asked.release()
            goes_on.wait(60)
            return {}

        with patch.dict(server.QUESTIONS, {"/api/games": hang}), ThreadPoolExecutor(2) as threads:
            statuses = [threads.submit(self.status, link) for link in links[:2]]
            self.assertTrue(all(asked.acquire(timeout=60) for _ in range(2)))
            self.assertEqual(self.status(links[2]), 503)
            goes_on.set()
            self.assertEqual([each.result() for each in statuses], [200, 200])


class Kept(unittest.TestCase):
    """Sessions that are kept for the next question."""

    def setUp(self) -> None:
        self.sessions = sessions.Sessions(Children(0, spare=0))
        self.addCleanup(self.sessions.close)

    def engine(self, kind: str) -> Engine:
        """An engine that was asked once."""
        with self.sessions.engine(b"(role a)", kind) as engine:
            engine.moves((), Limit(time.monotonic() + 60))
        return engine

    def test_the_last_of_a_kind_is_asked_again(self) -> None:
        engine = self.engine("here")
        self.assertIs(self.engine("here"), engine)
        self.assertIsNot(self.engine("sure"), engine)
        with self.sessions.engine(b"(role a)", "here") as one, self.sessions.engine(b"(role a)", "here") as other:
            self.assertIsNot(one, other)

    def test_so_many_are_kept_and_so_long(self) -> None:
        with patch.object(sessions, "MOST_KEPT", 2):
            made = [self.engine(kind) for kind in ("one", "two", "three")]
        self.assertEqual([engine.closed.is_set() for engine in made], [True, False, False])
        with patch.object(sessions, "LONGEST_KEPT", 0.0):
            self.sessions.sweep()
        self.assertTrue(all(engine.closed.is_set() and engine.child is None for engine in made))


class Ends(unittest.TestCase):
    def test_a_server_without_an_engine_says_so(self) -> None:
        nothing = known(GDLSOLVE_PROGRAM="", GDLSOLVE_LIBRARY="/no/library")
        ways = [(["--program", "/no/program"], "/no/program"), (list[str](), "/no/library")]
        for more, want in ways:
            words = package("gdlsolve.page", "--port", 0, *more)
            done = subprocess.run(words, env=nothing, capture_output=True, text=True, timeout=120)
            self.assertEqual((done.returncode, done.stdout), (1, ""))
            self.assertIn(want, done.stderr)

    def test_another_program_than_this_is_told(self) -> None:
        for more, named in (["--program", "true"], ""), (list[str](), "true"):
            words = package("gdlsolve.page", "--port", 0, *more)
            done = subprocess.run(words, env=known(GDLSOLVE_PROGRAM=named), capture_output=True, text=True, timeout=120)
            self.assertEqual((done.returncode, done.stdout, done.stderr), (1, "", "the program that is named is another one\n"))

    def test_an_output_that_is_full_is_told_in_a_line(self) -> None:
        with open("/dev/full", "w") as full:
            words = package("gdlsolve.page", "--port", 0)
            done = subprocess.run(words, env=known(), stdout=full, stderr=subprocess.PIPE, text=True, timeout=120)
        self.assertEqual((done.returncode, done.stderr), (1, "write fault\n"))

    def test_words_that_are_none_are_told_in_a_line(self) -> None:
        wrong = {"--port=65536": "--port is a number from 0 to 65535", "--program='it": "--program is no command: No closing quotation",
                 "--allow-host=http://box": "--allow-host is a name, or a name and a port, as box.local:8080"}
        for word, want in wrong.items():
            done = subprocess.run(package("gdlsolve.page", word), env=known(), capture_output=True, text=True, timeout=120)
            self.assertEqual((done.returncode, done.stdout), (2, ""))
            self.assertTrue(done.stderr.endswith(f"error: {want}\n"), done.stderr)

    def test_a_killed_server_leaves_no_process(self) -> None:
        words = package("gdlsolve.page", "--port", 0, "--workers", 2)
        for number, status in (signal.SIGTERM, 0), (signal.SIGKILL, -signal.SIGKILL):
            pipe = subprocess.PIPE
            with (
                self.subTest(signal=number),
                subprocess.Popen(words, env=known(), stdout=pipe, text=True) as server,
            ):
                try:
                    assert server.stdout is not None
                    port = int(server.stdout.readline().rsplit(":", 1)[1].strip("/\n"))
                    self.begin_long_look(port)
                    below = children(server.pid)
                    self.assertTrue(below)
                    server.send_signal(number)
                    self.assertEqual(server.wait(60), status)
                finally:
                    server.kill()
                self.assertTrue(until(lambda: not alive(below)), alive(below))

    def begin_long_look(self, port: int) -> None:
        link = http.client.HTTPConnection("127.0.0.1", port, timeout=60)
        self.addCleanup(link.close)

        def ask(what: str, **question: Any) -> Any:
            body = json.dumps(question)
            link.request("POST", f"/api/{what}", body, {"Content-Type": "application/json"})
            return json.loads(link.getresponse().read())

        game = ask("open", text=ENDLESS_RULES)["id"]
        look = ask("values", game=game, role="red", after=[], seconds=None)["look"]
        self.assertTrue(until(lambda: ask("news", look=look, seen=-1)["depth"] >= DEEP))


class Places(unittest.TestCase):
    def place(self, line: str, text: str, explanation: str = "") -> tuple[int, int] | None:
        found = places.where(Refusal(line, lambda: explanation), text.encode())
        return (found.line, found.column) if found else None

    def test_offsets_and_items(self) -> None:
        text = "; a (comment\n(role a)\r\n\t(p) q ; (\n(r\n (s))\n"
        self.assertEqual(self.place("refused K4 Unclosed 0", text), (1, 1))
        self.assertEqual(self.place("refused K4 Unclosed 13", text), (2, 1))
        self.assertEqual(self.place("refused K4 Unclosed 7", ";\n; é (p"), (2, 5))
        for item, want in ((1, (2, 1)), (2, (3, 2)), (3, (3, 6)), (4, (4, 1)), (5, None)):
            self.assertEqual(self.place(f"refused G3 Unsafe {item}", text), want)
        self.assertIsNone(self.place("refused G6 NoRole", text))
        self.assertIsNone(self.place("refused H2 NotLegal 1 a", text))

    def test_the_engine_knows_better(self) -> None:
        said = "<input>:4:2: refused G3 Unsafe: no positive literal binds ?x\n"
        self.assertEqual(self.place("refused G3 Unsafe 1", "(role a)", said), (4, 2))

    def test_each_fault_has_its_words(self) -> None:
        usage = (TOP / "docs/USAGE.md").read_text()
        codes = {line.split()[2] for line in usage.splitlines() if line.startswith("| `refused ")}
        self.assertEqual(codes, {*places.CAUSES, *places.WHOLE_CAUSES})


class Records(unittest.TestCase):
    def test_records_of_the_repository_of_matches(self) -> None:
        told = {
            "gameMetaURL": "http://games.ggp.org/base/games/ticTacToe/v0/",
            "moves": [["( MARK 1 1 )", "noop"]],
            "states": [],
        }
        want = records.Record("ticTacToe", "", [["(mark 1 1)", "noop"]])
        self.assertEqual(records.record(json.dumps(told)), want)
        text = '{"game": "nim.kif", "moves": [], "rules": "(role a)"}'
        self.assertEqual(records.record(text), records.Record("nim", "(role a)", []))

    def test_histories(self) -> None:
        found = records.record("((mark 1 1) noop) ; first\n(noop ( Mark 2 2))")
        self.assertEqual(found.turns, [["(mark 1 1)", "noop"], ["noop", "(mark 2 2)"]])
        self.assertEqual(records.record("").turns, [])

    def test_what_is_no_record(self) -> None:
        bad = ["1", "[1]", '[["a b"]]', '[[")"]]']
        moves = [f'{{"moves": {each}}}' for each in bad]
        for text in ["{", "{}", "(", ")", "noop", *moves]:
            with self.subTest(text=text), self.assertRaises(records.BadRecord):
                records.record(text)


class Worths(unittest.TestCase):
    def test_the_lines_of_values_with_lines(self) -> None:
        told = ["value 0 (take a 1)", "line 1 (take a 1) noop", "line 2 noop (take b 1)", "value 100 pass", "line 1 pass noop"]
        want = [Worth("(take a 1)", 0, (("(take a 1)", "noop"), ("noop", "(take b 1)"))), Worth("pass", 100, (("pass", "noop"),))]
        self.assertEqual(Worth.each_of(told), want)
        self.assertEqual(Worth.each_of(["value 100", "move none"]), [])


if __name__ == "__main__":
    unittest.main()
