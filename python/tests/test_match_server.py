"""The match server over a toy game: who plays next, signing up and leaving, matches that are replayed or refused, what it keeps, and its pages."""

from __future__ import annotations

import http.client
import importlib.util
import io
import json
import re
import shlex
import socket
import sqlite3
import subprocess
import sys
import tempfile
import threading
import time
import unittest
from collections import Counter
from collections.abc import Callable, Sequence
from contextlib import closing, redirect_stderr
from itertools import combinations
from pathlib import Path
from typing import Any
from unittest.mock import patch
from urllib.parse import urlencode

from gdlsolve.manager.archive import Archive, Game, Stage, alone
from gdlsolve.manager.record import Record
from gdlsolve.manager.referee import RANDOM, Referee
from gdlsolve.manager.schedule import Pairing
from gdlsolve.manager.serve import entry, hall, pages, server, store
from gdlsolve.manager.serve.command import games_of, options, serve
from gdlsolve.manager.serve.entry import Turned, address_in, name_in, status_in
from gdlsolve.manager.serve.fair import Meeting, Past, Slot, chosen
from gdlsolve.manager.serve.hall import Hall, Terms
from gdlsolve.manager.serve.server import Server
from gdlsolve.manager.serve.store import Store
from gdlsolve.manager.standings import Judge
from gdlsolve.page import records
from gdlsolve.player.background import begun
from gdlsolve.solver import calls
from gdlsolve.solver.answers import Position
from gdlsolve.solver.engine import Broken
from gdlsolve.solver.history import history_text
from gdlsolve.solver.replies import Reply, Status
from tests import known, package, toy_engine
from tests.odd import Odd

HAS_CLIENT = importlib.util.find_spec("httpx") is not None
needs_client = unittest.skipUnless(HAS_CLIENT, "no match is led: there is no httpx (python3-httpx)")
# A machine may be busy: so long is waited for what has to come.
LONG = 60.0
SAYING = toy_engine.rules_of("a b", 2)
GAME = Game("saying.kif", SAYING, ("a", "b"))
TERMS = Terms(LONG, LONG, 0.0, 9, 1, "1")
TOY = shlex.join([sys.executable, "-I", "-S", toy_engine.__file__])


def until(test: Callable[[], object]) -> bool:
    """Whether something comes to be in time."""
    end = time.monotonic() + LONG
    while not test() and time.monotonic() < end:
        time.sleep(0.01)
    return bool(test())


def toy(words: Sequence[str], rules: bytes, stopped: object = None) -> Reply:
    """The reply of the toy."""
    status, text = toy_engine.answered(words, rules.decode())
    return Reply(Status(status), text.encode())


class Session:
    """A session of the toy."""

    def __init__(self, rules: bytes):
        self.rules = rules

    def stand(self, rules: bytes) -> None:
        self.rules = rules

    def moves(self, after: Sequence[Sequence[str]]) -> Position:
        return Position.of(toy(["moves", "--after", history_text(after)], self.rules).lines())

    def close(self) -> None:
        pass


def polite(move: str = "(say 1)") -> Callable[[str], str]:
    """What a player says that makes one move again and again."""
    told = {"(INFO": "((name x) (status available))", "(START": "ready", "(PLAY": move, "(STOP": "done", "(ABORT": "aborted"}
    return lambda text: told.get(text.split()[0].rstrip(")"), "nil")


def with_other_goals(record: Record) -> None:
    """Changes a record."""
    record.goalValues = [60, 20]


def with_a_turn_less(record: Record) -> None:
    """Changes a record."""
    record.moves.pop()


def with_another_move(record: Record) -> None:
    """Changes a record."""
    record.moves[1][0] = "(say 9)"


def with_a_turn_more(record: Record) -> None:
    """Changes a record."""
    record.moves.append(["(say 1)", "(say 1)"])


NOTED = "it notes ended .*, and the solver tells"
# What is done to records, and why they are refused.
CHANGES: list[tuple[Callable[[Record], None], str]] = [
    (with_other_goals, f"{NOTED} ended"),
    (with_a_turn_less, f"{NOTED} open"),
    (with_another_move, ".*H2 NotLegal 2 a"),
    (with_a_turn_more, ".*H3 Over 3"),
]


class Fair(unittest.TestCase):
    def matches(self, players: str, roles: Sequence[int], many: int) -> list[Meeting]:
        """So many matches of players with names of one letter, in games with so many roles."""
        past, found = Past(), list[Meeting]()
        for _ in range(many):
            match = chosen(list(players), [Slot(f"g{number}", count) for number, count in enumerate(roles)], past)
            assert match is not None
            past.add(match)
            found.append(match)
        return found

    def test_sides_are_changed(self) -> None:
        found = [(each.game, each.seats) for each in self.matches("ab", [2, 2], 5)]
        self.assertEqual(found, [("g0", ("a", "b")), ("g1", ("a", "b")), ("g0", ("b", "a")), ("g1", ("b", "a")), ("g0", ("a", "b"))])

    def test_each_meets_each_on_each_side_in_each_game(self) -> None:
        for players in "ab", "abc", "abcd", "abcde":
            with self.subTest(players=players):
                pairs = len(players) * (len(players) - 1)
                found = Counter(self.matches(players, [2, 2], 2 * pairs))
                self.assertEqual((len(found), {*found.values()}), (2 * pairs, {1}))

    def test_nobody_waits_for_long(self) -> None:
        for players, roles in ("abc", [2]), ("abcd", [1, 2, 3]), ("abcdefg", [3, 2]), ("abcdefgh", [2]):
            played, met = Counter[str](), Counter[tuple[str, ...]]()
            for match in self.matches(players, roles, 200):
                played.update(match.seats)
                met.update(combinations(sorted(match.seats), 2))
                with self.subTest(players=players, roles=roles):
                    self.assertLessEqual(max(played.values()) - min(played[name] for name in players), 3)
            self.assertEqual(len(met), len(players) * (len(players) - 1) // 2)

    def test_who_has_played_least_and_then_longest_ago_comes_first(self) -> None:
        past = Past([Meeting("g", ("a", "b")), Meeting("g", ("c", "d")), Meeting("g", ("d", "c")), Meeting("g", ("b", "a"))])
        self.assertEqual(chosen("abcd", [Slot("g", 1)], past), Meeting("g", ("c",)))
        self.assertEqual(chosen("abcde", [Slot("g", 1)], past), Meeting("g", ("e",)))
        found = chosen("abcd", [Slot("g", 2)], past)
        self.assertEqual(found, Meeting("g", ("a", "c")))
        self.assertEqual(found, chosen("dcba", [Slot("g", 2)], past))

    def test_where_there_is_no_match(self) -> None:
        self.assertIsNone(chosen("", [Slot("g", 1)], Past()))
        self.assertIsNone(chosen("a", [Slot("g", 2)], Past()))
        self.assertIsNone(chosen("ab", [], Past()))
        self.assertEqual(chosen("ab", [Slot("g", 3), Slot("h", 2)], Past()), Meeting("h", ("a", "b")))


class Texts(unittest.TestCase):
    def test_addresses(self) -> None:
        for text, want in (
            ("http://127.0.0.1:9147", "http://127.0.0.1:9147"), ("http://Box.Local:1/", "http://box.local:1"),
            ("HTTP://[::1]:80/Token-1", "http://[::1]:80/Token-1"),
        ):
            self.assertEqual(address_in(text), want)
        for text in (
            "", "127.0.0.1:9147", "http://127.0.0.1", "http://127.0.0.1:0", "http://127.0.0.1:70000", "https://a:1", "http://a:1/b/c",
            "http://a:1/?q", "http://user@a:1", "http://a:1#x", "http://a b:1", "http://a:1\n", f"http://{'a' * 200}:1", "http://é:1",
            "http://[x]:1", "file:///etc/passwd",
        ):
            with self.subTest(text=text), self.assertRaises(Turned):
                address_in(text)

    def test_names(self) -> None:
        self.assertEqual(name_in("Ann-1_.+"), "Ann-1_.+")
        for text in "", "a b", "<b>", "é", "a" * 41, "a\n":
            with self.subTest(text=text), self.assertRaises(Turned):
                name_in(text)

    def test_what_a_player_says_of_itself(self) -> None:
        for text in "available", " AVAILABLE\n", "((name x) (status available) (species alien))", "( ( Status Available ) )":
            self.assertEqual(status_in(text), entry.FREE, text)
        for text in "busy", "((status busy))":
            self.assertEqual(status_in(text), entry.BUSY, text)
        for text in "", "ready", "<html>", "(available)", "((status", "available available", "((state available))", "{}", "\x00":
            self.assertEqual(status_in(text), "", text)

    def test_what_pages_show_is_escaped_and_cut(self) -> None:
        self.assertEqual(pages.html("<b>&\"'"), "&lt;b&gt;&amp;&quot;&#x27;")
        self.assertEqual(len(pages.html("x" * 10_000)), pages.LONGEST + 1)
        self.assertEqual(pages.html(pages.paragraph("<")), "<p>&lt;</p>")
        self.assertNotIn(b"<i>", pages.told_page("<i>", "<i>"))


class Running(unittest.TestCase):
    """Tests over an archive, toy games, and players that answer as they are told."""

    def setUp(self) -> None:
        room = tempfile.TemporaryDirectory()
        self.addCleanup(room.cleanup)
        self.file = Path(room.name) / "matches.sqlite"
        self.enterContext(patch.multiple(calls, answers=lambda: ["toy"], reply=toy))
        self.enterContext(patch("gdlsolve.manager.standings.Session", Session))
        self.enterContext(patch.multiple(hall, BEAT=0.01, REST=0.1))
        self.lines = io.StringIO()
        self.enterContext(redirect_stderr(self.lines))

    def opened(self) -> Store:
        """The archive, until the test ends."""
        found = Store(self.file)
        self.addCleanup(found.archive.base.close)
        return found

    def hall(self, kept: Store, games: Sequence[Game] = (GAME,), terms: Terms = TERMS) -> Hall:
        """A hall over an archive, in which nothing goes on yet."""
        judge = Judge()
        self.addCleanup(judge.__exit__)
        return Hall(kept, judge, games, terms)

    def begin(self, made: Hall) -> Callable[[], None]:
        """Has matches go on in a hall. Gives what ends that."""
        work = begun(made.run)

        def end() -> None:
            made.stopped.set()
            work.result(LONG)

        self.addCleanup(end)
        return end

    def signed_up(self, kept: Store, name: str, says: Callable[[str], str | None] = polite()) -> Odd:
        """A player that has signed up, without being asked."""
        odd = Odd(self, says)
        self.assertEqual(kept.sign_up(name, odd.url, f"token of {name}"), "")
        return odd

    def played(self, kept: Store, many: int) -> None:
        """Waits until so many matches are over."""
        self.assertTrue(until(lambda: len([each for each in kept.listed(1 << 53, 500) if each.entry.stage.is_over]) >= many), self.lines.getvalue())


@needs_client
class Matches(Running):
    def test_matches_go_on_and_are_replayed_and_rated(self) -> None:
        kept = self.opened()
        one, two = self.signed_up(kept, "one", polite("(say 3)")), self.signed_up(kept, "two")
        made = self.hall(kept)
        end = self.begin(made)
        self.played(kept, 4)
        self.assertTrue(until(lambda: made.view.ranks and made.view.ranks[0].count.matches >= 4))
        end()
        found = [each for each in kept.listed(1 << 53, 500) if each.entry.stage is Stage.PLAYED][-4:]
        sides = [[seat[1:] for seat in each.entry.seats] for each in found[::-1]]
        self.assertEqual(sides, [[("one", 60), ("two", 20)], [("two", 20), ("one", 60)]] * 2)
        self.assertEqual({each.fault for each in found}, {""})
        first, second = made.view.ranks
        self.assertEqual((first.name, second.name, first.count.wins == first.count.matches), ("one", "two", True))
        assert first.rating and second.rating
        self.assertGreater(first.rating.rating - first.rating.error, second.rating.rating)
        record = kept.record(1)
        self.assertEqual((record.moves, record.goalValues, record.playerNamesFromHost), ([["(say 3)", "(say 1)"]] * 2, [60, 20], ["one", "two"]))
        self.assertTrue(one.heard[0].startswith("(INFO)") and two.heard[0].startswith("(INFO)"))
        self.assertIn("match 1, saying.kif: one as a 60, two as b 20, ended after 2 turns\n", self.lines.getvalue())

    def test_what_was_changed_is_kept_and_refused(self) -> None:
        play = Referee.play

        def changed(referee: Referee, most_turns: int) -> Record:
            record = play(referee, most_turns)
            number = int(record.matchId.split(".")[1])
            if number <= len(CHANGES):
                CHANGES[number - 1][0](record)
            return record

        kept = self.opened()
        for name in "one", "two":
            self.signed_up(kept, name)
        made = self.hall(kept)
        with patch.object(Referee, "play", changed):
            end = self.begin(made)
            self.played(kept, len(CHANGES) + 1)
            self.assertTrue(until(lambda: made.view.ranks))
            end()
        for number, (_, want) in enumerate([*CHANGES, (None, "$")], 1):
            found = kept.one(number)
            assert found is not None and found.fault is not None
            self.assertEqual(found.entry.stage, Stage.PLAYED)
            self.assertRegex(found.fault, f"^{want}")
        over = len([each for each in kept.listed(1 << 53, 500) if each.entry.stage is Stage.PLAYED])
        self.assertEqual(made.view.ranks[0].count.matches, over - len(CHANGES))
        self.assertEqual(len(kept.results()), over - len(CHANGES))
        self.assertIn("; it does not count: it notes ended ", self.lines.getvalue())

    def test_a_player_that_is_killed_does_not_stop_it_and_comes_back(self) -> None:
        kept, is_dead = self.opened(), threading.Event()

        def dies(text: str) -> str | None:
            if text.startswith("(PLAY") and not text.endswith("NIL)"):
                is_dead.set()
            return None if is_dead.is_set() else polite()(text)

        odd = self.signed_up(kept, "dies", dies)
        self.signed_up(kept, "stays")
        made = self.hall(kept)
        self.begin(made)
        self.assertTrue(is_dead.wait(LONG))
        odd.server.shutdown()
        odd.server.server_close()
        self.played(kept, 1)
        record, [first] = kept.record(1), kept.listed(2, 1)
        self.assertEqual((record.state, [bool(errors[0]) for errors in record.errors], first.fault), ("ended", [False, True], ""))
        # It does not answer, so no further match is begun, and it is asked again from time to time.
        self.assertTrue(until(lambda: made.view.absent == {"dies"}))
        self.assertIn("match 2 could not be played: not available: dies\n", self.lines.getvalue())
        self.signed_up(kept, "third")
        self.played(kept, 3)
        self.assertEqual({"dies"} & {name for each in kept.listed(1 << 53, 2) for _, name, _ in each.entry.seats}, set())
        self.signed_up(kept, "dies")
        self.assertTrue(until(lambda: (found := kept.one(2)) and found.entry.stage.is_over), self.lines.getvalue())
        [row] = [each for each in made.view.ranks if each.name == "dies"]
        self.assertGreaterEqual((row.count.silent, row.count.marked), (1, 1))

    def test_a_player_that_is_busy_is_left_alone(self) -> None:
        kept, states = self.opened(), ["busy"]
        odd = self.signed_up(kept, "busy", lambda text: states[0] if text == "(INFO)" else polite()(text))
        self.signed_up(kept, "free")
        made = self.hall(kept)
        self.begin(made)
        self.assertTrue(until(lambda: odd.heard.count("(INFO)") >= 3 and made.view.absent == {"busy"}))
        self.assertEqual({*odd.heard}, {"(INFO)"})
        states[0] = "available"
        self.played(kept, 1)
        self.assertEqual((kept.record(1).errors, made.view.absent), ([["", ""]] * 2, frozenset()))

    def test_one_that_is_ended_goes_on_with_the_match_that_was_in_play(self) -> None:
        kept, asked, goes_on = self.opened(), threading.Event(), threading.Event()
        self.addCleanup(goes_on.set)

        def waits(text: str) -> str | None:
            if text.startswith("(PLAY saying.2"):
                asked.set()
                goes_on.wait(LONG)
            # At first it does not answer the one that comes behind.
            return None if text in silent and silent.pop() else polite()(text)

        silent = list[str]()
        odd = self.signed_up(kept, "waits", waits)
        self.signed_up(kept, "other")
        end = self.begin(self.hall(kept))
        self.assertTrue(asked.wait(LONG))
        running = kept.one(2)
        assert running is not None
        self.assertEqual((running.entry.stage, kept.results()[0][0].player), (Stage.RUNNING, "other"))
        end()
        [name] = {text.split()[1] for text in odd.heard if text.startswith("(START saying.2")}
        self.assertEqual(odd.heard.count(f"(ABORT {name})"), 1)
        goes_on.set()
        silent += entry.QUESTIONS[1:] + entry.QUESTIONS[:1]
        before = kept.record(1)
        again = self.opened()
        made = self.hall(again)
        self.begin(made)
        self.played(again, 3)
        self.assertEqual(again.record(1), before)
        self.assertEqual([each.entry.number for each in again.listed(4, 9)], [3, 2, 1])
        self.assertNotEqual(again.record(2).matchId, name)
        # It may still know the match.
        self.assertEqual((odd.heard.count(f"(ABORT {name})"), silent), (3, []))
        # And it may be busy with that, so it is told of its end first.
        again_from = odd.heard.index(f"(ABORT {name})") + 1
        self.assertEqual(odd.heard[again_from : again_from + 3], [f"(ABORT {name})", *entry.QUESTIONS])
        self.assertIn("match 2 could not be played: not available: waits\n", self.lines.getvalue())
        self.assertEqual(len({text.split()[1] for text in odd.heard if text.startswith("(START saying.2")}), 2)
        self.assertTrue(until(lambda: made.view.ranks[0].count.matches >= 3))

    def test_some_go_on_at_once_and_a_match_that_lasts_too_long_is_broken_off(self) -> None:
        kept = self.opened()
        together = threading.Barrier(4)

        def meets(text: str) -> str:
            if text.startswith("(START"):
                together.wait(LONG)
            return polite()(text)

        for name in "abcd":
            self.signed_up(kept, name, meets)
        self.begin(self.hall(kept, terms=Terms(LONG, LONG, 0.0, 1, 2, "1")))
        self.played(kept, 2)
        together.abort()
        for number in 1, 2:
            found = kept.one(number)
            assert found is not None
            self.assertEqual((found.entry.stage, found.fault), (Stage.BROKEN_OFF, None))
        self.assertEqual((kept.results(), kept.played_of()), ([], {}))

    def test_a_match_that_cannot_be_replayed_now_is_replayed_later(self) -> None:
        kept = self.opened()
        for name in "ab":
            self.signed_up(kept, name)
        with patch.object(Judge, "fault", side_effect=MemoryError):
            end = self.begin(self.hall(kept))
            self.played(kept, 1)
            end()
        waiting = kept.unjudged()
        self.assertEqual((waiting[:1], kept.results()), ([1], []))
        later = self.hall(kept)
        later.take_up()
        self.assertEqual((kept.unjudged(), len(kept.results()), later.view.ranks[0].count.matches), ([], len(waiting), len(waiting)))

    def test_a_game_that_fails_is_left_alone_for_a_while(self) -> None:
        kept = self.opened()
        for name in "ab":
            self.signed_up(kept, name)
        with patch.object(hall, "REST", LONG):
            made = self.hall(kept, [Game("broken.kif", "(turns 1)", ("a", "b")), GAME])
            self.begin(made)
            self.played(kept, 2)
        self.assertEqual(kept.played_of().keys(), {GAME.sum})
        self.assertIn("could not be played: its rules: refused G6 NoRole", self.lines.getvalue())


class Kept(Running):
    def test_a_token_is_kept_as_its_sum(self) -> None:
        kept = self.opened()
        self.assertEqual(kept.sign_up("ann", "http://127.0.0.1:1", "very secret"), "")
        self.assertTrue(kept.holds("ann", "very secret"))
        self.assertFalse(kept.holds("ann", "") or kept.holds("bob", "very secret"))
        self.assertNotIn(b"very secret", self.file.read_bytes())

    def test_who_may_be_here(self) -> None:
        kept = self.opened()
        self.assertEqual(kept.sign_up("ann", "http://a:1", "1"), "")
        self.assertEqual(kept.sign_up("ann", "http://a:2", "2"), store.TAKEN)
        self.assertEqual(kept.sign_up("bob", "http://a:1", "3"), store.SAME_ADDRESS)
        self.assertEqual(kept.sign_up("ann", "http://a:2", "1"), "")
        self.assertEqual(kept.here(), {"ann": "http://a:2"})
        with patch.object(store, "MOST_PLAYERS", 1):
            self.assertEqual(kept.sign_up("bob", "http://a:1", "3"), store.CROWDED)
            self.assertEqual(kept.sign_up("ann", "http://a:3", "1"), "")

    def test_who_leaves(self) -> None:
        kept = self.opened()
        for name in "ann", "bob":
            kept.sign_up(name, f"http://{name}:1", name)
        kept.put_in(GAME, Meeting(GAME.sum, ("ann",)), 0, "1")
        self.assertFalse(kept.leave("ann", "bob") or kept.leave("cid", ""))
        self.assertTrue(kept.leave("ann", "ann") and kept.leave("bob", "bob"))
        # Who has a match is known still, and no other may come by that name.
        self.assertEqual((kept.here(), kept.knows("ann"), kept.knows("bob")), ({}, True, False))
        self.assertEqual(kept.sign_up("ann", "http://ann:1", "other"), store.TAKEN)
        self.assertEqual(kept.sign_up("bob", "http://bob:1", "other"), "")

    def test_the_archive_of_a_tournament_is_taken_and_replayed(self) -> None:
        lists = [["(say 1)", "(say 2)"]] * 2, [["", "late"]] * 2, [[0.1, 1.0]] * 2, ["(x)"] * 3, [0] * 3, ["x", "y"]
        record = Record("m", GAME.name, SAYING, ["a", "b"], [RANDOM] * 2, 1.0, 1.0, 0, *lists, isCompleted=True, state="ended", goalValues=[20, 40])
        with Archive(self.file, writes=True) as archive:
            numbers = archive.add([GAME], {"x": RANDOM, "y": RANDOM}, [Pairing(0, 0, ("x", "y")), Pairing(1, 0, ("x", "y"))], "1")
            for number in numbers:
                archive.begin(number, 5, (1.0, 1.0))
                archive.note(number, record, {})
        with closing(sqlite3.connect(self.file)) as base, base:
            base.execute("UPDATE seats SET goal = 50 WHERE match = 2")
        kept = self.opened()
        made = self.hall(kept)
        made.take_up()
        found = [kept.one(number) for number in numbers]
        self.assertEqual([each and bool(each.fault) for each in found], [False, True])
        self.assertEqual([(each.name, each.count.matches, each.count.late) for each in made.view.ranks], [("y", 1, 2), ("x", 1, 0)])
        self.assertEqual(kept.sign_up("x", "http://a:1", ""), store.TAKEN)

    def test_what_is_no_archive_of_this_version(self) -> None:
        self.opened().archive.base.close()
        with closing(sqlite3.connect(self.file)) as base:
            self.assertEqual(base.execute("PRAGMA user_version").fetchone(), (store.VERSION,))
            base.execute(f"PRAGMA user_version = {store.VERSION + 1}")
        with self.assertRaisesRegex(ValueError, "was written by a later version"):
            Store(self.file)
        self.file.write_bytes(b"no archive" * 100)
        with self.assertRaisesRegex(ValueError, "is no archive of matches"):
            Store(self.file)

    @needs_client
    def test_what_is_wrong_is_told_before_it_serves(self) -> None:
        (self.file.parent / "saying.kif").write_text(SAYING)
        given = options([str(self.file.parent), "--archive", str(self.file)])
        other = Reply(Status.ANSWER, b"something else")
        with patch.object(calls, "reply", lambda words, rules: other), self.assertRaisesRegex(Broken, "is another one"):
            serve(given)
        with alone(self.file), self.assertRaisesRegex(ValueError, "another tournament or a match server goes on over it"):
            serve(given)
        with socket.create_server(("127.0.0.1", 0)) as taken:
            given.port = taken.getsockname()[1]
            with self.assertRaisesRegex(ValueError, f"^port {given.port}: Address already in use$"):
                serve(given)

    def test_the_games_of_a_folder(self) -> None:
        folder = self.file.with_name("games")
        folder.mkdir()
        for name, text in {"a.kif": SAYING, "b.kif": "(turns 1)", "c.kif": SAYING, "d.txt": SAYING}.items():
            (folder / name).write_text(text)
        (folder / "e.kif").mkdir()
        self.assertEqual(games_of(folder), [Game("a.kif", SAYING, ("a", "b"))])
        self.assertIn(f"passed over: {folder}/b.kif: refused G6 NoRole\n", self.lines.getvalue())


class Served(Running):
    """Tests over a server of pages, in which no match goes on by itself."""

    def setUp(self) -> None:
        super().setUp()
        self.kept = self.opened()
        self.made = self.hall(self.kept)
        self.server = Server(self.kept, self.made, 0, ["box.example:8080"])
        self.port = self.server.server_address[1]
        threading.Thread(target=self.server.serve_forever, args=(0.01,), daemon=True).start()
        self.addCleanup(self.server.server_close)
        self.addCleanup(self.server.shutdown)

    def request(self, method: str, path: str, body: bytes | None = None, **headers: str) -> tuple[int, str]:
        """The status and the text of an answer."""
        link = http.client.HTTPConnection("127.0.0.1", self.port, timeout=LONG)
        with closing(link):
            link.request(method, path, body, {name.replace("_", "-"): value for name, value in headers.items()})
            answer = link.getresponse()
            return answer.status, answer.read().decode()

    def told(self, path: str, status: int = 200) -> Any:
        """What is told as JSON."""
        found, text = self.request("GET", path)
        self.assertEqual(found, status, text)
        return json.loads(text)

    def asked(self, path: str, **fields: str) -> tuple[int, Any]:
        """What is answered to JSON."""
        status, text = self.request("POST", path, json.dumps(fields).encode(), Content_Type="application/json")
        return status, json.loads(text)

    def form(self, path: str, **fields: str) -> tuple[int, str]:
        """What is answered to a form."""
        return self.request("POST", path, urlencode(fields).encode(), Content_Type="application/x-www-form-urlencoded")

    def match(self, move: str = "(say 3)", error: str = "", name: str = "one") -> None:
        """Puts a match into the archive that counts."""
        for player in name, "two":
            if not self.kept.knows(player):
                self.kept.sign_up(player, f"http://{player}:1/secret-{player}", player)
        number = self.kept.put_in(GAME, Meeting(GAME.sum, (name, "two")), 0, "1")
        record = self.kept.begin(number, (1.0, 1.0)).record
        record.moves, record.errors, record.seconds = [[move, "(say 1)"]] * 2, [["", ""], [error, ""]], [[0.1, 0.1]] * 2
        record.states, record.stateTimes, record.goalValues = ["()"] * 3, [0] * 3, [60, 20]
        record.state, record.isCompleted = "ended", True
        self.made.count(number, record, {})
        self.made.show()


@needs_client
class SigningUp(Served):
    def test_by_json(self) -> None:
        one, two = Odd(self, polite()), Odd(self, lambda text: "busy" if text == "(PING)" else None)
        status, found = self.asked("/players", name="one", address=f"{one.url}/")
        self.assertEqual((status, found["name"], one.heard), (200, "one", ["(INFO)"]))
        self.assertEqual((self.asked("/players", name="two", address=two.url)[0], two.heard), (200, ["(INFO)", "(PING)"]))
        self.assertEqual(self.kept.here(), {"one": one.url, "two": two.url})
        self.assertEqual(self.asked("/players", name="one", address=one.url), (409, {"error": store.TAKEN}))
        self.assertEqual(self.asked("/players", name="other", address=one.url), (409, {"error": store.SAME_ADDRESS}))
        self.assertEqual(self.asked("/leave", name="one", token="wrong"), (403, {"error": entry.NO_TOKEN}))
        self.assertEqual(self.asked("/leave", name="one", token=found["token"]), (200, {"name": "one"}))
        self.assertEqual(list(self.kept.here()), ["two"])

    def test_by_forms(self) -> None:
        odd = Odd(self, polite())
        status, text = self.form("/players", name="one", address=odd.url, token="chosen")
        token = re.search(r"Its token is <code>([\w-]{32})</code>", text)
        assert token is not None
        self.assertEqual((status, "chosen" in text), (200, False))
        self.assertEqual([(each["name"], each["here"], each["rating"]) for each in self.told("/ratings.json")["players"]], [("one", True, None)])
        again = Odd(self, polite())
        status, text = self.form("/players", name="one", address=again.url, token=token[1])
        self.assertEqual((status, self.kept.here()), (200, {"one": again.url}))
        status, text = self.form("/leave", name="one", token="wrong")
        self.assertEqual((status, entry.NO_TOKEN in text), (403, True))
        status, text = self.form("/leave", name="one", token=token[1])
        self.assertEqual((status, "one has left." in text, self.kept.here()), (200, True, {}))

    def test_who_does_not_answer_is_not_taken(self) -> None:
        goes_on = threading.Event()
        self.addCleanup(goes_on.set)
        late = Odd(self, lambda text: "available" if goes_on.wait(LONG) else None)
        other = Odd(self, lambda text: "<b>secret of another server</b>")
        with patch.object(entry, "PATIENCE", 0.3):
            for url in late.url, "http://127.0.0.1:1":
                self.assertEqual(self.asked("/players", name="x", address=url), (400, {"error": entry.NO_ANSWER}))
        self.assertEqual(self.asked("/players", name="x", address=other.url), (400, {"error": entry.NO_ANSWER}))
        self.assertEqual((self.kept.here(), late.heard), ({}, ["(INFO)"]))
        with patch.object(self.server.entry, "places", threading.Semaphore(0)):
            self.assertEqual(self.asked("/players", name="x", address=other.url), (503, {"error": entry.LATER}))

    def test_what_is_no_player(self) -> None:
        for name, address, why in ("", "http://a:1", entry.NO_NAME), ("<i>", "http://a:1", entry.NO_NAME), ("x", "http://a", entry.NO_ADDRESS):
            self.assertEqual(self.asked("/players", name=name, address=address), (400, {"error": why}))
        self.assertEqual(self.asked("/players"), (400, {"error": entry.NO_NAME}))


class Pages(Served):
    def test_each_page_and_the_same_as_json(self) -> None:
        self.match()
        self.match(error="late")
        self.assertEqual(self.request("GET", "/match.css")[0], 200)
        for path, want in {
            "/": '<td>one</td><td class="number">1823</td>',
            "/matches": "one as a 60, two as b 20",
            "/matches?before=2": '<a href="/matches/1">1</a>',
            "/matches/2": '<code>(say 3)</code> <span class="bad">in place of its own: late</span>',
            "/games": '<td>saying.kif</td><td class="number">2</td><td class="number">2</td>',
            "/players": '<form method="post" action="/players">',
        }.items():
            with self.subTest(path=path):
                status, text = self.request("GET", path)
                self.assertEqual(status, 200)
                self.assertIn(want, text)
                self.assertIn('<meta name="viewport"', text)
        [one, two] = self.told("/ratings.json")["players"]
        self.assertEqual((one["name"], one["matches"], one["wins"], one["late"], one["goal"], one["here"]), ("one", 2, 2, 1, 60.0, True))
        self.assertAlmostEqual(one["rating"] + two["rating"], 3000)
        second, first = self.told("/matches.json")["matches"]
        self.assertEqual((second["number"], second["counts"], second["failed"]), (2, True, 1))
        self.assertEqual(first["seats"], [{"role": "a", "player": "one", "goal": 60}, {"role": "b", "player": "two", "goal": 20}])
        self.assertEqual(self.told("/matches.json?before=2")["matches"], [first])

    def test_a_record_is_one_that_can_be_stepped_through_and_has_no_addresses(self) -> None:
        self.match()
        self.assertIn('<a href="/matches/1.json" download="match-1.json">', self.request("GET", "/matches/1")[1])
        status, text = self.request("GET", "/matches/1.json")
        found = records.record(text)
        self.assertEqual((status, found.game, found.rules, found.turns), (200, "saying", SAYING, [["(say 3)", "(say 1)"]] * 2))
        self.assertEqual(json.loads(text)["players"], ["one", "two"])
        for path in "/", "/matches/1", "/matches/1.json", "/ratings.json", "/matches.json":
            self.assertNotIn("secret-", self.request("GET", path)[1])

    def test_a_match_that_goes_on_and_one_that_is_refused(self) -> None:
        self.match("(say 9)")
        number = self.kept.put_in(GAME, Meeting(GAME.sum, ("one", "two")), 1, "1")
        self.assertEqual(self.request("GET", f"/matches/{number}")[0], 404)
        self.kept.begin(number, (1.0, 1.0))
        self.assertIn("running", self.request("GET", f"/matches/{number}")[1])
        self.assertEqual(self.told(f"/matches/{number}.json", 409), {"error": "This match goes on."})
        running, refused = self.told("/matches.json")["matches"]
        self.assertEqual((running["state"], running["counts"], refused["counts"]), ("running", None, False))
        self.assertIn("H2 NotLegal 1 a", refused["refused"])
        self.assertIn("It does not count: its moves are refused: refused H2 NotLegal 1 a", self.request("GET", "/matches/1")[1])
        self.assertEqual([each["matches"] for each in self.told("/ratings.json")["players"]], [0, 0])

    def test_what_strangers_write_is_escaped(self) -> None:
        bad = "<script>alert('x')</script>&"
        self.match(error=f"not legal: {bad}{'y' * 5_000}")
        text = self.request("GET", "/matches/1")[1]
        self.assertIn("not legal: &lt;script&gt;alert(&#x27;x&#x27;)&lt;/script&gt;&amp;yyy", text)
        self.assertNotIn("y" * pages.LONGEST, text)
        for path in f"/{bad}".replace(" ", ""), "/players", "/leave":
            for method in "GET", "POST":
                with self.subTest(path=path, method=method):
                    body = urlencode({"name": bad, "address": bad, "token": bad}).encode()
                    self.assertNotIn("<script", self.request(method, path, body, Content_Type=server.FORM)[1])

    def test_what_is_no_page(self) -> None:
        self.match()
        for path in "/matches/0", "/matches/9", "/matches/1x", "/matches/" + "9" * 15, "/nothing", "/../server.py", "/match.css/":
            self.assertEqual(self.request("GET", path)[0], 404, path)
        for path in "/matches?before=x", "/matches?before=-1", f"/matches?before={'9' * 99}", f"/?{'&'.join('abcdefghijk')}&{'a=1&' * 99}":
            self.assertEqual(self.request("GET", path)[0], 400, path)
        self.assertEqual(self.told("/matches/9.json", 404), {"error": "There is no such match."})


class Guards(Served):
    def test_other_pages_are_not_heard(self) -> None:
        own = f"127.0.0.1:{self.port}"
        for host in "example.org", f"example.org:{self.port}", "127.0.0.1", "":
            self.assertEqual(self.request("GET", "/ratings.json", Host=host)[0], 403, host)
        for origin in f"http://example.org:{self.port}", f"http://localhost:{self.port}", "http://127.0.0.1:1", "null", "":
            self.assertEqual(self.request("POST", "/leave", b"name=x", Content_Type=server.FORM, Host=own, Origin=origin)[0], 403, origin)
        for host in own, f"localhost:{self.port}", "box.example:8080":
            status, text = self.request("POST", "/leave", b"name=x", Content_Type=server.FORM, Host=host, Origin=f"http://{host}")
            self.assertEqual((status, entry.NO_TOKEN in text), (403, True), host)

    def test_what_browsers_are_told(self) -> None:
        with closing(http.client.HTTPConnection("127.0.0.1", self.port, timeout=LONG)) as link:
            link.request("GET", "/")
            answer = link.getresponse()
            answer.read()
            self.assertIn("default-src 'none'", answer.getheader("Content-Security-Policy", ""))
            self.assertEqual(answer.getheader("Content-Type"), "text/html; charset=utf-8")
            # Else a browser sends a form as that of nobody.
            self.assertEqual(answer.getheader("Referrer-Policy"), "same-origin")
            self.assertEqual([name for name, _ in answer.getheaders() if name.startswith("Access-Control")], [])

    def test_what_is_no_message(self) -> None:
        for body in b"{", b"[]", b'{"name": 1}', b"\xff", b"[" * 4_000:
            with self.subTest(body=body[:20]):
                self.assertEqual(self.request("POST", "/leave", body, Content_Type=server.JSON)[0], 400)
        for body, kind, status in (b"x" * 4_097, server.FORM, 413), (b"a=1&" * 99, server.FORM, 400), (b"name=x", "text/plain", 400):
            with self.subTest(body=body[:20], kind=kind):
                self.assertEqual(self.request("POST", "/leave", body, Content_Type=kind)[0], status)
        self.assertEqual(self.request("POST", "/nothing", b"", Content_Type=server.FORM)[0], 404)
        self.assertEqual(self.request("PUT", "/players")[0], 501)

    def test_where_no_match_can_go_on_it_ends(self) -> None:
        with Server(self.kept, self.made, 0) as made, patch.object(self.kept, "go_on", side_effect=sqlite3.OperationalError("disk I/O error")):
            made.work = begun(self.made.run)
            with self.assertRaisesRegex(sqlite3.Error, "disk I/O error"):
                made.serve_forever(0.01)

    def test_an_archive_that_fails_is_told(self) -> None:
        with patch.object(self.kept, "here", side_effect=sqlite3.OperationalError("disk I/O error")):
            self.assertEqual(self.told("/ratings.json", 503), {"error": "The archive fails: disk I/O error."})


class Command(Running):
    def asked(self, port: int, path: str, fields: dict[str, str]) -> Any:
        """What is answered to JSON."""
        with closing(http.client.HTTPConnection("127.0.0.1", port, timeout=LONG)) as link:
            link.request("POST", path, json.dumps(fields), {"Content-Type": server.JSON})
            return json.loads(link.getresponse().read())

    @needs_client
    def test_one_that_is_killed_goes_on_where_it_was(self) -> None:
        asked, goes_on = threading.Event(), threading.Event()
        self.addCleanup(goes_on.set)

        def waits(text: str) -> str:
            if text.startswith("(PLAY"):
                asked.set()
                goes_on.wait(LONG)
            return polite()(text)

        (self.file.parent / "saying.kif").write_text(SAYING)
        players = {"waits": Odd(self, waits), "other": Odd(self, polite())}
        words = package("gdlsolve.manager", "serve", self.file.parent, "--archive", self.file, "--port", 0, "--play", 600, "--program", TOY)
        with subprocess.Popen(words, env=known(), stdout=subprocess.PIPE, stderr=subprocess.DEVNULL, text=True) as child:
            try:
                assert child.stdout is not None
                place = re.fullmatch(r"The match server is at http://127\.0\.0\.1:(\d+)/\n", child.stdout.readline())
                assert place is not None
                for name, odd in players.items():
                    self.assertIn("token", self.asked(int(place[1]), "/players", {"name": name, "address": odd.url}))
                self.assertTrue(asked.wait(LONG))
                with self.assertRaisesRegex(ValueError, "or a match server goes on over it"), alone(self.file):
                    pass
            finally:
                child.kill()
        goes_on.set()
        with alone(self.file):
            kept = self.opened()
            self.assertEqual(list(kept.here()), ["other", "waits"])
            self.begin(self.hall(kept))
            self.played(kept, 1)
        heard = players["waits"].heard
        first, second = list(dict.fromkeys(text.split()[1] for text in heard if text.startswith("(START saying.1")))
        self.assertEqual((kept.record(1).matchId, kept.results()[0][0].player), (second, "other"))
        self.assertLess(heard.index(f"(ABORT {first})"), next(place for place, text in enumerate(heard) if second in text))

    def test_words_that_are_none(self) -> None:
        own = [str(self.file.parent), "--archive", "x"]
        further = ["--port 65536", "--play nan", "--turns -1", "--at-once 0", "--allow-host http://box", "--player random"]
        for words in [list[str](), own[:1], ["no folder", *own[1:]], *([*own, *each.split()] for each in further)]:
            with self.subTest(words=words), redirect_stderr(io.StringIO()), self.assertRaises(SystemExit) as ended:
                options(words)
            self.assertEqual(ended.exception.code, 2)


if __name__ == "__main__":
    unittest.main()
