"""The player over HTTP: messages of all kinds, clocks, several matches, and a solver that fails."""

import ipaddress
import json
import os
import random
import resource
import shutil
import signal
import socket
import subprocess
import sys
import tempfile
import threading
import time
import unittest
from collections import Counter
from collections.abc import Iterator, Sequence
from concurrent.futures import ThreadPoolExecutor
from contextlib import ExitStack, contextmanager, suppress
from pathlib import Path
from typing import Any
from unittest.mock import patch

import gdlsolve
from gdlsolve.player.access import Door
from gdlsolve.player.match import MOST_WAITING, TARDY, Match
from gdlsolve.player.player import MOST_LONG
from gdlsolve.player.thinking import Thinking
from gdlsolve.solver import program
from tests import ENDLESS, ENDLESS_RULES, LONG_TESTS, NO_LIBRARY, TOP, known, package
from tests.serving import LONG, PACE, Held, Served, all_started_by, clocks, post, processor_time, rules_of, started_by, until, wait_for_end

BOARD = rules_of("hexapawn")
HEXAPAWN = (TOP / "games/hexapawn.kif").read_text()
MARKS = (TOP / "games/tic_tac_toe.kif").read_text()
# A game that is not settled within some seconds, and the role that begins.
RED = (ENDLESS, "red")
# Longer than the clocks of tests by so much as a busy machine takes, in seconds, and long before a solver that hangs goes on.
SOON = 60.0
# Clocks of a match whose value is settled, so that they are not used.
LONG_CLOCKS = clocks(60, 60)
CHUNKED = b"POST / HTTP/1.1\r\nTransfer-Encoding: chunked\r\n\r\n"
# A role wins once it goes, and may wait three times; at the fourth play is over.
WAITING = (
    "(role a) (role b) (init (at 0)) (base (at 0)) (base (at 1)) (base (at 2)) (base (at 3)) (base over) (base won)"
    "(input a go) (input a wait) (input b noop) (legal a go) (legal a wait) (legal b noop) (<= (next won) (does a go))"
    "(<= (next (at ?n)) (does a wait) (true (at ?m)) (succ ?m ?n)) (<= (next over) (does a wait) (true (at 3)))"
    "(succ 0 1) (succ 1 2) (succ 2 3) (<= terminal (true won)) (<= terminal (true over)) (<= (goal a 100) (true won))"
)
# A role may go the same way twice, or another one at the second turn.
FORKED = (
    "(role a) (role b) (init s0) (base s0) (base s1) (base s2) (base t2) (base over)"
    "(input a w) (input a u) (input a v) (input a x) (input b n) (legal b n)"
    "(<= (legal a w) (true s0)) (<= (legal a w) (true s1)) (<= (legal a u) (true s1)) (<= (legal a v) (true s2)) (<= (legal a x) (true t2))"
    "(<= (next s1) (true s0)) (<= (next s2) (true s1) (does a w)) (<= (next t2) (does a u)) (<= (next over) (does a v)) (<= (next over) (does a x))"
    "(<= terminal (true over)) (<= (goal a 50) (true over))"
)
OPENINGS = gdlsolve.moves(HEXAPAWN).legal["white"]


@contextmanager
def ran_by(command: Sequence[str], **more: Any) -> Iterator[tuple[str, subprocess.Popen[str]]]:
    """The URL of a player that a command runs, and its process."""
    given: dict[str, Any] = {"stdout": subprocess.PIPE, "stderr": subprocess.PIPE, "env": known(), **more}
    with subprocess.Popen(command, text=True, **given) as player:
        try:
            assert player.stdout is not None
            yield f"http://{player.stdout.readline().split()[-1]}", player
        finally:
            player.terminate()
            with suppress(ValueError):
                # Its outputs may have been read.
                player.communicate(timeout=LONG)


def legal(rules: str, role: str, turns: Sequence[Sequence[str]]) -> tuple[str, ...]:
    """The legal moves of a role."""
    return gdlsolve.moves(rules, turns).legal[role]


class Messages(unittest.TestCase):
    def setUp(self) -> None:
        self.served = Served(self, matches=2)

    def test_a_match(self) -> None:
        says = self.served.says
        self.assertEqual(says("(INFO)"), "((name gdlsolve) (status available) (species alien))")
        self.assertEqual(says(f"(PREVIEW {rules_of('hexapawn')} 5)"), "ready")
        self.assertEqual(self.served.start("M.1", "hexapawn", "Black", LONG_CLOCKS), "ready")
        self.assertEqual(says("(PLAY m.1 NIL)"), "noop")
        first = (OPENINGS[0], "noop")
        move = says(f"(PLAY m.1 ({OPENINGS[0]} NOOP))")
        self.assertIn(move, legal(HEXAPAWN, "black", [first]))
        solved = gdlsolve.solve(HEXAPAWN, "black", 7, after=[first])
        self.assertEqual((solved.value, solved.move), (100, move))
        self.assertEqual(says(f"(STOP M.1 (noop {move}))"), "done")
        self.assertEqual(self.served.player.matches, {})

    def test_what_is_no_message(self) -> None:
        url, board = self.served.url, rules_of("hexapawn")
        self.assertEqual(self.served.start("m", "hexapawn", "white", LONG_CLOCKS), "ready")
        messages: list[str | bytes] = [
            "",
            "(",
            ")",
            "()",
            "(INFO)(INFO)",
            "(HELLO)",
            "(INFO \u00e9)",
            bytes(range(256)),
            "(" * 100_000,
            f"(START n white {board})",
            f"(START n white {board} x 5)",
            f"(START n green {board} 5 3)",
            "(START n white noop 5 3)",
            "(PLAY m (noop))",
            "(PLAY m noop)",
            "(PLAY m (noop noop noop))",
        ]
        for message in messages:
            with self.subTest(message=message[:30]):
                self.assertEqual(post(url, message)[0], 400)
        self.assertEqual(list(self.served.player.matches), ["m"])
        self.assertIn(self.served.says("(PLAY m NIL)"), OPENINGS)

    def test_what_is_not_played(self) -> None:
        for message in [
            "(START n white ((role white) (<= p (not q)) (<= q (not p))) 5 3)",
            "(START n white () 5 3)",
            "(PLAY n NIL)",
            "(STOP n NIL)",
            "(ABORT n)",
        ]:
            with self.subTest(message=message):
                self.assertEqual(self.served.says(message), "busy")
        self.assertEqual(self.served.player.matches, {})

    def test_repeated_late_and_foreign_messages(self) -> None:
        says, start = self.served.says, self.served.start
        self.assertEqual(start("m", "hexapawn", "black", LONG_CLOCKS), "ready")
        self.assertEqual(start("m", "hexapawn", "black", LONG_CLOCKS), "ready")
        self.assertEqual(start("m", "hexapawn", "white", LONG_CLOCKS), "busy")
        self.assertEqual([says("(PLAY m NIL)"), says("(PLAY m NIL)")], ["noop", "noop"])
        first = f"(PLAY m ({OPENINGS[1]} noop))"
        move = says(first)
        # The same again, one before, of another match, not legal: nothing changes.
        for message in (first, "(PLAY m NIL)", "(PLAY m ((advance 9 9) noop))", first):
            self.assertEqual(says(message), move)
        self.assertEqual(len(self.served.player.matches["m"].turns), 1)
        turns = [(OPENINGS[1], "noop"), ("noop", move)]
        self.assertEqual(says(f"(PLAY m (noop {move}))"), "noop")
        own = legal(HEXAPAWN, "white", turns)[0]
        reply = says(f"(PLAY m ({own} noop))")
        self.assertIn(reply, legal(HEXAPAWN, "black", [*turns, (own, "noop")]))
        self.assertEqual(says("(ABORT m)"), "aborted")
        self.assertEqual(says(first), "busy")

    def test_a_message_that_comes_again_before_its_answer_is_one_turn(self) -> None:
        self.assertEqual(self.served.says(f"(START m a ({WAITING}) {LONG_CLOCKS})"), "ready")
        self.assertEqual(self.served.says("(PLAY m NIL)"), "go")
        arrived = time.monotonic()
        with ThreadPoolExecutor(4) as threads:
            found = list(threads.map(lambda _: self.served.player.play("m", ("wait", "noop"), arrived), range(4)))
        self.assertEqual(found, ["go"] * 4)
        self.assertEqual(self.served.player.matches["m"].turns, (("wait", "noop"),))

    def test_equal_turns_follow_each_other_where_they_are_legal(self) -> None:
        self.assertEqual(self.served.says(f"(START m a ({WAITING}) {LONG_CLOCKS})"), "ready")
        self.assertEqual(self.served.says("(PLAY m NIL)"), "go")
        # The referee plays another move than the player's own, as it does for an answer that is late.
        for turns in range(1, 4):
            self.assertEqual(self.served.says("(PLAY m (wait noop))"), "go")
            self.assertEqual(len(self.served.player.matches["m"].turns), turns)
        self.assertEqual(self.served.says("(PLAY m (wait noop))"), "nil")
        # Play is over, and no turn follows.
        self.assertEqual(self.served.says("(PLAY m (wait noop))"), "nil")
        self.assertEqual(len(self.served.player.matches["m"].turns), 4)

    def test_an_equal_turn_that_was_taken_wrongly_is_taken_otherwise(self) -> None:
        says = self.served.says
        self.assertEqual(says(f"(START m a ({FORKED}) {LONG_CLOCKS})"), "ready")
        match = self.served.player.matches["m"]
        self.assertEqual(says("(PLAY m NIL)"), "w")
        says("(PLAY m (w n))")
        # It is sent again, as its answer was lost, and may be the next turn. What follows tells that it was not.
        self.assertEqual(says("(PLAY m (w n))"), "v")
        self.assertEqual(match.turns, (("w", "n"), ("w", "n")))
        self.assertEqual(says("(PLAY m (u n))"), "x")
        self.assertEqual(match.turns, (("w", "n"), ("u", "n")))
        self.assertEqual(says("(PLAY m (v n))"), "x")
        self.assertEqual(says("(PLAY m (x n))"), "nil")
        # The other way round: what comes before the answer may be the next turn all the same.
        says(f"(START o a ({FORKED}) {LONG_CLOCKS})")
        self.assertEqual(says("(PLAY o NIL)"), "w")
        arrived = time.monotonic()
        first = says("(PLAY o (w n))")
        self.assertEqual(self.served.player.play("o", ("w", "n"), arrived), first)
        self.assertEqual(says("(PLAY o (v n))"), "nil")
        self.assertEqual(self.served.player.matches["o"].turns, (("w", "n"), ("w", "n"), ("v", "n")))

    def test_a_move_that_was_replaced_by_the_referee_is_taken(self) -> None:
        self.assertEqual(self.served.start("m", "tic_tac_toe", "xplayer", LONG_CLOCKS), "ready")
        said = self.served.says("(PLAY m NIL)")
        other = next(move for move in legal(MARKS, "xplayer", []) if move != said)
        self.assertEqual(self.served.says(f"(PLAY m ({other} noop))"), "noop")
        self.assertEqual(self.served.player.matches["m"].turns, ((other, "noop"),))

    def test_the_end_of_a_match(self) -> None:
        self.assertEqual(self.served.start("m", "matching_pennies", "a", LONG_CLOCKS), "ready")
        self.assertIn(self.served.says("(PLAY m NIL)"), ("h", "t"))
        self.assertEqual(self.served.says("(PLAY m (h t))"), "nil")
        self.assertEqual(self.served.says("(STOP m (h t))"), "done")

    def test_no_more_than_so_many_matches(self) -> None:
        start = self.served.start
        self.assertEqual(start("m.1", "hexapawn", "black", LONG_CLOCKS), "ready")
        self.assertEqual(start("m.2", "hexapawn", "white", LONG_CLOCKS), "ready")
        self.assertEqual(start("m.3", "hexapawn", "white", LONG_CLOCKS), "busy")
        self.assertIn("busy", self.served.says("(INFO)"))
        self.assertEqual(self.served.says("(ABORT m.1)"), "aborted")
        self.assertEqual(start("m.3", "hexapawn", "white", LONG_CLOCKS), "ready")

    def test_a_silent_match_makes_room(self) -> None:
        served = Served(self, matches=1, idle=0.0)
        self.assertEqual(served.start("m.1", "hexapawn", "black", LONG_CLOCKS), "ready")
        self.assertEqual(served.start("m.2", "hexapawn", "black", LONG_CLOCKS), "busy")
        served.player.matches["m.1"].heard -= 10_000
        self.assertEqual(served.start("m.2", "hexapawn", "black", LONG_CLOCKS), "ready")
        self.assertEqual(list(served.player.matches), ["m.2"])

    def test_odd_requests(self) -> None:
        host, port = "127.0.0.1", self.served.port
        for raw, status in [
            (b"POST / HTTP/1.0\r\n\r\n", b"411"),
            (b"POST / HTTP/1.0\r\nContent-Length: -5\r\n\r\n", b"400"),
            (b"POST / HTTP/1.0\r\nContent-Length: " + b"9" * 5_000 + b"\r\n\r\n", b"400"),
            (b"POST / HTTP/1.0\r\nContent-Length: 9\r\n\r\n(INFO)", b"400"),
            (b"POST / HTTP/1.0\nHost: localhost\nContent-length: 6\n\n(INFO)", b"200"),
            (b"POST / HTTP/1.0\r\nContent-Length: 99999999999999\r\n\r\n", b"413"),
            (b"POST / HTTP/1.0\r\nContent-Length: 9999999\r\n\r\n", b"413"),
            (CHUNKED + b"3\r\n(IN\r\n3;x=1\r\nFO)\r\n0\r\n\r\n", b"200"),
            (CHUNKED + b"6\r\n(INFO)\r\n0\r\nMore: 1\r\n\r\n", b"200"),
            (CHUNKED + b"-6\r\n(INFO)\r\n0\r\n\r\n", b"400"),
            (CHUNKED + b"(INFO)", b"400"),
            (CHUNKED + b"999999\r\n" + bytes(3 << 20), b"413"),
            (b"GET / HTTP/1.0\r\n\r\n", b"501"),
            (b"OPTIONS / HTTP/1.0\r\n\r\n", b"501"),
            (b"\x00\x01\x02\r\n\r\n", b"400"),
        ]:
            with self.subTest(raw=raw[:90]), socket.create_connection((host, port), 60) as link, self.assertNoLogs():
                link.sendall(raw)
                link.shutdown(socket.SHUT_WR)
                self.assertIn(status, link.recv(400).split(b"\r\n")[0])
        with socket.create_connection((host, port), 60) as link:
            # A body that does not come holds up nobody else.
            link.sendall(b"POST / HTTP/1.0\r\nContent-Length: 100\r\n\r\n(INFO")
            self.assertIn("available", self.served.says("(INFO)"))
        self.assertEqual(self.served.faults, [])


class Thinks(unittest.TestCase):
    """A player that has no choice yet, in a game that is not settled."""

    def setUp(self) -> None:
        self.served = Served(self)
        self.assertEqual(self.served.start("m", ENDLESS, "black", clocks(4, 3)), "ready")
        self.match = self.served.player.matches["m"]

    def thinking(self, name: str = "m") -> Thinking:
        """What is thought of in a match."""
        found = self.served.player.matches[name].thinking
        assert found is not None
        return found

    def grows(self) -> bool:
        """Whether the tree of matches at random grows without a message."""
        simulation = self.thinking().simulation
        before = simulation.matches
        return until(lambda: simulation.matches > before, LONG)

    def test_from_start_on_and_in_the_time_of_the_others(self) -> None:
        self.assertTrue(self.grows())
        begun = time.monotonic()
        self.assertEqual(self.served.says("(PLAY m NIL)"), "noop")
        self.assertLess(time.monotonic() - begun, 2 * PACE)
        self.assertTrue(self.grows())
        thinking, tree = self.thinking(), self.match.tree
        assert tree is not None
        self.assertTrue(until(lambda: thinking.search.deepest and thinking.simulation.gates.are_there, LONG))
        turn, kept = max(tree.next.items(), key=lambda one: one[1].size())
        known = kept.size()
        move = self.served.says(f"(PLAY m ({' '.join(turn)}))")
        self.assertIn(move, kept.here.legal["black"])
        self.assertIs(self.match.tree, kept)
        self.assertGreater(kept.size(), known)
        self.assertTrue(self.grows())

    def test_two_processors_are_enough(self) -> None:
        def used() -> float:
            """The seconds of processors that this process and those that it has started have used."""
            return time.process_time() + sum(map(processor_time, all_started_by(os.getpid()))) / os.sysconf("SC_CLK_TCK")

        self.assertEqual(self.served.says("(PLAY m NIL)"), "noop")
        before, begun = used(), time.monotonic()
        time.sleep(2)
        spent, took = used() - before, time.monotonic() - begun
        self.assertGreater(spent, 0.02 * took)
        self.assertLess(spent, 2.4 * took)

    def test_an_illegal_turn_does_not_end_it(self) -> None:
        self.assertEqual(self.served.says("(PLAY m NIL)"), "noop")
        thinking = self.thinking()
        self.assertEqual(self.served.says("(PLAY m ((drop 99) noop))"), "noop")
        self.assertIs(self.thinking(), thinking)
        self.assertTrue(self.grows())

    def test_an_idle_match_stops(self) -> None:
        thinking = self.thinking()
        self.assertTrue(thinking.goes_on())
        self.assertLess(thinking.stop.until, time.monotonic() + 4 * PACE + TARDY)
        thinking.stop.until = time.monotonic()
        self.assertTrue(until(lambda: not thinking.goes_on(), LONG))
        self.assertTrue(until(lambda: not self.served.player.children.at_work, LONG))
        # It goes on with the next message.
        self.assertEqual(self.served.says("(PLAY m NIL)"), "noop")
        self.assertTrue(self.grows())

    def test_what_is_settled_is_not_thought_of(self) -> None:
        self.assertEqual(self.served.start("n", "nim", "second", LONG_CLOCKS), "ready")
        thinking = self.thinking("n")
        self.assertTrue(until(lambda: not thinking.goes_on(), LONG))


class Strangers(unittest.TestCase):
    def heard(self, port: int, *lines: str, path: str = "/") -> str:
        """The answer to INFO with these lines at its head."""
        head = "".join(f"{line}\r\n" for line in (f"POST {path} HTTP/1.0", *lines, "Content-Length: 6"))
        with socket.create_connection(("127.0.0.1", port), LONG) as link:
            link.sendall(f"{head}\r\n(INFO)".encode())
            return b"".join(iter(lambda: link.recv(4096), b"")).decode()

    def test_no_page_of_a_browser_is_heard(self) -> None:
        port = Served(self).port
        for line in "Host: 127.0.0.1", f"Host: localhost:{port}", f"Host: [::1]:{port}", f"Host: {socket.gethostname()}", "Host:", "Sender: GAMESERVER":
            with self.subTest(line=line):
                told = self.heard(port, line)
                self.assertIn("available", told)
                self.assertNotIn("access-control", told.lower())
        for line in "Origin: http://elsewhere.example", "Origin: null", f"Host: elsewhere.example:{port}", "Host: [", "Host: 127.0.0.1.elsewhere.example":
            with self.subTest(line=line):
                self.assertIn(" 403 ", self.heard(port, line).splitlines()[0])

    def test_who_is_heard_may_be_said(self) -> None:
        port = Served(self, door=Door(token="a1", names=("Other.example",))).port
        self.assertIn("available", self.heard(port, "Host: other.example", path="/a1"))
        for path in "/", "/a2", "/a1/a1":
            self.assertIn(" 403 ", self.heard(port, path=path).splitlines()[0])
        own, other = ipaddress.ip_network("127.0.0.0/8"), ipaddress.ip_network("192.0.2.1")
        self.assertIn("available", self.heard(Served(self, door=Door(senders=(other, own))).port))
        # What closes the connection comes before or after what was sent.
        with suppress(ConnectionError):
            self.assertEqual(self.heard(Served(self, door=Door(senders=(other,))).port), "")
        self.assertTrue(Door(senders=(own,)).is_sender("::ffff:127.0.0.1"))
        self.assertFalse(Door(senders=(own,)).is_sender("fe80::1%eth0"))

    def test_a_message_that_comes_slowly_is_cut_off(self) -> None:
        served = Served(self, door=Door(seconds=0.5))
        for begins in b"PO", b"POST / HTTP/1.0\r\nContent-Length: 100000\r\n\r\n":
            begun = time.monotonic()
            with socket.create_connection(("127.0.0.1", served.port), LONG) as link, self.assertRaises(ConnectionError):
                link.sendall(begins)
                while time.monotonic() < begun + LONG:
                    time.sleep(0.1)
                    link.sendall(b"x")
        self.assertIn("available", served.says("(INFO)"))

    def test_thousands_of_slow_connections_do_not_make_it_deaf(self) -> None:
        soft, hard = resource.getrlimit(resource.RLIMIT_NOFILE)
        self.addCleanup(resource.setrlimit, resource.RLIMIT_NOFILE, (soft, hard))
        resource.setrlimit(resource.RLIMIT_NOFILE, (hard if hard < 4096 else 4096, hard))
        served, many = Served(self), min(2_000 if LONG_TESTS else 600, resource.getrlimit(resource.RLIMIT_NOFILE)[0] - 1_000)
        with ExitStack() as held:
            for _ in range(many):
                link = held.enter_context(socket.create_connection(("127.0.0.1", served.port), LONG))
                link.send(b"POST / HTTP/1.1\r\n")
            self.assertIn("available", served.says("(INFO)"))
            self.assertLessEqual(len(served.server.listener.connections), Door().connections + 1)
        self.assertEqual(served.faults, [])

    def test_long_messages_take_no_memory_for_good(self) -> None:
        served = Served(self)

        def send() -> int:
            self.assertEqual(served.says(f"(PREVIEW ({'(a b) ' * 300_000}) 5)"), "ready")
            return int(Path("/proc/self/status").read_text().split("VmRSS:")[1].split()[0])

        first = send()
        self.assertLess(max(send() for _ in range(6)) - first, 80_000)

    def test_so_many_messages_of_a_match_wait(self) -> None:
        served = Served(self)
        self.assertEqual(served.start("m", "hexapawn", "black", LONG_CLOCKS), "ready")
        places = [served.player.matches["m"].places.acquire(timeout=LONG) for _ in range(MOST_WAITING)]
        self.assertTrue(all(places))
        self.assertEqual(served.says("(PLAY m NIL)"), "busy")
        self.assertEqual(served.start("m", "hexapawn", "black", LONG_CLOCKS), "busy")
        served.player.matches["m"].places.release()
        self.assertEqual(served.says("(PLAY m NIL)"), "noop")

    def test_a_clock_is_no_longer_than_is_said(self) -> None:
        served = Served(self, longest=30.0)
        self.assertEqual(served.start("m", "hexapawn", "black", "604800 604800"), "ready")
        start = served.player.matches["m"].start
        self.assertEqual((start.start_clock, start.play_clock), (30, 30))
        # It is the same match that is begun again.
        self.assertEqual(served.start("m", "hexapawn", "black", "604800 604800"), "ready")

    def test_the_solver_has_limits(self) -> None:
        with ran_by(package("gdlsolve.player", "--port", 0, "--memory", 300, "--nice", 7, "--quiet")) as (url, player):
            self.assertEqual(post(url, f"(START m a {rules_of('matching_pennies')} 30 5)"), (200, "ready"))

            def nice(process: int) -> int:
                """By how much the priority of a process is lower than that of this one."""
                return int(Path(f"/proc/{process}/stat").read_text().rsplit(")", 1)[1].split()[16]) - os.nice(0)

            def bounded(process: int) -> bool:
                """Whether a process has its limits. One that tells how play stands comes before those that think."""
                limits = Path(f"/proc/{process}/limits").read_text()
                return nice(process) in (2, 7) and f"Max address space         {300 << 20} " in limits

            # Where no library answers, its children start the solvers, each in its own time.
            self.assertTrue(until(lambda: not NO_LIBRARY or len(all_started_by(player.pid)) > len(started_by(player.pid)), LONG))
            # One that has just been started sets them first.
            self.assertTrue(until(lambda: all(map(bounded, all_started_by(player.pid))), LONG))
            # The one of the match and the one that stands ready, and the three that think with those that stand ready.
            self.assertTrue(until(lambda: Counter(map(nice, started_by(player.pid)))[2] == 2, LONG))
            # It takes 1,300 MB to hold all instances of this.
            numbers = "".join(f"(n {number})" for number in range(17))
            body = "(n ?a) (n ?b) (n ?c) (n ?d) (m ?a)" + " q" * 2_000
            rules = f"(role a) (base x) (init x) (input a go) (legal a go) {numbers} (<= q (true x)) (<= (m ?a) (true x) (n ?a)) (<= (p ?a ?b ?c ?d) {body})"
            self.assertEqual(post(url, f"(START n a ({rules} (<= terminal (p 1 1 1 1))) 60 5)", 2 * LONG), (200, "busy"))
            self.assertEqual(post(url, "(PLAY m NIL)"), (200, "h"))

    def test_messages_that_do_not_end_take_no_more_than_so_much(self) -> None:
        served = Served(self)
        with patch("gdlsolve.player.server.MOST_HELD", 1 << 20), ExitStack() as held:
            for _ in range(24):
                link = held.enter_context(socket.create_connection(("127.0.0.1", served.port), LONG))
                with suppress(ConnectionError):
                    link.sendall(b"POST / HTTP/1.0\r\nContent-Length: 200000\r\n\r\n" + bytes(100_000))
            self.assertIn("available", served.says("(INFO)"))
            sending = list(served.server.listener.sending)
            self.assertLessEqual(sum(each.size for each in sending), 1 << 20)
            self.assertGreater(len(sending), 4)

    def test_heads_and_bodies_that_do_not_end_are_cut_off(self) -> None:
        served = Served(self)
        for begins, more in (b"POST / HTTP/1.1\r\n", b"a: b\r\n" * 200), (CHUNKED + b"0\r\n", b"a: b\r\n" * 20_000):
            with socket.create_connection(("127.0.0.1", served.port), LONG) as link, self.assertRaises(ConnectionError):
                link.sendall(begins)
                for _ in range(200):
                    link.sendall(more)
                    time.sleep(0.01)
        self.assertIn("available", served.says("(INFO)"))
        # It may be told that a connection was lost, and nothing else.
        self.assertEqual([each for each in served.faults if "ConnectionResetError" not in str(each)], [])

    def test_too_many_messages_at_once_are_told(self) -> None:
        served = Served(self)
        places = [served.player.places.acquire(timeout=LONG) for _ in range(MOST_LONG)]
        self.assertTrue(all(places))
        self.assertEqual(post(served.url, f"(PREVIEW ({'a ' * 40_000}) 5)")[0], 503)
        self.assertIn("available", served.says("(INFO)"))
        while served.server.listener.places.acquire(blocking=False):
            pass
        self.assertEqual(post(served.url, "(INFO)")[0], 503)

    def test_few_files_are_enough(self) -> None:
        few = "import resource, runpy, sys; resource.setrlimit(resource.RLIMIT_NOFILE, (120, 120)); sys.argv[:] = ['gdlsolve-player', '--port', '0']; "
        command = [sys.executable, "-P", "-c", f"{few}runpy.run_module('gdlsolve.player', run_name='__main__')"]
        with ran_by(command) as (url, player), ExitStack() as held:
            place = url.removeprefix("http://").split(":")
            for _ in range(400):
                link = held.enter_context(socket.create_connection((place[0], int(place[1])), LONG))
                link.send(b"POST / HTTP/1.1\r\n")
            self.assertEqual(post(url, f"(START m a {rules_of('matching_pennies')} 30 1)"), (200, "ready"))
            self.assertEqual(post(url, "(PLAY m NIL)"), (200, "h"))
            player.terminate()
            _, errors = player.communicate(timeout=LONG)
        self.assertEqual([json.loads(line)["move"] for line in errors.splitlines()], ["h"])


class Clocks(unittest.TestCase):
    """Times are those of a busy machine: what is to come by a clock comes soon behind it, and long before a solver that hangs goes on."""

    def setUp(self) -> None:
        self.held = Held(self)
        self.served = Served(self, self.held.command)

    def timed(self, message: str) -> str:
        """The answer, which is there soon behind the clock."""
        begun = time.monotonic()
        told = self.served.says(message)
        self.assertLess(time.monotonic() - begun, SOON * PACE)
        return told

    def test_four_matches_at_once(self) -> None:
        names = [f"m{number}" for number in range(4)]
        openings = legal(ENDLESS_RULES, "red", [])
        with ThreadPoolExecutor(4) as threads:
            starts = threads.map(lambda name: self.served.start(name, *RED, clocks(5, 2)), names)
            self.assertEqual(list(starts), ["ready"] * 4)
            self.assertEqual(self.served.start("m4", *RED, clocks(5, 2)), "busy")
            begun = time.monotonic()
            found = list(threads.map(self.served.says, [f"(PLAY {name} NIL)" for name in names]))
            self.assertLess(time.monotonic() - begun, SOON * PACE)
        self.assertLessEqual(set(found), set(openings))

    def test_rules_that_hang_are_not_played(self) -> None:
        for command in ("check", "moves"):
            with self.subTest(command=command):
                self.held.at(command)
                message = f"(START m white {BOARD} {clocks(1, 1)})"
                self.assertEqual(self.timed(message), "busy")
        self.assertEqual(self.served.player.matches, {})
        self.held.at("")
        self.assertEqual(self.served.start("m", "hexapawn", "white", clocks(60, 1)), "ready")

    def test_a_message_that_waits_for_a_match_that_is_not_begun(self) -> None:
        for command in ("check", "moves"):
            self.held.at(command)
            with self.subTest(command=command), ThreadPoolExecutor(1) as threads:
                said = threads.submit(self.served.start, "m", "hexapawn", "white", clocks(2, 1))
                self.assertTrue(until(self.held.hung))
                self.assertEqual(self.served.says("(PLAY m NIL)"), "busy")
                self.assertEqual(said.result(LONG), "busy")

    def test_a_search_that_hangs(self) -> None:
        self.held.at("solve")
        self.assertEqual(self.timed(f"(START m white {BOARD} {clocks(4, 2)})"), "ready")
        move = self.timed("(PLAY m NIL)")
        self.assertIn(move, OPENINGS)
        turns = [(move, "noop")]
        self.assertEqual(self.timed(f"(PLAY m ({move} noop))"), "noop")
        reply = legal(HEXAPAWN, "black", turns)[0]
        self.assertIn(
            self.timed(f"(PLAY m (noop {reply}))"),
            legal(HEXAPAWN, "white", [*turns, ("noop", reply)]),
        )

    def test_a_solver_that_hangs_at_all(self) -> None:
        self.held.at("solve")
        self.assertEqual(self.timed(f"(START m black {BOARD} {clocks(4, 3)})"), "ready")
        self.assertEqual(self.timed("(PLAY m NIL)"), "noop")
        move = self.timed(f"(PLAY m ({OPENINGS[0]} noop))")
        self.held.at("check moves solve")
        turns = [(OPENINGS[0], "noop"), ("noop", move)]
        self.assertEqual(self.timed(f"(PLAY m (noop {move}))"), "noop")
        other = legal(HEXAPAWN, "white", turns)[0]
        turns.append((other, "noop"))
        here = gdlsolve.moves(HEXAPAWN, turns)
        self.assertIn(self.timed(f"(PLAY m ({other} noop))"), here.legal.get("black", ("nil",)))
        self.assertEqual(len(self.served.player.matches["m"].turns), 3)

    def test_a_match_is_played_to_its_end_without_the_solver(self) -> None:
        self.assertEqual(self.served.start("m", "tic_tac_toe", "xplayer", LONG_CLOCKS), "ready")
        self.held.at("check! moves! solve!")
        dice, turns, behind = random.Random(3), list[tuple[str, str]](), "NIL"
        while (here := gdlsolve.moves(MARKS, turns)).state is gdlsolve.State.OPEN:
            move = self.timed(f"(PLAY m {behind})")
            self.assertIn(move, here.legal["xplayer"])
            turns.append((move, dice.choice(here.legal["oplayer"])))
            behind = f"({' '.join(turns[-1])})"
        self.assertEqual(self.timed(f"(PLAY m {behind})"), "nil")
        self.assertEqual(self.timed("(PLAY m ((mark 9 9) noop))"), "nil")

    def test_a_solver_that_hangs_once_is_asked_again(self) -> None:
        self.assertEqual(self.served.start("m", "hexapawn", "black", clocks(60, 4)), "ready")
        self.served.says("(PLAY m NIL)")
        self.held.at("moves solve")

        def go_on() -> None:
            until(self.held.hung)
            self.held.at("")

        threading.Thread(target=go_on).start()
        move = self.timed(f"(PLAY m ({OPENINGS[0]} noop))")
        self.assertIn(move, legal(HEXAPAWN, "black", [(OPENINGS[0], "noop")]))

    def test_a_solver_that_is_killed(self) -> None:
        served = Served(self)
        self.assertEqual(served.start("m", *RED, clocks(5, 2)), "ready")
        match = served.player.matches["m"]

        def kill() -> None:
            children = [match.umpire.engine.child, match.quick.child, match.deep.child, *served.player.children.idle]
            for child in filter(None, children):
                os.kill(child.process.pid, signal.SIGKILL)

        threading.Timer(0.5 * PACE, kill).start()
        begun = time.monotonic()
        opening = served.says("(PLAY m NIL)")
        self.assertLess(time.monotonic() - begun, SOON * PACE)
        turns = [(opening, "noop")]
        self.assertEqual(served.says(f"(PLAY m ({opening} noop))"), "noop")
        threading.Timer(0.5 * PACE, kill).start()
        reply = legal(ENDLESS_RULES, "black", turns)[0]
        move = served.says(f"(PLAY m (noop {reply}))")
        self.assertIn(move, legal(ENDLESS_RULES, "red", [*turns, ("noop", reply)]))

    def settled(self, play: float) -> tuple[Match, str]:
        """A match whose value is settled, with a play clock, and the turn behind its first move, of which nothing is known."""
        self.assertEqual(self.served.start("m", "hexapawn", "white", clocks(60, play)), "ready")
        match = self.served.player.matches["m"]
        assert match.thinking is not None and match.tree is not None
        goes_on, known = match.thinking.goes_on, match.tree.next
        self.assertTrue(until(lambda: not goes_on(), LONG))
        turn = self.served.says("(PLAY m NIL)"), "noop"
        self.assertTrue(until(lambda: turn in known or (turn,) in match.umpire.known, LONG))
        match.umpire.known.clear()
        known.clear()
        return match, f"(PLAY m ({' '.join(turn)}))"

    def test_a_solver_that_is_slow_is_waited_for(self) -> None:
        _, turn = self.settled(4)
        # More than half of the time, and less than all of it.
        self.held.at(f"moves~{2.5 * PACE} legal!")
        self.assertEqual(self.timed(turn), "noop")

    def test_a_solver_that_is_late_is_not_ended(self) -> None:
        match, turn = self.settled(4)
        umpire = match.umpire.engine
        self.assertTrue(until(lambda: umpire.child, LONG))
        known = umpire.child
        self.held.at(f"moves~{5 * PACE} legal~{5 * PACE}")
        move = self.timed(turn)
        self.assertIn(move, OPENINGS)
        # What it finds out in the end counts.
        self.assertTrue(until(lambda: match.tree, LONG))
        self.held.at("")
        self.assertTrue(until(lambda: umpire.child == known, LONG))
        assert match.tree is not None
        self.assertEqual(match.tree.here.legal["white"], ("noop",))

    def test_turns_that_may_come_next_are_gone_through_ahead(self) -> None:
        # The tree of matches at random keeps none of them.
        with patch("gdlsolve.player.tree_search.MOST_NODES", 0):
            self.assertEqual(self.served.start("m", "tic_tac_toe", "oplayer", LONG_CLOCKS), "ready")
            self.assertEqual(self.served.says("(PLAY m NIL)"), "noop")
            match, openings = self.served.player.matches["m"], legal(MARKS, "xplayer", [])
            self.assertTrue(until(lambda: len(match.umpire.known) == len(openings), LONG))
            self.held.at("moves! legal!")
            turn = (openings[4], "noop")
            self.assertIn(self.timed(f"(PLAY m ({' '.join(turn)}))"), legal(MARKS, "oplayer", [turn]))

    def check_ended_by(self, message: str, answer: str) -> None:
        """Processes hang, a message ends them, and none is left at work."""
        self.assertTrue(until(self.held.hung))
        processes = self.held.hung()
        self.assertEqual(self.served.says(message), answer)
        self.assertTrue(all(wait_for_end(process, SOON) for process in processes))
        both = self.served.player.children, self.served.player.umpires
        self.assertTrue(until(lambda: not any(each.at_work for each in both), SOON))

    def test_the_end_of_a_match_ends_what_is_at_work_for_it(self) -> None:
        for message, answer in ("(STOP m NIL)", "done"), ("(ABORT m)", "aborted"):
            self.held.at("")
            with self.subTest(message=message), ThreadPoolExecutor(1) as threads:
                self.assertEqual(self.served.start("m", "tic_tac_toe", "oplayer", "3600 3600"), "ready")
                self.assertEqual(self.served.says("(PLAY m NIL)"), "noop")
                self.held.at("solve")
                said = threads.submit(self.served.says, "(PLAY m ((mark 1 1) noop))")
                self.check_ended_by(message, answer)
                self.assertIn(said.result(LONG), legal(MARKS, "oplayer", [("(mark 1 1)", "noop")]))

    def test_a_match_that_is_ended_before_it_has_begun(self) -> None:
        for command in ("check", "moves", "solve"):
            self.held.at(command)
            with self.subTest(command=command), ThreadPoolExecutor(1) as threads:
                said = threads.submit(self.served.start, "m", "tic_tac_toe", "xplayer", "3600 3600")
                self.check_ended_by("(ABORT m)", "aborted")
                self.assertEqual(said.result(LONG), "busy")

    def test_a_solver_that_always_ends(self) -> None:
        self.held.at("end")
        self.assertEqual(self.timed(f"(START m white {BOARD} {clocks(2, 1)})"), "busy")


class Program(unittest.TestCase):
    def test_it_is_started_by_one_command_and_leaves_nothing(self) -> None:
        with ran_by(package("gdlsolve.player", "--port", 0, "--name", "me")) as (url, player):
            self.assertIn("(name me)", post(url, "(INFO)")[1])
            self.assertEqual(post(url, f"(START m a {rules_of('matching_pennies')} 30 1)"), (200, "ready"))
            self.assertEqual(post(url, "(PLAY m NIL)"), (200, "h"))
            left = started_by(player.pid)
            self.assertTrue(left)
            player.terminate()
            _, errors = player.communicate(timeout=LONG)
        self.assertEqual(player.returncode, 0)
        self.assertEqual(json.loads(errors.splitlines()[0])["move"], "h")
        self.assertTrue(all(map(wait_for_end, left)))

    def test_no_module_of_the_current_folder_is_read(self) -> None:
        with tempfile.TemporaryDirectory() as room:
            for name in ("ctypes", "gdlsolve", "select"):
                Path(room, f"{name}.py").write_text(f"open({str(Path(room, 'read'))!r}, 'w').close()\n")
            with ran_by([sys.executable, "-P", "-m", "gdlsolve.player", "--port", "0"], cwd=room) as (url, _):
                self.assertEqual(post(url, f"(START m a {rules_of('matching_pennies')} 30 1)"), (200, "ready"))
            self.assertFalse(Path(room, "read").exists())

    def test_a_program_is_started_by_its_whole_path(self) -> None:
        for named in "true", os.path.relpath(str(shutil.which("true"))), "true --help":
            with self.subTest(named=named), patch.dict(os.environ, {program.VARIABLE: named}):
                self.assertTrue(os.path.isabs(program.named()[0]))

    def test_a_port_that_is_in_use_is_told_in_a_line(self) -> None:
        with socket.socket() as taken:
            taken.bind(("127.0.0.1", 0))
            taken.listen()
            port = taken.getsockname()[1]
            command = package("gdlsolve.player", "--port", port)
            done = subprocess.run(command, capture_output=True, env=known(), check=False, text=True)
        self.assertEqual((done.returncode, done.stdout, done.stderr), (1, "", f"127.0.0.1:{port}: Address already in use\n"))

    def test_it_answers_where_nothing_can_be_told_on_standard_error(self) -> None:
        with open("/dev/full", "w") as full, ran_by(package("gdlsolve.player", "--port", 0), stderr=full) as (url, _):
            self.assertEqual(post(url, f"(START m a {rules_of('matching_pennies')} 30 1)"), (200, "ready"))
            self.assertEqual(post(url, "(PLAY m NIL)"), (200, "h"))
            self.assertEqual(post(url, "(PLAY m (x x))"), (200, "h"))

    def test_a_library_that_is_not_there_is_told_with_its_package(self) -> None:
        with tempfile.TemporaryDirectory() as room:
            Path(room, "aiohttp.py").write_text("raise ModuleNotFoundError('no', name='aiohttp')\n")
            command, path = package("gdlsolve.player", "--port", 0), f"{room}:{TOP / 'python'}"
            done = subprocess.run(command, env=known(PYTHONPATH=path), capture_output=True, text=True, timeout=120)
        self.assertEqual((done.returncode, done.stdout, done.stderr), (1, "", "there is no aiohttp: apt-get install python3-aiohttp, or pip install aiohttp\n"))

    def test_another_program_than_this_is_told(self) -> None:
        command = package("gdlsolve.player", "--port", 0)
        done = subprocess.run(command, env=known(GDLSOLVE_PROGRAM="true"), capture_output=True, text=True, timeout=120)
        self.assertEqual((done.returncode, done.stdout, done.stderr), (1, "", "nothing answers: the program that is named is another one\n"))

    def test_an_output_that_is_full_is_told_in_a_line(self) -> None:
        with open("/dev/full", "w") as full:
            command = package("gdlsolve.player", "--port", 0)
            done = subprocess.run(command, stdout=full, stderr=subprocess.PIPE, env=known(), check=False, text=True, timeout=120)
        self.assertEqual((done.returncode, done.stderr), (1, "write fault\n"))

    def test_words_that_are_none(self) -> None:
        wrong: tuple[list[str], ...] = ["--depth", "0"], ["--depth", "65"], ["--matches", "0"], ["--margin", "-1"], ["--margin", "nan"], ["--port", "65536"], ["--matches", "65"], ["--connections", "0"]
        wrong += ["--longest", "604801"], ["--memory", "-1"], ["--nice", "20"]
        wrong += ["--from", "here"], ["--token", "a b"]
        for words in wrong:
            command = package("gdlsolve.player", *words)
            done = subprocess.run(command, capture_output=True, env=known(), check=False)
            self.assertEqual(done.returncode, 2)


if __name__ == "__main__":
    unittest.main()
