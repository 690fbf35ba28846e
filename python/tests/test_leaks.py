"""A month of short matches leaves no memory, no process, no thread and no file behind."""

import os
import random
import threading
import time
import unittest
from concurrent.futures import ThreadPoolExecutor
from pathlib import Path

from tests import LONG_TESTS
from tests.serving import PACE, Served, until

MATCHES = 10_000 if LONG_TESTS else 1_000
# After so many matches all that is kept for later has been made.
FIRST = 100
AT_ONCE = 4


def used() -> tuple[int, int, int]:
    """Kilobytes, threads and files of this process."""
    status = Path("/proc/self/status").read_text()
    size = int(status.split("VmRSS:")[1].split()[0])
    return size, threading.active_count(), len(os.listdir("/proc/self/fd"))


def running() -> int:
    """How many processes this one has started that run."""
    lists = Path("/proc/self/task").glob("*/children")
    return sum(len(text.read_text().split()) for text in lists)


class Leaks(unittest.TestCase):
    def play(self, served: Served, number: int) -> None:
        """A match of one turn or two, of 0.1 s each."""
        game, role, turn = random.Random(number).choice(
            [("hexapawn", "white", ""), ("matching_pennies", "a", "(h t)"), ("nim", "second", "")]
        )
        self.assertEqual(served.start(f"m{number}", game, role, f"{10 * PACE:.1f} 0.1"), "ready")
        self.assertNotIn(served.says(f"(PLAY m{number} NIL)"), ("nil", "busy"))
        if turn:
            # Where so short a clock leaves no time to see that play is over, a guess is a move.
            self.assertIn(served.says(f"(PLAY m{number} {turn})"), ("nil", "h", "t"))
        self.assertEqual(served.says(f"(STOP m{number} NIL)"), "done")

    def rest(self, served: Served) -> None:
        """Waits until nothing is at work for matches that are over, and threads had time to end."""
        self.assertTrue(until(lambda: not served.player.children.at_work and not served.player.umpires.at_work))
        time.sleep(1)

    def test_many_short_matches(self) -> None:
        served = Served(self, matches=AT_ONCE)
        with ThreadPoolExecutor(AT_ONCE) as threads:
            list(threads.map(lambda number: self.play(served, number), range(FIRST)))
            self.rest(served)
            before = used()
            list(threads.map(lambda number: self.play(served, number), range(FIRST, MATCHES)))
            self.rest(served)
            now = used()
        size, all_threads, files = (later - first for first, later in zip(before, now))
        self.assertLess(size, 8_000)
        self.assertLessEqual(all_threads, 4)
        self.assertLessEqual(files, 8)
        self.assertLessEqual(len(served.player.children.idle), 2 * AT_ONCE + 2)
        self.assertLessEqual(len(served.player.umpires.idle), AT_ONCE)
        self.assertLessEqual(running(), 3 * AT_ONCE + 4)
        self.assertEqual(served.player.matches, {})


if __name__ == "__main__":
    unittest.main()
