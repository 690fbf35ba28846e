"""The command line of a player: python -P -m gdlsolve.player --port 9147"""

from __future__ import annotations

import argparse
import ipaddress
import os
import re
import signal
import sys
from collections.abc import Sequence

from gdlsolve import __version__
from gdlsolve.console import keys
from gdlsolve.console.notes import missing, note
from gdlsolve.console.streams import say, served
from gdlsolve.player.access import Door, Network
from gdlsolve.player.match import Options
from gdlsolve.player.messages import LONGEST_CLOCK
from gdlsolve.player.player import Player
from gdlsolve.player.tree_search import MOST_DEPTH
from gdlsolve.solver.calls import is_own, reply
from gdlsolve.solver.faults import Ended

MOST_PORT = 65_535
# So many matches at once, and so many connections, are the most that can be asked for.
MOST_MATCHES, MOST_CONNECTIONS = 64, 65_536
MOST_MEMORY = 1 << 30
# So often the command looks whether it is ended, in seconds.
BEAT = 0.5


def networks(text: str) -> Network:
    """The addresses that a word names: one, or those of a network."""
    return ipaddress.ip_network(text, strict=False)


def options(words: Sequence[str] | None) -> argparse.Namespace:
    """What the command line asks for."""
    own, door = Options(), Door()
    name = keys.name("gdlsolve-player", "gdlsolve.player")
    known = argparse.ArgumentParser(prog=name, description="Plays matches over HTTP.")
    known.add_argument("--version", action="version", version=f"gdlsolve {__version__}")
    known.add_argument("--port", type=int, default=door.port, help="0 takes one that is free")
    known.add_argument("--host", default=door.host, help="0.0.0.0 takes messages of all machines")
    known.add_argument("--from", dest="senders", type=networks, action="append", default=[], metavar="ADDRESS",
                       help="take messages of this address alone, or of this network; may be given again")
    known.add_argument("--token", default=os.environ.get("GDLSOLVE_TOKEN", ""), help="take messages to http://HOST:PORT/TOKEN alone")
    known.add_argument("--known-as", action="append", default=[], metavar="NAME", help="a further name of this machine")
    known.add_argument("--connections", type=int, default=door.connections, help="so many at once")
    known.add_argument("--name", default=own.name)
    known.add_argument("--matches", type=int, default=own.matches, help="so many at once")
    known.add_argument("--margin", type=float, default=own.margin, help="seconds between an answer and its clock")
    known.add_argument("--depth", type=int, default=own.depth, help="search no deeper, 1 to 64")
    known.add_argument("--idle", type=float, default=own.idle, help="seconds until a silent match may be given up")
    known.add_argument("--longest", type=float, default=own.longest, help="take a longer clock as one of so many seconds")
    known.add_argument("--memory", type=int, default=own.memory, metavar="MIB",
                       help="each process of the solver takes no more; 0 sets no limit")
    known.add_argument("--nice", type=int, default=own.nice, help="the solver has a priority lower by so much, 0 to 19")
    known.add_argument("--whole", action="store_true", help="write out each game before it is played")
    known.add_argument("--quiet", action="store_true", help="do not tell each turn")
    found = known.parse_args(words)
    ranges = (
        (found.port, 0, MOST_PORT),
        (found.connections, 1, MOST_CONNECTIONS),
        (found.matches, 1, MOST_MATCHES),
        (found.depth, 1, MOST_DEPTH),
        (found.longest, 0, LONGEST_CLOCK),
        (found.memory, 0, MOST_MEMORY),
        (found.nice, 0, 19),
    )
    if not all(least <= number <= most for number, least, most in ranges) or not (found.margin >= 0 and found.idle >= 0):
        known.error("a number is out of its range")
    if not re.fullmatch(r"[A-Za-z0-9_.~-]*", found.token):
        known.error("--token is a word of letters, digits, and the signs _ . ~ -")
    return found


def serve(player: Player, door: Door, is_quiet: bool) -> int:
    """Serves until a key or a signal ends it. The exit status."""
    from gdlsolve.player.server import Server

    def told(fault: dict[str, str]) -> None:
        if not is_quiet:
            note(fault)

    try:
        made = Server(door, player.options.matches, player.answer, told)
    except OSError as fault:
        say(f"{door.host}:{door.port}: {fault.strerror}\n")
        return 1

    def wait() -> None:
        while made.thread.is_alive():
            made.thread.join(BEAT)

    with made:
        try:
            return served(f"{player.options.name} on {door.host}:{made.port}", wait)
        finally:
            player.close()


@keys.quiet
def main(words: Sequence[str] | None = None) -> int:
    """The command `gdlsolve-player`."""
    given = options(words)
    try:
        version = reply(["--version"], b"")
    except (ImportError, OSError, Ended) as fault:
        say(f"nothing answers: {fault}\n")
        return 1
    if not is_own(version):
        say("nothing answers: the program that is named is another one\n")
        return 1
    signal.signal(signal.SIGTERM, lambda *_: sys.exit(0))
    senders, names = tuple(given.senders), tuple(given.known_as)
    door = Door(given.host, given.port, given.token, senders, names, given.connections)
    limits = given.longest, given.memory, given.nice
    player = Player(Options(given.name, given.matches, given.margin, given.depth, given.idle, given.quiet, given.whole, *limits))
    try:
        return serve(player, door, given.quiet)
    except ModuleNotFoundError as fault:
        say(missing(fault))
        return 1
    finally:
        player.close()
