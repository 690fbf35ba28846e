"""The command line of the match server:

    python -P -m gdlsolve.manager serve FOLDER --archive FILE
"""

from __future__ import annotations

import argparse
import os
import secrets
import sqlite3
from collections.abc import Iterator, Sequence
from concurrent.futures import wait
from contextlib import contextmanager
from importlib import import_module
from pathlib import Path

import gdlsolve
from gdlsolve.console import keys
from gdlsolve.console.streams import say, served
from gdlsolve.manager.archive import Game, alone
from gdlsolve.manager.command import FAULTS, SERVE, add_clocks, check_clocks, hear_signals, line_of
from gdlsolve.manager.leading import read
from gdlsolve.manager.serve.hall import Hall, Terms
from gdlsolve.manager.serve.server import Server
from gdlsolve.manager.serve.store import Store
from gdlsolve.manager.standings import Judge
from gdlsolve.player.background import begun
from gdlsolve.solver import calls, program
from gdlsolve.solver.engine import Broken
from gdlsolve.web.guarded import MOST_PORT, NAME

PORT = 9170
# So many seconds it may take at the end until all players were told.
ENDS = 20.0


def words() -> argparse.ArgumentParser:
    """What the command line knows."""
    own = keys.name("gdlsolve-manager", "gdlsolve.manager")
    known = argparse.ArgumentParser(prog=f"{own} {SERVE}", description="Serves matches between players who sign up, on this machine alone.")
    known.add_argument("--version", action="version", version=f"gdlsolve {gdlsolve.__version__}")
    known.add_argument("folder", type=Path, metavar="FOLDER", help="the games that are played, files NAME.kif")
    known.add_argument("--archive", type=Path, required=True, metavar="FILE", help="where players and all matches are kept")
    known.add_argument("--port", type=int, default=PORT, help=f"{PORT} if not given; 0: a free one")
    add_clocks(known)
    known.add_argument("--at-once", type=int, default=1, metavar="N", help="so many matches at once")
    known.add_argument("--seed", help="what moves at random come from")
    known.add_argument("--program", default="", help="the command of the program; if not given, the package answers")
    known.add_argument("--allow-host", action="append", default=[], metavar="NAME[:PORT]",
                       help="another name by which a browser may call it, as behind a tunnel; may be given again")
    return known


def options(given: Sequence[str] | None) -> argparse.Namespace:
    """What the command line asks for."""
    known = words()
    found = known.parse_args(given)
    if not found.folder.is_dir():
        known.error(f"{found.folder} is no folder")
    if not 0 <= found.port <= MOST_PORT:
        known.error("--port is a number from 0 to 65535")
    check_clocks(known, found)
    if found.turns < 0 or found.at_once < 1:
        known.error("--turns is a number from 0 on, --at-once one from 1 on")
    if not all(NAME.fullmatch(name) for name in found.allow_host):
        known.error("--allow-host is a name, or a name and a port, as box.local:8080")
    return found


def games_of(folder: Path) -> list[Game]:
    """The games of a folder. One that cannot be played is passed over, and that is told. Rules that stand in two files are one game."""
    found: dict[str, Game] = {}
    for file in sorted(folder.glob("*.kif")):
        try:
            game = read(file)
            found.setdefault(game.sum, game)
        except (ValueError, OSError) as fault:
            say(f"passed over: {line_of(fault, file)}")
    return list(found.values())


@contextmanager
def going(hall: Hall, server: Server) -> Iterator[None]:
    """Has matches go on. At the end they are ended at their players."""
    server.work = begun(hall.run)
    try:
        yield
    finally:
        hall.stopped.set()
        wait([server.work], ENDS)


def bound(store: Store, hall: Hall, given: argparse.Namespace) -> Server:
    """The server, at its port."""
    try:
        return Server(store, hall, given.port, given.allow_host)
    except OSError as fault:
        raise ValueError(f"port {given.port}: {fault.strerror}") from None


def serve(given: argparse.Namespace) -> int:
    """Serves until it is ended. The exit status."""
    if given.program:
        os.environ[program.VARIABLE] = given.program
    # Where it is not there that is told before a player signs up.
    import_module("httpx")
    if not calls.is_own(calls.reply(["--version"], b"")):
        raise Broken("the program that is named is another one")
    terms = Terms(given.start, given.play, given.slack, given.turns, given.at_once, given.seed or secrets.token_hex(8))
    with alone(given.archive), Store(given.archive) as store, Judge() as judge:
        hall = Hall(store, judge, games_of(given.folder), terms)
        with bound(store, hall, given) as server, going(hall, server):
            return served(f"The match server is at http://127.0.0.1:{server.server_address[1]}/", server.serve_forever)


def main(words: Sequence[str]) -> int:
    """The command `gdlsolve-manager serve`."""
    given = options(words)
    hear_signals()
    try:
        return serve(given)
    except sqlite3.Error as fault:
        say(f"{given.archive}: {fault}\n")
    except FAULTS as fault:
        say(line_of(fault, given.archive))
    return 1
