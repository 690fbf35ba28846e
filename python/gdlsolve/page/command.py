"""The command line of the page, which it serves on the loopback: python -m gdlsolve.page [--port N] [FOLDER]"""

from __future__ import annotations

import argparse
import os
import shlex
import signal
import sys
import webbrowser
from pathlib import Path

from gdlsolve import __version__
from gdlsolve.console import keys
from gdlsolve.console.streams import say, served
from gdlsolve.manager.archive import Archive
from gdlsolve.page.desk import Desk
from gdlsolve.page.server import Server
from gdlsolve.solver import program
from gdlsolve.solver.calls import is_own
from gdlsolve.solver.engine import OWN_COMMAND, SESSION_COMMAND, Broken, Late, Pool
from gdlsolve.web.guarded import MOST_PORT, NAME

PORT = 9160
GAMES = program.CLONE / "games"


def options() -> argparse.Namespace:
    """The words of the command line."""
    own = keys.name("gdlsolve-page", "gdlsolve.page")
    words = argparse.ArgumentParser(prog=own, description="Serves a page for people, on this machine alone.")
    words.add_argument("--version", action="version", version=f"gdlsolve {__version__}")
    words.add_argument("folder", type=Path, nargs="?", metavar="FOLDER",
                       help="the games to choose from, files NAME.kif; else those of the clone")
    words.add_argument("--port", type=int, default=PORT, help=f"{PORT} if not given; 0: a free one")
    words.add_argument("--program", default="",
                       help="the command of the program; if not given, the package answers")
    words.add_argument("--workers", type=int, default=max(1, min(4, os.cpu_count() or 1)),
                       help="how many positions and how many rules are read at once")
    words.add_argument("--allow-host", action="append", default=[], metavar="NAME[:PORT]",
                       help="another name by which a browser may call it, as behind a tunnel; may be given again")
    words.add_argument("--archive", type=Path, metavar="FILE", help="list the matches of this archive of a tournament")
    words.add_argument("--open", action="store_true", help="open the page in a browser")
    given = words.parse_args()
    if given.folder is not None and not given.folder.is_dir():
        words.error(f"{given.folder} is no folder")
    try:
        if given.archive is not None:
            Archive(given.archive).base.close()
    except (OSError, ValueError) as fault:
        words.error(f"--archive: {fault}")
    try:
        given.program = shlex.split(given.program)
    except ValueError as fault:
        words.error(f"--program is no command: {fault}")
    if not 0 <= given.port <= MOST_PORT:
        words.error("--port is a number from 0 to 65535")
    if not 1 <= given.workers <= 64:
        words.error("--workers is a number from 1 to 64")
    if not all(NAME.fullmatch(name) for name in given.allow_host):
        words.error("--allow-host is a name, or a name and a port, as box.local:8080")
    return given


def end(number: int, frame: object) -> None:
    """Ends the server as a key would."""
    raise KeyboardInterrupt


@keys.quiet
def main() -> int:
    """Serves the page until it is ended."""
    given = options()
    folder = given.folder or (GAMES if GAMES.is_dir() else None)
    pool = Pool(given.workers, [*OWN_COMMAND, *given.program], spare=1)
    desk = Desk(pool, folder, [*SESSION_COMMAND, *given.program], given.archive)
    try:
        if not is_own(desk.reply(["--version"], b"")):
            raise Broken("the program that is named is another one")
    except (Broken, Late) as fault:
        say(f"{str(fault) or 'the engine does not answer'}\n")
        desk.close()
        return 1
    try:
        server = Server(desk, given.port, given.allow_host)
    except OSError as fault:
        print(f"port {given.port}: {fault.strerror}", file=sys.stderr)
        desk.close()
        return 1
    signal.signal(signal.SIGTERM, end)
    address = f"http://127.0.0.1:{server.server_address[1]}/"

    def serve() -> None:
        if given.open:
            webbrowser.open(address)
        server.serve_forever()

    try:
        return served(f"The page is at {address}", serve)
    finally:
        desk.close()
        server.server_close()

