"""The command line of a referee:

    python -P -m gdlsolve.manager GAME.kif --player http://127.0.0.1:9147 --player random
"""

from __future__ import annotations

import argparse
import math
import random
import signal
import sys
from collections.abc import Sequence
from importlib import import_module
from pathlib import Path
from typing import NoReturn

import gdlsolve
from gdlsolve.console import keys
from gdlsolve.console.notes import missing
from gdlsolve.console.streams import StreamFault, put, say
from gdlsolve.manager.client import post
from gdlsolve.manager.record import Record, name_of, now
from gdlsolve.manager.referee import FAREWELL, RANDOM, Referee, roles_of
from gdlsolve.solver.engine import Broken
from gdlsolve.solver.faults import Ended, Refusal

# The word that has matches served, in place of rules.
SERVE = "serve"
# These end a match as a key does.
SIGNALS = (signal.SIGTERM, signal.SIGHUP)
# These are told in a line.
FAULTS = (Refusal, StreamFault, ValueError, ImportError, Ended, Broken, OSError)


def made(given: argparse.Namespace) -> Record:
    """The record of a new match."""
    rules = given.rules.read_bytes().decode(errors="replace")
    roles = roles_of(rules)
    if len(given.player) > len(roles):
        raise ValueError(f"there are {len(given.player)} players, and {len(roles)} roles")
    players = given.player + [RANDOM] * (len(roles) - len(given.player))
    begun = now()
    name = given.id or f"{name_of(given.rules.stem)}.{begun}"
    clocks = float(given.start), float(given.play)
    return Record(name, given.rules.name, rules, roles, players, *clocks, begun, playerNamesFromHost=list(players))


def resumed(given: argparse.Namespace) -> Record:
    """The record of a match that goes on. It has another name, since players may know the old one
    with other turns; at those it is ended."""
    record = Record.read(given.resume)
    if record.roles != roles_of(record.rules):
        raise ValueError(f"{given.resume} is no record of a match: its roles are not those of its rules")
    for player in dict.fromkeys(record.players):
        if player != RANDOM:
            post(player, f"(ABORT {record.matchId})", FAREWELL)
    if given.player:
        if len(given.player) != len(record.roles):
            raise ValueError(f"there are {len(record.roles)} roles: name a player for each")
        record.players = given.player
        record.playerNamesFromHost = list(given.player)
    record.matchId = given.id or f"{name_of(record.matchId)}.{len(record.moves)}"
    return record


def add_clocks(known: argparse.ArgumentParser) -> None:
    """Adds the options of how long a match may take."""
    known.add_argument("--start", type=float, default=10.0, help="the start clock, in seconds")
    known.add_argument("--play", type=float, default=5.0, help="the play clock, in seconds")
    known.add_argument("--slack", type=float, default=0.5, help="seconds beyond a clock")
    known.add_argument("--turns", type=int, default=200, help="break a match off after so many")


def check_clocks(known: argparse.ArgumentParser, found: argparse.Namespace) -> None:
    """Refuses a clock that is no time."""
    if not all(0 <= clock < math.inf for clock in (found.start, found.play, found.slack)):
        known.error("a clock is no number of seconds from 0 on")


def options(words: Sequence[str] | None) -> argparse.Namespace:
    """What the command line asks for."""
    own = keys.name("gdlsolve-manager", "gdlsolve.manager")
    more = f"{own} {SERVE} --help tells of a server of matches between players who sign up."
    known = argparse.ArgumentParser(prog=own, description="Referees a match.", epilog=more)
    known.add_argument("--version", action="version", version=f"gdlsolve {gdlsolve.__version__}")
    known.add_argument("rules", type=Path, nargs="?", help="the rules of the game")
    known.add_argument("--resume", type=Path, help="go on with the match of this record")
    known.add_argument(
        "--player", action="append", default=[], help="a URL or random, for each role in order"
    )
    add_clocks(known)
    known.add_argument("--seed", help="what moves at random come from")
    known.add_argument("--id", help="the name of the match")
    known.add_argument("--record", type=Path, help="where the record is written")
    found = known.parse_args(words)
    if (found.rules is None) == (found.resume is None):
        known.error("either rules or a record to go on with")
    if found.id is not None and (not found.id or name_of(found.id) != found.id):
        known.error("--id is one name of letters, digits, and the signs _ . + -")
    check_clocks(known, found)
    if found.turns < 0:
        known.error("--turns is a number from 0 on")
    return found


def told(record: Record) -> str:
    """How a match stands, for people."""
    wrong = sum(1 for turn in record.errors for error in turn if error)
    count = f"{len(record.moves)} turns, {wrong} failed moves"
    goals = [f"{role} {goal}\n" for role, goal in zip(record.roles, record.goalValues)]
    return "".join([f"{record.matchId}: {record.state} after {count}\n", *goals])


def end(number: int, frame: object) -> NoReturn:
    """Ends the match as a key would, with the status of this signal."""
    raise SystemExit(128 + number)


def hear_signals() -> None:
    """Has each of the signals end what goes on. What nohup starts goes on."""
    for number in SIGNALS:
        if signal.getsignal(number) is signal.SIG_DFL:
            signal.signal(number, end)


def line_of(fault: Exception, file: object) -> str:
    """What people are told of a fault; of rules that are refused, with their file."""
    if isinstance(fault, Refusal):
        return f"{file}: {fault}\n{fault.explanation}"
    if isinstance(fault, ModuleNotFoundError):
        return missing(fault)
    if isinstance(fault, OSError) and fault.filename:
        return f"{fault.filename}: {fault.strerror}\n"
    return f"{fault}\n"


@keys.quiet
def main(words: Sequence[str] | None = None) -> int:
    """The command `gdlsolve-manager`."""
    own = sys.argv[1:] if words is None else list(words)
    if own[:1] == [SERVE]:
        # A match alone does without what a server takes.
        return int(import_module("gdlsolve.manager.serve.command").main(own[1:]))
    given = options(own)
    hear_signals()
    try:
        record = resumed(given) if given.resume else made(given)
        file = given.record or given.resume
        referee = Referee(record, random.Random(given.seed), given.slack, file)
        referee.play(given.turns)
        say("".join(f"not ready: {role}: {why}\n" for role, why in referee.failed.items()))
        put(told(record).encode())
    except FAULTS as fault:
        say(line_of(fault, given.resume or given.rules))
        return 1
    return 0
