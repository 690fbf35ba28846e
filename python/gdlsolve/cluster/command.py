"""The command line: the options of `solve`, and who shares the work.

    python -m gdlsolve.cluster [ENGINE] --role ROLE --depth TURNS [OPTIONS] [GAME.kif]
    python -m gdlsolve.cluster scheduler|worker [OPTIONS]

Where no file is named the rules come on standard input. The exit statuses are those of the program,
and 69 where the cluster gave no answer.
"""

from __future__ import annotations

import argparse
import math
import signal
import sys
from collections.abc import Sequence
from contextlib import AbstractContextManager
from dataclasses import asdict
from pathlib import Path

from gdlsolve import __version__
from gdlsolve.cluster import MOST_TURNS, engines, nodes, sought
from gdlsolve.cluster.driver import Driver, Engine, Manner
from gdlsolve.cluster.engines import Share
from gdlsolve.cluster.faults import ClusterFault
from gdlsolve.cluster.options import Parser, add_tls, one, processors, tls_of
from gdlsolve.console import keys
from gdlsolve.console.streams import StreamFault, on_input, put, say
from gdlsolve.solver.faults import Misuse, Refusal
from gdlsolve.solver.replies import Status

STREAM_FAILED = 4
NO_ANSWER = 69
# What a program takes for its table at most, in MiB.
MOST_TABLE = 65_536
TURNS = f"a whole number from 0 to {MOST_TURNS}"
TABLES = f"a whole number from 0 to {MOST_TABLE}"
DESCRIPTION = "Solves a game on many machines. The answer is that of one, or there is none."
PARTS = "The words scheduler and worker in place of the options begin a part of a Dask cluster: scheduler --help, worker --help."


def _share(workers: str, processors: str) -> Share:
    """So many workers of so many processors each."""
    found = Share(int(workers), int(processors))
    if found.workers < 1 or found.processors < 1:
        raise ValueError
    return found


def here(text: str) -> Share:
    """What of this machine answers: one worker of so many processors, or `2x3`, two of three."""
    workers, x, processors = text.rpartition("x")
    return _share(workers if x else "1", processors)


def of_mpi(text: str) -> Share:
    """So many workers of one processor, or `2x3`, two of three."""
    workers, x, processors = text.partition("x")
    return _share(workers, processors if x else "1")


def mebibytes(text: str) -> int:
    """So many MiB as `--table` takes."""
    found = int(text)
    if not 0 <= found <= MOST_TABLE:
        raise ValueError
    return found


def seconds(text: str) -> float:
    """A number of seconds from 0 on."""
    found = float(text)
    if not 0 <= found < math.inf:
        raise ValueError
    return found


def _add_engines(parser: argparse.ArgumentParser) -> None:
    """The options of which one says who shares the work."""
    which = parser.add_mutually_exclusive_group()
    add = which.add_argument
    mine, others = one(here, "N or NxK, each above 0"), one(of_mpi, "N or NxK, each above 0")
    add("--processes", type=mine, metavar="N", help="N processors of this machine (all of them)")
    add("--scheduler", metavar="ADDRESS", help="the workers of a Dask scheduler")
    add("--scheduler-file", metavar="FILE", help="the same, by the file that the scheduler writes")
    add("--local", type=mine, metavar="N", help="a Dask scheduler and a worker of N processors here")
    add("--mpi", type=others, metavar="N", help="N processes of MPI; NxK: each has K processors")


def _parser() -> argparse.ArgumentParser:
    """The options of the command."""
    own = keys.name("gdlsolve-cluster", "gdlsolve.cluster")
    parser = Parser(prog=own, description=DESCRIPTION, epilog=PARTS, allow_abbrev=False)
    _add_engines(parser)
    add_tls(parser)
    add = parser.add_argument
    waits = one(seconds, "a number of seconds from 0 on")
    add("--version", action="version", version=f"gdlsolve {__version__}")
    add("--role", required=True, help="whose play it is")
    turns = one(int, TURNS)
    add("--depth", required=True, type=turns, metavar="TURNS", help="how many turns to look ahead")
    worth = parser.add_mutually_exclusive_group()
    worth.add_argument("--at-bound", metavar="BOUND", help="zero or goal, as with solve")
    worth.add_argument("--unfinished", metavar="N", help="what unfinished play is worth")
    add("--after", default="", metavar="TEXT", help="a history")
    add("--whole", action="store_true", help="a game as it is found, which is written out first")
    add("--tighten", action="store_true", help="with --whole: as with unroll")
    add("--split", type=waits, default=2.0, metavar="SECONDS", help="when a question may be split")
    add("--journal", type=Path, metavar="FILE", help="keeps answers, and asks for none again")
    add("--patience", type=waits, default=120.0, metavar="SECONDS", help="how long it may be gone")
    add("--table", type=one(mebibytes, TABLES), metavar="MIB", help="of each program, as with solve")
    add("--parts", action="store_true", help="asks for parts alone, and never for the whole")
    add("--verbose", action="store_true", help="tells on standard error what happens")
    add("game", type=Path, nargs="?", metavar="GAME.kif", help="the rules")
    return parser


def engine_of(words: argparse.Namespace) -> AbstractContextManager[Engine]:
    """The engine that the words name."""
    tls = tls_of(words)
    if words.scheduler is not None:
        return engines.dask(words.scheduler, words.patience, tls)
    if words.scheduler_file is not None:
        return engines.dask_by_file(words.scheduler_file, words.patience, tls)
    if tls is not None:
        raise Misuse("the files of TLS go with --scheduler and --scheduler-file")
    if words.local is not None:
        return engines.dask_here(words.local, words.patience)
    if words.mpi is not None:
        return engines.mpi(words.mpi)
    return engines.processes(words.processes or Share(1, processors()))


def _say(line: str) -> None:
    """Tells people something."""
    say(f"{line}\n")


def run(words: Sequence[str]) -> int:
    """Does what the words ask for, and gives the exit status."""
    asked = _parser().parse_args(words)
    if asked.tighten and not asked.whole:
        raise Misuse("--tighten goes with --whole")
    worth = [] if asked.at_bound is None else ["--at-bound", asked.at_bound]
    worth += [] if asked.unfinished is None else ["--unfinished", asked.unfinished]
    rules = on_input() if asked.game is None else asked.game.read_bytes()
    how = asked.whole, asked.tighten
    what = sought(rules, asked.role, asked.depth, worth, asked.after, *how)
    log = _say if asked.verbose else lambda line: None
    manner = Manner(asked.split, asked.journal, asked.patience, log, asked.parts, asked.table)
    with engine_of(asked) as engine:
        driver = Driver(what, engine, manner)
        found = driver.reply()
        log(" ".join(f"{name} {round(count, 3)}" for name, count in asdict(driver.counts).items()))
        put(found.output)
        say(found.told())
    return int(found.status)


def answered(words: Sequence[str]) -> int:
    """The same, also where a part of a cluster is asked for, or the rules or the history are refused further on."""
    if words and words[0] in nodes.PARTS:
        return nodes.keep(words[0], words[1:])
    try:
        return run(words)
    except Refusal as refusal:
        put(f"{refusal}\n".encode())
        say(refusal.explanation)
        return int(Status.REFUSED)


def _end(number: int, frame: object) -> None:
    """Ends this process in order: what is out is stopped."""
    sys.exit(128 + number)


@keys.quiet
def main() -> int:
    """The command."""
    signal.signal(signal.SIGTERM, _end)
    try:
        return answered(sys.argv[1:])
    except Misuse as misuse:
        _say(str(misuse))
        return int(Status.MISUSE)
    except MemoryError:
        _say("no memory")
        return int(Status.NO_MEMORY)
    except ClusterFault as fault:
        _say(f"no answer: {type(fault).__name__}: {fault}")
        return NO_ANSWER
    except ImportError as fault:
        _say(f"no answer: {fault}")
        return NO_ANSWER
    except StreamFault as fault:
        _say(str(fault))
        return STREAM_FAILED
    except OSError as fault:
        _say(f"{fault.filename}: {fault.strerror}" if fault.filename else f"fault: {fault}")
        return STREAM_FAILED
