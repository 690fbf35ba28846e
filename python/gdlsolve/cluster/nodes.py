"""The scheduler and the workers of a Dask cluster: each listens at one address and speaks TLS, has no server for HTTP, and is started again
whenever it ends.

    python -P -m gdlsolve.cluster scheduler --host ADDRESS [OPTIONS]
    python -P -m gdlsolve.cluster worker --host ADDRESS [OPTIONS] tls://ADDRESS:PORT

Whoever is let in runs code as the one who has started them. So words that let in all who reach the address have to say so.
"""

from __future__ import annotations

import argparse
import asyncio
import ipaddress
import os
import signal
import socket
import subprocess
import sys
import tempfile
import time
from collections.abc import Sequence
from contextlib import suppress
from functools import cache
from importlib import import_module
from importlib.util import find_spec
from pathlib import Path
from typing import Any

from gdlsolve import __version__
from gdlsolve.cluster.options import Parser, above_0, add_tls, one, processors, tls_of
from gdlsolve.console import keys
from gdlsolve.console.streams import say
from gdlsolve.solver import program
from gdlsolve.solver.faults import Misuse

PARTS = ("scheduler", "worker")
PORT = 8786
# So long it is waited before a part is started again, at first and at most, in seconds. One that has run for so long begins anew.
FIRST_PAUSE, LAST_PAUSE = 0.5, 10.0
STEADY = 60.0
# So many seconds a part has to end in order.
GRACE = 10.0


def _no_server(part: Any, *given: Any, **named: Any) -> None:
    """Starts no server for HTTP. Dask would also start one without a dashboard, and at every address."""


@cache
def parts() -> tuple[Any, Any]:
    """The scheduler and the worker of Dask without such servers. The worker does not wait for its programs where it is closed."""
    distributed: Any = import_module("distributed")

    async def close(worker: Any, *given: Any, **named: Any) -> Any:
        return await distributed.Worker.close(worker, *given, **{**named, "executor_wait": False})

    silent: dict[str, Any] = {"start_http_server": _no_server}
    return type("Scheduler", (distributed.Scheduler,), silent), type("Worker", (distributed.Worker,), {**silent, "close": close})


def _port(text: str) -> int:
    """A port, or 0 for any that is free."""
    found = int(text)
    if not 0 <= found < 1 << 16:
        raise ValueError
    return found


def _host(text: str) -> str:
    """A name or an address, however it is written, which does not stand for all of them."""
    try:
        found = [str(each[4][0]) for each in socket.getaddrinfo(text, None)]
    except OSError:
        raise ValueError from None
    if any(ipaddress.ip_address(each.partition("%")[0]).is_unspecified for each in found):
        raise ValueError
    return text


def _parser(part: str) -> argparse.ArgumentParser:
    """The options of a part."""
    own = keys.name("gdlsolve-cluster", "gdlsolve.cluster")
    parser = Parser(prog=f"{own} {part}", description=f"Runs a {part} of Dask, again whenever it ends.", allow_abbrev=False)
    add = parser.add_argument
    add("--version", action="version", version=f"gdlsolve {__version__}")
    host = one(_host, "one address of this machine")
    add("--host", required=True, type=host, metavar="ADDRESS", help="the address of this machine at which it listens, and at no other")
    add("--scheduler-file", type=Path, metavar="FILE", help="where the scheduler tells its address")
    add_tls(parser)
    add("--unprotected", action="store_true", help="without TLS: whoever reaches the address runs code here")
    add("--once", action="store_true", help=argparse.SUPPRESS)
    if part == "scheduler":
        add("--port", type=one(_port, "a port"), default=PORT, help=f"the port at which it listens ({PORT})")
    else:
        add("--nthreads", type=one(above_0, "a number above 0"), default=processors(), metavar="N", help="its processors (all of them)")
        add("scheduler", nargs="?", metavar="ADDRESS", help="the address of the scheduler")
    return parser


def _read(part: str, words: Sequence[str]) -> argparse.Namespace:
    """What the words of a part say."""
    asked = _parser(part).parse_args(words)
    asked.tls = tls_of(asked)
    if (asked.tls is None) is not asked.unprotected:
        raise Misuse("a part of a cluster takes --tls-ca-file, --tls-cert and --tls-key, or else --unprotected")
    asked.protocol = "tcp" if asked.tls is None else "tls"
    if part == "worker":
        if (asked.scheduler is None) is (asked.scheduler_file is None):
            raise Misuse("a worker takes the address of its scheduler or --scheduler-file")
        if asked.scheduler and not asked.scheduler.startswith(f"{asked.protocol}://"):
            raise Misuse(f"the address of the scheduler begins with {asked.protocol}:// here")
    if find_spec("distributed") is None:
        raise ImportError("there is no Dask: Debian has it as python3-distributed")
    return asked


def kept_in(room: str) -> dict[str, Any]:
    """The options of a worker that has its files in a folder, from which it also reads modules, so that nobody else may write it. What it runs
    takes memory elsewhere, so it is not watched for that."""
    return {"local_directory": room, "memory_limit": 0}


def _made(part: str, asked: argparse.Namespace) -> Any:
    """A part, which is started where it is waited for."""
    scheduler, worker = parts()
    file = asked.scheduler_file and str(asked.scheduler_file)
    security = asked.tls and asked.tls.security()
    known = {"host": asked.host, "protocol": f"{asked.protocol}://", "scheduler_file": file, "security": security, "dashboard": False}
    if part == "scheduler":
        return scheduler(port=asked.port, **known)
    return worker(asked.scheduler, nthreads=asked.nthreads, **kept_in(tempfile.gettempdir()), **known)


async def _live(made: Any) -> None:
    """Starts a part, and waits for its end."""
    await made
    await made.finished()


async def _run(part: str, asked: argparse.Namespace) -> None:
    """Runs a part until it ends, or a signal has it closed. A worker ends this process then, with all that it may still do."""
    made, signalled, loop = _made(part, asked), asyncio.Event(), asyncio.get_running_loop()
    for number in (signal.SIGINT, signal.SIGTERM):
        loop.add_signal_handler(number, signalled.set)
    lives, stops = loop.create_task(_live(made)), loop.create_task(signalled.wait())
    await asyncio.wait((lives, stops), return_when=asyncio.FIRST_COMPLETED)
    if lives.done():
        lives.result()
    else:
        with suppress(asyncio.TimeoutError):
            await asyncio.wait_for(made.close(), GRACE / 2)
    if part == "worker":
        os._exit(0)


def _started(part: str, words: Sequence[str], room: str) -> subprocess.Popen[bytes]:
    """A process that runs a part and ends with this one. Its files are in a folder of its own, which no other may write."""
    known = {**program.environment(), "TMPDIR": room}
    command = [sys.executable, "-P", "-m", "gdlsolve.cluster", part, "--once", *words]
    return subprocess.Popen(command, stdin=subprocess.DEVNULL, env=known, preexec_fn=program.dies_with(os.getpid()))


def _ended(child: subprocess.Popen[bytes]) -> None:
    """Ends a part."""
    child.terminate()
    try:
        child.wait(GRACE)
    except subprocess.TimeoutExpired:
        child.kill()
        child.wait()


def _turn(part: str, words: Sequence[str]) -> int:
    """Runs a part in a process of its own until that ends, and gives its status."""
    with tempfile.TemporaryDirectory(prefix="gdlsolve-") as room:
        child = _started(part, words, room)
        try:
            return child.wait()
        finally:
            if child.returncode is None:
                _ended(child)


def keep(part: str, words: Sequence[str]) -> int:
    """Runs a part, again whenever it ends, until a signal ends this process."""
    asked = _read(part, words)
    if asked.once:
        asyncio.run(_run(part, asked))
        return 0
    pause = FIRST_PAUSE
    while True:
        begun = time.monotonic()
        status = _turn(part, words)
        if time.monotonic() - begun > STEADY:
            pause = FIRST_PAUSE
        say(f"the {part} ended with {status}; it is started again\n")
        time.sleep(pause)
        pause = min(2 * pause, LAST_PAUSE)
