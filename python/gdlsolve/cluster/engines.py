"""Engines by name. What they need is imported where they are asked for, and not before."""

from __future__ import annotations

import json
import logging
import tempfile
import time
from collections.abc import Iterator
from concurrent.futures import ThreadPoolExecutor
from contextlib import contextmanager
from dataclasses import dataclass
from importlib import import_module
from pathlib import Path
from typing import Any

from gdlsolve.cluster import nodes
from gdlsolve.cluster.driver import Engine
from gdlsolve.cluster.faults import Lost
from gdlsolve.cluster.options import Tls

# So often the workers of a Dask cluster are counted, in seconds.
COUNT_EVERY = 2.0
# So often Dask itself runs what it lost with a worker again.
RETRIES = 2


@dataclass(frozen=True)
class Share:
    """So many workers, of so many processors each."""

    workers: int
    processors: int


@contextmanager
def processes(share: Share) -> Iterator[Engine]:
    """Programs on this machine, each waited for by a thread."""
    with ThreadPoolExecutor(share.workers) as pool:
        yield Engine(pool, lambda: share.workers, processors=share.processors)


class _Workers:
    """How many workers a Dask cluster has; 0 where it is gone."""

    def __init__(self, client: Any):
        self._client = client
        self._counted = 0
        self._when = float("-inf")

    def __call__(self) -> int:
        if self._client.status != "running":
            return 0
        if time.monotonic() - self._when >= COUNT_EVERY:
            try:
                self._counted = len(self._client.nthreads())
            except OSError:
                self._counted = 0
            self._when = time.monotonic()
        return self._counted


@contextmanager
def _dask(client: Any, patience: float) -> Iterator[Engine]:
    """The workers of a Dask cluster, of which one at least is waited for."""
    workers = _Workers(client)
    until = time.monotonic() + patience
    while not workers():
        if time.monotonic() > until:
            raise Lost("the scheduler has no workers")
        time.sleep(0.1)
    executor = client.get_executor(pure=False, retries=RETRIES)
    yield Engine(executor, workers, lambda: workers() > 0, processors=0)


def _client(patience: float, tls: Tls | None = None, **where: Any) -> Any:
    """A client of a Dask scheduler. Without files for TLS there may be some in the configuration of Dask."""
    distributed: Any = import_module("distributed")
    # A future that was cancelled and answers all the same is told there as an error.
    logging.getLogger("tornado.application").setLevel(logging.CRITICAL)
    try:
        return distributed.Client(timeout=patience, set_as_default=False, security=tls and tls.security(), **where)
    except (OSError, TypeError, ValueError, RuntimeError) as fault:
        # All but the first are of an address that is none, or one of TLS without its files.
        raise Lost(f"no scheduler: {fault}") from None


@contextmanager
def dask(address: str, patience: float, tls: Tls | None = None) -> Iterator[Engine]:
    """The workers of the Dask scheduler at an address."""
    _hold(address, tls)
    with _client(patience, tls, address=address) as client, _dask(client, patience) as engine:
        yield engine


def _hold(address: str, tls: Tls | None) -> None:
    """Holds that a client can be made of an address. One that was not made is told of once more where
    it is dropped, and not in a line."""
    comm: Any = import_module("distributed.comm")
    security: Any = import_module("distributed.security")
    try:
        comm.get_address_host_port(address)
        known = (tls.security() if tls else security.Security()).get_connection_args("client")
    except (OSError, ValueError, NotImplementedError) as fault:
        raise Lost(f"no scheduler: {fault}") from None
    if address.startswith("tls:") and known.get("ssl_context") is None:
        raise Lost("no scheduler: TLS wants its files, by --tls-ca-file, --tls-cert and --tls-key, or in the configuration of Dask")
    if tls and not address.startswith("tls:"):
        raise Lost("no scheduler: its address does not begin with tls://")


def _address(file: Path, patience: float) -> str:
    """Where a scheduler is, once it tells so in a file. Dask itself would wait without an end."""
    until = time.monotonic() + patience
    while True:
        try:
            return str(json.loads(file.read_text())["address"])
        except FileNotFoundError:
            pass
        except (ValueError, LookupError, TypeError):
            # It may be that only a part is written.
            if time.monotonic() > until:
                raise Lost(f"{file} tells of no scheduler") from None
        if time.monotonic() > until:
            raise Lost(f"there is no {file}")
        time.sleep(0.1)


@contextmanager
def dask_by_file(path: str, patience: float, tls: Tls | None = None) -> Iterator[Engine]:
    """The workers of the Dask scheduler that a file tells of."""
    _hold(_address(Path(path), patience), tls)
    with _client(patience, tls, scheduler_file=path) as client, _dask(client, patience) as engine:
        yield engine


@contextmanager
def dask_here(share: Share, patience: float) -> Iterator[Engine]:
    """A Dask scheduler and workers on this machine, for this run alone. They are threads of this
    process, since all that they do is to wait for programs. They listen at no port, and have a folder
    of their own."""
    distributed: Any = import_module("distributed")
    scheduler, worker = nodes.parts()
    known = {"protocol": "inproc://", "security": distributed.Security(), "dashboard": False}
    with (
        tempfile.TemporaryDirectory(prefix="gdlsolve-") as room,
        ThreadPoolExecutor(share.workers * share.processors) as threads,
        distributed.SpecCluster(
            scheduler={"cls": scheduler, "options": {**known, "port": 0}},
            workers=dict.fromkeys(
                range(share.workers),
                {"cls": worker, "options": {**known, **nodes.kept_in(room), "nthreads": share.processors, "executor": threads}},
            ),
            silence_logs=logging.CRITICAL,
        ) as cluster,
        _client(patience, address=cluster) as client,
        _dask(client, patience) as engine,
    ):
        yield engine


@contextmanager
def mpi(share: Share) -> Iterator[Engine]:
    """Processes of MPI."""
    futures: Any = import_module("mpi4py.futures")
    with futures.MPIPoolExecutor(share.workers) as pool:
        yield Engine(pool, lambda: share.workers, processors=share.processors)


