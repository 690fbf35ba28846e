"""What the command lines of a cluster have in common: how words are read, and the files of TLS."""

from __future__ import annotations

import argparse
import os
import ssl
from collections.abc import Callable
from dataclasses import dataclass
from importlib import import_module
from pathlib import Path
from typing import Any, NoReturn, TypeVar

from gdlsolve.solver.faults import Misuse

Found = TypeVar("Found")


class Parser(argparse.ArgumentParser):
    """A parser whose misuse is that of the program."""

    def error(self, message: str) -> NoReturn:
        """Raises what is wrong with the words."""
        raise Misuse(f"{self.format_usage()}{message}")


def one(read: Callable[[str], Found], what: str) -> Callable[[str], Found]:
    """Reads a word that says what is told here, or tells what is wrong with it."""

    def taken(text: str) -> Found:
        try:
            return read(text)
        except ValueError:
            raise argparse.ArgumentTypeError(f"it takes {what}, and not {text!r}") from None

    return taken


def above_0(text: str) -> int:
    """A number above 0."""
    found = int(text)
    if found < 1:
        raise ValueError
    return found


def processors() -> int:
    """How many processors this process may use."""
    return len(os.sched_getaffinity(0))


@dataclass(frozen=True)
class Tls:
    """The files by which the parts of a cluster know each other: what signs, what is signed, and the key to it."""

    ca: Path
    cert: Path
    key: Path

    def check(self) -> Tls:
        """The same, where they are such files."""
        try:
            ssl.create_default_context(cafile=self.ca).load_cert_chain(self.cert, self.key)
        except OSError as fault:
            raise Misuse(f"the files of TLS cannot be used: {fault}") from None
        return self

    def security(self) -> Any:
        """The same as Dask takes it, for a scheduler, a worker or a client. What is not encrypted is refused."""
        distributed: Any = import_module("distributed")
        roles = ("scheduler", "worker", "client")
        files = {f"tls_{role}_{kind}": str(file) for role in roles for kind, file in (("cert", self.cert), ("key", self.key))}
        return distributed.Security(require_encryption=True, tls_ca_file=str(self.ca), **files)


def add_tls(parser: argparse.ArgumentParser) -> None:
    """The options that name these files."""
    add = parser.add_argument
    add("--tls-ca-file", type=Path, metavar="FILE", help="what signs the certificates of the cluster")
    add("--tls-cert", type=Path, metavar="FILE", help="a certificate that is signed so")
    add("--tls-key", type=Path, metavar="FILE", help="its key")


def tls_of(words: argparse.Namespace) -> Tls | None:
    """The files that the words name, all or none."""
    files = [words.tls_ca_file, words.tls_cert, words.tls_key]
    if not any(files):
        return None
    if not all(files):
        raise Misuse("--tls-ca-file, --tls-cert and --tls-key go together")
    return Tls(*(file.absolute() for file in files)).check()
