#!/usr/bin/env python3
"""Proves crates from nothing and builds what is made of them.

    tools/prove.py program    proves the crates of the program and builds out/gdlsolve, with its object out/gdlsolve.o
    tools/prove.py library    proves the crates of the library for C and builds out/libgdlsolve_c.a
    tools/prove.py NAME       proves the crate NAME and all below it
    --check WORDS..           proves what NAME stands on, and then checks NAME over what an earlier check of it kept, with these words of rattle
    --tests                   proves NAME with its tests, and builds out/tests/NAME with its object out/tests/NAME.o
    --over-gate               proves and builds the library alone, over the crates below it that `rt ci` has proved and left in their out/
    --fresh                   only says by the status whether that has been done for the sources as they stand
    --sum                     only prints the sum of all that NAME is made of
    --weigh                   writes the processor seconds of each proof to tools/weights.txt

Each crate is proved once all crates that it stands on are, so those that do not stand on each other go side by side. The crate
with the longest way above it gets as many jobs as there are cores, one whose way is nearly as long half as many, and the others, with one job, fill
what these leave. What is proved stands in out/proved as the statements of each crate, beside a sum of all that it was made of; only what this sum
does not fit is proved again.
"""

from __future__ import annotations

import argparse
import ctypes
import fcntl
import hashlib
import os
import shutil
import signal
import subprocess
import sys
import time
from collections.abc import Callable
from dataclasses import dataclass, field
from functools import cache
from pathlib import Path

sys.dont_write_bytecode = True

import weights

TOP = Path(__file__).resolve().parent.parent
OUT = TOP / "out"
PROVED = OUT / "proved"
TESTS = OUT / "tests"
KEPT = OUT / "kept"
TARGET = "x86_64-unknown-linux-gnu"
# A crate is of the chain where the way above it is so large a part of the longest one.
NEAR = 0.8
SECONDS_BETWEEN_LINES = 15
UNPROVED, CALLED_WRONGLY, STOPPED = 1, 2, 130
WITH_LLVM = ["--backend", "llvm"]


class Failure(Exception):
    """What is said on standard error before the script ends unproved."""


def said(text: str) -> None:
    print(f"gdlsolve: {text}", file=sys.stderr, flush=True)


def clock(seconds: float) -> str:
    minutes, rest = divmod(int(seconds), 60)
    return f"{minutes}:{rest:02}"


@cache
def kit() -> Path:
    """The folder of the Rattle kit, which its command `rt` tells."""
    if shutil.which("rt") is None:
        raise Failure("there is no command rt: put the folder bin of the Rattle kit on the path")
    page = subprocess.run(["rt", "doc"], check=True, capture_output=True, text=True).stdout.strip()
    return Path(page).parent


@dataclass(eq=False)
class Crate:
    """A line of crates.txt."""

    name: str
    is_static: bool
    uses: list[str]
    below: list[Crate] = field(default_factory=list)
    seconds: float = 60.0
    way_up: float = 0.0

    @property
    def folder(self) -> Path:
        return TOP / "crates" / self.name

    @property
    def is_program(self) -> bool:
        return (self.folder / "src" / "main.rt").is_file()

    @property
    def is_built(self) -> bool:
        """It is compiled, and not only proved."""
        return self.is_program or self.is_static

    @property
    def product(self) -> Path:
        if self.is_program:
            return OUT / self.name
        if self.is_static:
            return OUT / f"lib{self.name}.a"
        return PROVED / f"{self.name}.rlib"

    @property
    def stamp(self) -> Path:
        return PROVED / f"{self.name}.sum"

    def all_below(self) -> list[Crate]:
        """The crates that this one stands on, each after those that it stands on itself."""
        return list(below_of(self))

    def is_fresh(self) -> bool:
        return self.product.exists() and self.stamp.is_file() and self.stamp.read_text() == sum_of(self.name)


@cache
def below_of(crate: Crate) -> tuple[Crate, ...]:
    """The crates below one, each after those that it stands on itself, found once."""
    return tuple(dict.fromkeys(each for below in crate.below for each in [*below_of(below), below]))


@cache
def crates() -> dict[str, Crate]:
    """All crates of crates.txt by name."""
    found: dict[str, Crate] = {}
    for line in (TOP / "crates.txt").read_text().splitlines():
        head, colon, uses = line.partition("#")[0].partition(":")
        if colon:
            name, *words = head.split()
            found[name] = Crate(name, "staticlib" in words, uses.split())
    for crate in found.values():
        crate.below = [found[name] for name in crate.uses if name in found]
    known = weights.read()
    for name in known.crates.keys() & found.keys():
        found[name].seconds = known.of(name, "proof") + known.of(name, "builds") * found[name].is_built
    return found


@cache
def sum_of(name: str) -> str:
    """A sum of all that a crate is made of: the kit, its line, its files, and the sums of the crates below it."""
    crate = crates()[name]
    made = hashlib.sha256((kit() / "KIT-ID").read_bytes())
    made.update(repr((crate.name, crate.is_static, crate.uses)).encode())
    for part in ("src", "specs", "proofs"):
        for file in sorted((crate.folder / part).rglob("*")):
            if file.is_file():
                made.update(f"{file.relative_to(crate.folder)}\0{file.stat().st_size}\0".encode())
                made.update(file.read_bytes())
    for each in crate.below:
        made.update(sum_of(each.name).encode())
    return made.hexdigest()


def proved_here(crate: Crate) -> Path:
    """The folder of a crate's proved library."""
    return PROVED


def left_by_gate(crate: Crate) -> Path:
    """The folder in which `rt ci` leaves a crate's proved library."""
    return crate.folder / "out" / "rlib"


def words_over(crate: Crate, jobs: int, place_of: Callable[[Crate], Path] = proved_here) -> list[str]:
    """What rattle is told of a crate, whatever it does with it: its root, and what stands below it."""
    words = ["--crate-name", crate.name, "src/main.rt" if crate.is_program else "src/lib.rt"]
    own = {each.name: place_of(each) for each in crate.below}
    for name in ["std", *crate.uses]:
        words += ["--extern", f"{name}={own.get(name, kit() / 'rlibs')}/{name}.rlib"]
    for place in dict.fromkeys([kit() / "rlibs", *map(place_of, crate.all_below())]):
        words += ["-L", f"dependency={place}"]
    words += ["--antt-project", f"{kit()}/rattle/logic/antt-project.json", "--logic-built", f"{kit()}/logic_built"]
    return [*words, "--links", f"{crate.name}=", "--jobs", str(jobs)]


def words_of(crate: Crate, jobs: int, product: Path) -> list[str]:
    """The command that proves a crate and builds it."""
    words = [str(kit() / "bin" / "rattle"), "build", *words_over(crate, jobs), "-o", str(product)]
    if crate.is_static:
        words += ["--crate-type", "staticlib"]
    if crate.is_built:
        return [*words, *WITH_LLVM, "--toolchain", f"{kit()}/toolchain"]
    return [*words, "--statements"]


def dies_with_this(nice: int) -> None:
    """Run in the child: it is killed when the script ends, however that ends. It leads a group of its own but no session, since a
    system that schedules by session would see no difference in how nice two crates are."""
    ctypes.CDLL(None).prctl(1, signal.SIGKILL)
    os.setpgid(0, 0)
    os.nice(nice)


@dataclass
class Run:
    """A crate that is being proved."""

    crate: Crate
    jobs: int
    process: subprocess.Popen[bytes]
    begun: float
    digest: str

    def share(self) -> float:
        """How much of it is probably done."""
        return min((time.monotonic() - self.begun) * min(self.jobs, 2) / self.crate.seconds, 0.95)


def started(crate: Crate, jobs: int, nice: int) -> Run:
    crate.stamp.unlink(missing_ok=True)
    log = PROVED / f"{crate.name}.log"
    product = OUT / f"{crate.name}.o" if crate.is_program else crate.product
    if product.is_dir():
        shutil.rmtree(product)
    with log.open("wb") as output:
        process = subprocess.Popen(
            words_of(crate, jobs, product),
            cwd=crate.folder,
            stdin=subprocess.DEVNULL,
            stdout=output,
            stderr=subprocess.STDOUT,
            preexec_fn=lambda: dies_with_this(nice),
        )
    return Run(crate, jobs, process, time.monotonic(), sum_of(crate.name))


def link(made: Path, product: Path) -> None:
    """Links a program from the object that was built of it."""
    words = [str(kit() / "bin" / "rattle-link"), "--target", TARGET, "--toolchain", f"{kit()}/toolchain"]
    libraries = [f"{kit()}/c/libos_c.a", f"{kit()}/c/liblibc_c.a"]
    subprocess.run([*words, "-o", str(product), str(made), *libraries], check=True, stdout=sys.stderr)


def ended(run: Run) -> bool:
    """Notes that a crate is proved, or tells why it is not."""
    if run.process.returncode:
        lines = (PROVED / f"{run.crate.name}.log").read_text(errors="replace").splitlines()
        print(*[line for line in lines if "error" in line][:20], *lines[-4:], sep="\n", file=sys.stderr)
        said(f"the crate {run.crate.name} is not proved")
        return False
    if run.crate.is_program:
        link(OUT / f"{run.crate.name}.o", run.crate.product)
    run.crate.stamp.write_text(run.digest)
    return True


def free_memory() -> float:
    """The gigabytes that are free."""
    free = next(line for line in Path("/proc/meminfo").read_text().splitlines() if line.startswith("MemAvailable"))
    return int(free.split()[1]) / (1 << 20)


def memory_of(jobs: int) -> float:
    """The gigabytes that a crate may take: at four jobs one has been seen to take 6.4, and at a single job 3.1."""
    return 2.0 + 1.1 * jobs


def cores() -> int:
    return len(os.sched_getaffinity(0))


class Proving:
    """The crates that are still to be proved, and those that are being proved."""

    def __init__(self, wanted: list[Crate]) -> None:
        all_wanted = dict.fromkeys(each for crate in wanted for each in [*crate.all_below(), crate])
        self.left = [each for each in all_wanted if not each.is_fresh()]
        self.whole = sum(each.seconds for each in self.left)
        self.total = len(self.left)
        self.done = 0.0
        self.runs: list[Run] = []
        self.spent: dict[str, float] = {}
        self.failed: list[str] = []
        self.memory = free_memory()
        self.begun = time.monotonic()
        for crate in reversed(self.left):
            above = [each.way_up for each in self.left if crate in each.below]
            crate.way_up = crate.seconds + max(above, default=0.0)

    def ready(self) -> list[Crate]:
        """The crates that can be begun, the one with the longest way above it first."""
        waiting = {each.name for each in self.left} | {run.crate.name for run in self.runs}
        ready = [each for each in self.left if not any(below.name in waiting for below in each.all_below())]
        return sorted(ready, key=lambda each: -each.way_up)

    def manner(self, crate: Crate) -> tuple[int, int]:
        """How many jobs a crate gets, and how nice it is. Each job costs some seconds more of the processor, so one whose way up is short
        has one job, and takes what the chain leaves."""
        longest = max(each.way_up for each in [*self.left, *(run.crate for run in self.runs)])
        if crate.way_up < NEAR * longest:
            return 1, 10
        return (cores() if crate.way_up >= longest else max(cores() // 2, 1)), 0

    def jobs_that_fit(self, jobs: int) -> int:
        """So many jobs, or as many as the memory has room for beside what is being proved; one is always given room where nothing else is."""
        left = self.memory - sum(memory_of(run.jobs) for run in self.runs)
        fitting = [count for count in range(1, jobs + 1) if memory_of(count) <= left]
        return max(fitting, default=0 if self.runs else 1)

    def begin(self) -> None:
        """Begins what can be begun, as far as there are cores and memory."""
        for crate in self.ready():
            wanted, nice = self.manner(crate)
            jobs = self.jobs_that_fit(wanted)
            if len(self.runs) >= cores() or jobs == 0:
                return
            self.left.remove(crate)
            self.runs.append(started(crate, jobs, nice))

    def wait(self) -> None:
        time.sleep(0.2)
        for run in list(self.runs):
            pid, status, used = os.wait4(run.process.pid, os.WNOHANG)
            if pid:
                run.process.returncode = os.waitstatus_to_exitcode(status)
                self.spent[run.crate.name] = used.ru_utime + used.ru_stime
                self.runs.remove(run)
                self.done += run.crate.seconds
                if not ended(run):
                    self.fail(run.crate)

    def fail(self, crate: Crate) -> None:
        """Leaves out what stands on a crate that is not proved; the others go on, so that they need not be proved again."""
        self.failed.append(crate.name)
        self.left = [each for each in self.left if crate not in each.all_below()]

    def tell(self) -> None:
        part = (self.done + sum(run.share() * run.crate.seconds for run in self.runs)) / self.whole
        names = ", ".join(run.crate.name for run in self.runs)
        said(f"{clock(time.monotonic() - self.begun)}, {part:.0%} done, proving {names}")

    def stop(self) -> None:
        for run in self.runs:
            os.killpg(run.process.pid, signal.SIGKILL)

    def prove(self) -> None:
        """Proves all that is left."""
        told = 0.0
        try:
            while self.left or self.runs:
                self.begin()
                self.wait()
                if self.runs and time.monotonic() - told >= SECONDS_BETWEEN_LINES:
                    told = time.monotonic()
                    self.tell()
        finally:
            self.stop()
        if self.failed:
            raise Failure(f"not proved: {', '.join(self.failed)}")
        if self.total:
            said(f"proved and built in {clock(time.monotonic() - self.begun)}")


def weigh(spent: dict[str, float]) -> None:
    """Writes the processor seconds of what was proved, beside those that are known. What was built besides is told by runs of the gate."""
    known = weights.read()
    for name, seconds in spent.items():
        known.put(name, "proof", max(seconds - known.of(name, "builds") * crates()[name].is_built, 0.0))
    weights.keep(known)


def prove(wanted: list[Crate], is_weighed: bool) -> None:
    """Proves these crates and all below them."""
    PROVED.mkdir(parents=True, exist_ok=True)
    with (PROVED / "lock").open("w") as lock:
        try:
            fcntl.flock(lock, fcntl.LOCK_EX | fcntl.LOCK_NB)
        except BlockingIOError:
            said("another build is at work here: waiting for its end")
            fcntl.flock(lock, fcntl.LOCK_EX)
        proving = Proving(wanted)
        proving.prove()
        if is_weighed:
            weigh(proving.spent)


def check(crate: Crate, words: list[str]) -> int:
    """Checks a crate once what it stands on is proved, over what an earlier check kept of it. Tells the status of the check."""
    prove(crate.below, False)
    kept = KEPT / f"{crate.name}{'.tests' if '--test' in words else ''}"
    kept.mkdir(parents=True, exist_ok=True)
    told = [str(kit() / "bin" / "rattle"), "check", *words_over(crate, cores()), "--incremental", str(kept), *words]
    return subprocess.run(told, cwd=crate.folder, stdin=subprocess.DEVNULL, check=False).returncode


def prove_tests(crate: Crate) -> int:
    """Proves a crate with its tests and builds them. Tells the status of the build."""
    prove(crate.below, False)
    TESTS.mkdir(parents=True, exist_ok=True)
    made = TESTS / f"{crate.name}.o"
    words = ["--test", *WITH_LLVM, "--toolchain", f"{kit()}/toolchain", "-o", str(made)]
    told = [str(kit() / "bin" / "rattle"), "build", *words_over(crate, cores()), *words]
    status = subprocess.run(told, cwd=crate.folder, stdin=subprocess.DEVNULL, check=False).returncode
    if not status:
        link(made, TESTS / crate.name)
    return status


def prove_over_gate(crate: Crate) -> int:
    """Proves a static library over what `rt ci` left, and builds it. Tells the status of the build."""
    missing = [each.name for each in crate.all_below() if not (left_by_gate(each) / f"{each.name}.rlib").is_dir()]
    if not crate.is_static or missing:
        raise Failure(f"rt ci has left no library of {', '.join(missing)}" if missing else f"{crate.name} is no static library")
    OUT.mkdir(exist_ok=True)
    words = [str(kit() / "bin" / "rattle"), "build", *words_over(crate, cores(), left_by_gate), "--crate-type", "staticlib"]
    words += [*WITH_LLVM, "--toolchain", f"{kit()}/toolchain", "-o", str(crate.product)]
    return subprocess.run(words, cwd=crate.folder, stdin=subprocess.DEVNULL, stdout=sys.stderr, check=False).returncode


def main() -> int:
    parser = argparse.ArgumentParser(description="Proves crates from nothing and builds what is made of them.")
    parser.add_argument("what", help="program, library, or the name of a crate")
    parser.add_argument("--fresh", action="store_true", help="only say whether it is built from these sources")
    parser.add_argument("--over-gate", action="store_true", help="prove and build the library over what rt ci left")
    parser.add_argument("--sum", action="store_true", help="only print the sum of all that it is made of")
    parser.add_argument("--weigh", action="store_true", help="note the processor seconds of each crate")
    parser.add_argument("--tests", action="store_true", help="prove the crate with its tests, and build them")
    parser.add_argument("--check", nargs=argparse.REMAINDER, metavar="WORD", help="check the crate over its last check, with these words of rattle")
    asked = parser.parse_args()
    name = {"program": "gdlsolve", "library": "gdlsolve_c"}.get(asked.what, asked.what)
    for number in (signal.SIGTERM, signal.SIGHUP):
        signal.signal(number, lambda *_: sys.exit(STOPPED))
    if name not in crates():
        parser.error(f"crates.txt has no line for {name}")
    crate = crates()[name]
    try:
        if asked.over_gate:
            crate.stamp.unlink(missing_ok=True)
            return prove_over_gate(crate)
        if asked.sum:
            print(sum_of(name))
            return 0
        if asked.fresh:
            return 0 if crate.is_fresh() else UNPROVED
        if asked.check is not None:
            return check(crate, asked.check)
        if asked.tests:
            return prove_tests(crate)
        prove([crate], asked.weigh)
    except Failure as failure:
        said(str(failure))
        return UNPROVED
    except KeyboardInterrupt:
        return STOPPED
    return 0


if __name__ == "__main__":
    sys.exit(main())
