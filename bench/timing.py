"""What the scripts beside this file share: the programs that are timed, and how a row is timed."""
import argparse
import os
import resource
import shlex
import shutil
import statistics
import subprocess
import sys
import tempfile
import time
from dataclasses import dataclass
from pathlib import Path
from typing import NoReturn

TOP = Path(__file__).resolve().parent.parent
START_UP = ["show"], os.devnull


@dataclass
class Timed:
    """How one program did a row: from start to end, and of processors alone. The status is None where the row was given up."""

    status: int | None
    output: bytes
    seconds: float
    processor: float = 0.0


def add_program(words: argparse.ArgumentParser) -> None:
    """The option that names the program."""
    words.add_argument("--program", metavar="COMMAND", help="the program to run, in place of the proved one")


def add_games(words: argparse.ArgumentParser) -> None:
    """The option that names the folder of descriptions."""
    words.add_argument("--games", metavar="DIR", type=Path, default=TOP / "games", help="the folder of descriptions")


def options(about: str) -> argparse.ArgumentParser:
    """The options that each script has; a script adds its own."""
    words = argparse.ArgumentParser(description=about)
    add_program(words)
    add_games(words)
    return words


def add_beside(words: argparse.ArgumentParser, runs: int) -> None:
    """The options of what can time another program beside the first."""
    words.add_argument("--beside", metavar="COMMAND", help="another program, timed turn about with the first")
    words.add_argument("--runs", metavar="N", type=int, default=runs, help="how often each row is run")
    words.add_argument("--limit", metavar="SECONDS", type=float, default=60, help="a longer run is given up")


def program(given: str | None) -> list[str]:
    """The words of a command; without one, the proved program, which the launcher builds if it has to."""
    if given:
        return shlex.split(given)
    subprocess.run([TOP / "gdlsolve", "--prove"], stdin=subprocess.DEVNULL, check=True)
    return [str(TOP / "out/gdlsolve")]


def programs(given: argparse.Namespace) -> dict[str, list[str]]:
    """The programs by the name under which they are printed."""
    found = {"program": program(given.program)}
    if given.beside:
        found["beside"] = shlex.split(given.beside)
    return found


def of_processors() -> float:
    """The seconds of processors that children took which have ended."""
    used = resource.getrusage(resource.RUSAGE_CHILDREN)
    return used.ru_utime + used.ru_stime


def run(command: list[str], words: list[str], rules: str | Path, limit: float | None = None) -> Timed:
    """One run over a file of rules."""
    with open(rules, "rb") as text:
        start, used = time.perf_counter(), of_processors()
        try:
            done = subprocess.run(command + words, stdin=text, stdout=subprocess.PIPE, stderr=subprocess.DEVNULL, timeout=limit)
        except subprocess.TimeoutExpired:
            return Timed(None, b"", limit or 0)
        return Timed(done.returncode, done.stdout, time.perf_counter() - start, of_processors() - used)


def peak(command: list[str], words: list[str], rules: str | Path, limit: float | None = None) -> float | None:
    """Peak memory of one run in MiB by GNU time, or None without it. (Of a child of Python, Python's own would count.)"""
    clock = shutil.which("time")
    if clock is None:
        return None
    with tempfile.NamedTemporaryFile("r") as told:
        run([clock, "-q", "-f", "%M", "-o", told.name] + command, words, rules, limit)
        lines = told.read().split()
    return int(lines[-1]) / 1024 if lines else None


def turn_about(
    contestants: dict[str, list[str]], row: tuple[list[str], str | Path], base: tuple[list[str], str | Path], given: argparse.Namespace
) -> dict[str, Timed]:
    """Times a row, its words and rules, for each program. In each round every program runs the base and then the row;
    the time is the middle of the differences. A program that gives no answer is not run again."""
    found: dict[str, Timed] = {}
    times: dict[str, list[float]] = {name: [] for name in contestants}
    for _ in range(given.runs):
        for name, command in contestants.items():
            if name in found and found[name].status != 0:
                continue
            less = run(command, *base, given.limit).seconds
            found[name] = run(command, *row, given.limit)
            times[name].append(found[name].seconds - less)
    return {name: Timed(one.status, one.output, statistics.median(times[name])) for name, one in found.items()}


def why_not(one: Timed) -> str:
    """What is printed of a program that gave no answer."""
    if one.status is None:
        return "given up"
    return f"status {one.status} {one.output[:60].decode(errors='replace').strip()}"


def print_row(row: str, found: dict[str, Timed], notes: dict[str, str] | None = None) -> bool:
    """One line: the time of each program with a note, and how they compare. Tells whether all answers are the same."""
    parts = []
    for name, one in found.items():
        told = f"{one.seconds * 1e3:.2f} ms" if one.status == 0 else why_not(one)
        parts.append(f"{name} {told}{(notes or {}).get(name, '')}")
    answers = [one for one in found.values() if one.status == 0]
    if len(answers) == 2:
        if min(one.seconds for one in answers) > 0.0002:
            parts.append(f"{answers[0].seconds / answers[1].seconds:.3g} times as long")
        parts.append("the same answer" if answers[0].output == answers[1].output else "ANOTHER ANSWER")
    print(f"{row}: " + ", ".join(parts), flush=True)
    return same(found)


def same(found: dict[str, Timed]) -> bool:
    """Whether all that answered gave one answer."""
    return len({one.output for one in found.values() if one.status == 0}) <= 1


def finish(all_same: bool) -> NoReturn:
    sys.exit(0 if all_same else 1)
