#!/usr/bin/env -S python3 -B
"""Answers many command lines, compiled once and unproved: ./gdlsolve try FILE

A line of FILE has the words of a command, as `solve --role a --depth 3 --rules game.kif`, or `check < game.kif`; it may begin with
`./gdlsolve`. Empty lines, and those that begin with `#`, are passed over. Files are named from the folder of the call. Each line is printed
behind `$`, with what it writes, what it says to people, and its status where that is not 0. The exit status is 70 where some line has no
answer. With --program PROGRAM that answers, and nothing is compiled.
"""

from __future__ import annotations

import argparse
import re
import shlex
import subprocess
import sys
import tempfile
from dataclasses import dataclass
from pathlib import Path

TOP = Path(__file__).resolve().parent.parent
CRATE = TOP / "crates/gdlsolve"
# So long each line may run, in seconds.
LONGEST = 3600
CALLED_WRONGLY, NO_ANSWER = 1, 70
CASE = re.compile(r"^case=(\d+) run=(\S+) status=(\d+) .*$")
# What the kit tells of its own.
OF_KIT = re.compile(r"^(interpreted|checked|races|rt|by-macro|cases=\d+.*)\b.*$")


class Unreadable(Exception):
    """Why a line cannot be answered."""


@dataclass(frozen=True)
class Line:
    """A line, its words without the file of rules, and the rules."""

    text: str
    words: list[str]
    rules: bytes


@dataclass
class Told:
    """What a line writes, what it says to people, and its status; none where it has not ended."""

    output: str = ""
    errors: str = ""
    status: int | None = None


def valued() -> set[str]:
    """The options that have a value, by the pages of help."""
    return set(re.findall(r"(--[a-z-]+) <", "".join(page.read_text() for page in (TOP / "docs/help").glob("*.txt"))))


def line_of(text: str, folder: Path) -> Line:
    """The line of a text, whose files are named from a folder."""
    words, left, file = shlex.split(text), list[str](), ""
    words = words[1:] if words and words[0].endswith("gdlsolve") else words
    rest, with_value = iter(words), valued()
    for word in rest:
        if word in ("<", "--rules"):
            file = next(rest, "")
        elif word.startswith("--rules="):
            file = word.removeprefix("--rules=")
        elif word in ("|", ">", "&&", ";"):
            raise Unreadable(f"{text}: `{word}` is for a shell, and a line has one command")
        else:
            left.append(word)
            left.extend([value for value in [next(rest, None)] if value is not None] if word in with_value else [])
    try:
        return Line(text, left, (folder / file).read_bytes() if file else b"")
    except OSError as fault:
        raise Unreadable(f"{text}: {file}: {fault.strerror}") from None


def lines_of(file: Path) -> list[Line]:
    """The lines of a file that are to be answered."""
    texts = [text.strip() for text in file.read_text().splitlines()]
    return [line_of(text, Path.cwd()) for text in texts if text and not text.startswith("#")]


def by_program(program: Path, line: Line) -> Told:
    """What a program tells of a line."""
    done = subprocess.run([program, *line.words], input=line.rules, capture_output=True, check=False)
    return Told(done.stdout.decode(errors="replace"), done.stderr.decode(errors="replace"), done.returncode)


def of_kit(output: str, errors: str, count: int) -> list[Told]:
    """What the kit told of so many cases: their outputs, each behind its name, and their errors, each before what came of the case."""
    told = [Told() for _ in range(count)]
    parts = re.split(r"^== (\d+)\n", output, flags=re.MULTILINE)
    for name, text in zip(parts[1::2], parts[2::2]):
        told[int(name)].output = text
    said: list[str] = []
    for text in errors.splitlines():
        if found := CASE.match(text):
            case = told[int(found[1])]
            case.errors = "".join(f"{each}\n" for each in said)
            case.status = int(found[3]) if found[2] == "ended" else None
            said = []
        elif not OF_KIT.match(text):
            said.append(text)
    return told


def compiled(lines: list[Line]) -> list[Told]:
    """What the sources tell of lines, compiled as they stand."""
    with tempfile.TemporaryDirectory() as room:
        for number, line in enumerate(lines):
            # The kit takes them by their names.
            (Path(room) / f"{number:06}").write_bytes(line.rules)
            (Path(room) / f"{number:06}.args").write_text("".join(f"{word}\n" for word in line.words))
        words = ["rt", "try", "--seconds", str(LONGEST), "--cases", room]
        done = subprocess.run(words, cwd=CRATE, stdin=subprocess.DEVNULL, capture_output=True, text=True, errors="replace", check=False)
    told = of_kit(done.stdout, done.stderr, len(lines))
    if all(each.status is None for each in told):
        print(done.stderr, end="", file=sys.stderr)
    return told


def show(line: Line, told: Told) -> bool:
    """Prints a line and what came of it. Whether it has ended."""
    print(f"$ ./gdlsolve {line.text.removeprefix('./gdlsolve ')}")
    print(told.output + told.errors, end="")
    if told.status is None:
        print("no answer")
    elif told.status:
        print(f"status {told.status}")
    return told.status is not None


def main() -> int:
    words = argparse.ArgumentParser(description=__doc__, formatter_class=argparse.RawDescriptionHelpFormatter, prog="./gdlsolve try")
    words.add_argument("--program", type=Path, help=argparse.SUPPRESS)
    words.add_argument("file", metavar="FILE", type=Path)
    given = words.parse_args()
    try:
        lines = lines_of(given.file)
    except (Unreadable, OSError, ValueError) as fault:
        print(f"gdlsolve: {fault}", file=sys.stderr)
        return CALLED_WRONGLY
    if given.program:
        told = [by_program(given.program, line) for line in lines]
    else:
        print("gdlsolve: UNPROVED: compiling the sources as they stand, once for all lines, which takes two to four minutes", file=sys.stderr)
        told = compiled(lines)
    return 0 if all([show(line, each) for line, each in zip(lines, told)]) else NO_ANSWER


if __name__ == "__main__":
    sys.exit(main())
