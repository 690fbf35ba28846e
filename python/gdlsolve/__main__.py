"""The command line of the package: the words of the program, a file of rules among them, and two options more.

    gdlsolve COMMAND [OPTIONS] [GAME.kif] [--json]
    gdlsolve solve --role ROLE --time SECONDS [OPTIONS] [GAME.kif] [--json]

Where no file is named the rules come on standard input. `--rules GAME.kif` names one as with the program. The exit statuses are those of
the program.
"""

from __future__ import annotations

import json
import os
import sys
from collections.abc import Callable, Sequence
from dataclasses import asdict, dataclass, replace
from enum import Enum
from pathlib import Path
from typing import Any, NoReturn

from gdlsolve.console import keys
from gdlsolve.console.progress import progress
from gdlsolve.console.streams import StreamFault, on_input, put, say
from gdlsolve.solver import program, unrolled
from gdlsolve.solver.answers import Description, Network, Outside, Position, Solution, Standing, Values
from gdlsolve.solver.deepening import Deepest, deepen
from gdlsolve.solver.engine import Broken, readable
from gdlsolve.solver.faults import Ended, Misuse, Refusal
from gdlsolve.solver.program import ASKS_FOR_HELP
from gdlsolve.solver.replies import Reply, Status, lines_of
from gdlsolve.solver.terms import terms
from gdlsolve.solver.timed import SEARCHES, reply

USAGE = """
With this package a file of rules may stand among the words, also without --rules, else they are read on standard input. Further options:
      --json            Tell the answer, or the refusal, as JSON
      --time <SECONDS>  With solve: deeper and deeper for so long, in place of --depth
      --whole           Take a game as it is found, and have `unroll` write it out first
      --tighten         With --whole: as with `unroll`
"""
# Words that ask for a text, to which no rules are read.
ASKS = {*ASKS_FOR_HELP, "help"}
# Options that have no value.
FLAGS = {"--deepen", "--lines", "--tighten", "--whole"}
# Commands to which a game as it is found is written out.
OVER_RULES = {"check", "moves", "net", "solve", "state", "values"}
STREAM_FAILED = 4
NO_PROGRAM = 70


@dataclass(frozen=True)
class Line:
    """What the words of a command line ask for."""

    words: list[str]
    game: Path | None
    as_json: bool
    seconds: float | None
    whole: bool = False


def _seconds(text: str) -> float:
    """A number of seconds above 0."""
    try:
        found = float(text)
    except ValueError:
        found = 0.0
    if not 0 < found < float("inf"):
        raise Misuse(f"--time takes a number of seconds above 0, and not {text!r}")
    return found


def named(value: str, before: Path | None) -> Path:
    """The file that `--rules` names, where no other is named before."""
    if not value:
        raise Misuse("error: a value is required for '--rules <FILE>' but none was supplied")
    if before is not None:
        raise Misuse("error: the argument '--rules <FILE>' cannot be used with another file of rules")
    return Path(value)


def no_option(word: str) -> str:
    """The word, or nothing where it is an option."""
    return "" if word.startswith("-") else word


def parse(words: Sequence[str]) -> Line:
    """Takes the package's own options and the file of rules out of the words."""
    left: list[str] = []
    game: Path | None = None
    as_json = is_whole = False
    seconds: float | None = None
    rest = iter(words)
    for word in rest:
        name, has_value, value = word.partition("=")
        if word == "--json":
            as_json = True
        elif word == "--whole" and left[:1] != ["serve"]:
            is_whole = True
        elif name == "--time":
            seconds = _seconds(value if has_value else next(rest, ""))
        elif name == "--rules":
            game = named(value if has_value else no_option(next(rest, "")), game)
        elif word.startswith("-"):
            left.append(word)
            if word.startswith("--") and not has_value and word not in ASKS | FLAGS:
                left.extend([further for further in [next(rest, None)] if further is not None])
        elif left and left[0] != "help" and game is None:
            game = Path(word)
        else:
            left.append(word)
    return Line(left, game, as_json, seconds, is_whole)


def findings(lines: Sequence[str]) -> list[dict[str, Any]]:
    """What `lint` finds: each with its line and column."""
    parts = [line.split(":", 2) for line in lines]
    return [{"line": int(line), "column": int(column), "found": found.strip()} for line, column, found in parts]


def is_linted(line: Line, found: Reply) -> bool:
    """Whether a reply has findings of `lint`, and is no refusal."""
    return line.words[:1] == ["lint"] and not found.output.startswith(b"refused ")


def by_depth(lines: Sequence[str]) -> dict[str, Any]:
    """What `solve --deepen` tells: the answer of each depth, and whether the last is settled."""
    depths: list[tuple[int, list[str]]] = []
    for line in lines:
        word, _, number = line.partition(" ")
        if word == "depth":
            depths.append((int(number), []))
        elif line != "settled":
            depths[-1][1].append(line)
    answers = [{"depth": depth, **asdict(Solution.of(answer))} for depth, answer in depths]
    return {"depths": answers, "settled": lines[-1:] == ["settled"]}


def by_move(lines: Sequence[str]) -> dict[str, list[list[str]]]:
    """The lines of play that `values --lines` tells behind each move."""
    found: dict[str, list[list[str]]] = {}
    turns: list[list[str]] = []
    for word, _, *rest in map(terms, lines):
        if word == "line":
            turns.append(rest)
        elif rest:
            found[rest[0]] = turns = []
    return found


def told(words: Sequence[str], output: bytes) -> Any:
    """An answer to words as what JSON can tell."""
    with readable():
        return read(words[0], words, lines_of(output))


def read(command: str, words: Sequence[str], lines: list[str]) -> Any:
    """The same, where it is an answer."""
    if command == "solve" and "--deepen" in words:
        return by_depth(lines)
    if command == "values" and "--lines" in words:
        return {**asdict(Values.of(lines)), "lines": by_move(lines)}
    readers: dict[str, Callable[[list[str]], Any]] = {
        "check": Description.of,
        "net": Network.of,
        "moves": Position.of,
        "state": Standing.of,
        "solve": Outside.of,
        "values": Values.of,
    }
    return asdict(readers[command](lines)) if command in readers else {"trees": lines}


def plain(value: object) -> object:
    """What JSON does not know by itself."""
    if isinstance(value, Enum):
        return value.value
    raise TypeError(f"{value!r} is no part of an answer")


def write_json(value: Any) -> None:
    put(json.dumps(value, default=plain).encode() + b"\n")


def write(line: Line, found: Reply) -> int:
    """Writes a reply as the words ask for, and gives the exit status."""
    if found.status == Status.MISUSE:
        asked = bool(ASKS & set(line.words)) and b"error:" not in found.output
        if not asked:
            say(found.output.decode())
            return int(Status.MISUSE)
        tells_words = "-V" not in line.words and "--version" not in line.words
        put(found.output + (USAGE.encode() if tells_words else b""))
        return 0
    say(found.told())
    if not line.as_json:
        put(found.output)
    elif is_linted(line, found):
        write_json({"findings": findings(lines_of(found.output))})
    elif found.status == Status.REFUSED:
        refusal = Refusal(lines_of(found.output)[0])
        write_json({"refused": refusal.code, "name": refusal.name, "values": refusal.values})
    else:
        write_json(told(line.words, found.output))
    return int(found.status)


def write_deepest(line: Line, found: Deepest) -> int:
    """Writes the deepest answer that was found in time, and gives the exit status."""
    if found.reply.status != Status.ANSWER:
        return write(line, found.reply)
    if found.broken:
        say(f"the search ended before its time: {found.broken}\n")
    if line.as_json:
        write_json({"depth": found.depth, "settled": found.settled, **told(["solve"], found.reply.output)})
    else:
        put(b"depth %d\n%s%s" % (found.depth, found.reply.output, b"settled\n" if found.settled else b""))
    return int(Status.ANSWER)


def rules_of(line: Line) -> bytes:
    """The bytes of the rules."""
    if ASKS & set(line.words) or not line.words:
        return b""
    return on_input() if line.game is None else line.game.read_bytes()


def answered(line: Line, rules: bytes) -> Reply:
    """The reply to the words. How long it takes is told where that may be long."""
    if line.words[:1] not in SEARCHES:
        return reply(line.words, rules)
    with progress(f"{line.words[0]} looks ahead"):
        return reply(line.words, rules)


def written_out(line: Line, rules: bytes) -> tuple[Line, Reply]:
    """What is left of the words once the rules are written out, and the reply that has them so."""
    command = line.words[:1]
    if not OVER_RULES & set(command):
        raise Misuse(f"--whole does not go with {' '.join(command) or 'no command'}")
    left = [word for word in line.words if word != "--tighten"]
    return replace(line, words=left, whole=False), unrolled.reply(rules, len(left) < len(line.words))


def serve(line: Line) -> NoReturn:
    """Becomes the program, which answers requests until its input ends."""
    if line.as_json or line.game is not None or line.seconds is not None:
        raise Misuse("serve takes requests alone")
    command = program.words()
    if not command:
        raise ImportError(f"serve is answered by the program alone: ./gdlsolve --prove builds it, or {program.VARIABLE} names one")
    os.execvp(command[0], [*command, *line.words])


def run(words: Sequence[str]) -> int:
    """Does what the words ask for, and gives the exit status."""
    line = parse(words)
    if line.words[:1] == ["serve"] and not ASKS & set(line.words):
        serve(line)
    rules = rules_of(line)
    if line.whole and not ASKS & set(line.words):
        line, written = written_out(line, rules)
        if written.status != Status.ANSWER:
            return write(line, written)
        rules = written.output
    if line.seconds is None:
        return write(line, answered(line, rules))
    if line.words[:1] != ["solve"]:
        raise Misuse("--time goes with solve")
    with readable():
        found = deepen(line.words, rules, line.seconds)
    return write_deepest(line, found)


@keys.quiet
def main() -> int:
    """The command `gdlsolve` of the package."""
    try:
        return run(sys.argv[1:])
    except Misuse as misuse:
        say(f"{misuse}\n")
        return int(Status.MISUSE)
    except MemoryError:
        say("no memory\n")
        return int(Status.NO_MEMORY)
    except (Ended, Broken, ImportError) as fault:
        say(f"{str(fault) or 'the solver gave no reply'}\n")
        return NO_PROGRAM
    except StreamFault as fault:
        say(f"{fault}\n")
        return STREAM_FAILED
    except OSError as fault:
        say(f"{fault.filename}: {fault.strerror}\n" if fault.filename else f"{fault}\n")
        return STREAM_FAILED


if __name__ == "__main__":
    sys.exit(main())
