"""What the scripts beside this file share that use the program as nobody should: the texts, the runs, and what a lawful
reply is."""
import argparse
import os
import re
import resource
import subprocess
import sys
import tempfile
from collections.abc import Callable
from dataclasses import dataclass
from pathlib import Path

TOP = Path(__file__).resolve().parent.parent
STATUSES = {"answer": 0, "misuse": 1, "refusal": 2, "memory": 3, "device": 4}
TEXT_LIMIT = 1_048_576
OPEN_LIMIT = 100
NAME = rb"[!#-'*-:<-@\[-{}~]{1,255}"
SPACES = b"\t\n\x0b\x0c\r "
COUNT = rb"(?:0|[1-9][0-9]*)"
PLACE = rb"[1-9][0-9]*"
TREE = rb"[^\n]+"

# The refusals of each layer (@ is a count, # a number from 1 on, & a tree), and the layers that a command can meet.
REFUSALS = {
    "text": rb"K1 TooLong|K2 BadByte @|K3 TooDeep @|K4 Unclosed @|K5 Unopened @|K6 NameTooLong @",
    "rules": rb"G1 BadForm #|G2 BadKeyword #|G3 Unsafe #|G4 Recursive #|G5 BadDependence #|G6 NoRole"
    rb"|G7 TooMany # (?:rules|variables|alternatives|roles)",
    "limits": rb"N1 TooMany (?:base|inputs|instances|text)",
    "role": rb"S1 NoSuchRole",
    "history": rb"H1 BadForm @|H2 NotLegal # &|H3 Over #|H4 Stuck #",
    "whole": rb"U1 NotStratified #|U2 TooMany (?:facts|instances|layers|items|text)|U3 Unstated #",
}
LAYERS = {
    "show": ["text"],
    "check": ["text", "rules"],
    "net": ["text", "rules", "limits"],
    "moves": ["text", "rules", "limits", "history"],
    "state": ["text", "rules", "limits", "history"],
    "solve": ["text", "rules", "limits", "role", "history"],
    "values": ["text", "rules", "limits", "role", "history"],
}
COUNTS = {"net": [b"base", b"inputs", b"instances", b"dropped", b"nodes"]}


def description(name: str) -> bytes:
    """The text of a game of games/, without the comments at its head."""
    lines = (TOP / "games" / f"{name}.kif").read_bytes().split(b"\n")
    return b"\n".join(line for line in lines if not line.startswith(b";")).rstrip(b"\n")


MATCH = description("matching_pennies")
FOUR = description("four_moves")
MARKS = description("tic_tac_toe")


@dataclass
class Told:
    """What one run told. The status is negative for a signal, and None where the run was given up."""

    status: int | None
    output: bytes
    errors: bytes
    seconds: float

    def __str__(self) -> str:
        return f"status {self.status}, output {self.output[:200]!r}, errors {self.errors[:200]!r}"


def options(about: str | None) -> argparse.ArgumentParser:
    """The options that each script has; a script adds its own."""
    words = argparse.ArgumentParser(description=about)
    words.add_argument("--program", metavar="COMMAND", help="the program to run, in place of the proved one")
    words.add_argument("--limit", metavar="SECONDS", type=float, default=60, help="a longer run is a fault")
    resource.setrlimit(resource.RLIMIT_CORE, (0, 0))
    words.add_argument("--without", metavar="WORD", action="append", default=[], help="leave out what has this word")
    return words


def run(
    command: list[str], words: list[str], text: bytes, limit: float = 60, memory: int | None = None, env: dict[str, str] | None = None
) -> Told:
    """One run over a text, with at most so many bytes of address space: what it told, and its processor time."""
    within = (lambda most: lambda: resource.setrlimit(resource.RLIMIT_AS, (most, most)))(memory) if memory else None
    with tempfile.TemporaryFile() as rules:
        rules.write(text)
        rules.seek(0)
        before = resource.getrusage(resource.RUSAGE_CHILDREN)
        known, pipe = {**os.environ, **(env or {})}, subprocess.PIPE
        try:
            done = subprocess.run(command + words, timeout=limit, preexec_fn=within, stdin=rules, stdout=pipe, stderr=pipe, env=known)
        except subprocess.TimeoutExpired:
            return Told(None, b"", b"", limit)
        after = resource.getrusage(resource.RUSAGE_CHILDREN)
    seconds = after.ru_utime + after.ru_stime - before.ru_utime - before.ru_stime
    return Told(done.returncode, done.stdout, done.stderr, seconds)


def linked(objects: Path, folder: Path) -> Path:
    """The program of these objects over the heap that counts and refuses, in a folder."""
    kit = Path(subprocess.run(["rt", "doc"], stdout=subprocess.PIPE, text=True, check=True).stdout.strip()).parent
    made = folder / "program"
    heap = TOP / "tests" / "refusing_heap.c"
    wraps = "-Wl,--wrap=pthread_create,--wrap=_exit"
    words = ["cc", "-O1", wraps, "-o", str(made), str(objects), str(heap), f"{kit}/c/libos_c.a", "-lpthread"]
    subprocess.run(words, check=True)
    return made


def run_counted(made: Path, words: list[str], text: bytes, limit: float, refused: dict[str, str]) -> tuple[Told, dict[str, int]]:
    """One run over the heap that counts, with what it is to refuse: what it told, and the counts."""
    told_in = made.parent / "told"
    told_in.unlink(missing_ok=True)
    told = run([str(made)], words, text, limit, env={"REFUSE_TELL": str(told_in), **refused})
    counts = [int(word) for word in told_in.read_text().split()] if told_in.exists() else []
    if len(counts) != 4 and told.status is not None and told.status >= 0:
        sys.exit(f"the heap's counts were not written (is the disk full?): {words}: {told}")
    return told, dict(zip(("growths", "threads", "refused", "left"), counts or [0] * 4))


def is_tree(line: bytes) -> bool:
    """Whether a line is the canonical text of one tree."""
    if not re.fullmatch(rb"(?:" + NAME + rb"|[() ])+", line) or re.search(rb"\( | \)|  |\)\(|[^ (]\(|\)[^ )]", line):
        return False
    depth = 0
    for at, byte in enumerate(line):
        depth += (byte == ord("(")) - (byte == ord(")"))
        if not 0 <= depth <= OPEN_LIMIT or (depth == 0 and byte in b") " and at + 1 < len(line)):
            return False
    return depth == 0


def is_refusal(command: str, line: bytes, layers: list[str]) -> bool:
    """Whether a line is a refusal that the command can meet, or one of these layers."""
    forms = b"|".join(REFUSALS[layer] for layer in LAYERS[command] + layers)
    forms = forms.replace(b"@", COUNT).replace(b"#", PLACE).replace(b"&", TREE)
    return re.fullmatch(rb"refused (?:" + forms + rb")", line) is not None


def fits(lines: list[bytes], forms: list[bytes]) -> bool:
    return len(lines) == len(forms) and all(re.fullmatch(form, line) for form, line in zip(forms, lines))


def is_checked(lines: list[bytes]) -> bool:
    counts = [word + b" " + PLACE for word in (b"items", b"alternatives", b"relations")]
    return fits(lines, counts + [rb"roles(?: " + NAME + rb"|(?: " + TREE + rb"))+"])


def is_counted(lines: list[bytes]) -> bool:
    return fits(lines, [word + b" " + COUNT for word in COUNTS["net"]])


def is_moved(lines: list[bytes]) -> bool:
    """Whether lines tell a state: its goals, or its legal moves in printed order for one role after the other."""
    if not lines or lines[0] not in (b"state open", b"state ended", b"state stuck"):
        return False
    if lines[0] == b"state ended":
        goals = [re.fullmatch(rb"goal (" + TREE + rb") (0|[1-9][0-9]?|100)", line) for line in lines[1:]]
        return len(goals) > 0 and all(goals)
    legal = [re.fullmatch(rb"legal (" + TREE + rb")", line) for line in lines[1:]]
    rests = [match[1] for match in legal if match]
    return all(legal) and len(rests) == len(set(rests)) and (lines[0] == b"state stuck" or len(rests) > 0)


def is_solved(lines: list[bytes]) -> bool:
    if len(lines) < 2 or not re.fullmatch(rb"value (?:0|[1-9][0-9]?|100)", lines[0]):
        return False
    if lines[1] == b"move none":
        return len(lines) == 2
    numbers = [re.fullmatch(rb"line (" + PLACE + rb") " + TREE, line) for line in lines[2:]]
    counted = all(match and int(match[1]) == at for at, match in enumerate(numbers, 1))
    return re.fullmatch(rb"move " + TREE, lines[1]) is not None and 1 <= len(numbers) <= 64 and counted


def is_standing(lines: list[bytes]) -> bool:
    """Whether lines tell a state by what holds in it, in printed order."""
    held = [re.fullmatch(rb"true (" + TREE + rb")", line) for line in lines[1:]]
    texts = [match[1] for match in held if match]
    return lines[0] in (b"state open", b"state ended", b"state stuck") and all(held) and texts == sorted(set(texts))


def are_values(lines: list[bytes]) -> bool:
    """Whether lines tell what each move makes sure of, with or without the line behind it, or the value where there is no turn to come."""
    if len(lines) == 2 and lines[1] == b"move none":
        return is_solved(lines)
    rows = [line for line in lines if not line.startswith(b"line ")]
    told = [re.fullmatch(rb"value (?:0|[1-9][0-9]?|100) (" + TREE + rb")", line) for line in rows]
    texts = [match[1] for match in told if match]
    number, behind = 0, True
    for line in lines:
        number = number + 1 if line.startswith(b"line ") else 0
        behind = behind and (number == 0 or re.fullmatch(rb"line %d " % number + TREE, line) is not None)
    return lines[:1] == rows[:1] != [] and behind and all(told) and texts == sorted(set(texts))


def is_deepened(lines: list[bytes]) -> bool:
    """Whether lines tell a value depth by depth, at the end perhaps that it is settled."""
    told = lines[:-1] if lines[-1:] == [b"settled"] else lines
    starts = [at for at, line in enumerate(told) if line.startswith(b"depth ")]
    parts = [told[start:end] for start, end in zip(starts, [*starts[1:], len(told)])]
    numbered = all(part[0] == b"depth %d" % number for number, part in enumerate(parts, 1))
    return starts[:1] == ([0] if lines else []) and numbered and all(is_solved(part[1:]) for part in parts)


def is_found(lines: list[bytes]) -> bool:
    """Whether lines tell a value, or which bound of a window it does not pass."""
    if len(lines) == 1:
        return re.fullmatch(rb"at-most (?:0|[1-9][0-9]?|100)|at-least (?:0|[1-9][0-9]?|100|101)", lines[0]) is not None
    if len(lines) == 2 and lines[0].startswith(b"at-least "):
        return is_found(lines[:1]) and re.fullmatch(rb"move " + TREE, lines[1]) is not None
    return is_solved(lines)


ANSWERS: dict[str, Callable[[list[bytes]], bool]] = {
    "show": lambda lines: all(map(is_tree, lines)),
    "check": is_checked,
    "net": is_counted,
    "moves": is_moved,
    "state": is_standing,
    "solve": lambda lines: is_found(lines) or is_deepened(lines),
    "values": are_values,
}


def explains(refusal: bytes, errors: bytes) -> bool:
    """Whether the errors begin as an explanation of a refusal does: with a place, and the number and name of the fault."""
    name = b" ".join(refusal.split()[:3])
    return re.match(rb"(<input>|--after|--role)(:" + PLACE + rb":" + PLACE + rb")?: " + re.escape(name) + rb": ", errors) is not None


def warns(errors: bytes) -> bool:
    """Whether each line of the errors is a warning, or says of how many more items there is one."""
    line = rb"<input>:(" + PLACE + rb":" + PLACE + rb":)? warning: [^\n]+\n|  and of [^\n]+\n"
    return re.fullmatch(rb"(?:" + line + rb")*", errors) is not None


def unlawful(command: str, told: Told, is_whole: bool = False) -> str | None:
    """Why a reply to a command, with `--whole` or without it, is none of the lawful ones, or None."""
    if told.status is None:
        return "given up"
    if told.status not in STATUSES.values():
        return "no status of the program"
    if told.status in (0, 2):
        if told.errors and not (warns(told.errors) if told.status == 0 else explains(told.output, told.errors)):
            return "errors beside a reply"
        if told.output and not told.output.endswith(b"\n"):
            return "no line end"
        lines = told.output.split(b"\n")[:-1]
        if told.status == 2:
            return None if len(lines) == 1 and is_refusal(command, lines[0], ["whole"] * is_whole) else "no refusal"
        return None if ANSWERS[command](lines) else "no answer"
    if told.status == 1:
        return "words beside output" if told.output or not told.errors else None
    if told.status == 3:
        return None if not told.output and told.errors == b"no memory\n" else "other words for want of memory"
    return None if told.errors in (b"read fault\n", b"write fault\n") else "other words for a device's fault"


def trees_of(text: bytes) -> tuple[int, bytes]:
    """What `show` tells of a text without a stray byte, a long name, an unopened or a deep list: the canonical text of
    each tree, one a line, or the first bracket that nothing closes."""
    opened: list[int] = []
    lines: list[bytes] = []
    tree = b""
    for token in re.finditer(rb";[^\n]*|[()]|[^\s();]+", text):
        word = token[0].lower()
        if word.startswith(b";"):
            continue
        if word == b")":
            opened.pop()
        elif tree and not tree.endswith(b"("):
            tree += b" "
        tree += word
        if word == b"(":
            opened.append(token.start())
        if not opened:
            lines.append(tree)
            tree = b""
    if opened:
        return 2, b"refused K4 Unclosed %d\n" % opened[0]
    return 0, b"".join(line + b"\n" for line in lines)
