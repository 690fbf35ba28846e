"""Wrong bodies of a crate: what an edit changes and in which functions, what a check says of it, and the sum that its verdict rests on.

An edit is a text with a line `file: PATH` and then pairs of lines `old: TEXT` and `new: TEXT`, one line each. PATH is below src/, specs/ or
proofs/ of the crate, and the old text stands there exactly once, as the pairs before it left the file. No other line is read.
"""

from __future__ import annotations

import hashlib
import os.path
import re
from collections.abc import Callable, Iterable, Iterator, Sequence
from dataclasses import dataclass
from enum import Enum
from functools import cache
from pathlib import Path

PARTS = ["src", "specs", "proofs"]
FOLDERS = tuple(f"{part}/" for part in PARTS)
WORDS_BEFORE = r"(?P<pub>pub )?(?:pub\([^)]*\) )?(?:default )?(?P<const>const )?(?:unsafe )?(?:extern \"C\" )?"
HEAD = re.compile(rf"(?P<indent> *){WORDS_BEFORE}fn (?P<name>\w+)")
BLOCK = re.compile(r"(?P<indent> *)(?:pub(?:\([^)]*\))? )?(?:unsafe )?(?P<kind>impl|trait)\b")
COMMENT = re.compile(r"^ *//.*\n?| +//[^\"\n]*$", re.MULTILINE)


class BadEdit(Exception):
    """Why an edit cannot be applied."""


@dataclass(frozen=True)
class Change:
    """A text of one line that takes the place of another, which stands once in a file."""

    path: str
    old: str
    new: str


@dataclass(frozen=True)
class Edit:
    """A wrong body: its name, and the text that says what it changes."""

    name: str
    text: str

    def changes(self) -> list[Change]:
        """What is changed, in this order."""
        path, old, found = "", "", list[Change]()
        for line in self.text.split("\n"):
            if line.startswith("file: "):
                path = below_parts(line.removeprefix("file: ").strip())
            elif line.startswith("old: "):
                old = line.removeprefix("old: ")
            elif line.startswith("new:"):
                if not path or not old:
                    raise BadEdit("a 'new:' line stands before any 'file:' or 'old:' line")
                found.append(Change(path, old, line.removeprefix("new:").removeprefix(" ")))
                old = ""
        if not found:
            raise BadEdit("it has no 'old:' and 'new:' pair")
        return found


def below_parts(path: str) -> str:
    """A path, which has to be below one of the parts of a crate."""
    if os.path.normpath(path) != path or not path.startswith(FOLDERS):
        raise BadEdit("a 'file:' line names no file below src/, specs/ or proofs/")
    return path


class Texts:
    """The files of a crate as the edits leave them that were applied so far."""

    def __init__(self, folder: Path) -> None:
        self.folder = folder
        self.changed: dict[str, str] = {}

    def text(self, path: str) -> str:
        """The text of a file."""
        if path in self.changed:
            return self.changed[path]
        try:
            return (self.folder / path).read_text(encoding="utf-8")
        except (OSError, ValueError) as error:
            raise BadEdit(f"there is no file {path} that can be read") from error

    def place(self, change: Change) -> int:
        """Where the old text of a change begins."""
        text = self.text(change.path)
        found = text.count(change.old)
        if found != 1:
            raise BadEdit(f"an 'old:' text is in {change.path} {found} times, and not once")
        return text.index(change.old)

    def apply(self, edit: Edit) -> None:
        """Applies an edit whole, or nothing of it."""
        before = dict(self.changed)
        try:
            was = {change.path: self.text(change.path) for change in edit.changes()}
            for change in edit.changes():
                self.place(change)
                self.changed[change.path] = self.text(change.path).replace(change.old, change.new)
            if all(self.changed[path] == text for path, text in was.items()):
                raise BadEdit("it changes nothing (an 'old:' and a 'new:' text are one line each, and no other line is read)")
        except BadEdit:
            self.changed = before
            raise


@dataclass(frozen=True)
class Function:
    """A function by the file that it stands in, the types that its impl names, if any, its name, and that of its cycle of calls, if any."""

    path: str
    owner: str
    trait: str
    name: str
    cycle: str = ""

    def module(self) -> list[str]:
        """The names of its module below the crate."""
        names = list(Path(self.path).with_suffix("").parts[1:])
        return [] if names in (["lib"], ["main"]) else names

    def has_owner(self, word: str) -> bool:
        """Whether a part of a printed path is that of its impl: the type, or for a trait the type and the trait in one word."""
        if self.trait:
            return word.endswith(self.trait) and word.startswith((self.owner, "Any"))
        return word == self.owner


@dataclass(frozen=True)
class Span:
    """A function with the lines of its text: its head, and its body between both braces. A hidden one cannot be named outside its crate."""

    owner: str
    trait: str
    name: str
    cycle: str
    is_hidden: bool
    is_const: bool
    head: int
    opens: int
    closes: int

    def function(self, path: str) -> Function:
        """The function, in this file."""
        return Function(path, self.owner, self.trait, self.name, self.cycle)


def last_name(text: str) -> str:
    """The last name of a path without its arguments."""
    found = re.match(r"[&\s]*(?:mut )?(?:dyn )?([\w:]+)", text.strip())
    return found[1].split("::")[-1] if found else ""


def without_arguments(text: str) -> str:
    """A text without what stands between angle brackets."""
    before = ""
    while before != text:
        before, text = text, re.sub(r"(?<!-)<[^<>]*>", "", text)
    return text


def named_by(head: str) -> tuple[str, str]:
    """The type of an impl and its trait, if any; or the name of a trait."""
    words = without_arguments(head.replace("->", "")).partition("{")[0].partition(" where ")[0]
    words = re.sub(r"^\s*(?:pub(?:\([^)]*\))? )?(?:unsafe )?(?:impl|trait)\b", "", words)
    trait, has_trait, owner = words.partition(" for ")
    return (last_name(owner), last_name(trait)) if has_trait else (last_name(words.partition(":")[0]), "")


def end_of(lines: Sequence[str], at: int, indent: str) -> int:
    """The line that closes what is opened on a line before, at this indentation."""
    return next((number for number in range(at, len(lines)) if lines[number] == indent + "}"), len(lines) - 1)


def body_of(lines: Sequence[str], at: int, indent: str) -> tuple[int, int]:
    """The lines of both braces of the function whose head is on this line, both that of its end where it has no body, or one of one line."""
    for number in range(at, len(lines)):
        line = lines[number]
        own = line.startswith(indent) and not line.startswith(indent + " ")
        if own and line.endswith("{"):
            return number, end_of(lines, number + 1, indent)
        if line.endswith(";") or own and (line.endswith("{}") or number == at and line.endswith("}")):
            return number, number
    return at, at


def cycle_above(lines: Sequence[str], at: int) -> str:
    """The cycle of calls that the attributes above the head of a function name, or nothing."""
    for line in reversed(lines[:at]):
        if not line.lstrip().startswith(("#[", "//")):
            return ""
        if found := re.match(r" *#\[cycle\((\w+)", line):
            return found[1]
    return ""


def spans(text: str) -> list[Span]:
    """The functions of a file that `rt fmt` laid out."""
    lines, found, number = text.split("\n"), list[Span](), 0
    owner, trait, until, is_open = "", "", -1, False
    while number < len(lines):
        block, head = BLOCK.match(lines[number]), HEAD.match(lines[number])
        if number > until:
            owner, trait, is_open = "", "", False
        if block:
            opens = next((each for each in range(number, len(lines)) if lines[each].endswith(("{", "}"))), number)
            owner, trait = named_by(" ".join(lines[number : opens + 1]))
            is_open = bool(trait) or block["kind"] == "trait"
            until = opens if lines[opens].endswith("}") else end_of(lines, opens, block["indent"])
            number = opens
        elif head:
            opens, closes = body_of(lines, number, head["indent"])
            is_hidden, cycle = not head["pub"] and not is_open, cycle_above(lines, number)
            found.append(Span(owner, trait, head["name"], cycle, is_hidden, bool(head["const"]), number, opens, closes))
            number = closes
        number += 1
    return found


def function_at(text: str, path: str, start: int, end: int) -> Function | None:
    """The function in whose body these characters stand, if it is one."""
    first, last = text.count("\n", 0, start), text.count("\n", 0, end)
    for span in spans(text):
        if span.opens < first and last < span.closes:
            return span.function(path)
    return None


def functions_of(edit: Edit, folder: Path) -> frozenset[Function]:
    """The functions in whose bodies an edit stands: none where a part of it stands in no body."""
    found, texts = set[Function](), Texts(folder)
    for change in edit.changes():
        start, text = texts.place(change), texts.text(change.path)
        function = function_at(text, change.path, start, start + len(change.old))
        if function is None or not change.path.endswith(".rt"):
            return frozenset()
        found.add(function)
        texts.changed[change.path] = text.replace(change.old, change.new)
    return frozenset(found)


def companions(functions: Iterable[Function], folder: Path) -> list[Function]:
    """The functions of the cycles of calls that these are in, which have one proof."""
    cycles = {(function.path, function.cycle) for function in functions if function.cycle}
    return [
        span.function(path)
        for path in sorted({path for path, _ in cycles})
        for span in spans((folder / path).read_text(encoding="utf-8"))
        if (path, span.cycle) in cycles
    ]


def contracts(text: str) -> str:
    """A file of code without comments, bodies and functions that are hidden. A `const fn` stays whole, as a constant may be made by it."""
    lines = text.split("\n")
    for span in reversed(spans(text)):
        if span.is_hidden and not span.is_const:
            del lines[span.head : span.closes + 1]
        elif not span.is_const and span.opens < span.closes:
            del lines[span.opens + 1 : span.closes]
    return "\n".join(line for line in COMMENT.sub("", "\n".join(lines)).split("\n") if line.strip())


def files_of(folder: Path, parts: Iterable[str]) -> Iterator[tuple[str, Path]]:
    """The files of these parts of a crate with their paths in it, in a fixed order."""
    for part in parts:
        for file in sorted((folder / part).rglob("*")):
            if file.is_file():
                yield file.relative_to(folder).as_posix(), file


@cache
def crates_beside(folder: Path) -> re.Pattern[str]:
    """What names a crate that stands beside this one, or this one, at the beginning of a path."""
    names = "|".join(sorted(re.escape(each.name) for each in folder.parent.iterdir() if each.is_dir()))
    return re.compile(rf"(?<![\w:.])(?:crate|{names})::(?:[a-z_]\w*::)*(?=[\w{{])|\bRattle\.(?:{names})\.(?:[\w-]+\.)+(?=[^\s.}}])")


# What hands names on or lists modules; and what takes names, in code and in definitions and proofs.
LISTED = re.compile(r"^ *(?:pub )?mod \w+;?$|^ *pub use [^;{]*(?:\{[^}]*\})?;$", re.MULTILINE)
TAKEN = re.compile(r"^ *(?:ghost )?use ([^;]*);$", re.MULTILINE)
TAKEN_BY_PROOFS = re.compile(r"^(?:unfoldable |pub )*use ([^\n]*(?:\n[ \t}][^\n]*)*)$", re.MULTILINE)
COMMA_AT_END = re.compile(r",(?= [)}\]>])")


def names_taken(words: str) -> list[str]:
    """What one `use` takes, each with the path in front of it."""
    front, _, names = words.partition("{")
    return [front + " ".join(name.split()) for name in names.rstrip("} \n").split(",") if name.strip()] or [front]


def without_places(path: str, text: str, crates: re.Pattern[str]) -> str:
    """A file without what says in which crate and module things stand: which names it takes is left, and not from where. So a crate can be
    renamed or moved into another, and what was refused above it stays so. How lines are broken is left out as well."""
    taking = TAKEN if path.endswith(".rt") else TAKEN_BY_PROOFS
    text = crates.sub("", LISTED.sub("", text))
    taken = {name for found in taking.finditer(text) for name in names_taken(found[1])}
    words = " ".join(taking.sub("", text).split())
    return f"{' '.join(sorted(taken))}\n{COMMA_AT_END.sub('', words)}"


@cache
def sum_of_files(folder: Path) -> bytes:
    """A sum of all that a crate is proved from, without the names of crates."""
    made, crates = hashlib.sha256(), crates_beside(folder)
    for path, file in files_of(folder, PARTS):
        content = without_places(path, file.read_bytes().decode(), crates).encode()
        made.update(f"{path}\0{len(content)}\0".encode() + content)
    return made.digest()


@cache
def sums_of_contracts(folder: Path) -> tuple[bytes, ...]:
    """The sums of what the crates above can see of each file of a crate: its definitions, or the contracts of its code."""
    found, crates = list[bytes](), crates_beside(folder)
    for path, file in files_of(folder, ["src", "specs"]):
        text = file.read_bytes().decode()
        found.append(hashlib.sha256(without_places(path, contracts(text) if path.endswith(".rt") else text, crates).encode()).digest())
    return tuple(found)


def sum_of_edit(edit: Edit, folder: Path, below: Iterable[Path], kit: bytes) -> str:
    """The sum of all that the verdict on an edit rests on: the kit's line, the crate, the contracts of those below it, and the edit."""
    made = hashlib.sha256(kit + sum_of_files(folder))
    for each in sorted({one for crate in below for one in sums_of_contracts(crate)}):
        made.update(each)
    made.update(edit.text.encode())
    return made.hexdigest()


class Kind(Enum):
    """What a check of a crate with edits says of one of them."""

    REFUSED = "refused"
    BAD = "BAD EDIT"
    MISSED = "NOT REFUSED"
    UNSURE = "NOT TRIED"
    UNTOLD = "not told apart"


@dataclass(frozen=True)
class Told:
    """What is said of an edit, and why."""

    kind: Kind
    why: str = ""


@dataclass(frozen=True)
class Output:
    """What a check of a crate wrote, and its status."""

    crate: str
    status: int
    text: str

    def lines(self) -> list[str]:
        """The lines that it wrote."""
        return self.text.rstrip("\n").split("\n")

    def verdicts(self) -> dict[str, str]:
        """What it says of each function, by the function's printed path below the crate."""
        found = (re.match(rf"fn {self.crate}::(\S+): (.*)", line) for line in self.lines())
        return {each[1]: each[2] for each in found if each}

    def note_of(self, symbol: str) -> str:
        """The first note that it printed for a function, whose notes stand right above its verdict."""
        notes = ""
        for line in self.lines():
            if line.startswith("note: src/"):
                notes = notes or line
            elif line.startswith("fn "):
                if line.startswith(f"fn {self.crate}::{symbol}: "):
                    return notes
                notes = ""
        return ""

    def is_refused(self) -> bool:
        """Whether it reached the prover, which refused the crate."""
        return self.status == 1 and self.lines()[-1].startswith("logic=not-proved")

    def first_reason(self) -> str:
        """The first line that says why the crate is not proved."""
        told = [line for line in self.lines() if re.match(r"(note: )?\S+:\d+:\d+:", line)]
        told = [line for line in told if ": error" in line or line.startswith("note: ")] or told
        names = r"(note: )?(\./)?proofs/.*(has no field|is not in scope|has no `|was not admitted)"
        return next((line for line in told if not re.match(names, line)), next(iter(told), ""))


def is_own_failure(words: str) -> bool:
    """Whether a function is not proved for its own sake, and not only since what it calls or passes on, or another of its cycle of calls, is not."""
    if words.startswith("no proof: expected answers"):
        return True
    return words.startswith(("not proved", "no proof")) and not re.search(r"\b(it calls|it passes|a call of|of this cycle of calls)\b", words)


def is_of(symbol: str, function: Function) -> bool:
    """Whether a printed path below the crate is that of the function, or of a closure in it."""
    words = [word.lstrip("+") for word in symbol.split("::")]
    is_closure, words = "fn" in words, [word for word in words if word != "fn"]
    if not function.owner:
        whole = [*function.module(), function.name]
        return words[: len(whole)] == whole and (is_closure or len(words) == len(whole))
    ends = range(1, len(words)) if is_closure else range(len(words) - 1, len(words))
    return any(words[end] == function.name and function.has_owner(words[end - 1]) for end in ends)


def unread(line: str, changed: Iterable[str]) -> bool:
    """Whether a line says that a text of src/ or specs/, or a changed file, could not be read. An edit that makes a statement false reads well."""
    at = re.match(r"(?:\./)?(\S+?):\d+:\d+: error: (?:(`[^`]*`): )?(.*)", line)
    if not at or at[1] not in changed and not at[1].startswith(("src/", "specs/")):
        return False
    said = re.sub(r"`[^`]*`", "", at[3])
    return not at[2] or bool(re.search(r"is not in scope|has no field|is no name|operand is missing|expected the end|cannot continue", said))


# The prover's words for a limit of its own, which it meets wherever it checks the same, and the kit's for a library that was made anew.
LIMITS = re.compile(
    r"antt ran out of (stack|the (steps|memory) that the check of one declaration may (take|use))"
    r"|(outgrew the memory limit|stopped at the step limit) \("
)
STALE = re.compile(r"module .Rattle-(\w+)-.*Run the lower steps again")


def judged_alone(output: Output, changed: Iterable[str]) -> Told:
    """What a check of a crate with one edit says of it."""
    lines = output.lines()
    bad = next((line for line in lines if unread(line, changed)), "")
    if bad and output.status == 1:
        return Told(Kind.BAD, f"the prover cannot read the edited text, so no contract was tried: {bad}")
    if STALE.search(output.text):
        return Told(Kind.UNSURE, "the kept work of a library could not be used")
    if output.is_refused():
        return Told(Kind.REFUSED, output.first_reason())
    if output.status == 0:
        return Told(Kind.MISSED, "the crate is still proved with it")
    limit = next((line for line in lines if LIMITS.search(line)), "")
    if output.status == 3 and limit:
        return Told(Kind.REFUSED, f"only by a limit of the prover: {limit}")
    fault = next((line for line in lines if re.search(r"\berror\[[\w-]+\]", line)), "")
    if output.status == 1 and fault:
        return Told(Kind.BAD, f"it did not reach the prover: {fault}")
    return Told(Kind.UNSURE, f"its check ended with status {output.status}: {lines[-1]}")


def reason_of(output: Output, functions: Iterable[Function]) -> str:
    """Why one of these functions is not proved for its own sake, or nothing."""
    known = list(functions)
    for symbol, words in output.verdicts().items():
        if is_own_failure(words) and any(is_of(symbol, function) for function in known):
            return output.note_of(symbol) or f"fn {output.crate}::{symbol}: {words}"
    return ""


def strangers(output: Output, functions: Iterable[Function]) -> list[str]:
    """The functions that are not proved for their own sake, and are none of these."""
    known = list(functions)
    own = [symbol for symbol, words in output.verdicts().items() if is_own_failure(words)]
    return [symbol for symbol in own if not any(is_of(symbol, function) for function in known)]


def is_still_proved(output: Output, functions: Iterable[Function]) -> bool:
    """Whether all that the check says of these functions is that they are proved."""
    known = list(functions)
    words = [words for symbol, words in output.verdicts().items() if any(is_of(symbol, function) for function in known)]
    return bool(words) and all(each.startswith("proved") for each in words)
