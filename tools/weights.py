"""What a clean run of the gate takes of the processor, as tools/weights.txt has it.

A line `NAME proof tests edits builds` has the seconds of a crate: of its proof, of its tests, of its wrong bodies, and of what is compiled of it
and linked. A line `PART: SECONDS` has those of another part of .ci/run.
"""

from __future__ import annotations

from dataclasses import dataclass, field
from graphlib import TopologicalSorter
from pathlib import Path

TOP = Path(__file__).resolve().parent.parent
FILE = TOP / "tools" / "weights.txt"
KINDS = ("proof", "tests", "edits", "builds")
HEAD = "# Processor seconds of a clean run: NAME proof tests edits builds, and PART: SECONDS. `tools/budget renew LOG` writes them.\n"


@dataclass
class Weights:
    """Seconds by crate and kind, and by part."""

    crates: dict[str, dict[str, float]] = field(default_factory=dict)
    parts: dict[str, float] = field(default_factory=dict)

    def of(self, crate: str, kind: str) -> float:
        """The seconds of one kind of a crate; 0 where none are known."""
        return self.crates.get(crate, {}).get(kind, 0.0)

    def put(self, crate: str, kind: str, seconds: float) -> None:
        """Notes the seconds of one kind of a crate."""
        self.crates.setdefault(crate, dict.fromkeys(KINDS, 0.0))[kind] = seconds

    def of_kind(self, kind: str) -> float:
        """The seconds of one kind of all crates."""
        return sum(kinds.get(kind, 0.0) for kinds in self.crates.values())

    def whole(self) -> float:
        """All seconds."""
        return sum(map(self.of_kind, KINDS)) + sum(self.parts.values())


def lines_of(text: str) -> list[str]:
    """The lines of a file without what stands behind a `#`, where something is left of them."""
    lines = [line.partition("#")[0].strip() for line in text.splitlines()]
    return [line for line in lines if line]


def parsed(text: str) -> Weights:
    """The weights that a text has."""
    found = Weights()
    for line in lines_of(text):
        part, colon, seconds = line.partition(":")
        if colon:
            found.parts[part] = float(seconds)
        else:
            name, *numbers = line.split()
            for kind, number in zip(KINDS, numbers, strict=True):
                found.put(name, kind, float(number))
    return found


def read() -> Weights:
    """The weights as they are kept, none where there is no file."""
    return parsed(FILE.read_text()) if FILE.is_file() else Weights()


def written(weights: Weights) -> str:
    """The text that has these weights."""
    crates = [" ".join([name, *(f"{kinds.get(kind, 0.0):.0f}" for kind in KINDS)]) for name, kinds in weights.crates.items()]
    parts = [f"{part}: {seconds:.0f}" for part, seconds in weights.parts.items()]
    return HEAD + "".join(f"{line}\n" for line in [*crates, *parts])


def crates_named() -> list[str]:
    """The crates of crates.txt, in its order."""
    heads = [line.partition(":") for line in lines_of((TOP / "crates.txt").read_text())]
    return [head.split()[0] for head, colon, _ in heads if colon]


def below() -> dict[str, list[str]]:
    """The crates that each crate stands on, which come before it, as crates.txt has them."""
    heads = [line.partition(":") for line in lines_of((TOP / "crates.txt").read_text())]
    named = {head.split()[0]: rest.split() for head, colon, rest in heads if colon}
    on = {name: [each for each in each_on if each in named] for name, each_on in named.items()}
    return {name: on[name] for name in TopologicalSorter(on).static_order()}


def slack(weights: Weights, on: dict[str, list[str]]) -> dict[tuple[str, str], float]:
    """By how many seconds each proof, and the tests of each crate, may end later than they could without a longer chain. What is built
    follows on a proof; the tests of a crate wait for what is below it alone."""
    end: dict[str, float] = {}
    for name, lower in on.items():
        end[name] = max((end[each] for each in lower), default=0.0) + weights.of(name, "proof")
    after = {name: weights.of(name, "builds") for name in on}
    tested = {name: end[name] - weights.of(name, "proof") + weights.of(name, "tests") for name in on}
    for name in reversed(on):
        for each in on[name]:
            after[each] = max(after[each], weights.of(name, "proof") + after[name], weights.of(name, "tests"))
    whole = max([*(end[name] + after[name] for name in on), *tested.values()], default=0.0)
    found = {(name, "proof"): whole - end[name] - after[name] for name in on}
    return found | {(name, "tests"): whole - tested[name] for name in on}


def keep(weights: Weights) -> None:
    """Writes the weights of the crates that are there, in the order of crates.txt, and of the parts."""
    crates = {name: weights.crates[name] for name in crates_named() if name in weights.crates}
    FILE.write_text(written(Weights(crates, weights.parts)))
