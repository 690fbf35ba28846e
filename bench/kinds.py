"""Times the program: bench/time KIND [ROW..]

KIND says what is timed, and `bench/time KIND --help` what it prints and which options it has. Most times are less the start-up, which is the
time of `show` on an empty text."""
from __future__ import annotations

import argparse
import os
import random
import shlex
import statistics
import subprocess
import tempfile
import time
from collections.abc import Callable, Iterator
from itertools import islice, product
from pathlib import Path

from timing import START_UP, add_beside, add_games, add_program, finish, peak, print_row, program, programs, run, same, turn_about, why_not

# The letters of which the names in one text of `check` are made, and how many names it has.
MARKS, WIDE = "abcdefghijklmnopqrstuvwxyz0123456789-_+*/.:!$%&@^~#=<>[]{}", 190_000
# The bytes of the text of `show`, at most.
SHOWN = 1_048_000
CUTS = ["1", "2", "4", "2x4", "16x4", "1x1x1", "2x2x2", "4x4x4"]
# The most of base propositions that there may be is the last of these to the power of four.
NAMES = 8, 13, 16

LINES = [(0, 1, 2), (3, 4, 5), (6, 7, 8), (0, 3, 6), (1, 4, 7), (2, 5, 8), (0, 4, 8), (2, 4, 6)]
# What is changed in games/tic_tac_toe.kif, and what is added.
CHANGES = [
    ("(<= terminal ", "(<= over "),
    ("(true (cell ?x ?y b)) (true (control ?w)))", "(true (cell ?x ?y b)) (true (control ?w)) (not over))"),
    ("(true (cell ?x ?y ?w)) (distinct ?w b))", "(true (cell ?x ?y ?w)) (distinct ?w b) (not over))"),
]
MORE = """(<= (legal ?p noop) (role ?p) over)
(<= (next (cell ?x ?y b)) (index ?x) (index ?y) over)
"""


def middle(command: list[str], words: list[str], rules: str | Path, runs: int) -> float:
    """The middle of the seconds of so many runs, whose output nobody reads."""
    took = []
    for _ in range(runs):
        with open(rules, "rb") as text:
            begun = time.perf_counter()
            subprocess.run(command + words, stdin=text, stdout=subprocess.DEVNULL, stderr=subprocess.DEVNULL, check=False)
            took.append(time.perf_counter() - begun)
    return statistics.median_low(took)


# Of `check`.


def wide_body() -> str:
    """A relation whose body has many atoms, many relations that rest on it, and a cycle of two behind them."""
    names = ("".join(marks) for marks in product(MARKS, repeat=3))
    body = " ".join(islice((name for name in names if name not in ("and", "not")), WIDE))
    return f"(role a)\n(<= wide {body})\n" + "".join(f"(<= h{number} wide)\n" for number in range(4000)) + "(<= one other)(<= other one)\n"


def large() -> str:
    """A description near 1 MiB."""
    bodies = ("".join(f" (q{number % 97 + k} (cell {k} ?x) ?y)" for k in range(11)) for number in range(1, 4096))
    return "(role a)\n" + "".join(f"(<= (p{number} ?x ?y){body})\n" for number, body in enumerate(bodies, 1))


def checked() -> Iterator[tuple[str, str]]:
    """The texts of `check` by their names."""
    yield "items", "(role a)\n" * 4096
    yield "chain", "(role a)\n" + "".join(f"(<= (p{number} ?x) (p{number + 1} ?x))\n" for number in range(1, 4096))
    yield "cycle", "(role a)\n" + "".join(f"(<= (p{number} ?x) (p{number % 4095 + 1} ?x))\n" for number in range(1, 4096))
    yield "shared", wide_body()
    yield "large", large()


def time_check(given: argparse.Namespace) -> bool:
    """Prints how long `check` takes, less the start-up: 4,096 items, a chain of 4,095 relations, a cycle of 4,095, a body of 190,000 atoms on
    which 4,000 relations rest in front of a cycle of two, and a description near 1 MiB."""
    command = program(given.program)
    start = middle(command, ["show"], os.devnull, given.runs)
    with tempfile.TemporaryDirectory() as folder:
        rules = Path(folder) / "rules"
        for name, text in checked():
            rules.write_text(text)
            whole = middle(command, ["check"], rules, given.runs)
            print(f"check {name}: {len(text)} bytes in {(whole - start) * 1e3:.2f} ms", flush=True)
    return True


# Of `show`.


def shown() -> str:
    """A text near 1 MiB, with a comment on each line."""
    dice, lines, size = random.Random(7), list[str](), 0
    while True:
        numbers = [dice.randrange(most) for most in (90, 90, 90, 90, 900)]
        line = "(<= (next (cell {} {} ?w)) (true (cell {} {} ?w)) (distinct ?w b{}))".format(*numbers) + f" ; line {len(lines) + 1}\n"
        size += len(line)
        if size >= SHOWN:
            return "".join(lines)
        lines.append(line)


def time_show(given: argparse.Namespace) -> bool:
    """Prints how many megabytes a second `show` reads and writes: a text near 1 MiB, less the start-up."""
    command, text = program(given.program), shown()
    with tempfile.NamedTemporaryFile("w") as rules:
        rules.write(text)
        rules.flush()
        whole = middle(command, ["show"], rules.name, given.runs)
    start = middle(command, ["show"], os.devnull, given.runs)
    told = f"of which a run on an empty text takes {start * 1e3:.2f} ms: {len(text) / (whole - start) / 1e6:.0f} MB/s"
    print(f"show: {len(text)} bytes in {whole * 1e3:.2f} ms, {told}")
    return True


# Of `solve`.


def time_solve(given: argparse.Namespace) -> bool:
    """Prints how long `solve` takes, less the start-up. A row is the name of a description and the words behind `solve`, as
    'nim --role first --depth 7'; without a row, the first line of each stored solve of the folder is one."""
    rows = given.rows
    if not rows:
        stored = sorted(given.games.glob("*.solve"))
        rows = [path.stem + path.read_text().split("\n", 1)[0].removeprefix("solve") for path in stored]
    contestants = programs(given)
    all_same = True
    for row in rows:
        name, *rest = shlex.split(row)
        found = turn_about(contestants, (["solve"] + rest, given.games / f"{name}.kif"), START_UP, given)
        all_same = print_row(row, found) and all_same
    return all_same


# Of `instantiate`.


def wide(folder: str, names: int) -> Path:
    """A description whose base propositions are all lists of four of so many names."""
    rules = Path(folder) / f"wide_{names}.kif"
    facts = "".join(f"(d {name})" for name in range(names))
    rules.write_text(f"(role a){facts}(<= (base (n ?a ?b ?c ?d)) (d ?a) (d ?b) (d ?c) (d ?d))")
    return rules


def time_instantiate(given: argparse.Namespace) -> bool:
    """Prints how long `moves` takes on each description of a folder, less the start-up, and its peak memory. Nearly all of that time is the
    instantiation of the rules. The last rows are descriptions of 4,096, 28,561 and 65,536 base propositions, the most that there may be."""
    contestants = programs(given)

    def is_same(rules: Path) -> bool:
        """Times and prints a row, and tells whether all answers are the same."""
        found = turn_about(contestants, (["moves"], rules), START_UP, given)
        notes = {}
        for name, command in contestants.items():
            memory = peak(command, ["moves"], rules, given.limit)
            notes[name] = "" if memory is None else f" in {memory:.1f} MiB"
        return print_row(rules.stem, found, notes)

    with tempfile.TemporaryDirectory() as made:
        rows = sorted(given.games.glob("*.kif")) + [wide(made, names) for names in NAMES]
        return all([is_same(rules) for rules in rows])


# Of `playouts`.


def endless(rules: str) -> str:
    """Tic-tac-toe again and again."""
    for old, new in CHANGES:
        assert old in rules, old
        rules = rules.replace(old, new)
    return rules + MORE


def is_over(board: list[str]) -> bool:
    """Whether the board is full, or has a line."""
    return "b" not in board or any(board[i] != "b" and board[i] == board[j] == board[k] for i, j, k in LINES)


def history(turns: int) -> str:
    """So many turns of random moves."""
    random.seed(7)
    board, told = ["b"] * 9, []
    for turn in range(turns):
        if is_over(board):
            board = ["b"] * 9
            told.append("(noop noop)")
            continue
        cell = random.choice([i for i in range(9) if board[i] == "b"])
        board[cell] = "xo"[turn % 2]
        mark = f"(mark {cell // 3 + 1} {cell % 3 + 1})"
        told.append(f"({mark} noop)" if turn % 2 == 0 else f"(noop {mark})")
    return " ".join(told)


def time_playouts(given: argparse.Namespace) -> bool:
    """Prints how many positions a second are played through: the time of `moves --after` over a long history of random moves, less that of
    `moves`, by the turns of the history. Reading the text of the history counts. A match of tic-tac-toe has at most nine turns. So the game
    here is tic-tac-toe again and again: where the description would end the match, one turn without marks clears the board."""
    contestants = programs(given)
    after = history(given.turns)
    with tempfile.TemporaryDirectory() as folder:
        rules = Path(folder) / "endless.kif"
        rules.write_text(endless((given.games / "tic_tac_toe.kif").read_text()))
        found = turn_about(contestants, (["moves", "--after", after], rules), (["moves"], rules), given)
    for name, one in found.items():
        if one.status == 0:
            rate = given.turns / one.seconds
            print(f"{name}: {given.turns} turns in {one.seconds * 1e3:.2f} ms: {rate:.0f} positions a second")
        else:
            print(f"{name}: {why_not(one)}")
    return same(found)


# Of `cuts`.


def others(command: list[str], stored: Path, cut: str, runs: int = 1) -> tuple[int, float]:
    """How many of so many runs of a stored solve gave another answer than the stored one, and their seconds."""
    first, answer = stored.read_bytes().split(b"\n", 1)
    line = shlex.split(first.decode()) + ["--cut", cut]
    found = [run(command, line, stored.with_suffix(".kif")) for _ in range(runs)]
    other = [one for one in found if one.status != 0 or one.output != answer]
    for one in other:
        print(f"{stored.stem} --cut {cut}: DIFFERENT, status {one.status}\n{one.output.decode(errors='replace')}", end="", flush=True)
    return len(other), sum(one.seconds for one in found)


def time_cuts(given: argparse.Namespace) -> bool:
    """Solves each stored game by each of eight cuts, and then one game again and again by a cut of 64 workers. Each answer has to be the stored
    one, byte for byte; exits 1 where one is not. Prints the seconds of each run, and those of the last in all."""
    command, all_same = program(given.program), True
    print("seconds by cut " + " ".join(CUTS))
    for stored in sorted(given.games.glob("*.solve")):
        rows = [others(command, stored, cut) for cut in CUTS]
        all_same = all_same and not any(other for other, _ in rows)
        print(f"{stored.stem}: " + " ".join(f"{seconds:.3f}" for _, seconds in rows), flush=True)
    other, seconds = others(command, given.games / f"{given.often}.solve", given.cut, given.runs)
    print(f"{given.often} --cut {given.cut}: {given.runs} runs, {other} with another answer, {seconds:.1f} s")
    return all_same and other == 0


def main() -> None:
    words = argparse.ArgumentParser(prog="bench/time", description=__doc__, formatter_class=argparse.RawDescriptionHelpFormatter)
    kinds = words.add_subparsers(metavar="KIND", required=True)

    def kind(name: str, about: str, timed: Callable[[argparse.Namespace], bool]) -> argparse.ArgumentParser:
        """A kind, with the option that all have."""
        made = kinds.add_parser(name, help=about, description=timed.__doc__)
        made.set_defaults(timed=timed)
        add_program(made)
        return made

    made = kind("check", "how long it takes for five large texts", time_check)
    made.add_argument("--runs", metavar="N", type=int, default=9, help="how often each text is checked")
    made = kind("show", "how many megabytes a second it reads and writes", time_show)
    made.add_argument("--runs", metavar="N", type=int, default=20, help="how often the text is shown")
    made = kind("solve", "how long it takes for rows", time_solve)
    add_games(made)
    add_beside(made, 5)
    made.add_argument("rows", metavar="ROW", nargs="*", help="as 'nim --role first --depth 7'; without one, all stored solves")
    made = kind("instantiate", "how long it takes to make the instances, and in how much memory", time_instantiate)
    add_games(made)
    add_beside(made, 9)
    made = kind("playouts", "how many positions a second are played through", time_playouts)
    add_games(made)
    add_beside(made, 9)
    made.add_argument("--turns", metavar="N", type=int, default=6000, help="the turns of the history, at most 7,000")
    made = kind("cuts", "how long each stored solve takes by each of eight cuts", time_cuts)
    add_games(made)
    made.add_argument("--often", metavar="NAME", default="tic_tac_toe", help="the game that is solved again and again")
    made.add_argument("--cut", metavar="LEVELS", default="16x4", help="the cut by which it is")
    made.add_argument("--runs", metavar="N", type=int, default=200, help="how often it is")
    given = words.parse_args()
    finish(given.timed(given))


if __name__ == "__main__":
    main()
