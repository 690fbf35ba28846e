"""The rules as a propositional network: gates over integers, each bit of which is a match of its own.

So many matches are played at random at once, and the legal moves are known where the solver hangs.
What it tells is held against the program in the tests, and not proved.
"""

from __future__ import annotations

import random
import threading
import time
from collections.abc import Callable, Mapping, Sequence
from dataclasses import dataclass

from gdlsolve.solver.answers import Position, State
from gdlsolve.solver.grounding import DOES, TRUE, Atom, Grounding, Instance, Term, TooLarge, ignore, key_of, text_of
from gdlsolve.solver.history import Turn
from gdlsolve.solver.replies import Reply, Status
from gdlsolve.solver.terms import terms, trees

# The bits of a state: for each base proposition in which matches it holds.
Bits = tuple[int, ...]
# So many bits of states behind histories are kept.
MOST_BITS = 1_000_000
# So many instances stand in a line of code, and so many heads in a function.
LONGEST = 32
AT_ONCE = 256
# What works out heads in the matches of which a number has a bit.
Work = Callable[[list[int], int], None]


# What is told where there are no gates: for now, or at all.
NOT_YET, TOO_LARGE = "the gates are not built yet", "the rules are too large for gates"


class NotLegal(Exception):
    """A turn of a history cannot be played."""


@dataclass(frozen=True)
class Seat:
    """The moves of a role in printed order, each with its places among the gates: where it is
    chosen, and where it is legal."""

    role: str
    moves: dict[str, tuple[int, int]]


def is_goal(term: Term) -> bool:
    """Whether a term is the number of a goal."""
    return isinstance(term, str) and term.isascii() and term.isdigit() and term == str(min(int(term), 100))


def made(lines: Sequence[str]) -> Work:
    """A function that runs lines of code."""
    known: dict[str, Work] = {}
    exec("\n".join(["def work(v, full):", *lines]), known)
    return known["work"]


class Lanes:
    """The gates of a description. The place 0 is always wrong. While they are made, `tick` is called again and again."""

    def __init__(self, grounding: Grounding, tick: Callable[[], None] = ignore):
        self.tick = tick
        self.places: dict[Atom, int] = {}
        for key in (TRUE, DOES):
            for atom in grounding.of(key):
                self.places[atom] = len(self.places) + 1
        self.base = [atom for atom in self.places if key_of(atom) == TRUE]
        heads: dict[Atom, list[Instance]] = {}
        for each in grounding.instances:
            if key_of(each.head) in grounding.moving:
                heads.setdefault(each.head, []).append(each)
        for atom in heads:
            self.places[atom] = len(self.places) + 1
        late = self.behind_moves(heads)
        self.view = self.function([self.gate(heads[atom]) for atom in heads if atom not in late])
        self.step = self.function([self.gate(heads[atom]) for atom in heads if atom in late])
        self.read(grounding)
        self.states: dict[tuple[Turn, ...], Bits] = {}

    def read(self, grounding: Grounding) -> None:
        """Where roles, moves, goals, the end and the start stand."""
        place = self.places.get
        begins = {atom[1] for atom in grounding.of(("init", 1))}
        self.start = tuple(int(atom[1] in begins) for atom in self.base)
        self.next = [place(("next", atom[1]), 0) for atom in self.base]
        self.end = place(("terminal",), 0)
        roles = list(dict.fromkeys(atom[1] for atom in grounding.of(("role", 1))))
        self.seats = [Seat(text_of(role), self.moves_of(role, grounding)) for role in roles]
        self.goals = {text_of(role): [(int(str(atom[2])), at) for atom, at in self.places.items()
                                      if key_of(atom) == ("goal", 2) and atom[1] == role and is_goal(atom[2])]
                      for role in roles}

    def moves_of(self, role: Term, grounding: Grounding) -> dict[str, tuple[int, int]]:
        """The moves of a role, in printed order."""
        found = {text_of(move): (self.places[("does", by, move)], self.places.get(("legal", by, move), 0))
                 for _, by, move in grounding.of(DOES) if by == role}
        return {move: found[move] for move in sorted(found, key=str.encode)}

    def behind_moves(self, heads: Mapping[Atom, list[Instance]]) -> set[Atom]:
        """The heads that rest on what roles choose. Heads stand behind those that they rest on."""
        late: set[Atom] = set()
        for atom, found in heads.items():
            if key_of(atom)[0] == "next" or any(key_of(part) == DOES or part in late for each in found
                                               for part in (*each.right, *each.wrong)):
                late.add(atom)
        return late

    def gate(self, found: Sequence[Instance]) -> str:
        """The code that works out a head, in lines that are not too long."""
        terms: dict[str, None] = {}
        for each in found:
            right = [f"v[{self.places[atom]}]" for atom in each.right]
            wrong = [f"~v[{self.places[atom]}]" for atom in each.wrong]
            terms[" & ".join([*(right or ["full"]), *wrong])] = None
        own, left = f"v[{self.places[found[0].head]}]", list(terms)
        parts = [" | ".join(left[start : start + LONGEST]) for start in range(0, len(left), LONGEST)]
        return "\n".join(f" {own} {'|' if place else ''}= {part}" for place, part in enumerate(parts))

    def function(self, lines: Sequence[str]) -> Work:
        """The code that works out heads in the matches of which `full` has a bit, made in parts, since one would take much memory."""
        parts = list[Work]()
        for start in range(0, len(lines), AT_ONCE):
            self.tick()
            parts.append(made(lines[start : start + AT_ONCE]))

        def work(values: list[int], full: int) -> None:
            for part in parts:
                part(values, full)

        return work

    def seen(self, bits: Bits, full: int) -> list[int]:
        """What holds in states, before anything is chosen."""
        values = [0] * (len(self.places) + 1)
        values[1 : len(bits) + 1] = bits
        self.view(values, full)
        return values

    def after(self, values: list[int], full: int) -> Bits:
        """The states behind what is chosen."""
        self.step(values, full)
        return tuple(values[place] & full for place in self.next)

    def state(self, turns: tuple[Turn, ...]) -> Bits:
        """The state behind a history."""
        known = next(count for count in range(len(turns), -1, -1) if not count or turns[:count] in self.states)
        bits = self.states[turns[:known]] if known else self.start
        for count in range(known, len(turns)):
            bits = self.played(bits, turns[count])
            if len(self.states) * len(bits) < MOST_BITS:
                self.states[turns[: count + 1]] = bits
        return bits

    def played(self, bits: Bits, turn: Turn) -> Bits:
        """The state behind a turn."""
        values = self.seen(bits, 1)
        if values[self.end] & 1 or len(turn) != len(self.seats):
            raise NotLegal
        for move, seat in zip(turn, self.seats):
            does, legal = seat.moves.get(move, (0, 0))
            if not values[legal] & 1:
                raise NotLegal
            values[does] = 1
        return self.after(values, 1)

    def position(self, turns: tuple[Turn, ...]) -> Position:
        """How play stands behind a history."""
        values = self.seen(self.state(turns), 1)
        if values[self.end] & 1:
            goals = {role: self.goal(role, values, 1) for role in self.goals}
            return Position(State.ENDED, goals, {})
        legal = {seat.role: tuple(move for move, (_, at) in seat.moves.items() if values[at] & 1) for seat in self.seats}
        is_open = all(legal.values())
        return Position(State.OPEN if is_open else State.STUCK, {}, {role: moves for role, moves in legal.items() if moves})

    def goal(self, role: str, values: list[int], lanes: int) -> int:
        """What a role has in these matches in all."""
        total, left = 0, lanes
        for number, place in sorted(self.goals[role], reverse=True):
            total += number * (values[place] & left).bit_count()
            left &= ~values[place]
        return total

    def choose(self, values: list[int], lanes: int, dice: random.Random) -> None:
        """Chooses a legal move at random for each role in each of these matches."""
        chance = dice.random
        for seat in self.seats:
            found = [(does, legal) for does, place in seat.moves.values() if (legal := values[place] & lanes)]
            if len(found) == 1:
                # It is the only one in each match.
                values[found[0][0]] = lanes
                continue
            moves: dict[int, list[int]] = {}
            for does, legal in found:
                while legal:
                    lane = legal & -legal
                    moves.setdefault(lane, []).append(does)
                    legal ^= lane
            for lane, each in moves.items():
                values[each[int(chance() * len(each))]] |= lane

    def playouts(self, turns: tuple[Turn, ...], matches: int, most: int, unfinished: int, dice: random.Random) -> dict[str, int]:
        """What each role has in all at the end of so many random matches behind a history. What goes on after so many turns is broken off."""
        lanes = (1 << matches) - 1
        bits = tuple(lanes * bit for bit in self.state(turns))
        total = dict.fromkeys(self.goals, 0)
        for _ in range(most):
            values = self.seen(bits, lanes)
            ended = values[self.end] & lanes
            if ended:
                for role in total:
                    total[role] += self.goal(role, values, ended)
                lanes &= ~ended
            for seat in self.seats:
                some = 0
                for _, place in seat.moves.values():
                    some |= values[place]
                lanes &= some
            if not lanes:
                return total
            self.choose(values, lanes, dice)
            bits = self.after(values, lanes)
        return {role: gained + unfinished * lanes.bit_count() for role, gained in total.items()}

    def random_matches(self, turns: tuple[Turn, ...], options: Mapping[str, str]) -> str:
        """What random matches bring, in lines."""
        matches, most, unfinished = (int(options[name]) for name in ("--matches", "--turns", "--unfinished"))
        found = self.playouts(turns, matches, most, unfinished, random.Random(options["--seed"]))
        return "".join(f"goal {role} {goals}\n" for role, goals in found.items())


class Building:
    """The gates of rules, which a thread builds for as long as it is given time."""

    def __init__(self, rules: bytes):
        self.rules = rules
        self.lanes: Lanes | None = None
        self.until, self.is_over, self.is_dropped = 0.0, False, False
        self.change = threading.Condition()
        threading.Thread(target=self.work, daemon=True).start()

    def work(self) -> None:
        """Builds them, where they are not too many."""
        found = None
        try:
            self.tick()
            found = Lanes(Grounding(self.rules.decode("latin-1"), self.tick), self.tick)
        except (TooLarge, RecursionError, MemoryError, ValueError):
            pass
        with self.change:
            self.lanes, self.is_over = found, True
            self.change.notify_all()

    def tick(self) -> None:
        """Waits for time to go on."""
        if time.monotonic() >= self.until:
            with self.change:
                self.change.wait_for(lambda: self.is_dropped or time.monotonic() < self.until)
        if self.is_dropped:
            raise TooLarge

    def give(self, seconds: float) -> None:
        """Gives it so many seconds, or as many as it needs."""
        with self.change:
            self.until = time.monotonic() + seconds
            self.change.notify_all()
            self.change.wait_for(lambda: self.is_over, seconds)

    def drop(self) -> None:
        """Gives it up."""
        with self.change:
            self.is_dropped = True
            self.change.notify_all()


class Rehearsal:
    """Answers over one text of rules: to `legal` as the program's to `moves`, and to `playouts` what
    random matches bring each role in all."""

    def __init__(self) -> None:
        self.building: Building | None = None

    def standing(self, rules: bytes, seconds: float) -> Building:
        """The gates of these rules. Where they are not there yet, they are built for so many seconds, and on from there the next time."""
        made = self.building
        if made is None or made.rules is not rules:
            if made is not None:
                made.drop()
            made = self.building = Building(rules)
        if not made.is_over:
            made.give(seconds)
        return made

    def reply(self, words: Sequence[str], rules: bytes) -> Reply:
        """The reply to words over rules. It is a misuse where there are no gates."""
        options = dict(zip(words[1::2], words[2::2]))
        built = self.standing(rules, float(options["--seconds"]))
        lanes = built.lanes
        if lanes is None:
            return Reply(Status.MISUSE, f"{TOO_LARGE if built.is_over else NOT_YET}\n".encode())
        turns = tuple(tuple(terms(turn[1:-1])) for turn in trees(options.get("--after", "")))
        try:
            told = lanes.position(turns).told() if words[0] == "legal" else lanes.random_matches(turns, options)
        except NotLegal:
            return Reply(Status.REFUSED, b"refused H2 NotLegal\n")
        return Reply(Status.ANSWER, told.encode("latin-1"))

