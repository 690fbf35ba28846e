"""What answers say, as values."""
from dataclasses import dataclass
from enum import Enum

from gdlsolve.solver.terms import terms


@dataclass(frozen=True)
class Description:
    """What rules have: how many items, alternatives and relations, and their roles in the order of a turn."""

    items: int
    alternatives: int
    relations: int
    roles: tuple[str, ...]

    @classmethod
    def of(cls, lines: list[str]) -> "Description":
        """The description that the lines of `check` tell."""
        told = {word: rest for word, *rest in map(terms, lines)}
        return cls(int(told["items"][0]), int(told["alternatives"][0]), int(told["relations"][0]), tuple(told["roles"]))


@dataclass(frozen=True)
class Network:
    """How large the network is that play goes over: base propositions, inputs, kept instances, heads without effect, and nodes."""

    base: int
    inputs: int
    instances: int
    dropped: int
    nodes: int

    @classmethod
    def of(cls, lines: list[str]) -> "Network":
        """The network that the lines of `net` tell."""
        return cls(**{word: int(count) for word, count in map(terms, lines)})


class State(Enum):
    """How play stands: it goes on, it has ended, or it goes on and some role has no legal move."""

    OPEN = "open"
    ENDED = "ended"
    STUCK = "stuck"


@dataclass(frozen=True)
class Position:
    """How play stands after a history, with the goal of each role where it has ended, and else the legal moves of each role that has
    any, in printed order. The roles stand in the order of a turn."""

    state: State
    goals: dict[str, int]
    legal: dict[str, tuple[str, ...]]

    @classmethod
    def of(cls, lines: list[str]) -> "Position":
        """The position that the lines of `moves` tell."""
        (_, state), *rest = map(terms, lines)
        goals = {role: int(goal) for word, role, goal in rest if word == "goal"}
        legal: dict[str, tuple[str, ...]] = {}
        for word, role, move in rest:
            if word == "legal":
                legal[role] = legal.get(role, ()) + (move,)
        return cls(State(state), goals, legal)

    def told(self) -> str:
        """The lines of `moves` that tell the position."""
        goals = [f"goal {role} {goal}" for role, goal in self.goals.items()]
        legal = [f"legal {role} {move}" for role, moves in self.legal.items() for move in moves]
        return "".join(f"{line}\n" for line in [f"state {self.state.value}", *goals, *legal])


@dataclass(frozen=True)
class Standing:
    """How play stands after a history, and the base propositions that hold, in printed order."""

    state: State
    holds: tuple[str, ...]

    @classmethod
    def of(cls, lines: list[str]) -> "Standing":
        """What the lines of `state` tell."""
        (_, state), *rest = map(terms, lines)
        return cls(State(state), tuple(proposition for _, proposition in rest))


@dataclass(frozen=True)
class Values:
    """What each legal move of a role makes sure of, in printed order of the moves; and what the role can be sure of: the greatest of these,
    or, where there is no turn to come, what play comes to."""

    value: int
    moves: dict[str, int]

    @classmethod
    def of(cls, lines: list[str]) -> "Values":
        """What the lines of `values` tell. Where there is no turn to come they are those of `solve`."""
        told = [words for words in map(terms, lines) if words[0] == "value"]
        moves = {words[2]: int(words[1]) for words in told if len(words) == 3}
        return cls(max(int(words[1]) for words in told), moves)


@dataclass(frozen=True)
class Worth:
    """What a legal move of a role makes sure of, and the line of play: the turn with it and the first best reply to it, and then best play.
    There is no line where none was asked for."""

    move: str
    value: int
    line: tuple[tuple[str, ...], ...]

    @classmethod
    def each_of(cls, lines: list[str]) -> "list[Worth]":
        """What the lines of `values --lines` tell of each legal move, or of none where there is no turn to come."""
        found: dict[str, tuple[int, list[tuple[str, ...]]]] = {}
        turns: list[tuple[str, ...]] = []
        for word, *rest in map(terms, lines):
            if word == "value" and len(rest) == 2:
                turns = []
                found[rest[1]] = int(rest[0]), turns
            elif word == "line":
                turns.append(tuple(rest[1:]))
        return [cls(move, value, tuple(line)) for move, (value, line) in found.items()]


@dataclass(frozen=True)
class Solution:
    """What a role can be sure of, from 0 to 100; the first move in printed order that makes sure of it, or `None` where play is over,
    stuck or not looked at; and the turns of best play, each with a move of each role."""

    value: int
    move: str | None
    line: tuple[tuple[str, ...], ...]

    @classmethod
    def of(cls, lines: list[str]) -> "Solution":
        """The solution that the lines of `solve` tell. A move may have the name `none`: there is none where there is no turn."""
        (_, value), (_, move), *turns = map(terms, lines)
        return cls(int(value), move if turns else None, tuple(tuple(moves) for _, _, *moves in turns))


@dataclass(frozen=True)
class Outside:
    """A value that is not between the bounds that it was asked for between: it is at most the low one, or at least the high one, and then the
    first move in printed order that makes sure of that, or `None` where there is no turn to come."""

    at_most: int | None
    at_least: int | None
    move: str | None

    @classmethod
    def of(cls, lines: list[str]) -> "Solution | Outside":
        """What the lines of `solve` within a window tell."""
        (word, bound), *rest = map(terms, lines)
        if word == "value":
            return Solution.of(lines)
        move = rest[0][1] if rest else None
        return cls(int(bound), None, None) if word == "at-most" else cls(None, int(bound), move)
