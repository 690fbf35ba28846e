"""Games in the Game Description Language: reads their rules, refuses broken ones by name, lists legal moves and computes best play.

Each function is one call of the proved library of gdlsolve: a short one in the calling thread, and a search in a child process, so that a key
or a `timeout` ends it at once. Rules are bytes, a text that is taken in UTF-8, or the `Path` of a file. A history is the text of its turns, or a sequence of
turns, each of which is a sequence of one move for each role.

Rules are those of `games/`, with `base` and `input` and no relation that rests on itself. With `whole=True` a game may be as it is found:
`unroll` writes it out first, and with `tighten=True` only what play can come to is stated. Where rules that are answered over as they
stand lack `base` or `input`, `RulesWarning` says so.

A refusal of the rules, the role or the history is raised as `Refusal`, arguments that make no command as `Misuse`, and want of memory
as `MemoryError`, an answer that is not there in time as `TimedOut`, and a program or a child process that ended without one as `Ended`.

>>> position = gdlsolve.moves(Path("games/matching_pennies.kif"), after=[("h", "t")])
>>> position.goals
{'a': 0, 'b': 100}
"""
# This one first, so that a key ends a command in silence also while the others are read.
from gdlsolve.console import keys as keys
from gdlsolve.solver.answers import Description, Network, Outside, Position, Solution, Standing, State, Values
from gdlsolve.solver.commands import Bound, check, moves, net, show, solve, solve_within, state, unroll, values
from gdlsolve.solver.faults import Cancelled, Ended, Misuse, Refusal, TimedOut
from gdlsolve.solver.history import History
from gdlsolve.solver.replies import Reply, Status
from gdlsolve.solver.rules import Rules, RulesWarning
from gdlsolve.solver.session import Session
from gdlsolve.solver.timed import reply

__version__ = "0.1.0"

__all__ = [
    "Bound",
    "Cancelled",
    "Description",
    "Ended",
    "History",
    "Misuse",
    "Network",
    "Outside",
    "Position",
    "Refusal",
    "Reply",
    "Rules",
    "RulesWarning",
    "Session",
    "Solution",
    "Standing",
    "State",
    "Status",
    "TimedOut",
    "Values",
    "check",
    "moves",
    "net",
    "reply",
    "show",
    "solve",
    "solve_within",
    "state",
    "unroll",
    "values",
]
