"""What the page asks: games, positions, looks, records."""

from __future__ import annotations

import hashlib
import itertools
import secrets
import threading
import time
from collections.abc import Callable, Iterator, Sequence
from contextlib import contextmanager, suppress
from dataclasses import dataclass, replace
from functools import cache
from pathlib import Path
from typing import Any

import gdlsolve
from gdlsolve.page import board, looks, places, records, state
from gdlsolve.page.matches import Matches
from gdlsolve.page.sessions import Sessions
from gdlsolve.solver import unrolled
from gdlsolve.solver.answers import Description
from gdlsolve.solver.engine import Children, Engine, Late, Limit, Pool
from gdlsolve.solver.faults import Refusal
from gdlsolve.solver.replies import Reply

MOST_GAMES = 32
MOST_LOOKS = 8
# Up to here each whole number is one in a browser too.
MOST_NUMBER = 1 << 53
# So many processes that stand for no game stand ready for the next one.
SPARE = 2
# So long a short question may take, and so long a page waits for news of a look, in seconds.
PATIENCE = 30.0
NEWS = 10.0
WRITTEN = "These rules are as games are found, and were written out to be played."
SHOWN = "It is proved that what was written out is played the same."
TESTED = "That what was written out is played the same is tested, and not proved."


class BadQuestion(ValueError):
    """What the page asked makes no sense. The message says why."""


@dataclass(frozen=True)
class Opened:
    """A game that the page has opened, with what does not change in play."""

    name: str
    rules: bytes
    roles: tuple[str, ...]
    style: board.Style
    frames: list[board.Frame]


def _turns(told: Any) -> tuple[tuple[str, ...], ...]:
    """A history, as the page tells it."""
    if not isinstance(told, list):
        raise BadQuestion("A history is a list of turns.")
    for turn in told:
        if not isinstance(turn, list) or not all(isinstance(move, str) for move in turn):
            raise BadQuestion("A turn is a list of moves.")
        if not all(move.isascii() and move.isprintable() for move in turn):
            raise BadQuestion("A move has a letter that no name has.")
    return tuple(tuple(turn) for turn in told)


def about(text: str) -> str:
    """What the comment at the head of a description says, up to its first full stop."""
    lines = itertools.takewhile(lambda line: line.startswith(";"), text.splitlines())
    return " ".join(line.lstrip("; ") for line in lines).split(". ")[0].rstrip(".")


class Desk:
    """All that the server keeps: what answers over any rules, sessions over the games that are open, and the
    looks that go on."""

    def __init__(self, pool: Pool, folder: Path | None, command: Sequence[str] | None = None, archive: Path | None = None) -> None:
        self.pool, self.folder, self.matches = pool, folder, Matches(archive)
        self.sessions = Sessions(Children(SPARE, command, SPARE))
        self._lock = threading.Lock()
        # So many positions are asked for at once. Looks take none of these places.
        self._places = threading.Semaphore(pool.most)
        self._opened: dict[str, Opened] = {}
        self._looks: dict[int, looks.Look] = {}

    def reply(self, words: Sequence[str], rules: bytes) -> Reply:
        """The reply to a question over any rules, which is given up after some seconds."""
        return self.pool.ask(words, rules, Limit(time.monotonic() + PATIENCE))

    def _ask(self, words: Sequence[str], rules: bytes) -> list[str]:
        """The lines of a short answer."""
        return self.reply(words, rules).lines()

    def _over(self, game: Opened, engine: Engine) -> unrolled.Ask:
        """What tells the lines of a short answer: a session where it is over the rules of its game."""

        def ask(words: Sequence[str], rules: bytes) -> list[str]:
            if rules is game.rules:
                return engine.ask(words, Limit(time.monotonic() + PATIENCE))
            return self._ask(words, rules)

        return ask

    @contextmanager
    def _standing(self, game: Opened) -> Iterator[Engine]:
        """The session that tells how play stands in a game, once there is a place."""
        if not self._places.acquire(timeout=PATIENCE):
            raise Late
        try:
            with self.sessions.engine(game.rules, "here") as engine:
                yield engine
        finally:
            self._places.release()

    def games(self) -> dict[str, Any]:
        """The games of the folder. What cannot be read there is passed over."""
        told = []
        for path in sorted(self.folder.glob("*.kif")) if self.folder else []:
            with suppress(OSError):
                told.append({"name": path.stem, "about": about(path.read_text("latin-1"))})
        return {"games": told, "version": gdlsolve.__version__}

    def _stored(self, name: str) -> Path:
        """The file of a game of the folder."""
        known = self._known()
        if name not in known:
            raise BadQuestion(f"There is no game {name} in the folder.")
        return known[name]

    def _known(self) -> dict[str, Path]:
        """The files of the games of the folder, by the names of the games."""
        return {path.stem: path for path in self.folder.glob("*.kif")} if self.folder else {}

    def _own(self, name: str) -> str:
        """The name of rules of one's own, which is that of no game of the folder."""
        return f"{name} (a file)" if name in self._known() else name

    def _style(self, path: Path | None) -> tuple[board.Style, str]:
        """How a board is drawn, and what is wrong with the file that says it."""
        beside = path.with_suffix(".board") if path else None
        if beside is None or not beside.is_file():
            return board.Style(), ""
        try:
            return board.Style.of(beside.read_text()), ""
        except (ValueError, OSError) as fault:
            return board.Style(), f"{beside.name}: {fault}"

    def open(self, told: dict[str, Any]) -> dict[str, Any]:
        """Opens a game by its name or by its text, which may have a name too, or tells its refusal. One of
        the folder that is as games are found is written out, and of others those for which it is asked."""
        path = self._stored(str(told["name"])) if "text" not in told else None
        found = path.read_bytes() if path else str(told["text"]).encode()
        text = found.decode(errors="replace")
        # Nothing is asked twice.
        once = cache(self.reply)

        def ask(words: Sequence[str], rules: bytes) -> list[str]:
            return once(tuple(words), rules).lines()

        try:
            rules = unrolled.playable(found, ask) if path or told.get("whole") else found
            roles = Description.of(ask(["check"], rules)).roles
            ask(["moves"], rules)
        except Refusal as refused:
            return {"text": text, "refused": places.refusal(refused, found)}
        style, note = self._style(path)
        base = state.base(rules, roles[0], self._ask) if style.draw else []
        name = path.stem if path else self._own(str(told.get("name", "pasted")))
        key = self._remember(Opened(name, rules, roles, style, board.frames(base, style)))
        written = [] if rules is found else [WRITTEN, SHOWN if unrolled.is_shown(rules) else TESTED]
        notes = [note, *written, once(("moves",), rules).errors.decode(errors="replace").strip()]
        return {"id": key, "name": name, "text": text, "roles": roles, "about": about(text),
                "notes": [each for each in notes if each], "whole": not (written or unrolled.states_all(found))}

    def _remember(self, opened: Opened) -> str:
        """Keeps a game, and tells by what it is asked for. Where it was open its sessions go on."""
        key = hashlib.sha256(opened.name.encode() + b"\0" + opened.rules).hexdigest()[:16]
        with self._lock:
            before = self._opened.pop(key, None)
            self._opened[key] = replace(opened, rules=before.rules) if before else opened
            while len(self._opened) > MOST_GAMES:
                del self._opened[next(iter(self._opened))]
        return key

    def _game(self, told: dict[str, Any]) -> Opened:
        """The game that a question is about."""
        with self._lock:
            found = self._opened.get(str(told.get("game")))
        if found is None:
            raise BadQuestion("This game is not open any more: choose it again.")
        return found

    def position(self, told: dict[str, Any]) -> dict[str, Any]:
        """How play stands behind a history, with what can be drawn of it."""
        game, after = self._game(told), _turns(told.get("after"))
        try:
            with self._standing(game) as engine:
                here = engine.moves(after, Limit(time.monotonic() + PATIENCE))
                facts = state.facts(game.rules, game.roles[0], after, self._over(game, engine))
        except Refusal as refused:
            return {"refused": places.refusal(refused, game.rules)}
        grids, rest = board.boards(facts or [], game.frames, game.style)
        press = {}
        if grids:
            press = {role: board.spots(legal, game.frames[0], game.style)
                     for role, legal in here.legal.items()}
        return {
            "state": here.state.value,
            "goals": here.goals,
            "legal": here.legal,
            "facts": None if facts is None else rest,
            "boards": [grid.told() for grid in grids],
            "spots": press,
        }

    def _begin(self, told: dict[str, Any], work: Callable[[looks.Look], str]) -> dict[str, Any]:
        """Begins a look."""
        game, after = self._game(told), _turns(told.get("after"))
        role, seconds = str(told.get("role")), told.get("seconds")
        if role not in game.roles:
            raise BadQuestion(f"There is no role {role}.")
        if seconds is not None and not (isinstance(seconds, (int, float)) and 0 < seconds < 1e6):
            raise BadQuestion("The time is a number of seconds above 0.")
        look = looks.Look(looks.Asked(game.rules, role, after, seconds), self.sessions)
        with self._lock:
            self._drop_old()
            # Nobody else guesses it, so nobody else looks on, or stops it.
            number = secrets.randbelow(MOST_NUMBER)
            self._looks[number] = look
        look.start(work)
        return {"look": number}

    def _drop_old(self) -> None:
        """Gives up looks for which nobody asks, and the oldest where there are too many."""
        # Those that have ended make room first, so that one goes on as long as no eight others do.
        for number, look in sorted(self._looks.items(), key=lambda each: not each[1].ended):
            if look.forgotten() or len(self._looks) >= MOST_LOOKS:
                del self._looks[number]
                look.stop()

    def values(self, told: dict[str, Any]) -> dict[str, Any]:
        """Begins a look at what each move of a role is worth."""
        return self._begin(told, looks.values)

    def replies(self, told: dict[str, Any]) -> dict[str, Any]:
        """Begins a look at what each turn is worth to a role."""
        return self._begin(told, looks.replies)

    def choose(self, told: dict[str, Any]) -> dict[str, Any]:
        """Begins a look for the move that the solver plays."""
        return self._begin(told, looks.choose)

    def _look(self, told: dict[str, Any]) -> looks.Look:
        """The look that a question is about."""
        number = told.get("look")
        with self._lock:
            found = self._looks.get(number) if isinstance(number, int) else None
        if found is None:
            raise BadQuestion("This look is over.")
        return found

    def news(self, told: dict[str, Any], is_gone: Callable[[], bool]) -> dict[str, Any]:
        """What a look has found, once it is more than what the page has seen. A page that goes while
        it waits gives the look up."""
        seen = told.get("seen")
        return self._look(told).told(seen if isinstance(seen, int) else -1, NEWS, is_gone)

    def stop(self, told: dict[str, Any]) -> dict[str, Any]:
        """Gives a look up."""
        self._look(told).stop()
        return {}

    def record(self, told: dict[str, Any]) -> dict[str, Any]:
        """Reads the record of a match."""
        found = records.record(str(told.get("text", "")))
        return {"game": found.game, "rules": found.rules, "turns": found.turns}

    def watch(self) -> None:
        """Gives up looks for which nobody asks. The server calls it again and again."""
        with self._lock:
            old = [number for number, look in self._looks.items() if look.forgotten()]
            gone = [self._looks.pop(number) for number in old]
        for look in gone:
            look.stop()
        self.sessions.sweep()

    def close(self) -> None:
        """Gives up all looks, and ends what answers."""
        with self._lock:
            going, self._looks = list(self._looks.values()), {}
        for look in going:
            look.stop()
        self.pool.close()
        self.sessions.close()
