"""Sessions over the games that are open: each is kept for a while for the next question of its kind, with what it has found."""

from __future__ import annotations

import threading
import time
from collections.abc import Iterator
from contextlib import contextmanager

from gdlsolve.solver.engine import Children, Engine

# So many are kept, and each so long after its last question, in seconds.
MOST_KEPT = 12
LONGEST_KEPT = 120.0
# What a session is kept for: the rules, and the kind of question.
Key = tuple[bytes, str]


class Sessions:
    """Engines over rules, each asked by one at a time."""

    def __init__(self, children: Children) -> None:
        self.children = children
        self._lock = threading.Lock()
        self._kept: dict[Key, tuple[Engine, float]] = {}
        self._is_closed = False

    @contextmanager
    def engine(self, rules: bytes, kind: str) -> Iterator[Engine]:
        """An engine over rules for a kind of question: the one that was kept, or else a new one."""
        with self._lock:
            kept = self._kept.pop((rules, kind), None)
        engine = kept[0] if kept else Engine("", self.children)
        engine.rules = rules
        try:
            yield engine
        finally:
            self._keep((rules, kind), engine)

    def _keep(self, key: Key, engine: Engine) -> None:
        """Keeps an engine for the next question, where its process is there, and closes those that are too many."""
        with self._lock:
            gone = [engine]
            if engine.child is not None and not self._is_closed:
                before = self._kept.pop(key, None)
                gone = [before[0]] if before else []
                self._kept[key] = engine, time.monotonic()
                gone += [self._kept.pop(oldest)[0] for oldest in list(self._kept)[:-MOST_KEPT]]
        for each in gone:
            each.close()

    def sweep(self) -> None:
        """Closes those of which nothing was asked for long."""
        old = time.monotonic() - LONGEST_KEPT
        with self._lock:
            gone = [key for key, (_, asked) in self._kept.items() if asked < old]
            engines = [self._kept.pop(key)[0] for key in gone]
        for each in engines:
            each.close()

    def close(self) -> None:
        """Ends all that are kept, and later those that are asked now."""
        with self._lock:
            self._is_closed = True
            kept, self._kept = list(self._kept.values()), {}
        self.children.close()
        for engine, _ in kept:
            engine.close()
