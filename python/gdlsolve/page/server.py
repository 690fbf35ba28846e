"""The server of the page on the loopback: its files, and its questions as JSON."""

from __future__ import annotations

import json
import select
from collections.abc import Callable, Iterable
from http import HTTPStatus
from importlib.resources import files
from typing import Any

from gdlsolve.page import looks
from gdlsolve.page.desk import BadQuestion, Desk
from gdlsolve.solver.engine import Broken, Late
from gdlsolve.solver.faults import Misuse, Refusal
from gdlsolve.web import guarded
from gdlsolve.web.guarded import Answer, Unheard, as_json

MOST_BYTES = 4 << 20
# What is told where there is no answer.
NO_ANSWER = (ValueError, KeyError, RecursionError, Misuse, Refusal, OSError, Late, Broken, MemoryError)

SCRIPTS = sorted(script.name for script in (files("gdlsolve.page") / "scripts").iterdir() if script.name.endswith(".js"))
FILES = {
    "/": ("page.html", "text/html"),
    "/page.css": ("page.css", "text/css"),
    "/icon.svg": ("icon.svg", "image/svg+xml"),
    **{f"/scripts/{name}": (f"scripts/{name}", "text/javascript") for name in SCRIPTS},
}
HEADERS = {
    **guarded.HEADERS,
    "Content-Security-Policy": "default-src 'none'; script-src 'self'; style-src 'self'; connect-src 'self'; "
    "img-src 'self' data:; base-uri 'none'; form-action 'none'; frame-ancestors 'none'",
    "Referrer-Policy": "no-referrer",
}
QUESTIONS: dict[str, Callable[[Desk, dict[str, Any]], dict[str, Any]]] = {
    "/api/games": lambda desk, told: desk.games(),
    "/api/open": Desk.open,
    "/api/position": Desk.position,
    "/api/values": Desk.values,
    "/api/replies": Desk.replies,
    "/api/choose": Desk.choose,
    "/api/stop": Desk.stop,
    "/api/record": Desk.record,
    "/api/matches": lambda desk, told: desk.matches.all(),
    "/api/match": lambda desk, told: desk.matches.one(told),
}


class Server(guarded.Server):
    """The server of one page."""

    def __init__(self, desk: Desk, port: int, names: Iterable[str] = ()) -> None:
        super().__init__(port, Handler, names)
        self.desk = desk

    def service_actions(self) -> None:
        """Called twice a second."""
        self.desk.watch()


class Handler(guarded.Handler):
    """Answers the requests of a connection."""

    server: Server
    says = HEADERS

    def _is_gone(self) -> bool:
        """Whether nobody is at the other end any more."""
        poll = select.poll()
        poll.register(self.connection, select.POLLRDHUP)
        return bool(poll.poll(0))

    def _told(self, work: Callable[[], Answer]) -> Callable[[], Answer]:
        """The work, with what is told where it gives no answer."""

        def tell() -> Answer:
            try:
                return work()
            except NO_ANSWER as fault:
                return as_json({"error": looks.said(fault)}, HTTPStatus.BAD_REQUEST)

        return tell

    def do_GET(self) -> None:
        """Gives a file of the page."""
        self.heard(self._told(self._file))

    def do_POST(self) -> None:
        """Answers a question of the page."""
        self.heard(self._told(self._answer))

    def _file(self) -> Answer:
        """A file."""
        self.came()
        found = FILES.get(self.path.partition("?")[0])
        if found is None:
            raise Unheard(HTTPStatus.NOT_FOUND, "There is no such page.")
        name, kind = found
        return Answer(kind, (files("gdlsolve.page") / name).read_bytes())

    def _answer(self) -> Answer:
        """The answer to a question, as JSON."""
        if self.path != "/api/news" and self.path not in QUESTIONS:
            raise Unheard(HTTPStatus.NOT_FOUND, "There is no such question.")
        told = json.loads(self.body(["application/json"], MOST_BYTES, "A question is JSON, whose length is told."))
        if not isinstance(told, dict):
            raise BadQuestion("A question is a JSON object.")
        desk = self.server.desk
        return as_json(desk.news(told, self._is_gone) if self.path == "/api/news" else QUESTIONS[self.path](desk, told))
