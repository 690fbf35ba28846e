"""The server of the match server over HTTP: its pages, the same as JSON, and how players sign up and leave."""

from __future__ import annotations

import json
import re
import sqlite3
from collections.abc import Callable, Iterable, Mapping
from concurrent.futures import Future
from http import HTTPStatus
from importlib.resources import files
from urllib.parse import parse_qs

from gdlsolve.manager.serve import pages, told
from gdlsolve.manager.serve.entry import Entry, Turned
from gdlsolve.manager.serve.hall import Hall
from gdlsolve.manager.serve.store import Listed, Store
from gdlsolve.web import guarded
from gdlsolve.web.guarded import Answer, Unheard, as_json

# The longest message, in bytes, and how many fields a form has at most.
MOST_BYTES = 4096
MOST_FIELDS = 8
# So many matches are listed on the first page, on a page of their own, and as JSON.
LATEST, LISTED, TOLD = 20, 100, 500
# No match has a greater number.
MOST_NUMBER = 1 << 53
MATCH = re.compile(r"/matches/([1-9][0-9]{0,14})(\.json)?", re.ASCII)
JSON = "application/json"
FORM = "application/x-www-form-urlencoded"
NOTHING = "There is no such page."
UNREAD = "That cannot be read."
HEADERS = {
    **guarded.HEADERS,
    "Content-Security-Policy": "default-src 'none'; style-src 'self'; base-uri 'none'; form-action 'self'; frame-ancestors 'none'",
    # With none at all a browser would not tell whose page has sent a form.
    "Referrer-Policy": "same-origin",
}


class Server(guarded.Server):
    """Serves the pages over an archive, beside the matches that go on."""

    def __init__(self, store: Store, hall: Hall, port: int, names: Iterable[str] = ()) -> None:
        super().__init__(port, Handler, names)
        self.store, self.hall, self.entry = store, hall, Entry(store)
        self.work: Future[None] | None = None

    def service_actions(self) -> None:
        """Called twice a second. Where no matches can go on any more the server ends too."""
        if self.work is not None and self.work.done():
            self.work.result()


def as_page(body: bytes, status: int = HTTPStatus.OK) -> Answer:
    """An answer that is a page."""
    return Answer("text/html", body, status)


def fields_of(text: str) -> dict[str, str]:
    """The fields that a form tells, or an address behind its `?`."""
    try:
        return {name: values[0] for name, values in parse_qs(text, max_num_fields=MOST_FIELDS).items()}
    except ValueError:
        raise Unheard(HTTPStatus.BAD_REQUEST, UNREAD) from None


def number_in(text: str) -> int:
    """A number that a request tells."""
    if not re.fullmatch("[0-9]{1,15}", text, re.ASCII):
        raise Unheard(HTTPStatus.BAD_REQUEST, "That is no number of a match.")
    return int(text)


class Handler(guarded.Handler):
    """Answers the requests of a connection."""

    server: Server
    says = HEADERS

    def refusal(self, fault: Unheard) -> Answer:
        """What is answered to a request that is not heard."""
        if self.is_json():
            return super().refusal(fault)
        return as_page(pages.told_page(HTTPStatus(fault.status).phrase, str(fault), "bad"), fault.status)

    def is_json(self) -> bool:
        """Whether a request wants JSON: it is JSON itself, or its address ends so."""
        return self.headers.get_content_type() == JSON or self.path.partition("?")[0].endswith(".json")

    def do_GET(self) -> None:
        """Gives a page."""
        self.heard(lambda: self._safe(self._page))

    def do_POST(self) -> None:
        """Has a player sign up or leave."""
        self.heard(lambda: self._safe(self._change))

    def _safe(self, work: Callable[[], Answer]) -> Answer:
        """What the work gives. Where the archive fails that is told."""
        try:
            return work()
        except sqlite3.Error as fault:
            raise Unheard(HTTPStatus.SERVICE_UNAVAILABLE, f"The archive fails: {fault}.") from None

    def _page(self) -> Answer:
        """A page, or the same as JSON."""
        self.came()
        place, _, asked = self.path.partition("?")
        if found := MATCH.fullmatch(place):
            return self._match(int(found[1]), bool(found[2]))
        work = PAGES.get(place)
        if work is None:
            raise Unheard(HTTPStatus.NOT_FOUND, NOTHING)
        return work(self, fields_of(asked))

    def _match(self, number: int, is_json: bool) -> Answer:
        """A match."""
        store = self.server.store
        listed = store.one(number)
        if listed is None:
            raise Unheard(HTTPStatus.NOT_FOUND, "There is no such match.")
        try:
            record = store.record(number) if listed.entry.stage.is_over else None
        except ValueError as changed:
            raise Unheard(HTTPStatus.CONFLICT, f"The archive was changed: {changed}.") from None
        if not is_json:
            return as_page(pages.match_page(listed, record, store.unready(number)))
        if record is None:
            raise Unheard(HTTPStatus.CONFLICT, "This match goes on.")
        return as_json(told.of_record(record))

    def _fields(self) -> Mapping[str, str]:
        """What a form tells, or JSON."""
        body = self.body([JSON, FORM], MOST_BYTES, "That is neither a form nor JSON, whose length is told.")
        try:
            text = body.decode()
            if not self.is_json():
                return fields_of(text)
            found = json.loads(text)
        except (ValueError, RecursionError):
            raise Unheard(HTTPStatus.BAD_REQUEST, UNREAD) from None
        if not isinstance(found, dict) or not all(isinstance(value, str) for value in found.values()):
            raise Unheard(HTTPStatus.BAD_REQUEST, "A message is a JSON object of texts.")
        return found

    def _change(self) -> Answer:
        """Has a player sign up or leave."""
        work = CHANGES.get(self.path)
        if work is None:
            raise Unheard(HTTPStatus.NOT_FOUND, NOTHING)
        try:
            return work(self, self._fields())
        except Turned as fault:
            # The connection may go on.
            return self.refusal(Unheard(fault.status, str(fault)))

    def ratings(self, asked: Mapping[str, str]) -> Answer:
        """The ratings, and the last matches."""
        return as_page(pages.ratings_page(self._ranked(), self._listed({}, LATEST)))

    def ratings_json(self, asked: Mapping[str, str]) -> Answer:
        """The ratings."""
        return as_json({"players": self._ranked()})

    def matches(self, asked: Mapping[str, str]) -> Answer:
        """A list of matches."""
        return as_page(pages.matches_page(self._listed(asked, LISTED), LISTED))

    def matches_json(self, asked: Mapping[str, str]) -> Answer:
        """The same as JSON."""
        return as_json(told.of_matches(self._listed(asked, TOLD)))

    def games(self, asked: Mapping[str, str]) -> Answer:
        """The games."""
        return as_page(pages.games_page(list(self.server.hall.games.values()), self.server.store.played_of()))

    def players(self, asked: Mapping[str, str]) -> Answer:
        """The forms for signing up and leaving."""
        return as_page(pages.players_page())

    def style(self, asked: Mapping[str, str]) -> Answer:
        """How the pages look."""
        return Answer("text/css", (files("gdlsolve.manager.serve") / "match.css").read_bytes())

    def _ranked(self) -> list[dict[str, object]]:
        """The players, the strongest first."""
        return told.ranked(self.server.hall.view, self.server.store.here())

    def _listed(self, asked: Mapping[str, str], most: int) -> list[Listed]:
        """Matches, the last first, before the one that is asked for."""
        before = asked.get("before")
        return self.server.store.listed(number_in(before) if before else MOST_NUMBER, most)

    def sign_up(self, fields: Mapping[str, str]) -> Answer:
        """Takes a player."""
        name = fields.get("name", "").strip()
        token = self.server.entry.sign_up(name, fields.get("address", "").strip(), fields.get("token", "").strip())
        return as_json({"name": name, "token": token}) if self.is_json() else as_page(pages.taken_page(name, token))

    def leave(self, fields: Mapping[str, str]) -> Answer:
        """Lets a player go."""
        name = fields.get("name", "").strip()
        self.server.entry.leave(name, fields.get("token", "").strip())
        return as_json({"name": name}) if self.is_json() else as_page(pages.told_page("Left", f"{name} has left."))


PAGES: dict[str, Callable[[Handler, Mapping[str, str]], Answer]] = {
    "/": Handler.ratings,
    "/ratings.json": Handler.ratings_json,
    "/matches": Handler.matches,
    "/matches.json": Handler.matches_json,
    "/games": Handler.games,
    "/players": Handler.players,
    "/match.css": Handler.style,
}
CHANGES: dict[str, Callable[[Handler, Mapping[str, str]], Answer]] = {"/players": Handler.sign_up, "/leave": Handler.leave}
