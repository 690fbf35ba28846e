"""How players sign up and leave: by a name, an address, and a token of which its sum alone is kept."""

from __future__ import annotations

import re
import secrets
import threading
from http import HTTPStatus
from urllib.parse import urlsplit

from gdlsolve.manager.client import checked, post
from gdlsolve.manager.record import name_of
from gdlsolve.manager.serve.store import CROWDED, Store
from gdlsolve.solver.terms import Malformed, terms, trees

LONGEST_NAME = 40
LONGEST_ADDRESS = 200
LONGEST_TOKEN = 100
# A token has so many bytes by chance, so that nobody guesses it.
TOKEN_BYTES = 24
# So many seconds a player has for the answer that tells that it is one, and so many are asked at once.
PATIENCE = 5.0
ASKED_AT_ONCE = 8
# A name or a number of a machine, a port, and the word that a player may want behind it.
ADDRESS = re.compile(r"http://([a-z0-9.-]+|\[[0-9a-f:.]+\]):[0-9]{1,5}(/[\w.~-]*)?", re.ASCII | re.IGNORECASE)
# What asks a player whether it is there, and what it may answer, alone or as its status.
QUESTIONS = ("(INFO)", "(PING)")
FREE, BUSY = "available", "busy"

NO_NAME = f"A name has from 1 to {LONGEST_NAME} letters, digits, and the signs _ . + -"
NO_ADDRESS = f"An address is http://HOST:PORT, with at most {LONGEST_ADDRESS} letters."
NO_ANSWER = f"Nobody at this address answers INFO within {PATIENCE:g} seconds as a player does."
NO_TOKEN = "This is not the token of a player of this name."
LATER = "Many players sign up just now. Try again."


class Turned(Exception):
    """Somebody is not taken. `status` is that of HTTP, and the text says why."""

    def __init__(self, status: int, why: str):
        super().__init__(why)
        self.status = status


def status_in(text: str) -> str:
    """The status of a player that a text tells, as one name or as a part of what it tells of itself; empty where it tells none."""
    try:
        [tree] = trees(text)
        parts = terms(tree[1:-1]) if tree.startswith("(") else []
    except (Malformed, ValueError):
        return ""
    return next((each for each in (FREE, BUSY) if tree == each or f"(status {each})" in parts), "")


def status_at(url: str) -> str:
    """What the player at an address says of itself; empty where none answers. Some know the one word, some the other."""
    for question in QUESTIONS:
        told = post(url, question, PATIENCE)
        if told.error == "late":
            return ""
        if found := status_in(told.text or ""):
            return found
    return ""


def is_free(url: str) -> bool:
    """Whether the player at an address may begin a match."""
    return status_at(url) == FREE


def name_in(text: str) -> str:
    """The name that a text is."""
    if not 0 < len(text) <= LONGEST_NAME or name_of(text) != text:
        raise Turned(HTTPStatus.BAD_REQUEST, NO_NAME)
    return text


def address_in(text: str) -> str:
    """The address that a text is, in one form."""
    try:
        if len(text) > LONGEST_ADDRESS or not ADDRESS.fullmatch(text):
            raise ValueError
        where = urlsplit(checked(text))
    except ValueError:
        raise Turned(HTTPStatus.BAD_REQUEST, NO_ADDRESS) from None
    return f"http://{where.netloc.lower()}{where.path.rstrip('/')}"


class Entry:
    """Takes players, and lets them go."""

    def __init__(self, store: Store):
        self.store = store
        self.places = threading.Semaphore(ASKED_AT_ONCE)

    def sign_up(self, name: str, address: str, token: str) -> str:
        """Takes a player, and gives its token. One who has the token of before may come again, also with another address."""
        name, url = name_in(name), address_in(address)
        own = token[:LONGEST_TOKEN] if self.store.knows(name) else secrets.token_urlsafe(TOKEN_BYTES)
        self._hindered(self.store.hindrance(name, url, own))
        if not self.places.acquire(blocking=False):
            raise Turned(HTTPStatus.SERVICE_UNAVAILABLE, LATER)
        try:
            # One that is busy now is taken too.
            if not status_at(url):
                raise Turned(HTTPStatus.BAD_REQUEST, NO_ANSWER)
        finally:
            self.places.release()
        self._hindered(self.store.sign_up(name, url, own))
        return own

    def _hindered(self, why: str) -> None:
        """Says why a player is not taken, where it is not."""
        if why:
            raise Turned(HTTPStatus.SERVICE_UNAVAILABLE if why == CROWDED else HTTPStatus.CONFLICT, why)

    def leave(self, name: str, token: str) -> None:
        """Lets a player go."""
        if not self.store.leave(name[:LONGEST_NAME], token[:LONGEST_TOKEN]):
            raise Turned(HTTPStatus.FORBIDDEN, NO_TOKEN)
