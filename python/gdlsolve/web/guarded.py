"""A server of pages on the loopback.

It is called by its own names alone, and of pages only by its own. A request has to be there in time, as a whole.
"""

from __future__ import annotations

import io
import json
import re
import socket
import sys
import threading
import time
from collections.abc import Callable, Collection, Iterable, Mapping
from contextlib import suppress
from dataclasses import dataclass
from http import HTTPStatus
from http.server import BaseHTTPRequestHandler, ThreadingHTTPServer
from typing import Any, cast

# So many connections are there at once. One more takes the place of the one whose request has been waited for longest, which may take so
# many seconds.
MOST_CONNECTIONS = 64
PARTING = 1.0
# So long a connection may be silent between requests; so long a request may take to come, from its first byte to its last, and an answer
# to go; all in seconds.
SILENT = 30.0
COMING = 20.0
GOING = 20.0
# The length of a body is told by so many digits at most.
MOST_DIGITS = 9
USUAL_PORT = 80
MOST_PORT = 65_535
FULL = b"HTTP/1.1 503 Service Unavailable\r\nContent-Length: 0\r\nConnection: close\r\n\r\n"
STRANGER = "This server answers its own page alone."
# A further name by which a browser may call a server.
NAME = re.compile(r"[\w.-]+(:\d{1,5})?", re.ASCII)
# What all answers say to a browser.
HEADERS = {"Cross-Origin-Resource-Policy": "same-origin", "X-Content-Type-Options": "nosniff", "Cache-Control": "no-store"}


class Unheard(Exception):
    """A request that is not heard. `status` is that of HTTP, and the text says why."""

    def __init__(self, status: int, why: str):
        super().__init__(why)
        self.status = status


@dataclass(frozen=True)
class Answer:
    """What is answered: its kind, its bytes, and the status of HTTP."""

    kind: str
    body: bytes
    status: int = HTTPStatus.OK


def as_json(told: object, status: int = HTTPStatus.OK) -> Answer:
    """An answer that is JSON."""
    return Answer("application/json", json.dumps(told).encode(), status)


class Coming(io.RawIOBase):
    """The bytes of a connection, as far as they come in time."""

    def __init__(self, link: socket.socket) -> None:
        self.link, self.until = link, 0.0

    def within(self, seconds: float) -> None:
        """From now on what is read has to be there within so many seconds in all."""
        self.until = time.monotonic() + seconds

    def readable(self) -> bool:
        return True

    def readinto(self, room: Any) -> int:
        left = self.until - time.monotonic()
        if left <= 0:
            raise TimeoutError("the request is too slow")
        self.link.settimeout(left)
        return self.link.recv_into(room)


class Server(ThreadingHTTPServer):
    """A server on the loopback, whose requests a handler answers. It has further names where it is called by them."""

    daemon_threads = True
    request_queue_size = MOST_CONNECTIONS

    def __init__(self, port: int, handler: type[Handler], names: Iterable[str] = ()) -> None:
        super().__init__(("127.0.0.1", port), handler)
        self._places = threading.Semaphore(MOST_CONNECTIONS)
        # The connections whose next request has not come, those first whose is waited for longest.
        self._silent: dict[socket.socket, None] = {}
        self._lock = threading.Lock()
        own = self.server_address[1]
        # A browser names no port that is the usual one.
        ends = [f":{own}", ""] if own == USUAL_PORT else [f":{own}"]
        self.names = {f"{name}{end}" for name in ("127.0.0.1", "localhost") for end in ends}.union(names)

    def note(self, link: socket.socket, is_silent: bool) -> None:
        """Notes whether a request of a connection is waited for."""
        with self._lock:
            self._silent.pop(link, None)
            if is_silent:
                self._silent[link] = None

    def _part(self) -> bool:
        """Ends the connection whose request has been waited for longest, where there is one."""
        with self._lock, suppress(OSError):
            for link in list(self._silent)[:1]:
                del self._silent[link]
                link.shutdown(socket.SHUT_RDWR)
                return True
        return False

    def process_request(self, request: Any, client_address: Any) -> None:
        """Hears a connection, once there is a place."""
        if not self._places.acquire(blocking=False) and not (self._part() and self._places.acquire(timeout=PARTING)):
            with suppress(OSError):
                request.send(FULL)
            return self.shutdown_request(request)
        try:
            return super().process_request(request, client_address)
        except BaseException:
            self._places.release()
            raise

    def process_request_thread(self, request: Any, client_address: Any) -> None:
        """Hears a connection to its end."""
        try:
            super().process_request_thread(request, client_address)
        finally:
            self._places.release()

    def handle_error(self, request: Any, client_address: Any) -> None:
        """Says nothing where a page has gone, and else what went wrong."""
        if not isinstance(sys.exception(), ConnectionError | TimeoutError):
            super().handle_error(request, client_address)


class Handler(BaseHTTPRequestHandler):
    """Answers the requests of a connection. One that is made of it says what each is answered with, by `heard`."""

    server: Server
    protocol_version = "HTTP/1.1"
    server_version = "gdlsolve"
    sys_version = ""
    # What each answer says to a browser.
    says: Mapping[str, str] = HEADERS

    def setup(self) -> None:
        """Has what comes be read in time."""
        super().setup()
        self.rfile.close()
        self.coming = Coming(self.connection)
        self.rfile = io.BufferedReader(self.coming)

    def handle_one_request(self) -> None:
        """Waits for a request, and answers it."""
        self.server.note(self.connection, is_silent=True)
        self.coming.within(SILENT)
        try:
            self.close_connection = not cast(io.BufferedReader, self.rfile).peek(1)
            if not self.close_connection:
                self.coming.within(COMING)
                super().handle_one_request()
        except TimeoutError:
            self.close_connection = True
        finally:
            self.server.note(self.connection, is_silent=False)

    def came(self) -> None:
        """From now on a request is there as a whole, and not waited for."""
        self.server.note(self.connection, is_silent=False)

    def _send(self, answer: Answer) -> None:
        """Sends an answer."""
        self.connection.settimeout(GOING)
        self.send_response(answer.status)
        self.send_header("Content-Type", f"{answer.kind}; charset=utf-8")
        self.send_header("Content-Length", str(len(answer.body)))
        for name, value in self.says.items():
            self.send_header(name, value)
        if self.close_connection:
            self.send_header("Connection", "close")
        self.end_headers()
        self.wfile.write(answer.body)

    def _check_caller(self) -> None:
        """Holds that the server is called by a name of its own, and not by another page: of each request that
        a page may send to another server, a browser tells whose page that is."""
        host, origin = self.headers.get("Host", ""), self.headers.get("Origin")
        if host not in self.server.names:
            raise Unheard(HTTPStatus.FORBIDDEN, STRANGER)
        if origin is not None and origin not in (f"http://{host}", f"https://{host}"):
            raise Unheard(HTTPStatus.FORBIDDEN, STRANGER)

    def heard(self, work: Callable[[], Answer]) -> None:
        """Answers a request with what the work gives. Behind what is not heard the connection ends."""
        try:
            self._check_caller()
            answer = work()
        except Unheard as fault:
            self.close_connection = True
            answer = self.refusal(fault)
        self._send(answer)

    def refusal(self, fault: Unheard) -> Answer:
        """What is answered to a request that is not heard."""
        return as_json({"error": str(fault)}, fault.status)

    def body(self, kinds: Collection[str], most: int, wanted: str) -> bytes:
        """The body of a request, which is of one of these kinds and has at most so many bytes; `wanted` says what it has to be."""
        size = self.headers.get("Content-Length", "")
        is_told = size.isascii() and size.isdigit() and "Transfer-Encoding" not in self.headers
        if self.headers.get_content_type() not in kinds or not is_told:
            raise Unheard(HTTPStatus.BAD_REQUEST, wanted)
        if len(size) > MOST_DIGITS or int(size) > most:
            raise Unheard(HTTPStatus.REQUEST_ENTITY_TOO_LARGE, "That is too long.")
        try:
            found = self.rfile.read(int(size))
        except TimeoutError:
            raise Unheard(HTTPStatus.REQUEST_TIMEOUT, "That took too long to come.") from None
        if len(found) < int(size):
            raise Unheard(HTTPStatus.BAD_REQUEST, "That is cut off.")
        self.came()
        return found

    def log_message(self, *words: Any) -> None:
        """Says nothing: a page asks often."""
