"""The server of a player: messages over HTTP, one for each connection, by aiohttp.

A stranger who reaches the port holds little of it, and not for long. So many connections are open at most: where one more comes, the one is
closed that has been sending its message for longest, so that a referee, who sends at once, is heard. A message has so many seconds to come,
in all. It is heard where it is sent to this host by a name that is known, and not by a page in a browser.
"""

from __future__ import annotations

import asyncio
import logging
import re
import socket
import threading
import time
from collections.abc import Callable
from concurrent.futures import Future
from contextlib import suppress
from functools import partial
from http import HTTPStatus
from typing import Any

from aiohttp import StreamReader, web

from gdlsolve.player.access import Door
from gdlsolve.player.background import begun
from gdlsolve.player.messages import MOST_BYTES, Crowded
from gdlsolve.solver.terms import Malformed

# So many connections are taken in a row before others are looked at, and so many wait to be taken.
AT_ONCE = 16
WAITING = 128
# A head is no longer, and where it ends.
MOST_OF_HEAD, END_OF_HEAD = 1 << 14, re.compile(rb"\n\r?\n")
# So many bytes of messages that have not come yet are held in all.
MOST_HELD = 32 << 20
# What strangers send that is no message is told to nobody but them.
QUIET = logging.Logger("gdlsolve.player.server", logging.CRITICAL + 1)
# For so long a message that is refused is read on, so that its sender hears why, in seconds; and so long a connection takes to end.
LINGER, FAREWELL = 2.0, 1.0


class Unread(Exception):
    """A body that is not read. `status` is that of HTTP, and the text says why."""

    def __init__(self, status: HTTPStatus, why: str):
        super().__init__(why)
        self.status = status


class Connection(web.RequestHandler):
    """A connection, from which one message comes."""

    __slots__ = ("listener", "clock", "head", "body", "sent", "size", "has_sent")

    def __init__(self, listener: Listener, **options: Any):
        super().__init__(listener, loop=listener.loop, **options)
        self.listener = listener
        self.clock: asyncio.TimerHandle | None = None
        # The head, until its end has come.
        self.head: bytearray | None = bytearray()
        self.body: StreamReader | None = None
        # So many bytes have come, and so many of them are of the body.
        self.sent = self.size = 0
        # Whether its sender has said that no more comes.
        self.has_sent = False

    def connection_made(self, transport: asyncio.BaseTransport) -> None:
        """Takes its place among the others, and has so long to send its message."""
        super().connection_made(transport)
        peer = transport.get_extra_info("peername")
        if peer and self.listener.door.is_sender(str(peer[0])):
            self.clock = self.listener.loop.call_later(self.listener.door.seconds, self.drop)
            self.listener.enter(self)
        else:
            self.drop()

    def connection_lost(self, exc: BaseException | None) -> None:
        """Leaves its place."""
        self.heard()
        self.listener.leave(self)
        super().connection_lost(exc)

    def data_received(self, data: bytes) -> None:
        """Takes what has come. A head or a body that does not end ends the connection."""
        self.sent += len(data)
        if self.head is not None:
            self.head += data[:MOST_OF_HEAD]
            if END_OF_HEAD.search(self.head):
                self.head = None
        if self.sent > (MOST_BYTES * 2 if self.head is None else MOST_OF_HEAD):
            self.drop()
        else:
            super().data_received(data)

    def eof_received(self) -> Any:
        """A sender that sends no more may wait for its answer. So this gives true, which keeps the connection."""
        self.has_sent = True
        self.cut_off()
        if self.body is None:
            self.listener.loop.call_later(FAREWELL, self.drop_unread)
        return True

    def begin(self, body: StreamReader) -> None:
        """A message has begun, whose body comes."""
        self.body = body
        self.cut_off()

    def cut_off(self) -> None:
        """A message that is not whole when its sender sends no more is none."""
        if self.has_sent and self.body is not None and not self.body.is_eof():
            self.body.set_exception(Unread(HTTPStatus.BAD_REQUEST, "cut off"))

    def heard(self) -> None:
        """The message has come, and the answer may take its time."""
        if self.clock is not None:
            self.clock.cancel()
        self.listener.sending.pop(self, None)

    def drop(self) -> None:
        """Ends the connection at once."""
        if self.transport is not None:
            self.transport.abort()

    def drop_unread(self) -> None:
        """Ends the connection where no message has begun."""
        if self.body is None:
            self.drop()

    def handle_error(
        self, request: web.BaseRequest, status: int = 500, exc: BaseException | None = None, message: str | None = None
    ) -> web.StreamResponse:
        """What is told of a request that is none, or of a fault of the player."""
        if request.writer.output_size > 0:
            raise ConnectionError("an answer was begun")
        if status == HTTPStatus.INTERNAL_SERVER_ERROR:
            self.listener.told({"fault": repr(exc)[:200]})
        return answer(status, HTTPStatus(status).phrase)


def answer(status: int, text: str) -> web.Response:
    """An answer, behind which the connection is closed."""
    made = web.Response(status=status, body=text.encode(), headers={"Content-Type": "text/acl"})
    made.force_close()
    return made


class Listener(web.Server):
    """Makes connections, and answers their messages by a function of a text and the time at which it arrived."""

    def __init__(self, door: Door, most: int, answers: Callable[[str, float], str], told: Callable[[dict[str, Any]], None]):
        super().__init__(self.handle)
        self.door, self.most, self.answers, self.told = door, most, answers, told
        self.loop = asyncio.get_running_loop()
        self.open: set[Connection] = set()
        # So many messages are answered at once.
        self.places = threading.Semaphore(max(most // 2, 1))
        # Those whose message has not come yet, the oldest first.
        self.sending: dict[Connection, None] = {}

    def __call__(self) -> Connection:
        return Connection(self, logger=QUIET, access_log=None, lingering_time=LINGER, auto_decompress=False)

    def enter(self, made: Connection) -> None:
        """Gives a new connection a place, which may be that of one that sends slowly."""
        if len(self.open) >= self.most:
            slowest = next(iter(self.sending), made)
            slowest.drop()
            self.leave(slowest)
            if slowest is made:
                return
        self.open.add(made)
        self.sending[made] = None

    def hold(self, grown: Connection, more: int) -> None:
        """Holds so many bytes more of a message, if need be in place of those that have been coming for longest."""
        grown.size += more
        while sum(each.size for each in self.sending) > MOST_HELD:
            slowest = next(each for each in self.sending if each.size)
            slowest.drop()
            self.leave(slowest)

    def leave(self, gone: Connection) -> None:
        """Frees the place of a connection."""
        self.open.discard(gone)
        self.sending.pop(gone, None)

    async def handle(self, request: web.BaseRequest) -> web.StreamResponse:
        """Answers a request."""
        arrived = time.monotonic()
        try:
            text = await self.read(request)
            return answer(HTTPStatus.OK, await asyncio.wrap_future(self.answered(text, arrived)))
        except Unread as fault:
            return answer(fault.status, str(fault))
        except Crowded:
            return answer(HTTPStatus.SERVICE_UNAVAILABLE, "too many messages at once")
        except Malformed as fault:
            return answer(HTTPStatus.BAD_REQUEST, f"malformed: {fault}")

    def answered(self, text: str, arrived: float) -> Future[str]:
        """What a message will be answered, where not too many are being answered."""
        if not self.places.acquire(blocking=False):
            raise Crowded

        def work() -> str:
            try:
                return self.answers(text, arrived)
            finally:
                self.places.release()

        return begun(work)

    async def read(self, request: web.BaseRequest) -> str:
        """The text of a message that is heard."""
        if request.method != "POST":
            raise Unread(HTTPStatus.NOT_IMPLEMENTED, "a message is a POST")
        if why := self.door.refused(request.path, request.headers):
            raise Unread(HTTPStatus.FORBIDDEN, why)
        if request.content_length is None and not request.headers.get("Transfer-Encoding"):
            raise Unread(HTTPStatus.LENGTH_REQUIRED, "a message has a length")
        connection = request.protocol
        assert isinstance(connection, Connection)
        connection.begin(request.content)
        body = await self.taken(request, connection)
        connection.heard()
        return body.decode(errors="replace")

    async def taken(self, request: web.BaseRequest, connection: Connection) -> bytes:
        """The body of a message."""
        if (request.content_length or 0) > MOST_BYTES:
            raise Unread(HTTPStatus.REQUEST_ENTITY_TOO_LARGE, "too long")
        found = bytearray()
        try:
            async for part in request.content.iter_any():
                found += part
                self.hold(connection, len(part))
                if len(found) > MOST_BYTES:
                    raise Unread(HTTPStatus.REQUEST_ENTITY_TOO_LARGE, "too long")
        except web.RequestPayloadError:
            raise Unread(HTTPStatus.BAD_REQUEST, "cut off") from None
        return bytes(found)


class Server:
    """A player at a port, in a thread of its own. `OSError` tells that there is no such port."""

    def __init__(self, door: Door, matches: int, answers: Callable[[str, float], str], told: Callable[[dict[str, Any]], None]):
        self.make = partial(Listener, door, door.most(matches), answers, told)
        self.told = told
        self.socket = socket.socket(socket.AF_INET6 if ":" in door.host else socket.AF_INET)
        try:
            self.socket.setsockopt(socket.SOL_SOCKET, socket.SO_REUSEADDR, 1)
            self.socket.bind((door.host, door.port))
            self.socket.listen(WAITING)
        except BaseException:
            self.socket.close()
            raise
        self.port: int = self.socket.getsockname()[1]
        self.loop = asyncio.new_event_loop()
        self.loop.set_exception_handler(lambda _, fault: told({"fault": str(fault.get("message"))}))
        self.ended = asyncio.Event()
        self.thread = threading.Thread(target=self.run, daemon=True)

    def run(self) -> None:
        """Serves, in its thread."""
        try:
            self.loop.run_until_complete(self.serve())
        finally:
            self.loop.close()

    async def serve(self) -> None:
        """Answers until it is ended."""
        self.listener = self.make()
        server = await self.loop.create_server(self.listener, sock=self.socket, backlog=AT_ONCE)
        self.socket.listen(WAITING)
        await self.ended.wait()
        server.close()
        await self.listener.shutdown(FAREWELL)

    def __enter__(self) -> Server:
        self.thread.start()
        return self

    def __exit__(self, *_: object) -> None:
        """Answers no more."""
        with suppress(RuntimeError):
            # It may have ended by itself.
            self.loop.call_soon_threadsafe(self.ended.set)
        self.thread.join(2 * FAREWELL)
        self.socket.close()
