"""What a referee says to a player over HTTP, by httpx. What a player answers may be anything, and come as slowly as it likes."""

from __future__ import annotations

import asyncio
import time
from dataclasses import dataclass
from http import HTTPStatus
from importlib import import_module
from urllib.parse import urlsplit

from gdlsolve.console.notes import shown

# So many bytes of an answer are kept.
MOST_BYTES = 1 << 16
HEAD = {"Content-Type": "text/acl", "Accept-Encoding": "identity", "Connection": "close"}


@dataclass(frozen=True)
class Told:
    """What a player answered, why there is nothing, and after how many seconds."""

    text: str | None
    error: str
    seconds: float


# What is told by who is not asked.
NOTHING = Told(None, "", 0.0)


async def asked(player: str, message: str) -> str:
    """The answer to a message."""
    import httpx

    # Nothing of the environment sends it elsewhere.
    async with (
        httpx.AsyncClient(timeout=None, trust_env=False, verify=False, headers=HEAD) as client,
        client.stream("POST", player, content=message.encode()) as answer,
    ):
        found = bytearray()
        # All is read, as generators of the library that are left early write to standard error; what is too much is not kept.
        async for part in answer.aiter_raw():
            found += part[: MOST_BYTES - len(found)]
    text = found.decode(errors="replace").strip()
    if answer.status_code != HTTPStatus.OK:
        raise ValueError(f"status {answer.status_code} {text[:200]}")
    return text


async def told(player: str, message: str, seconds: float) -> Told:
    """What is told within so many seconds in all."""
    begun = time.monotonic()
    text, error = None, ""
    try:
        text = await asyncio.wait_for(asked(player, message), seconds)
    except Exception as fault:
        error = shown(str(fault) or repr(fault))
    took = time.monotonic() - begun
    if took >= seconds:
        text, error = None, "late"
    return Told(text, error, round(took, 3))


def checked(player: str) -> str:
    """The URL of a player, where it is one."""
    try:
        where = urlsplit(player)
        is_url = where.scheme == "http" and bool(where.hostname) and where.port != 0
    except ValueError:
        is_url = False
    if not is_url:
        raise ValueError(f"{player} is no http://HOST:PORT")
    return player


def post(player: str, message: str, seconds: float) -> Told:
    """Sends a message to a player, and waits so long for the answer."""
    checked(player)
    # What it takes to be read is not a part of the clock.
    import_module("httpx")
    loop = asyncio.new_event_loop()
    try:
        return loop.run_until_complete(told(player, message, seconds))
    finally:
        loop.close()
