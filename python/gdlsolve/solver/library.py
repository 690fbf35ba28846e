"""The library: words and rules in, status and bytes out. It answers in the calling thread, which hears no key and no clock before."""
import ctypes
import os
from collections.abc import Callable, Sequence
from functools import cache
from pathlib import Path
from typing import cast

from gdlsolve.solver.program import CLONE, PACKAGE, check_words
from gdlsolve.solver.replies import Reply, Status

NAME = "libgdlsolve.so"
# Where it stands: in the package, or where the clone builds it.
FOLDERS = (PACKAGE, CLONE / "c/out")
# So many bytes of a reply are taken at once. Of a longer one the call is made again.
ROOM = 1 << 16


def file() -> Path | None:
    """The file of the library: the one that `GDLSOLVE_LIBRARY` names, else that of the package, else that of the clone."""
    named = os.environ.get("GDLSOLVE_LIBRARY")
    if named:
        return Path(named).absolute()
    return next((folder / NAME for folder in FOLDERS if (folder / NAME).exists()), None)


@cache
def _call(library: Path, name: str, texts: int) -> Callable[..., int]:
    """A function of the library, which takes so many texts, a room and the place of a size."""
    call = getattr(ctypes.CDLL(str(library)), name)
    call.restype = ctypes.c_uint32
    text = [ctypes.c_char_p, ctypes.c_size_t]
    call.argtypes = [*text * (texts + 1), ctypes.POINTER(ctypes.c_size_t)]
    return cast(Callable[..., int], call)


def in_room(call: Callable[..., int], given: Sequence[object]) -> tuple[Status, bytes]:
    """What a call tells that is given these and a room. It raises `MemoryError` for want of memory."""
    size = ctypes.c_size_t(ROOM)
    while True:
        place = size.value
        room = ctypes.create_string_buffer(max(place, 1))
        status = Status(call(*given, room, place, ctypes.byref(size)))
        if status == Status.NO_MEMORY:
            raise MemoryError
        if size.value <= place:
            return status, ctypes.string_at(room, size.value)


def _told(library: Path, name: str, texts: Sequence[bytes]) -> tuple[Status, bytes]:
    """What a function of the library tells of texts. It raises `MemoryError` for want of memory."""
    return in_room(_call(library, name, len(texts)), [part for text in texts for part in (text, len(text))])


def command_of(words: Sequence[str]) -> bytes:
    """The words as the library takes them, none of which has a character 0."""
    check_words(words)
    return b"".join(word.encode() + b"\0" for word in words)


def told_by_library(library: Path, command: bytes, rules: bytes, status: Status, output: bytes) -> Reply:
    """The reply of the library to a command over rules, which explains itself where it is a refusal."""

    def explain() -> str:
        return _told(library, "gdlsolve_explain", [command, rules, output])[1].decode(errors="replace")

    return Reply(status, output, explain=explain if status == Status.REFUSED else None)


def by_library(library: Path, words: Sequence[str], rules: bytes) -> Reply:
    """The reply of the library to words without a character 0."""
    command = command_of(words)
    return told_by_library(library, command, rules, *_told(library, "gdlsolve_reply", [command, rules]))
