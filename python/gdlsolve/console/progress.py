"""A line on standard error that tells people how far a long question is, where that is a terminal.

`rich` draws it, or else `tqdm`, whichever is there; without both nothing is told.
"""

from __future__ import annotations

import sys
import threading
import time
from collections.abc import Callable, Iterator
from contextlib import contextmanager
from importlib import import_module
from typing import Any

# Shorter questions tell nothing, in seconds; and so often the line is drawn again.
SHORT = 1.0
BEAT = 0.25
Tell = Callable[[str], None]


@contextmanager
def _by_rich() -> Iterator[Tell]:
    """A line with a mark that moves."""
    console: Any = import_module("rich.console")
    with console.Console(stderr=True).status("") as status:
        yield status.update


@contextmanager
def _by_tqdm() -> Iterator[Tell]:
    """A line alone."""
    tqdm: Any = import_module("tqdm")
    with tqdm.tqdm(bar_format="{desc}", leave=False, file=sys.stderr) as bar:
        yield bar.set_description_str


class _Line(threading.Thread):
    """Draws the line until it is ended."""

    def __init__(self, text: str):
        super().__init__(daemon=True)
        self.text, self.begun = text, time.monotonic()
        self.ended = threading.Event()

    def draw(self, tell: Tell) -> None:
        """Tells the text and the time again and again."""
        while not self.ended.wait(BEAT):
            tell(f"{self.text}, {time.monotonic() - self.begun:.0f} s")

    def run(self) -> None:
        """Draws by what is there, once the question is long."""
        if self.ended.wait(SHORT):
            return
        for way in (_by_rich, _by_tqdm):
            try:
                with way() as tell:
                    self.draw(tell)
                return
            except ImportError:
                continue


@contextmanager
def progress(text: str) -> Iterator[Tell]:
    """Tells a text, and what it is told later, until the end of the `with`."""
    if sys.stderr is None or not sys.stderr.isatty():
        yield lambda text: None
        return
    line = _Line(text)

    def tell(text: str) -> None:
        line.text = text

    line.start()
    try:
        yield tell
    finally:
        line.ended.set()
        line.join()
