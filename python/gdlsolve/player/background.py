"""Work beside what goes on, in a thread that is not waited for where the process ends."""

from __future__ import annotations

import threading
from collections.abc import Callable
from concurrent.futures import Future
from typing import TypeVar

T = TypeVar("T")


def begun(work: Callable[[], T]) -> Future[T]:
    """What the work will have come to."""
    found: Future[T] = Future()
    # From now on nobody cancels it.
    found.set_running_or_notify_cancel()

    def run() -> None:
        try:
            found.set_result(work())
        except BaseException as fault:
            found.set_exception(fault)

    threading.Thread(target=run, daemon=True).start()
    return found
