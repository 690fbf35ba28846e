"""The child process of an engine, within limits:

    python -P -m gdlsolve.player.child MIB NICE [--session] [PROGRAM WORDS..]

It takes no more than so many MiB of addresses, and no more does a program that it starts; 0 sets no limit. Both run at a priority that is
lower by so much than that of the process that started it. It answers as `gdlsolve.solver.child` does.
"""

from __future__ import annotations

import os
import resource
import sys

from gdlsolve.solver.child import Answers, run


def command(mebibytes: int, nice: int) -> list[str]:
    """The words that start such a process, which has the solver read rules once."""
    return [sys.executable, "-P", "-m", "gdlsolve.player.child", str(mebibytes), str(nice), "--session"]


def bound(mebibytes: int, nice: int) -> None:
    """Sets the limits of this process. One that it has already is not raised."""
    if mebibytes:
        _, hard = resource.getrlimit(resource.RLIMIT_AS)
        most = mebibytes << 20
        most = most if hard == resource.RLIM_INFINITY else min(most, hard)
        resource.setrlimit(resource.RLIMIT_AS, (most, most))
    os.nice(nice)


if __name__ == "__main__":
    bound(int(sys.argv[1]), int(sys.argv[2]))
    run(Answers(sys.argv[3:]))
