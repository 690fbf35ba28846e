"""Stored solves of games over a Dask cluster: over_dask.py SCHEDULER GAME.kif..

Tells each game whose answer is another, and at the end how many are the same.
"""
import shlex
import sys
from pathlib import Path

from gdlsolve.cluster import engines, sought
from gdlsolve.cluster.driver import Driver, Manner

OWN = {"--role", "--depth", "--after"}


def main(address: str, *names: str) -> None:
    same = 0
    with engines.dask(address, 60) as engine:
        for game in map(Path, names):
            first, want = game.with_suffix(".solve").read_bytes().split(b"\n", 1)
            words = shlex.split(first.decode())
            options = dict(zip(words[1::2], words[2::2]))
            worth = [word for name in options if name not in OWN for word in (name, options[name])]
            after = options.get("--after", "")
            role, depth = options["--role"], int(options["--depth"])
            asked = sought(game.read_bytes(), role, depth, worth, after)
            found = Driver(asked, engine, Manner(patience=60)).reply().output
            same += found == want
            if found != want:
                print(f"other: {game.stem}: {found!r}", flush=True)
    print(f"same {same}")


if __name__ == "__main__":
    main(*sys.argv[1:])
