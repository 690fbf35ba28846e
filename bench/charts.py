"""Charts of how long rows take: against depth, and against the size of the board.

`bench/ladder --plot` draws them. charts.py POINTS.json FILE draws points anew that were measured
before. matplotlib is needed to draw (Debian's python3-matplotlib), and points are kept without."""
from __future__ import annotations

import json
import math
import os
import re
import shlex
import statistics
import subprocess
import sys
from dataclasses import asdict, dataclass
from importlib import import_module
from pathlib import Path
from typing import Any

TOP = Path(__file__).resolve().parent.parent
DEBIANS = "/usr/bin/python3"
SIZE = re.compile(r"(\d+)x(\d+)")
COLOURS = ["#1d4ed8", "#b4330b", "#08652b", "#7a1fa2", "#7d5a00", "#0b6b76", "#a01457", "#4d5868"]
# Fewer points make no line.
LEAST = 3


@dataclass(frozen=True)
class Point:
    """One row: its description, how deep it was searched, and the middle of its times."""

    game: str
    depth: int
    seconds: float

    def cells(self) -> int | None:
        """How many cells the board has, where the name tells it."""
        found = SIZE.search(self.game)
        return int(found[1]) * int(found[2]) if found else None


def points_of(row: str, times: list[float]) -> list[Point]:
    """The point of a row, as `nim --role first --depth 7`; none for one behind a history."""
    game, *words = shlex.split(row)
    options = dict(zip(words[::2], words[1::2]))
    if "--depth" not in options or "--after" in options:
        return []
    return [Point(game, int(options["--depth"]), statistics.median(times))]


def told_of_machine() -> str:
    """What the times were measured on."""
    file = Path("/proc/cpuinfo")
    lines = file.read_text().splitlines() if file.exists() else []
    kinds = [line.partition(":")[2].strip() for line in lines if line.startswith("model name")]
    kind = kinds[0] if kinds else "a machine"
    return f"{os.cpu_count()} cores of {kind}, load {os.getloadavg()[0]:.1f} at the end"


def has_matplotlib(python: str) -> bool:
    """Whether a Python is there and can draw."""
    test = [python, "-c", "import matplotlib"]
    if not Path(python).exists():
        return False
    return subprocess.run(test, capture_output=True, check=False).returncode == 0


def write(points: list[Point], file: Path, what: str) -> None:
    """Keeps the points beside the chart, with what was measured, and draws it by a Python that has matplotlib."""
    kept = file.with_suffix(".json")
    told = {"machine": told_of_machine(), "what": what, "points": [asdict(point) for point in points]}
    kept.write_text(json.dumps(told, indent=1) + "\n")
    for python in dict.fromkeys([sys.executable, DEBIANS]):
        if has_matplotlib(python):
            words = [python, "-B", __file__, str(kept), str(file)]
            subprocess.run(words, stderr=subprocess.DEVNULL, check=True)
            return
    why = "no chart: there is no matplotlib (python3-matplotlib)"
    print(f"{why}; the points are in {kept}", file=sys.stderr)


def lines_by(points: list[Point], name: str) -> dict[str, list[tuple[int, float]]]:
    """Lines of times: of each description against depth, or of each depth against cells."""
    found: dict[str, list[tuple[int, float]]] = {}
    for point in points:
        cells = point.cells()
        if name == "depth":
            line = found.setdefault(point.game.replace("_", " "), [])
            line.append((point.depth, point.seconds))
        elif cells is not None:
            found.setdefault(f"depth {point.depth}", []).append((cells, point.seconds))
    return {key: sorted(line) for key, line in found.items() if len({x for x, _ in line}) >= LEAST}


def told_time(value: float, place: object) -> str:
    """A number of milliseconds, as an axis tells it."""
    return f"{value:g} ms" if value < 1000 else f"{value / 1000:g} s"


def panel(axes: Any, lines: dict[str, list[tuple[int, float]]], across: str) -> None:
    """One part of the chart."""
    for place, (name, line) in enumerate(lines.items()):
        along, up = [x for x, _ in line], [seconds * 1e3 for _, seconds in line]
        colour = COLOURS[place % len(COLOURS)]
        axes.plot(along, up, "o-", color=colour, markersize=4, linewidth=1.6, label=name)
    handles, labels = axes.get_legend_handles_labels()
    place_of = {"loc": "upper left", "bbox_to_anchor": (1.0, 1.0)}
    axes.legend(handles[::-1], labels[::-1], frameon=False, fontsize=9, **place_of)
    axes.set_yscale("log")
    axes.set_xlabel(across)
    axes.xaxis.get_major_locator().set_params(integer=True)
    axes.grid(True, which="major", color="#d3dae4", linewidth=0.7)
    axes.margins(x=0.03)
    axes.spines[["top", "right"]].set_visible(False)
    axes.yaxis.set_major_formatter(told_time)


def draw(points: list[Point], file: Path, what: str) -> None:
    """Draws the chart."""
    matplotlib: Any = import_module("matplotlib")
    matplotlib.use("Agg")
    matplotlib.rcParams.update({"svg.fonttype": "none", "svg.hashsalt": "gdlsolve"})
    pyplot: Any = import_module("matplotlib.pyplot")

    figure, (left, right) = pyplot.subplots(1, 2, figsize=(11, 4.6), sharey=True)
    panel(left, lines_by(points, "depth"), "turns looked ahead")
    panel(right, lines_by(points, "cells"), "cells of the board")
    left.set_ylabel(what)
    least = min(point.seconds for point in points) * 1e3
    left.set_ylim(bottom=10 ** math.floor(math.log10(least)))
    figure.tight_layout(w_pad=2)
    figure.savefig(file, metadata={"Date": None} if file.suffix == ".svg" else None)


def main() -> int:
    if len(sys.argv) != 3:
        print(__doc__)
        return 2
    told = json.loads(Path(sys.argv[1]).read_text())
    draw([Point(**point) for point in told["points"]], Path(sys.argv[2]), told["what"])
    return 0


if __name__ == "__main__":
    sys.exit(main())
