"""The packages of the package: each needs only those below it."""

import ast
import unittest
from collections.abc import Iterator
from pathlib import Path

from tests import TOP

PACKAGE = TOP / "python/gdlsolve"
# From the lowest on.
LAYERS = ("console", "solver", "web", "player", "manager", "page", "cluster")
# What may be asked for the functions that the package hands on.
ABOVE_ALL = LAYERS[2:]


def imports(file: Path) -> Iterator[str]:
    """The modules of the package that a file imports; of names that the package hands on, the package itself."""
    for node in ast.walk(ast.parse(file.read_text())):
        if isinstance(node, ast.Import):
            yield from (name.name for name in node.names if name.name.split(".")[0] == "gdlsolve")
        elif isinstance(node, ast.ImportFrom) and (node.module or "").split(".")[0] == "gdlsolve":
            yield str(node.module)


class Layers(unittest.TestCase):
    def test_each_needs_those_below_it_alone(self) -> None:
        for place, layer in enumerate(LAYERS):
            allowed = {*LAYERS[: place + 1], *([""] if layer in ABOVE_ALL else [])}
            for file in sorted((PACKAGE / layer).rglob("*.py")):
                with self.subTest(file=str(file.relative_to(PACKAGE))):
                    self.assertLessEqual({f"{module}.".split(".")[1] for module in imports(file)}, allowed)

    def test_no_module_stands_beside_them(self) -> None:
        self.assertEqual({file.name for file in PACKAGE.glob("*.py")}, {"__init__.py", "__main__.py"})
        self.assertEqual({file.parent.name for file in PACKAGE.glob("*/__init__.py")}, set(LAYERS))


if __name__ == "__main__":
    unittest.main()
