"""Scripts as modules, for their tests."""

from __future__ import annotations

import importlib.machinery
import importlib.util
import sys
from pathlib import Path
from types import ModuleType

TOOLS = Path(__file__).resolve().parent.parent
sys.path.insert(0, str(TOOLS))
sys.dont_write_bytecode = True


def script(path: str) -> ModuleType:
    """A script below tools/ as a module."""
    file = TOOLS / path
    loader = importlib.machinery.SourceFileLoader(file.name, str(file))
    spec = importlib.util.spec_from_loader(file.name, loader)
    assert spec
    made = importlib.util.module_from_spec(spec)
    sys.modules[file.name] = made
    loader.exec_module(made)
    return made
