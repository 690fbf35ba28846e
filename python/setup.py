"""Packs the shared object that c/build has built with the modules, the program where it is proved and built, and the licences of the
repository. Where no shared object was built the package goes without, and then asks the program, or the one that GDLSOLVE_PROGRAM names.
All else is told in pyproject.toml."""

from __future__ import annotations

import shutil
import subprocess
import sys
from pathlib import Path
from typing import TYPE_CHECKING

from setuptools import Command, Distribution, setup
from setuptools.command.build_py import build_py

if TYPE_CHECKING:

    class bdist_wheel(Command):
        def get_tag(self) -> tuple[str, str, str]: ...

else:
    try:
        from setuptools.command.bdist_wheel import bdist_wheel
    except ImportError:
        # Debian's setuptools has none.
        from wheel.bdist_wheel import bdist_wheel

HERE = Path(__file__).resolve().parent
TOP = HERE.parent
LIBRARY = TOP / "c/out/libgdlsolve.so"
# The clone, also where these sources are a copy of some of its folders.
CLONE = (TOP / "c/build").resolve().parent.parent
PROGRAM = CLONE / "out/gdlsolve"
NO_KIT = "as there is no command rt: put the folder bin of the Rattle kit on the path, or install the wheel of a release (docs/INSTALL.md)"
LICENCES = ("LICENSE-APACHE", "LICENSE-MIT", "COPYRIGHT")


def is_fresh(*words: str | Path) -> bool:
    """Whether something is made of the sources as they are."""
    return subprocess.run(words, stdout=subprocess.DEVNULL, stderr=subprocess.DEVNULL, check=False).returncode == 0


class WithLibrary(build_py):
    """Puts the shared object and the program beside the modules. It fails where the shared object is older than what it is made of."""

    def run(self) -> None:
        super().run()
        folder = Path(self.build_lib) / "gdlsolve"
        library, program = folder / LIBRARY.name, folder / "bin" / PROGRAM.name
        for packed in (library, program):
            packed.unlink(missing_ok=True)
        if self.editable_mode:
            return
        if not LIBRARY.exists():
            print("gdlsolve goes without its library: c/build builds it", file=sys.stderr)
        elif shutil.which("rt") is None:
            raise SystemExit(f"nobody can tell here whether {LIBRARY} is made of these sources, {NO_KIT}")
        elif not is_fresh(TOP / "c/build", "--fresh"):
            raise SystemExit(f"{LIBRARY} is older than what it is made of: run c/build first")
        else:
            self.pack(LIBRARY, library)
        if PROGRAM.exists() and is_fresh(CLONE / "tools/prove.py", "program", "--fresh"):
            self.pack(PROGRAM, program)
        else:
            print("gdlsolve goes without its program, and so without sessions: ./gdlsolve --prove builds it", file=sys.stderr)

    def pack(self, file: Path, packed: Path) -> None:
        """Puts a file among what is packed."""
        packed.parent.mkdir(parents=True, exist_ok=True)
        shutil.copy2(file, packed)


class OfPlatform(Distribution):
    """The shared object and the program are of one platform."""

    def has_ext_modules(self) -> bool:
        return LIBRARY.exists() or PROGRAM.exists()


class ForAnyPython(bdist_wheel):
    """The wheel serves each Python, since the shared object knows none."""

    def get_tag(self) -> tuple[str, str, str]:
        return "py3", "none", super().get_tag()[2]


for licence in LICENCES:
    # setuptools looks for them beside this file alone.
    shutil.copyfile(TOP / licence, HERE / licence)

setup(distclass=OfPlatform, cmdclass={"build_py": WithLibrary, "bdist_wheel": ForAnyPython})
