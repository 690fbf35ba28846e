"""How the commands are called, and Ctrl-C: while their modules are read, while the solver does not answer, and while Python ends."""

import importlib
import signal
import subprocess
import sys
import tempfile
import tomllib
import unittest
from collections.abc import Sequence
from pathlib import Path
from unittest.mock import patch

from gdlsolve import __version__
from gdlsolve.console import keys
from tests import TOP, known, package
from tests.serving import LONG, until

NIM = str(TOP / "games/nim.kif")
# Each command, its module, the words that have it ask the solver, and a module that it reads after the package itself.
COMMANDS = {
    "gdlsolve": ("gdlsolve", ["check", NIM], "json"),
    "gdlsolve-cluster": ("gdlsolve.cluster", ["--role", "first", "--depth", "1", NIM], "argparse"),
    "gdlsolve-manager": ("gdlsolve.manager", [NIM], "random"),
    "gdlsolve-page": ("gdlsolve.page", ["--port", "0"], "webbrowser"),
    "gdlsolve-player": ("gdlsolve.player", ["--port", "0"], "hmac"),
    "gdlsolve-tournament": ("gdlsolve.manager.tournament", [NIM, "--player", "a=random", "--player", "b=random", "--archive", "/dev/null"], "sqlite3"),
}
SCRIPTS = tomllib.loads((TOP / "python/pyproject.toml").read_text())["project"]["scripts"]
# What pip writes for a script.
SCRIPT = "import sys\nfrom {module} import {call}\nsys.exit({call}())\n"
# Tells that it is there, and is there for long. It sleeps in short naps: a key that comes right before one is seen behind it.
HANGS = "import os, time\nopen(os.environ['THERE'], 'w').close()\nfor _ in range({naps}):\n    time.sleep(0.1)\n"


@unittest.skipIf(signal.getsignal(signal.SIGINT) is signal.SIG_IGN, "the key is of no account here")
class Keys(unittest.TestCase):
    def setUp(self) -> None:
        room = tempfile.TemporaryDirectory()
        self.addCleanup(room.cleanup)
        self.room = Path(room.name)
        self.there = self.room / "there"

    def ways(self, name: str) -> list[list[str]]:
        """What starts a command: its module, and its script."""
        script = self.room / name
        module, _, call = SCRIPTS[name].partition(":")
        script.write_text(SCRIPT.format(module=module, call=call))
        return [package(COMMANDS[name][0]), [sys.executable, str(script)]]

    def ended(self, words: Sequence[str], **more: str) -> tuple[int, bytes, bytes]:
        """What became of a command that a key ends as soon as something hangs."""
        self.there.unlink(missing_ok=True)
        asked, pipe = known(THERE=str(self.there), **more), subprocess.PIPE
        with subprocess.Popen(words, stdin=subprocess.DEVNULL, stdout=pipe, stderr=pipe, env=asked) as run:
            self.assertTrue(until(self.there.exists, LONG), words)
            run.send_signal(signal.SIGINT)
            try:
                output, errors = run.communicate(timeout=LONG)
            except subprocess.TimeoutExpired:
                run.kill()
                raise
        return run.returncode, output, errors

    def test_while_modules_are_read(self) -> None:
        for name, (_, words, late) in COMMANDS.items():
            for hanging in ("ctypes", late):
                folder = self.room / f"{name} {hanging}"
                folder.mkdir()
                (folder / f"{hanging}.py").write_text(HANGS.format(naps=int(10 * LONG)))
                path = f"{folder}:{TOP / 'python'}"
                for way in self.ways(name):
                    with self.subTest(name=name, hanging=hanging, way=way[1]):
                        self.assertEqual(self.ended([*way, *words], PYTHONPATH=path), (130, b"", b""))

    def test_while_the_solver_does_not_answer(self) -> None:
        program = self.room / "program"
        # It tells that it is there when the command has long begun to wait for it.
        program.write_text(f"#!/bin/sh\nsleep 0.5\n: > '{self.there}'\nexec sleep {LONG}\n")
        program.chmod(0o755)
        for name, (_, words, _) in COMMANDS.items():
            for way in self.ways(name):
                with self.subTest(name=name, way=way[1]):
                    self.assertEqual(self.ended([*way, *words], GDLSOLVE_PROGRAM=str(program)), (130, b"", b""))

    def test_while_python_ends(self) -> None:
        script = self.room / "gdlsolve"
        # The thread tells that it is there when Python has long begun to wait for its end.
        stays = f"def stay() -> None:\n    time.sleep(0.5)\n    open({str(self.there)!r}, 'w').close()\n    time.sleep({LONG})\n"
        ends = "@keys.quiet\ndef main() -> int:\n    threading.Thread(target=stay).start()\n    return 0\nsys.exit(main())\n"
        body = f"import sys, threading, time\nfrom gdlsolve import keys\n{stays}{ends}"
        script.write_text(body)
        self.assertEqual(self.ended([sys.executable, str(script)]), (130, b"", b""))


class Names(unittest.TestCase):
    def test_each_command_calls_itself_as_it_was_started(self) -> None:
        with tempfile.TemporaryDirectory() as room:
            for name, (module, _, _) in COMMANDS.items():
                if name == "gdlsolve":
                    # The program tells its own help.
                    continue
                script = Path(room) / name
                place, _, call = SCRIPTS[name].partition(":")
                script.write_text(SCRIPT.format(module=place, call=call))
                for way, own in ([sys.executable, str(script)], name), (package(module), f"python -m {module}"):
                    with self.subTest(own=own):
                        told = self.told([*way, "--help"])
                        self.assertTrue(told.startswith(f"usage: {own} "), told)
                        self.assertEqual(self.told([*way, "--version"]), f"gdlsolve {__version__}\n")

    def told(self, words: Sequence[str]) -> str:
        """What a command writes."""
        done = subprocess.run(words, env=known(), capture_output=True, text=True, check=False)
        self.assertEqual((done.returncode, done.stderr), (0, ""))
        return done.stdout


class Elsewhere(unittest.TestCase):
    def test_who_reads_the_package_keeps_the_key(self) -> None:
        kept = "import signal, gdlsolve; assert signal.getsignal(signal.SIGINT) is signal.default_int_handler"
        ignored = "import signal; signal.signal(signal.SIGINT, signal.SIG_DFL); signal.signal(signal.SIGINT, signal.default_int_handler); "
        done = subprocess.run([sys.executable, "-c", ignored + kept], env=known(), capture_output=True, text=True, check=False)
        self.assertEqual((done.returncode, done.stderr), (0, ""))

    def test_what_nohup_starts_ignores_it(self) -> None:
        body = "import signal, sys; signal.signal(signal.SIGINT, signal.SIG_IGN); sys.argv[:] = ['gdlsolve', '-V']; "
        then = "import gdlsolve.__main__ as m; m.main(); assert signal.getsignal(signal.SIGINT) is signal.SIG_IGN"
        done = subprocess.run([sys.executable, "-c", body + then], env=known(), capture_output=True, text=True, check=False)
        self.assertEqual((done.returncode, done.stderr), (0, ""))

    def test_each_script_is_known(self) -> None:
        self.assertEqual(set(SCRIPTS), set(keys.COMMANDS))
        self.assertEqual(set(SCRIPTS), set(COMMANDS))
        for place in SCRIPTS.values():
            module, _, call = place.partition(":")
            self.assertTrue(hasattr(getattr(importlib.import_module(module), call), "__wrapped__"), place)

    def test_a_command_that_is_called_raises_nothing(self) -> None:
        def ended() -> int:
            raise KeyboardInterrupt

        before = signal.getsignal(signal.SIGINT)
        self.assertEqual(keys.quiet(ended)(), 130)
        self.assertIs(signal.getsignal(signal.SIGINT), before)
        for name, want in (("-m", True), ("/some/bin/gdlsolve-page", True), ("/some/tests/run", False), ("-c", False)):
            with self.subTest(name=name), patch.object(sys, "argv", [name]):
                self.assertIs(keys.is_command(), want)


if __name__ == "__main__":
    unittest.main()
