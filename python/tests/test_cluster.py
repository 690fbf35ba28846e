"""`python -m gdlsolve.cluster` with the program itself: a process pool, and a Dask cluster on the
loopback in which things are killed.
"""
import contextlib
import os
import re
import shlex
import shutil
import signal
import socket
import ssl
import subprocess
import sys
import tempfile
import time
import unittest
from collections.abc import Callable
from concurrent.futures import ProcessPoolExecutor
from pathlib import Path
from typing import IO, TypeVar
from unittest import mock

from gdlsolve import Refusal, cluster
from gdlsolve.cluster import program
from tests import ENDLESS_RULES, GAMES, PROGRAM, TOP, known, needs_library, needs_program, package, ran
from tests.found import BEGINS, FOUND, NEVER

T = TypeVar("T")
MARKS = TOP / "games/tic_tac_toe.kif"
FOUND_GAMES = sorted((TOP / "games/found").glob("*.kif"))
WORKERS = 3
NO_DASK = "there is no Dask: Debian has it as python3-distributed"
# So long a test waits for what has to happen at some time, in seconds.
PATIENCE = 180.0
# What stands for all addresses of a machine, or for none.
EVERYWHERE = ("0.0.0.0", "0", "::", "")
# Asks a pool of one process.
POOLED = """
import sys
from concurrent.futures import ProcessPoolExecutor
from pathlib import Path
from gdlsolve.cluster import solve
with ProcessPoolExecutor(1) as pool:
    solve(Path(sys.argv[1]).read_bytes(), "xplayer", 9, executor=pool, width=1)
"""
# What in the page of the cluster makes a certificate and its key.
CERTIFICATE = re.compile(r"    (openssl req(?:.*\\\n)*.*)\n")
# Modules that are read where a part of a cluster, or what asks the library, is started.
PLANTED = ("ctypes", "distributed", "gdlsolve", "select")
# The program, slow enough that something can be killed while it runs, as long as a file is there. The whole question, which has an empty
# history, is slowest. What it is asked stands in another file.
SLOWLY = """#!/bin/sh
echo "$*" >> '{asked}'
case "$*" in
  *"--depth 0 "*) ;;
  solve*"--after ") while [ -e '{slow}' ]; do sleep 0.5; done ;;
  solve*) [ ! -e '{slow}' ] || sleep 0.7 ;;
esac
exec {command} "$@"
"""


def setUpModule() -> None:
    words = ["solve", "--role", "xplayer", "--depth", "0", "--window", "0:100", "--after", ""]
    try:
        ran = program.run(words, MARKS.read_bytes())
    except (OSError, ImportError) as fault:
        raise unittest.SkipTest(f"there is no program: {fault}") from None
    if (ran.status, ran.output) != (0, b"at-most 0\n"):
        raise unittest.SkipTest(f"the program has no windows: {ran.errors.decode().strip()}")


def stored(game: Path) -> tuple[list[str], bytes]:
    """The options of the stored solve of a game, and its answer."""
    first, answer = game.with_suffix(".solve").read_bytes().split(b"\n", 1)
    return shlex.split(first.decode())[1:], answer


def with_package(name: str, why_not: str, *commands: str) -> str:
    """A Python that has a package, where there is one, and these commands too. Else the test is left out, and why is told."""
    seek = f"import importlib.util as u, sys; sys.exit(u.find_spec({name!r}) is None)"
    if all(map(shutil.which, commands)):
        for python in dict.fromkeys([sys.executable, "/usr/bin/python3"]):
            there = Path(python).exists()
            if there and not subprocess.run([python, "-c", seek], check=False).returncode:
                return python
    raise unittest.SkipTest(why_not)


def environment(**more: str) -> dict[str, str]:
    """The environment of a process that is started here. A program is quicker than the package."""
    named = {program.VARIABLE: " ".join(PROGRAM)} if PROGRAM else {}
    return known(**{**named, **more})


def until(true: Callable[[], T], what: str) -> T:
    """Waits until something is so, and gives what is found then."""
    end = time.monotonic() + PATIENCE
    while not (found := true()):
        if time.monotonic() > end:
            raise AssertionError(f"not within {PATIENCE} s: {what}")
        time.sleep(0.05)
    return found


def children(pid: int) -> list[int]:
    """The processes that the threads of a process have started."""
    found: list[int] = []
    for thread in Path(f"/proc/{pid}/task").glob("*"):
        with contextlib.suppress(OSError):
            found += map(int, (thread / "children").read_text().split())
    return found


def listening(pid: int) -> set[tuple[str, int]]:
    """The addresses at which a process listens, each with its port."""
    own = set()
    for link in Path(f"/proc/{pid}/fd").glob("*"):
        with contextlib.suppress(OSError):
            own.add(os.readlink(link))
    found = set()
    for table, family in (("tcp", socket.AF_INET), ("tcp6", socket.AF_INET6)):
        try:
            lines = Path(f"/proc/{pid}/net/{table}").read_text().splitlines()[1:]
        except OSError:
            return set()
        for words in map(str.split, lines):
            if words[3] == "0A" and f"socket:[{words[9]}]" in own:
                address, port = words[1].split(":")
                parts = [bytes.fromhex(address[at : at + 8])[::-1] for at in range(0, len(address), 8)]
                found.add((socket.inet_ntop(family, b"".join(parts)), int(port, 16)))
    return found


def other_addresses() -> list[str]:
    """Addresses of this machine beside 127.0.0.1."""
    with socket.socket(socket.AF_INET, socket.SOCK_DGRAM) as seeks, contextlib.suppress(OSError):
        # Nothing is sent: this asks for the address from which it would be.
        seeks.connect(("192.0.2.1", 9))
        return ["127.0.0.2", str(seeks.getsockname()[0])]
    return ["127.0.0.2"]


def free_port() -> str:
    """A port of the loopback that is free."""
    with socket.socket() as free:
        free.bind(("127.0.0.1", 0))
        return str(free.getsockname()[1])


def plant(room: Path) -> Path:
    """Puts modules into a folder that leave a file there if they are read. That file."""
    for name in PLANTED:
        (room / f"{name}.py").write_text(f"open({str(room / 'read')!r}, 'w').close()\n")
    return room / "read"


def marked(mark: str) -> set[int]:
    """The processes in whose environment a text stands."""
    found = set()
    for room in Path("/proc").glob("[0-9]*"):
        with contextlib.suppress(OSError):
            alive = "Z" not in (room / "stat").read_text().rsplit(")", 1)[1].split()[0]
            if alive and mark.encode() in (room / "environ").read_bytes():
                found.add(int(room.name))
    return found - {os.getpid()}


def asks_by_cut(pid: int) -> bool:
    """Whether a process is a program that is asked by several processors."""
    try:
        return b"--cut" in Path(f"/proc/{pid}/cmdline").read_bytes().split(b"\0")
    except OSError:
        return False


class Here(unittest.TestCase):
    def test_a_process_pool(self) -> None:
        options, answer = stored(MARKS)
        with ProcessPoolExecutor(2) as pool:
            found = cluster.solve(MARKS.read_text(), "XPLAYER", 9, executor=pool, width=2)
        self.assertEqual(found.value, 50)
        self.assertIn(f"line 9 {' '.join(found.line[8])}", answer.decode())

    def test_the_command(self) -> None:
        options, answer = stored(MARKS)
        no_turns = ["--role", "xplayer", "--depth", "0"]
        runs: list[tuple[list[str], tuple[int, bytes, bytes]]] = [
            ([*options, str(MARKS)], (0, answer, b"")),
            (["--processes", "2", *options, str(MARKS)], (0, answer, b"")),
            (["--processes", "2x2", *options, str(MARKS)], (0, answer, b"")),
            (["--processes", "2x1", "--parts", *options, str(MARKS)], (0, answer, b"")),
            ([*no_turns, str(MARKS)], (0, b"value 0\nmove none\n", b"")),
        ]
        for words, want in runs:
            with self.subTest(words=words):
                command = package("gdlsolve.cluster", *words)
                done = subprocess.run(command, capture_output=True, env=environment(), check=False)
                self.assertEqual((done.returncode, done.stdout, done.stderr), want)

    def told(self, *words: object, rules: bytes = b"") -> tuple[int, bytes, bytes]:
        """What the command does."""
        command = package("gdlsolve.cluster", *words)
        done = subprocess.run(command, input=rules, capture_output=True, env=environment(), check=False)
        return done.returncode, done.stdout, done.stderr

    def test_a_refusal_is_that_of_one_machine(self) -> None:
        status, output, errors = self.told("--role", "no one", "--depth", "3", MARKS)
        self.assertEqual((status, output), (2, b"refused S1 NoSuchRole\n"))
        self.assertIn(b"the roles are xplayer oplayer", errors)

    @needs_program
    def test_a_refusal_is_explained_as_by_the_program(self) -> None:
        for rules in (b"(role a)\n(init x\n", b"(role a)\n(<= (next ?x) (true p))", MARKS.read_bytes()):
            for asked in (["--role", "no one", "--depth", "3"], ["--role", "a", "--depth", "3", "--after", "(b"]):
                with self.subTest(rules=rules[:20], asked=asked):
                    refused = ran(["solve", *asked], rules)
                    self.assertEqual(refused[0], 2)
                    self.assertTrue(refused[2])
                    self.assertEqual(self.told(*asked, rules=rules), refused)

    @needs_program
    def test_found_games(self) -> None:
        self.assertTrue(FOUND_GAMES)
        for game in FOUND_GAMES:
            options, answer = stored(game)
            self.assertIn("--whole", options)
            with self.subTest(game=game.stem):
                self.assertEqual(self.told("--processes", "2x1", *options, game), (0, answer, b""))

    @needs_program
    def test_a_game_as_it_is_found_is_written_out_before_it_is_shared(self) -> None:
        asked, rules = ["--role", "one", "--depth", "5"], FOUND.encode()
        for more in (["--whole"], ["--whole", "--tighten"]):
            status, answer, _ = ran(["solve", *more, *asked], rules)
            self.assertEqual(status, 0)
            for engine in (["--processes", "2"], ["--processes", "3x1", "--parts"]):
                with self.subTest(more=more, engine=engine):
                    self.assertEqual(self.told(*engine, *more, *asked, rules=rules), (0, answer, b""))
        self.assertEqual(self.told(*asked, rules=rules), ran(["check"], rules))
        never = NEVER.encode()
        self.assertEqual(self.told("--whole", *asked, rules=never), ran(["unroll"], never))
        self.assertEqual(self.told("--tighten", *asked, rules=rules), (1, b"", b"--tighten goes with --whole\n"))

    @needs_program
    def test_the_call_takes_a_game_as_it_is_found(self) -> None:
        with mock.patch.dict(os.environ, environment()), ProcessPoolExecutor(2) as pool:
            found = cluster.solve(FOUND, "one", 5, executor=pool, width=2, whole=True, table=8)
            self.assertEqual((found.value, found.move), (100, BEGINS))
            with self.assertRaises(Refusal) as caught:
                cluster.solve(NEVER, "a", 5, executor=pool, width=2, whole=True)
        self.assertEqual(str(caught.exception), "refused U1 NotStratified 2")
        self.assertIn("NotStratified: p > not q > p", caught.exception.explanation)

    def test_the_memory_of_positions_is_told_to_each_program(self) -> None:
        asked = ["--role", "xplayer", "--depth", "9", MARKS]
        self.assertEqual(self.told("--processes", 1, "--table", 0, *asked)[:2], (0, stored(MARKS)[1]))
        for wrong in ("-1", "65537", "much"):
            status, output, errors = self.told("--table", wrong, *asked)
            self.assertEqual((status, output), (1, b""))
            self.assertIn(b"--table", errors)

    @unittest.skipIf(signal.getsignal(signal.SIGINT) is signal.SIG_IGN, "the key is of no account here")
    def test_a_key_ends_it_without_a_word(self) -> None:
        words = package("gdlsolve.cluster", "--processes", 2, "--role", "red", "--depth", 40)
        mark, pipe = f"key {os.getpid()}", subprocess.PIPE
        with subprocess.Popen(words, stdin=pipe, stdout=pipe, stderr=pipe, env=environment(MARK=mark)) as run:
            assert run.stdin is not None
            run.stdin.write(ENDLESS_RULES.encode())
            run.stdin.close()
            run.stdin = None
            until(lambda: any(map(asks_by_cut, children(run.pid))), "a program runs")
            run.send_signal(signal.SIGINT)
            self.assertEqual(run.communicate(timeout=PATIENCE), (b"", b""))
        self.assertEqual(run.returncode, 130)
        until(lambda: not marked(mark), "no program is left behind")

    def test_a_journal_that_cannot_be_written_is_told_before_anything_is_asked(self) -> None:
        words = package("gdlsolve.cluster", "--role", "red", "--depth", 40, "--journal", "/no such folder/journal")
        done = subprocess.run(words, input=ENDLESS_RULES.encode(), capture_output=True, env=environment(), check=False, timeout=PATIENCE)
        self.assertEqual((done.returncode, done.stdout, done.stderr), (4, b"", b"/no such folder/journal: No such file or directory\n"))

    def test_a_stream_that_is_closed_or_full_is_told_in_a_line(self) -> None:
        words = shlex.join(package("gdlsolve.cluster", "--processes", 1, "--role", "xplayer", "--depth", 1))
        for more, want in {"<&-": "read fault\n", f"{MARKS} >&-": "write fault\n", f"{MARKS} >/dev/full": "write fault\n"}.items():
            with self.subTest(more=more):
                done = subprocess.run(f"{words} {more}", shell=True, capture_output=True, text=True, env=environment(), check=False)
                self.assertEqual((done.returncode, done.stdout, done.stderr), (4, "", want))

    def test_words_that_are_no_number_are_told(self) -> None:
        for words, want in (
            (["--processes", "0"], "argument --processes: it takes N or NxK, each above 0, and not '0'"),
            (["--local", "2x"], "argument --local: it takes N or NxK, each above 0, and not '2x'"),
            (["--split", "nan"], "argument --split: it takes a number of seconds from 0 on, and not 'nan'"),
            (["--patience=-5"], "argument --patience: it takes a number of seconds from 0 on, and not '-5'"),
            (["--depth", "five"], "argument --depth: it takes a whole number from 0 to 64, and not 'five'"),
            (["--table", "65537"], "argument --table: it takes a whole number from 0 to 65536, and not '65537'"),
        ):
            with self.subTest(words=words):
                status, output, errors = self.told("--role", "xplayer", "--depth", 1, *words, MARKS)
                self.assertEqual((status, output, errors.decode().splitlines()[-1]), (1, b"", want))

    def test_what_is_no_such_program_is_told(self) -> None:
        with tempfile.TemporaryDirectory() as room:
            other = Path(room) / "other"
            silent = "no answer: Failed: the program of this machine gives no answer"
            for body, status, want in (("", 69, silent), ("exit 1", 1, "the program takes none")):
                other.write_text(f"#!/bin/sh\n{body}\n")
                other.chmod(0o755)
                command = package("gdlsolve.cluster", "--role", "xplayer", "--depth", 1, MARKS)
                done = subprocess.run(command, capture_output=True, text=True, env=environment(GDLSOLVE_PROGRAM=str(other)), check=False)
                with self.subTest(body=body):
                    self.assertEqual((done.returncode, done.stdout), (status, ""))
                    self.assertTrue(done.stderr.startswith(want), done.stderr)
                    self.assertEqual(done.stderr.count("\n"), 1)

    def test_a_scheduler_that_is_not_there_is_told_in_a_line(self) -> None:
        python = with_package("distributed", NO_DASK)
        with tempfile.TemporaryDirectory() as room:
            none, part = Path(room) / "none.json", Path(room) / "part.json"
            part.write_text('{"address": ')
            wrong: list[tuple[list[object], str]] = [
                (["--scheduler-file", none], f"no answer: Lost: there is no {none}\n"),
                (["--scheduler-file", part], f"no answer: Lost: {part} tells of no scheduler\n"),
                (["--scheduler", "nonsense"], "no answer: Lost: no scheduler: missing port number in address 'nonsense'\n"),
                (["--scheduler", "foo://127.0.0.1:1"], "no answer: Lost: no scheduler: unknown address scheme 'foo'"),
                (["--scheduler", "tls://127.0.0.1:1"], "no answer: Lost: no scheduler: TLS wants its files, by --tls-ca-file, "),
                (["--scheduler", "tcp://127.0.0.1:1"], "no answer: Lost: no scheduler: "),
            ]
            for words, want in wrong:
                options = ["--patience", 1, "--role", "xplayer", "--depth", 5, MARKS]
                command = [python, "-m", "gdlsolve.cluster", *map(str, [*words, *options])]
                done = subprocess.run(command, capture_output=True, text=True, env=environment(), check=False, timeout=PATIENCE)
                with self.subTest(words=words):
                    self.assertEqual((done.returncode, done.stdout), (69, ""))
                    self.assertTrue(done.stderr.startswith(want), done.stderr)
                    self.assertEqual(done.stderr.count("\n"), 1, done.stderr)

    @needs_library
    def test_no_module_of_the_current_folder_is_read(self) -> None:
        options, answer = stored(MARKS)
        with tempfile.TemporaryDirectory() as room:
            read = plant(Path(room))
            command = [sys.executable, "-P", "-m", "gdlsolve.cluster", "--processes", "1", *options, str(MARKS)]
            done = subprocess.run(command, capture_output=True, env=known(**{program.VARIABLE: ""}), cwd=room, check=False)
            self.assertEqual((done.returncode, done.stdout, done.stderr), (0, answer, b""))
            self.assertFalse(read.exists())

    def test_parts_that_would_let_in_everybody_are_misuse(self) -> None:
        own, tls = ["--host", "127.0.0.1"], ["--tls-ca-file", "none", "--tls-cert", "none", "--tls-key", "none"]
        open_to_all = "a part of a cluster takes --tls-ca-file, --tls-cert and --tls-key, or else --unprotected"
        for words, want in (
            (["scheduler", "--unprotected"], "the following arguments are required: --host"),
            *((["scheduler", "--host", text], f"argument --host: it takes one address of this machine, and not {text!r}") for text in EVERYWHERE),
            (["scheduler", *own], open_to_all),
            (["worker", *own, "tls://127.0.0.1:1"], open_to_all),
            (["scheduler", *own, *tls[:4]], "--tls-ca-file, --tls-cert and --tls-key go together"),
            (["scheduler", *own, *tls], "the files of TLS cannot be used: [Errno 2] No such file or directory"),
            (["worker", *own, "--unprotected"], "a worker takes the address of its scheduler or --scheduler-file"),
            (["worker", *own, "--unprotected", "tls://127.0.0.1:1"], "the address of the scheduler begins with tcp:// here"),
        ):
            with self.subTest(words=words):
                status, output, errors = self.told(*words)
                self.assertEqual((status, output, errors.decode().splitlines()[-1]), (1, b"", want))

    def test_other_words_are_misuse(self) -> None:
        none: list[str] = []
        for words in (none, ["--role", "a", "--depth", "65", str(MARKS)], ["--processes", "0"]):
            command = package("gdlsolve.cluster", *words)
            done = subprocess.run(command, capture_output=True, env=environment(), check=False)
            self.assertEqual((done.returncode, done.stdout), (1, b""))
            self.assertTrue(done.stderr)


class Slow(unittest.TestCase):
    """Runs of the command over a program that can be slow, in whose environment a folder stands."""

    python: str
    room: Path
    slow: Path
    asked: Path
    known: dict[str, str]

    @classmethod
    def begin(cls, python: str) -> None:
        """Makes the folder and the program, and holds that at the end no process is left."""
        cls.python = python
        room = tempfile.TemporaryDirectory()
        cls.addClassCleanup(room.cleanup)
        cls.room = Path(room.name)
        command = shlex.join(PROGRAM or [sys.executable, "-m", "gdlsolve"])
        cls.slow = cls.room / "slow"
        slowly = cls.room / "slowly"
        cls.asked = cls.room / "asked"
        slowly.write_text(SLOWLY.format(command=command, slow=cls.slow, asked=cls.asked))
        slowly.chmod(0o755)
        cls.known = environment(**{program.VARIABLE: str(slowly)})
        cls.addClassCleanup(lambda: until(lambda: not marked(str(cls.room)), "no process is left behind"))

    @classmethod
    def keep(cls, part: str, *words: str) -> subprocess.Popen[bytes]:
        """Starts a part of a Dask cluster, which starts it again whenever it ends."""
        log = (cls.room / "log").open("ab")
        command = [cls.python, "-P", "-m", "gdlsolve.cluster", part, *words]
        # Of one that is killed a folder is left.
        kept = subprocess.Popen(command, env={**cls.known, "TMPDIR": str(cls.room)}, stdout=log, stderr=log, cwd=cls.room)
        log.close()
        cls.addClassCleanup(kept.wait)
        cls.addClassCleanup(kept.terminate)
        return kept

    def started(self, *words: object, **more: str) -> tuple[subprocess.Popen[bytes], IO[bytes]]:
        """Starts a command, and gives what it tells of."""
        told = tempfile.TemporaryFile("w+b")
        self.addCleanup(told.close)
        known = {**self.known, **more}
        started = subprocess.Popen(list(map(str, words)), env=known, stdout=subprocess.PIPE, stderr=told)
        assert started.stdout is not None
        self.addCleanup(started.stdout.close)
        self.addCleanup(started.wait)
        self.addCleanup(started.kill)
        return started, told

    def said(self, told: IO[bytes]) -> str:
        return os.pread(told.fileno(), 1 << 20, 0).decode()

    def fail_one(self, told: IO[bytes], running: Callable[[], int]) -> None:
        """Kills programs until one was killed before it had answered."""
        while "failed: " not in self.said(told):
            with contextlib.suppress(ProcessLookupError):
                os.kill(running(), signal.SIGKILL)
            end = time.monotonic() + 2
            while "failed: " not in self.said(told) and time.monotonic() < end:
                time.sleep(0.05)

    def be_slow(self) -> None:
        """Has the program take long, so that it runs when something is killed."""
        self.slow.touch()
        self.addCleanup(self.be_quick)

    def be_quick(self) -> None:
        """Has the program answer as soon as it can."""
        self.slow.unlink(missing_ok=True)


class OverDask(Slow):
    """One scheduler and three workers, each started again whenever it ends."""

    address: str
    scheduler: subprocess.Popen[bytes]
    workers: list[subprocess.Popen[bytes]]

    @classmethod
    def setUpClass(cls) -> None:
        cls.begin(with_package("distributed", NO_DASK))
        port = free_port()
        cls.address = f"tcp://127.0.0.1:{port}"
        file = ["--scheduler-file", str(cls.room / "scheduler.json")]
        cls.scheduler = cls.keep("scheduler", "--host", "127.0.0.1", "--port", port, *file, "--unprotected")
        worker = ["worker", "--host", "127.0.0.1", cls.address, "--unprotected"]
        cls.workers = [cls.keep(*worker, "--nthreads", str(1 + (place == 0))) for place in range(WORKERS)]

    def command(self, *more: object) -> tuple[subprocess.Popen[bytes], IO[bytes]]:
        """Starts the command for tic-tac-toe, and what it has told of."""
        options, _ = stored(MARKS)
        words = ["-m", "gdlsolve.cluster", "--scheduler", self.address, "--verbose", *options]
        return self.started(self.python, *words, *more, MARKS)

    def solvers(self) -> list[tuple[int, int]]:
        """The programs that the workers run, each with the process that has started it."""
        workers = [each for kept in self.workers for each in children(kept.pid)]
        return [(each, worker) for worker in workers for each in children(worker)]

    def solver(self) -> tuple[int, int]:
        """One of these, as soon as there is one."""
        return until(self.solvers, "a program runs")[0]

    def killed_in(self, kill: Callable[[IO[bytes]], None]) -> str:
        """Kills something once answers are there and programs run, and gives what was told."""
        self.be_slow()
        started, told = self.command()
        until(lambda: ": value " in self.said(told) and self.solvers(), "first answers")
        kill(told)
        self.be_quick()
        output, _ = started.communicate(timeout=2 * PATIENCE)
        said = self.said(told)
        self.assertEqual((started.returncode, output), (0, stored(MARKS)[1]), said)
        self.assert_nothing_runs()
        return said

    def assert_nothing_runs(self) -> None:
        until(lambda: not self.solvers(), "no program is left behind")

    def test_stored_games(self) -> None:
        script = TOP / "python/tests/over_dask.py"
        command = [self.python, str(script), self.address, *map(str, GAMES)]
        done = subprocess.run(command, capture_output=True, text=True, env=self.known, check=False)
        self.assertEqual(done.stdout, f"same {len(GAMES)}\n", done.stderr)
        self.assert_nothing_runs()

    def test_engines_by_name(self) -> None:
        options, answer = stored(MARKS)
        engines: list[list[object]] = [["--scheduler-file", self.room / "scheduler.json"], ["--local", "2x3"], ["--local", 2, "--table", 7]]
        for engine in engines:
            with self.subTest(engine=engine):
                self.asked.write_text("")
                started, told = self.started(self.python, "-m", "gdlsolve.cluster", *engine, *options, MARKS)
                output, _ = started.communicate(timeout=2 * PATIENCE)
                self.assertEqual((started.returncode, output), (0, answer), self.said(told))
        # The last had one worker of two processors, which is asked once.
        asked = [line for line in self.asked.read_text().splitlines() if line.startswith("solve")]
        self.assertEqual(asked[1:], [" ".join(["solve", *options, "--table", "7", "--cut", "2", "--after", ""])])

    def test_programs_of_this_machine_end_with_the_one_who_asks(self) -> None:
        options, _ = stored(MARKS)
        self.be_slow()
        for engine in ("--local", "--processes"):
            with self.subTest(engine=engine):
                started, _ = self.started(self.python, "-m", "gdlsolve.cluster", engine, 2, *options, MARKS)
                asked = until(lambda: {each for each in children(started.pid) if asks_by_cut(each)}, "a program runs")
                self.assertEqual(listening(started.pid), set())
                started.kill()
                started.wait()
                until(lambda: not asked & marked(str(self.room)), "no program is left behind")

    def test_nothing_is_left_of_a_pool_whose_asker_is_killed(self) -> None:
        self.be_slow()
        started, _ = self.started(sys.executable, "-P", "-c", POOLED, MARKS)
        [worker] = until(lambda: [each for each in children(started.pid) if children(each)], "a program runs")
        left = {worker, *children(worker)}
        started.kill()
        started.wait()
        until(lambda: not left & marked(str(self.room)), "nothing is left behind")

    def test_a_worker_is_killed(self) -> None:
        orphans: list[int] = []

        def kill(told: IO[bytes]) -> None:
            _, worker = self.solver()
            orphans.extend(children(worker))
            os.kill(worker, signal.SIGKILL)

        self.killed_in(kill)
        self.assertTrue(orphans)
        self.assertFalse(marked(str(self.room)) & set(orphans))

    def test_a_program_is_killed(self) -> None:
        self.killed_in(lambda told: self.fail_one(told, lambda: self.solver()[0]))

    def test_the_scheduler_is_killed(self) -> None:
        said = self.killed_in(lambda told: os.kill(children(self.scheduler.pid)[0], signal.SIGKILL))
        self.assertIn("lost", said)

    def test_the_one_who_asks_is_killed(self) -> None:
        book = self.room / "journal"
        self.be_slow()
        started, told = self.command("--journal", book)
        until(lambda: ": value " in self.said(told) and self.solvers(), "first answers")
        started.kill()
        started.wait()
        self.assert_nothing_runs()
        self.be_quick()
        self.assertTrue(book.stat().st_size)
        sent = []
        for _ in range(2):
            started, told = self.command("--journal", book)
            output, _ = started.communicate(timeout=2 * PATIENCE)
            self.assertEqual((started.returncode, output), (0, stored(MARKS)[1]), self.said(told))
            sent.append(int(self.said(told).split("\nsent ")[1].split()[0]))
        self.assertGreater(sent[0], 0)
        self.assertEqual(sent[1], 0)


class OverTls(Slow):
    """One scheduler and one worker, as the page of the cluster starts them."""

    read: Path
    tls: list[str]
    strangers: list[str]
    port: str
    address: str
    scheduler: subprocess.Popen[bytes]
    worker: subprocess.Popen[bytes]

    @classmethod
    def setUpClass(cls) -> None:
        cls.begin(with_package("distributed", "there is no Dask or no openssl: Debian has them as python3-distributed and openssl", "openssl"))
        cls.read = plant(cls.room)
        makes = CERTIFICATE.search((TOP / "docs/CLUSTER.md").read_text())
        assert makes is not None
        cls.tls = cls.made(makes[1], "own")
        cls.port = free_port()
        cls.address = f"tls://127.0.0.1:{cls.port}"
        cls.scheduler = cls.keep("scheduler", "--host", "127.0.0.1", "--port", cls.port, *cls.tls)
        cls.worker = cls.keep("worker", cls.address, "--host", "127.0.0.1", "--nthreads", "1", *cls.tls)
        cls.strangers = cls.made(makes[1], "strangers")

    @classmethod
    def made(cls, makes: str, name: str) -> list[str]:
        """Makes a certificate in a folder of its own, and gives the words that name it."""
        room = cls.room / name
        room.mkdir()
        subprocess.run(makes, shell=True, cwd=room, check=True, capture_output=True)
        cert, key = str(room / "cert.pem"), str(room / "key.pem")
        return ["--tls-ca-file", cert, "--tls-cert", cert, "--tls-key", key]

    def answer(self, *words: str) -> tuple[int, bytes, str]:
        """What the command does for tic-tac-toe over this cluster."""
        options, _ = stored(MARKS)
        started, told = self.started(self.python, "-P", "-m", "gdlsolve.cluster", *words, *options, MARKS)
        output, _ = started.communicate(timeout=2 * PATIENCE)
        return started.returncode, output, self.said(told)

    def parts(self) -> list[int]:
        """The processes of the scheduler and the worker, where both listen."""
        found = [*children(self.scheduler.pid), *children(self.worker.pid)]
        return found if len(found) == 2 and all(map(listening, found)) else []

    def test_the_answer_is_that_of_one_machine_and_no_module_of_the_current_folder_is_read(self) -> None:
        self.assertEqual(self.answer("--scheduler", self.address, *self.tls)[:2], (0, stored(MARKS)[1]))
        self.assertFalse(self.read.exists())

    def test_each_listens_at_one_port_of_one_address_and_at_no_other(self) -> None:
        parts = until(self.parts, "both listen")
        places = [listening(part) for part in parts]
        self.assertEqual([len(place) for place in places], [1, 1])
        self.assertIn(("127.0.0.1", int(self.port)), places[0])
        for address, port in [each for place in places for each in place]:
            self.assertEqual(address, "127.0.0.1")
            for other in other_addresses():
                with self.subTest(other=other, port=port), self.assertRaises(ConnectionRefusedError):
                    socket.create_connection((other, port), PATIENCE).close()

    def greeting(self, port: int, files: list[str]) -> bytes:
        """The first bytes that a part says over TLS to one who has these files, or none; nothing where it says none."""
        context = ssl.create_default_context(cafile=self.tls[1])
        context.check_hostname = False
        if files:
            context.load_cert_chain(files[3], files[5])
        with socket.create_connection(("127.0.0.1", port), PATIENCE) as plain:
            try:
                with context.wrap_socket(plain) as own:
                    return own.recv(8)
            except (ssl.SSLError, ConnectionError):
                return b""

    def test_who_has_no_certificate_of_the_cluster_is_refused(self) -> None:
        for part in until(self.parts, "both listen"):
            [(_, port)] = listening(part)
            self.assertTrue(self.greeting(port, self.tls))
            self.assertEqual((self.greeting(port, []), self.greeting(port, self.strangers)), (b"", b""))
        for words in (["--scheduler", self.address, *self.strangers], ["--scheduler", f"tcp://127.0.0.1:{self.port}"]):
            status, output, said = self.answer(*words, "--patience", "3")
            self.assertEqual((status, output), (69, b""))
            self.assertTrue(said.startswith("no answer: Lost: no scheduler: "), said)

    def test_a_part_ends_with_the_command_that_keeps_it(self) -> None:
        kept = self.keep("worker", self.address, "--host", "127.0.0.1", "--nthreads", "1", *self.tls)
        [part] = until(lambda: [each for each in children(kept.pid) if listening(each)], "it listens")
        kept.kill()
        until(lambda: part not in marked(str(self.room)), "it ends")

    def test_a_worker_comes_back_behind_its_scheduler(self) -> None:
        scheduler, worker = until(self.parts, "both listen")
        until(lambda: self.answer("--scheduler", self.address, *self.tls)[0] == 0, "an answer")
        os.kill(scheduler, signal.SIGKILL)
        until(lambda: len({scheduler, worker, *self.parts()}) == 4, "both were started again")
        self.assertEqual(self.answer("--scheduler", self.address, *self.tls)[:2], (0, stored(MARKS)[1]))


class OverMpi(Slow):
    """One process that asks and two that answer, started by MPI."""

    @classmethod
    def setUpClass(cls) -> None:
        cls.begin(with_package("mpi4py", "there is no MPI: Debian has it as python3-mpi4py", "mpiexec"))

    def command(self, *more: object) -> tuple[subprocess.Popen[bytes], IO[bytes]]:
        """Starts the command for tic-tac-toe, and what it has told of."""
        options, _ = stored(MARKS)
        words = [self.python, "-m", "mpi4py.futures", "-m", "gdlsolve.cluster", "--mpi", "2", "--verbose", *options]
        own = {"OMPI_ALLOW_RUN_AS_ROOT": "1", "OMPI_ALLOW_RUN_AS_ROOT_CONFIRM": "1", "OMPI_MCA_rmaps_base_oversubscribe": "1"}
        return self.started("mpiexec", "-n", 3, *words, *more, MARKS, **own)

    def test_the_answer_is_that_of_one_machine_also_where_a_program_is_killed(self) -> None:
        self.be_slow()
        started, told = self.command()
        until(lambda: ": value " in self.said(told) and self.programs(), "first answers")
        self.fail_one(told, self.asked_one)
        self.be_quick()
        output, _ = started.communicate(timeout=2 * PATIENCE)
        said = self.said(told)
        self.assertEqual((started.returncode, output), (0, stored(MARKS)[1]), said)

    def test_a_process_that_is_killed_ends_all_and_the_journal_goes_on(self) -> None:
        book = self.room / "journal"
        self.be_slow()
        started, told = self.command("--journal", book)
        until(lambda: ": value " in self.said(told) and self.programs(), "first answers")
        worker = int(Path(f"/proc/{self.asked_one()}/stat").read_text().rsplit(")", 1)[1].split()[1])
        os.kill(worker, signal.SIGKILL)
        started.communicate(timeout=2 * PATIENCE)
        self.assertNotEqual(started.returncode, 0)
        until(lambda: not marked(str(self.room)), "no process is left behind")
        self.be_quick()
        kept = book.stat().st_size
        started, told = self.command("--journal", book)
        output, _ = started.communicate(timeout=2 * PATIENCE)
        self.assertEqual((started.returncode, output), (0, stored(MARKS)[1]), self.said(told))
        self.assertGreater(kept, 0)

    def asked_one(self) -> int:
        """A program that answers a question, as soon as there is one."""
        return until(self.programs, "a program runs")[0]

    def programs(self) -> list[int]:
        """The programs that answer a question now."""
        found = []
        for pid in marked(str(self.room)):
            with contextlib.suppress(OSError):
                words = Path(f"/proc/{pid}/cmdline").read_bytes().split(b"\0")
                if str(self.room / "slowly").encode() in words and b"--window" in words:
                    found.append(pid)
        return found


if __name__ == "__main__":
    unittest.main()
