"""The option `--rules` of the program: a file in place of standard input."""
import subprocess
import tempfile
import unittest
from collections.abc import Sequence
from pathlib import Path

from tests import PROGRAM, TOP, needs_program, ran

PENNIES = TOP / "games/matching_pennies.kif"
MARKS = TOP / "games/tic_tac_toe.kif"
FOUND = TOP / "games/found/hex_3x3.kif"
SAME: list[tuple[Path, list[str]]] = [
    (MARKS, ["show"]),
    (MARKS, ["check"]),
    (MARKS, ["lint"]),
    (MARKS, ["net"]),
    (MARKS, ["moves", "--after", "((mark 2 2) noop)"]),
    (MARKS, ["state", "--after", "((mark 2 2) noop)"]),
    (MARKS, ["solve", "--role", "xplayer", "--depth", "3", "--cut", "2"]),
    (MARKS, ["values", "--role", "xplayer", "--depth", "2", "--lines"]),
    (FOUND, ["check"]),
    (FOUND, ["unroll", "--tighten"]),
    (FOUND, ["solve", "--whole", "--role", "red", "--depth", "3"]),
    (MARKS, ["--help"]),
]
# Words that are no command, with the file or without.
MISUSES: list[list[str]] = [["chek"], [], ["check", "--hole"]]
OPTION = "error: the argument '--rules <FILE>' cannot be used"
NAMELESS = "error: a value is required for '--rules <FILE>' but none was supplied"


def over(file: Path, words: Sequence[str]) -> tuple[int, bytes, bytes]:
    """What the program does with these words where standard input is closed."""
    command = [*PROGRAM, *(str(file) if word == "FILE" else word.replace("=FILE", f"={file}") for word in words)]
    done = subprocess.run(command, stdin=subprocess.DEVNULL, capture_output=True, check=False)
    return done.returncode, done.stdout, done.stderr


@needs_program
class RulesOfAFile(unittest.TestCase):
    def test_the_answer_is_that_of_standard_input(self) -> None:
        for file, words in SAME:
            want = ran(words, file.read_bytes())
            for option in ["--rules", "FILE"], ["--rules=FILE"]:
                for place in {0, min(1, len(words)), len(words)}:
                    given = [*words[:place], *option, *words[place:]]
                    with self.subTest(words=given):
                        self.assertEqual(over(file, given), want)

    def test_words_that_are_no_command_are_misuse_with_a_file_too(self) -> None:
        for words in MISUSES:
            for option in ["--rules", "FILE"], ["--rules=FILE"]:
                status, output, errors = over(MARKS, [*option, *words])
                with self.subTest(words=words, option=option):
                    self.assertEqual((status, output), (1, b""))
                    self.assertEqual(errors.partition(b"\n")[0], ran(words, b"")[2].partition(b"\n")[0])

    def test_faults_of_the_rules_are_told_as_those_of_standard_input(self) -> None:
        with tempfile.TemporaryDirectory() as folder:
            file = Path(folder, "rules")
            for rules in b"", b"(role a", b"(role a)(<= p q)(<= q p)", b"(role a)" + b" " * 2_000_000:
                file.write_bytes(rules)
                self.assertEqual(over(file, ["check", "--rules", "FILE"]), ran(["check"], rules))

    def test_the_value_of_another_option_is_no_file(self) -> None:
        rules = PENNIES.read_bytes()
        self.assertEqual(ran(["solve", "--depth", "1", "--role", "--rules"], rules)[:2], (2, b"refused S1 NoSuchRole\n"))
        self.assertEqual(ran(["moves", "--after", "--rules=none"], rules)[:2], (2, b"refused H1 BadForm 1\n"))
        self.assertEqual(ran(["solve", "--role", "a", "--depth", "--rules"], rules)[:2], (1, b""))
        self.assertEqual(ran(["check", "--", "--rules", str(PENNIES)], b"")[0], 1)

    def test_a_file_that_cannot_be_read_is_told(self) -> None:
        with tempfile.TemporaryDirectory() as folder:
            missing, loop = Path(folder, "none.kif"), Path(folder, "loop")
            loop.symlink_to(loop)
            for file, why in (
                (missing, "no such file"),
                (PENNIES / "rules", "not a directory"),
                (Path(folder), "is a folder"),
                (loop, "filesystem loop or indirection limit (e.g. symlink loop)"),
            ):
                for words in ["check", "--rules", "FILE"], ["--rules=FILE", "solve", "--role", "a", "--depth", "1"]:
                    with self.subTest(words=words, file=file):
                        self.assertEqual(over(file, words), (4, b"", f"{file}: {why}\n".encode()))

    def test_words_that_name_no_one_file_are_misuse(self) -> None:
        for words, said in (
            (["check", "--rules"], NAMELESS),
            (["check", "--rules="], NAMELESS),
            (["check", "--rules", ""], NAMELESS),
            (["check", "--rules", "--whole"], NAMELESS),
            (["check", "--rules", "FILE", "--rules", "FILE"], f"{OPTION} multiple times"),
            (["--rules=FILE", "check", "--rules=FILE"], f"{OPTION} multiple times"),
            (["serve", "--rules", "FILE"], f"{OPTION} with 'serve'"),
            (["--rules=FILE", "serve", "--whole"], f"{OPTION} with 'serve'"),
        ):
            with self.subTest(words=words):
                status, output, errors = over(PENNIES, words)
                self.assertEqual((status, output, errors.decode().partition("\n")[0]), (1, b"", said))

    def test_a_session_has_no_such_option(self) -> None:
        status, output, errors = ran(["serve"], f"check --rules {PENNIES}\n".encode())
        self.assertEqual((status, output[:2], errors), (0, b"1 ", b""))
        self.assertIn(b"unexpected argument '--rules'", output)

    def test_a_pipe_is_read_to_its_end(self) -> None:
        want = ran(["check"], MARKS.read_bytes())
        self.assertEqual(ran(["check", "--rules", "/dev/stdin"], MARKS.read_bytes()), want)


if __name__ == "__main__":
    unittest.main()
