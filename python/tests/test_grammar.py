"""What the package knows of the words of the program is what the program's own help tells."""

import re
import unittest

from gdlsolve.__main__ import FLAGS, OVER_RULES
from gdlsolve.solver.timed import SEARCHES
from tests import TOP

PAGES = {page.stem: page.read_text() for page in sorted((TOP / "docs/help").glob("*.txt"))}
# An option of a page of help, and what stands for its value, where it has one.
OPTION = re.compile(r"^ +(?:-\w, )?(--[\w-]+)(?: <(\S+)>)?", re.MULTILINE)


def options(page: str) -> dict[str, str]:
    """The options that a page tells, each with what stands for its value; empty where it has none."""
    return {name: value for name, value in OPTION.findall(page) if name not in ("--help", "--version")}


class Grammar(unittest.TestCase):
    def test_options_without_a_value_are_those_of_the_help(self) -> None:
        found = [options(page) for page in PAGES.values()]
        flags = {name for page in found for name, value in page.items() if not value}
        self.assertEqual(flags, FLAGS)
        self.assertFalse(flags & {name for page in found for name, value in page.items() if value})

    def test_games_as_they_are_found_are_taken_by_the_commands_that_say_so(self) -> None:
        whole = {name for name, page in PAGES.items() if "--whole" in options(page)}
        self.assertEqual(whole - {"serve"}, OVER_RULES)

    def test_commands_with_a_role_search(self) -> None:
        asked = {name for name, page in PAGES.items() if "--role" in options(page)}
        self.assertEqual(asked, {word for [word] in SEARCHES})


if __name__ == "__main__":
    unittest.main()
