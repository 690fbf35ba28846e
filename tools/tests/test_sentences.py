"""What `tools/lint/sentences` takes for a sentence, how it counts words, and which pages it refuses."""

from __future__ import annotations

import subprocess
import sys
import tempfile
import unittest
from pathlib import Path

sys.path.insert(0, str(Path(__file__).resolve().parent))

from scripts import TOOLS, script

LINT = TOOLS / "lint"


sentences = script("lint/sentences")
LONG = f"{' '.join(['word'] * 41)}."
WELL = "Five words are no fault."


def found(text: str) -> list[tuple[int, str]]:
    """The sentences of a text, each with its line."""
    return [(sentence.line, " ".join(sentence.words)) for sentence in sentences.sentences(text)]


class Sentences(unittest.TestCase):
    def test_a_stop_ends_one(self) -> None:
        self.assertEqual(found("One. Two three? (Four!) five"), [(1, "One."), (1, "Two three?"), (1, "(Four!)"), (1, "five")])

    def test_no_stop_is_in_a_number_an_abbreviation_or_dots(self) -> None:
        for text in ["It took 0.5 seconds.", "Two, e.g. these.", "By N. Love and T. Hinrichs.", "Words .. and more.", "See docs/X.md for it."]:
            with self.subTest(text=text):
                self.assertEqual(len(found(text)), 1)

    def test_points_and_paragraphs_end_one(self) -> None:
        text = "First\nline:\n\n- one point\n  goes on\n- another\n    1. below it\n\nand a paragraph\n"
        self.assertEqual(found(text), [(1, "First line:"), (4, "one point goes on"), (6, "another"), (7, "below it"), (9, "and a paragraph")])

    def test_what_is_no_text_is_left_out(self) -> None:
        text = "# A heading.\n\n| a | table |\n|---|---|\n\n```sh\nsome code\n\n- more\n```\n\n    $ shown\n    written\n\n![a chart](x.svg)\n\nText.\n"
        self.assertEqual(found(text), [(17, "Text.")])

    def test_code_and_links_count_as_they_read(self) -> None:
        self.assertEqual(found("A `piece of code. Here` and [a link](page.md#part-of) - two."), [(1, "A code and a link two.")])
        self.assertEqual(found("A `piece\nof code` and\nmore. Next"), [(1, "A code and more."), (3, "Next")])


class Pages(unittest.TestCase):
    def test_long_sentences_are_told_with_their_place(self) -> None:
        self.assertEqual(list(sentences.faults("P.md", f"{WELL}\n\n{WELL} {LONG}")), [f"P.md:3: 41 words, of 40 at most: {'word ' * 8}.."])
        self.assertEqual(list(sentences.faults("P.md", LONG.replace("word ", "", 1))), ["P.md: 40.0 words a sentence in the mean, of 25 at most"])

    def test_a_page_without_text_is_well(self) -> None:
        self.assertEqual(list(sentences.faults("P.md", "")), [])

    def test_pending_pages_have_to_be_above_and_others_not(self) -> None:
        with tempfile.TemporaryDirectory() as folder:
            top = Path(folder)
            (top / "docs" / "internals").mkdir(parents=True)
            for name, text in [("README.md", WELL), ("docs/LONG.md", f"{WELL} {LONG}"), ("docs/internals/x.md", WELL), ("docs/STATEMENT.md", LONG)]:
                (top / name).write_text(text)
            self.assertEqual(list(sentences.judged(top, {"docs/LONG.md"})), [])
            self.assertEqual([line.partition(":")[0] for line in sentences.judged(top, set())], ["docs/LONG.md"])
            told = list(sentences.judged(top, {"docs/LONG.md", "docs/internals/x.md", "docs/GONE.md"}))
            self.assertEqual([line.partition(" ")[0] for line in told], ["docs/internals/x.md", "docs/GONE.md"])

    def test_the_status_says_whether_there_is_a_fault(self) -> None:
        with tempfile.TemporaryDirectory() as folder:
            for text, status in [(WELL, 0), (LONG, 1)]:
                page = Path(folder) / "page.md"
                page.write_text(text)
                self.assertEqual(subprocess.run([LINT / "sentences", page], capture_output=True, check=False).returncode, status)

    def test_the_gate_asks_for_them(self) -> None:
        self.assertIn("tools/lint/sentences", (TOOLS.parent / ".ci" / "run").read_text())


if __name__ == "__main__":
    unittest.main()
