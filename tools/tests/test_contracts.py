"""Tests of what tools/lint/contracts reads and writes: python3 -m unittest discover tools/tests"""

from __future__ import annotations

import contextlib
import io
import sys
import tempfile
import unittest
from pathlib import Path
from unittest import mock

sys.path.insert(0, str(Path(__file__).resolve().parent))

from scripts import script


contracts = script("lint/contracts")

LIB = """//! Counts.
mod counts;
mod tests;
pub mod laws;

pub use counts::{Counter, Tally, most};
pub use below::{Lower, lower};
"""
COUNTS = """//! Tallies.
pub struct Tally {
    count: usize,
}

/// What counts.
pub trait Counter {
    /// How many there are.
    fn count(&self) -> usize
        requires ready { self.now.count < 7 }
        ensures { result ≡ self.now.count };
}

impl Counter for Tally {
    /// It is the trait's.
    fn count(&self) -> usize
        ensures { result ≡ self.now.count }
    {
        self.count
    }
}

impl Tally {
    /// One more, as `a.b` says, and no
    /// more than one. It never wants memory.
    ///
    /// Nor does it wait.
    #[inline]
    pub fn add(&mut self)
        requires few { self.old.count < 7 }
        ensures* more { self.new.count
            ≡ suc self.old.count }
        ensures { self.new.count ≤ 7 }
    {
        change(self, |n: usize|
            ensures inner { result ≡ n }
            n)
    }

    /// Without a contract.
    pub fn at(&self) {}

    /// Of the crate alone.
    pub(crate) fn hidden(&self)
        ensures { ⊤ }
    {}
}

pub fn most() -> usize
    requires { ⊤ }
{
    7
}

/// It is not handed on.
pub fn least() -> usize
    ensures { ⊤ }
{
    0
}
"""
LAWS = """/// Counts add up.
pub fn counts_add_up()
    ensures sum { ⊤ }
{}
"""
TESTS = """/// A test.
pub fn most()
    ensures { ⊤ }
{}
"""
CRATES = """# The crates.
bare:
counting: below
last: counting
"""
NOTES = """# Contracts

All of them.

## counting

No contract counts twice.

## last

Nothing is promised.
"""
PAGE = """# Contracts

All of them.

## counting

No contract counts twice.

- [`Counter::count`](../crates/counting/src/counts.rt): How many there are. *requires* ready; *ensures* result
- [`Tally::add`](../crates/counting/src/counts.rt): One more, as `a.b` says, and no more than one. *requires* few; *ensures* more, result
- [`most`](../crates/counting/src/counts.rt): *requires* condition
- [`counts_add_up`](../crates/counting/src/laws.rt): Counts add up. *ensures* sum

## last

Nothing is promised.

## Without contracts

No public function of these crates has one: `bare`, `last`.
"""


class MadeUp(unittest.TestCase):
    """Crates that are made up."""

    def setUp(self) -> None:
        folder = tempfile.TemporaryDirectory()
        self.addCleanup(folder.cleanup)
        self.top = Path(folder.name)
        files = {
            "crates.txt": CRATES,
            "docs/contracts_notes.md": NOTES,
            "crates/counting/src/lib.rt": LIB,
            "crates/counting/src/counts.rt": COUNTS,
            "crates/counting/src/laws.rt": LAWS,
            "crates/counting/src/tests.rt": TESTS,
            "crates/counting/src/tests/more.rt": TESTS,
        }
        for path, text in files.items():
            (self.top / path).parent.mkdir(parents=True, exist_ok=True)
            (self.top / path).write_text(text)

    def ended(self, *words: str) -> tuple[int, str]:
        """The status of the script with these words, and what it prints."""
        said = io.StringIO()
        with mock.patch.object(contracts, "TOP", self.top), mock.patch.object(sys, "argv", ["contracts", *words]):
            with contextlib.redirect_stdout(said):
                return contracts.main(), said.getvalue()

    def test_the_page_has_what_is_handed_on_and_has_a_contract(self) -> None:
        self.assertEqual(contracts.page(self.top), PAGE)

    def test_one_line_says_that_a_page_differs(self) -> None:
        status, said = self.ended("--compare")
        self.assertEqual((status, said.count("\n")), (1, 1))
        self.assertEqual(self.ended(), (0, ""))
        self.assertEqual((self.top / "docs/CONTRACTS.md").read_text(), PAGE)
        self.assertEqual(self.ended("--compare"), (0, ""))

    def test_notes_on_a_crate_that_is_gone_are_refused(self) -> None:
        (self.top / "docs/contracts_notes.md").write_text(NOTES + "\n## gone\n\nNothing.\n")
        status, said = self.ended()
        self.assertEqual(status, 1)
        self.assertIn("gone", said)


class Sentences(unittest.TestCase):
    """The first sentence of a doc."""

    def test_a_sentence_ends_where_another_begins(self) -> None:
        self.assertEqual(contracts.first_sentence(["It has 1.5 parts, as", "a.b. `It` goes on."]), "It has 1.5 parts, as a.b.")

    def test_a_paragraph_without_a_full_stop_is_whole(self) -> None:
        self.assertEqual(contracts.first_sentence(["One of two:", "", "More."]), "One of two:")


if __name__ == "__main__":
    unittest.main()
