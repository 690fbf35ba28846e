"""Tests of what tools/wrong reads, applies and judges: python3 -m unittest discover tools/tests"""

from __future__ import annotations

import re
import sys
import tempfile
import unittest
from pathlib import Path

sys.path.insert(0, str(Path(__file__).resolve().parent.parent))

from edits import (  # noqa: E402
    BadEdit,
    Edit,
    Function,
    Kind,
    Output,
    Texts,
    companions,
    contracts,
    crates_beside,
    function_at,
    functions_of,
    is_of,
    is_own_failure,
    is_still_proved,
    judged_alone,
    reason_of,
    spans,
    strangers,
    sum_of_edit,
    sum_of_files,
    sums_of_contracts,
    without_places,
)

CODE = """//! Counts.
use crate::other::lower;

/// How many at most.
pub const MOST: usize = 7;

pub struct Tally {
    count: usize,
}

impl<A: Allocator + Clone> Tally<A> {
    /// One more, with a map as `Fn(u8) -> u8` tells it.
    pub fn add(&mut self)
        requires { self.old.count < MOST }
        ensures { self.new.count ≡ suc self.old.count }
    {
        self.count += 1; // never past the most
    }

    fn at(&self) {}
}

impl<'a> From<Fault<'a>> for Tally {
    fn from(fault: Fault<'a>) -> Self {
        Tally { count: 0 }
    }
}

pub trait Ending {
    fn check(self) -> bool
        ensures { result ≡ true };
}

pub const fn doubled(count: usize) -> usize {
    count * 2
}

pub(crate) fn halved(count: usize) -> usize
    ensures { result ≤ count }
{
    count / 2
}

pub fn law()
    ensures { true ≡ true }
{}

pub fn all<T>(
    one: T,
    other: T,
) -> usize
where
    T: Ending,
{
    let both = [one, other].map(|each| each.check());
    both.len()
}
"""
LEAF = """pub fn lower(count: usize) -> usize {
    count - 1
}
"""
ADD = "file: src/tally.rt\nold:         self.count += 1;\nnew:         self.count += 2;\n"
ALL = "file: src/tally.rt\nold:     both.len()\nnew:     both.len() + 1\n"
MOST = "file: src/tally.rt\nold: MOST: usize = 7;\nnew: MOST: usize = 8;\n"
TALLY_ADD = Function("src/tally.rt", "Tally", "", "add")
FREE_ALL = Function("src/tally.rt", "", "", "all")
NOT_PROVED = "logic=not-proved"


class InACrate(unittest.TestCase):
    """A test with a crate of two files."""

    def setUp(self) -> None:
        room = tempfile.TemporaryDirectory()
        self.addCleanup(room.cleanup)
        self.folder = Path(room.name) / "count"
        (self.folder / "src").mkdir(parents=True)
        (self.folder / "src" / "tally.rt").write_text(CODE)
        (self.folder / "src" / "other.rt").write_text(LEAF)
        sum_of_files.cache_clear()
        sums_of_contracts.cache_clear()


class Applying(InACrate):
    def applied(self, *texts: str) -> dict[str, str]:
        files = Texts(self.folder)
        for number, text in enumerate(texts):
            files.apply(Edit(str(number), text))
        return files.changed

    def refused(self, text: str) -> str:
        with self.assertRaises(BadEdit) as raised:
            self.applied(text)
        return str(raised.exception)

    def test_several_edits_of_one_file(self) -> None:
        text = self.applied(ADD, ALL)["src/tally.rt"]
        self.assertIn("self.count += 2;", text)
        self.assertIn("both.len() + 1", text)

    def test_a_pair_applies_to_what_those_before_it_left(self) -> None:
        text = self.applied(f"{ADD}old:         self.count += 2;\nnew:         self.count += 3;\n")["src/tally.rt"]
        self.assertIn("self.count += 3;", text)

    def test_one_space_behind_new_is_no_part_of_the_text(self) -> None:
        self.assertIn("\n     both", self.applied("file: src/tally.rt\nold:     both.len()\nnew:      both.len()\n")["src/tally.rt"])

    def test_a_text_that_stands_several_times(self) -> None:
        self.assertIn("3 times", self.refused("file: src/tally.rt\nold: -> usize\nnew: -> u8\n"))

    def test_a_text_that_is_not_there(self) -> None:
        self.assertIn("0 times", self.refused("file: src/tally.rt\nold: nowhere\nnew: here\n"))

    def test_a_file_that_is_not_there(self) -> None:
        self.assertIn("no file src/none.rt", self.refused("file: src/none.rt\nold: a\nnew: b\n"))

    def test_a_file_outside_the_parts(self) -> None:
        for path in ["wrong/a.edit", "src/../out/a", "/src/tally.rt"]:
            self.assertIn("no file below", self.refused(f"file: {path}\nold: a\nnew: b\n"))

    def test_an_edit_without_a_pair(self) -> None:
        self.assertIn("no 'old:' and 'new:' pair", self.refused("file: src/tally.rt\nold: a\n"))
        self.assertIn("before any", self.refused("new: a\n"))

    def test_an_edit_that_changes_nothing(self) -> None:
        self.assertIn("changes nothing", self.refused("file: src/tally.rt\nold: both.len()\nnew: both.len()\n"))

    def test_a_bad_edit_leaves_what_was_applied(self) -> None:
        files = Texts(self.folder)
        files.apply(Edit("add", ADD))
        with self.assertRaises(BadEdit):
            files.apply(Edit("bad", f"{ALL}old: nowhere\nnew: here\n"))
        self.assertEqual(files.changed, self.applied(ADD))


class Functions(InACrate):
    def at(self, text: str) -> Function | None:
        start = CODE.index(text)
        return function_at(CODE, "src/tally.rt", start, start + len(text))

    def test_the_functions_of_a_file(self) -> None:
        found = [(span.owner, span.trait, span.name) for span in spans(CODE)]
        methods = [("Tally", "", "add"), ("Tally", "", "at"), ("Tally", "From", "from"), ("Ending", "", "check")]
        self.assertEqual(found, [*methods, ("", "", "doubled"), ("", "", "halved"), ("", "", "law"), ("", "", "all")])

    def test_what_stands_in_a_body(self) -> None:
        self.assertEqual(self.at("self.count += 1;"), TALLY_ADD)
        self.assertEqual(self.at("both.len()"), FREE_ALL)
        self.assertEqual(self.at("Tally { count: 0 }"), Function("src/tally.rt", "Tally", "From", "from"))

    def test_what_stands_in_no_body(self) -> None:
        for text in ["MOST: usize = 7", "requires { self", "fn at(&self) {}", "ensures { result", "ensures { true", "other: T,"]:
            self.assertIsNone(self.at(text), text)

    def test_the_functions_of_an_edit(self) -> None:
        found = functions_of(Edit("both", f"{ADD}{ALL}"), self.folder)
        self.assertEqual(found, {TALLY_ADD, FREE_ALL})
        self.assertEqual(functions_of(Edit("one", f"{ADD}{MOST}"), self.folder), frozenset())

    def test_companions_are_of_the_same_cycle(self) -> None:
        marked = CODE.replace("pub const fn doubled", "#[cycle(counts)]\npub const fn doubled")
        marked = marked.replace("pub fn all<T>", "/// All.\n#[cycle(counts)]\npub fn all<T>")
        (self.folder / "src" / "tally.rt").write_text(marked)
        (found,) = functions_of(Edit("all", ALL), self.folder)
        self.assertEqual(found.cycle, "counts")
        self.assertEqual([each.name for each in companions([found], self.folder)], ["doubled", "all"])
        self.assertEqual(companions([TALLY_ADD], self.folder), [])

    def test_printed_paths(self) -> None:
        method = Function("src/tally.rt", "Tally", "From", "from")
        root = Function("src/lib.rt", "", "", "all")
        nested = Function("src/tally/deep.rt", "", "", "all")
        for symbol, function in [
            ("tally::all", FREE_ALL),
            ("tally::fn::all::map", FREE_ALL),
            ("tally::fn::all::map+FnOnce::call_once", FREE_ALL),
            ("tally::+all", FREE_ALL),
            ("other::Tally::add", TALLY_ADD),
            ("tally::TallyFrom::from", method),
            ("tally::AnyFrom::from", method),
            ("all", root),
            ("fn::all::map", root),
            ("tally::deep::all", nested),
        ]:
            self.assertTrue(is_of(symbol, function), symbol)
        for symbol, function in [
            ("other::all", FREE_ALL),
            ("tally::all_more", FREE_ALL),
            ("tally::Tally::all", FREE_ALL),
            ("other::Graph::add", TALLY_ADD),
            ("tally::TallyInto::from", method),
            ("tally::all", root),
            ("tally::all", nested),
        ]:
            self.assertFalse(is_of(symbol, function), symbol)


class Sums(InACrate):
    def test_contracts_have_no_bodies_and_no_comments(self) -> None:
        text = contracts(CODE)
        for gone in ["self.count += 1", "both.len()", "count: 0", "How many", "never past", "Counts.", "fn at(", "halved", "result ≤ count"]:
            self.assertNotIn(gone, text)
        for there in ["MOST: usize = 7", "ensures { self.new.count", "count: usize,", "T: Ending,", "count * 2", "ensures { true", "fn from("]:
            self.assertIn(there, text)

    def test_a_sum_rests_on_all_that_a_verdict_does(self) -> None:
        below = self.folder.parent / "below"
        (below / "src").mkdir(parents=True)
        code = below / "src" / "lib.rt"
        code.write_text(CODE)

        def made(text: str = ADD, kit: bytes = b"kit") -> str:
            sum_of_files.cache_clear()
            sums_of_contracts.cache_clear()
            return sum_of_edit(Edit("add", text), self.folder, [below], kit)

        first = made()
        code.write_text(CODE.replace("+= 1; // never", "+= 2; // ever"))
        self.assertEqual(made(), first)
        code.write_text(CODE.replace("true ≡ true", "false ≡ false"))
        self.assertNotEqual(made(), first)
        code.write_text(CODE)
        self.assertEqual(made(), first)
        self.assertNotEqual(made(text=ALL), first)
        self.assertNotEqual(made(kit=b"other"), first)
        (self.folder / "src" / "other.rt").write_text(LEAF.replace("1", "2"))
        self.assertNotEqual(made(), first)

    def test_a_sum_does_not_rest_on_the_places_of_things(self) -> None:
        def made(crate: str, module: str, code: str, listed: str) -> str:
            with tempfile.TemporaryDirectory() as room:
                for name, text in {"low/src/lib.rt": listed, f"{crate}/src/{module}.rt": "pub fn two() -> u32 { 2 }\n", "up/src/one.rt": code}.items():
                    file = Path(room, name)
                    file.parent.mkdir(parents=True, exist_ok=True)
                    file.write_text(text)
                crates_beside.cache_clear()
                return sum_of_edit(Edit("add", ADD), Path(room, "up"), [Path(room, each) for each in {"low", crate}], b"kit")

        head, body = "ghost use Rattle.{}.specs.Counts.{{fits}};\n", "use {}{{least, two}};\n\nfn one() -> u32 {{ {}two() - 1 }}\n"
        first = made("low", "two", (head + body).format("low", "low::", "low::"), "mod two;\n\npub use two::{least, two};\n")
        self.assertEqual(made("base", "pair", (head + body).format("base", "base::", "base::"), ""), first)
        self.assertEqual(made("low", "two", head.format("low") + "use low::two;\nuse low::least;\nfn one() -> u32 {\n    two() - 1\n}\n", ""), first)
        self.assertNotEqual(made("low", "two", (head + body).format("low", "low::", "low::").replace("fits", "most"), ""), first)
        self.assertNotEqual(made("low", "two", (head + body).format("low", "low::", "low::").replace("- 1", "- 2"), ""), first)

    def test_what_proofs_take_is_told_without_its_places(self) -> None:
        proof = "use Rattle.std.specs.Prelude.{ℕ}\nuse Rattle.low.proofs.Facts.{two,\n  one}\nuse Rattle.low.proofs.two.Goals as goal\n\nreturns c = one\n"
        crates = re.compile(r"(?<![\w:.])crate::(?:[a-z_]\w*::)*(?=[\w{])|\bRattle\.low\.(?:[\w-]+\.)+(?=[^\s.}])")
        self.assertEqual(without_places("proofs/two/Answers.antt", proof, crates), "Goals as goal Rattle.std.specs.Prelude.ℕ one two\nreturns c = one")


class Judging(unittest.TestCase):
    def output(self, *lines: str, status: int = 1) -> Output:
        return Output("count", status, "\n".join(lines) + "\n")

    def test_own_failures(self) -> None:
        lacks = "no proof: expected answers in ./proofs/all/Answers.antt; `search` did not prove `returns`"
        for words in ["not proved", lacks, f"{lacks}; it calls `count::tally::all`, which is not proved"]:
            self.assertTrue(is_own_failure(words), words)
        for words in [
            "proved",
            "proved where its callers give what it asks",
            "could not tell",
            "no proof: it calls `count::tally::all`, which is not proved",
            "not proved; it calls `count::tally::all`, which is not proved",
            "no proof: it passes the block `count::tally::all`, which is not proved",
            "no proof: in `count::tally::all`, of this cycle of calls: expected answers in ./proofs/all/Answers.antt",
        ]:
            self.assertFalse(is_own_failure(words), words)

    def test_each_function_is_refused_for_its_own_sake(self) -> None:
        output = self.output(
            "fn count::tally::Tally::add: not proved",
            "fn count::tally::all: no proof: it calls `count::tally::Tally::add`, which is not proved",
            NOT_PROVED,
        )
        self.assertEqual(reason_of(output, [TALLY_ADD]), "fn count::tally::Tally::add: not proved")
        self.assertEqual(reason_of(output, [FREE_ALL]), "")
        self.assertEqual(strangers(output, [TALLY_ADD]), [])
        self.assertEqual(strangers(output, [FREE_ALL]), ["tally::Tally::add"])

    def test_the_reason_is_the_first_note_above_the_verdict(self) -> None:
        notes = [f"note: src/tally.rt:{line}:9: it is not proved that what the function ensures holds" for line in (17, 40, 41)]
        output = self.output(notes[0], "fn count::tally::Tally::add: not proved", *notes[1:], "fn count::tally::all: not proved", NOT_PROVED)
        self.assertEqual(reason_of(output, [FREE_ALL]), notes[1])

    def test_a_closure_speaks_for_its_function(self) -> None:
        output = self.output("fn count::tally::fn::all::map: no proof: expected answers in ./proofs", "fn count::tally::all: proved", NOT_PROVED)
        self.assertTrue(reason_of(output, [FREE_ALL]))
        self.assertFalse(is_still_proved(output, [FREE_ALL]))

    def test_what_is_still_proved(self) -> None:
        output = self.output("fn count::tally::all: proved", "fn count::tally::Tally::add: not proved", NOT_PROVED)
        self.assertTrue(is_still_proved(output, [FREE_ALL]))
        self.assertFalse(is_still_proved(output, [TALLY_ADD]))

    def test_one_edit(self) -> None:
        note = "note: src/tally.rt:17:9: it is not proved that what the function ensures holds when it returns (`returns`)"
        cases = [
            (self.output(note, "fn count::tally::all: not proved", NOT_PROVED), Kind.REFUSED),
            (self.output("logic=proved functions=3", status=0), Kind.MISSED),
            (self.output("src/tally.rt:3:4: error[E0308]: mismatched types"), Kind.BAD),
            (self.output("src/tally.rt:3:4: error: `many` is not in scope", NOT_PROVED), Kind.BAD),
            (self.output("antt ran out of the steps that the check of one declaration may take", "rattle: no verdict", status=3), Kind.REFUSED),
            (self.output("rattle: no verdict", status=3), Kind.UNSURE),
            (self.output("", status=-9), Kind.UNSURE),
            (self.output("error: module `Rattle-below-specs.A`: Run the lower steps again", NOT_PROVED), Kind.UNSURE),
        ]
        for output, kind in cases:
            self.assertEqual(judged_alone(output, ["src/tally.rt"]).kind, kind, output.text)

    def test_a_name_that_is_gone_is_the_last_reason(self) -> None:
        output = self.output("./proofs/all/Answers.antt:1:1: error: `gone` is not in scope", "note: src/tally.rt:17:9: it is not proved", NOT_PROVED)
        self.assertTrue(output.first_reason().startswith("note: src/tally.rt"))


if __name__ == "__main__":
    unittest.main()
