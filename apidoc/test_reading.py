"""Tests of the readers on small texts."""
import unittest

from apidoc import antt, markdown, rust

SOURCE = '''//! A module.
ghost use Rattle.std.specs.Prelude.{◌≡◌, length as size};

use crate::number::{Fixed, self as numbers};
pub use other_crate::Thing;

pub mod inner;

/// Doubles it, unless it is "{".
#[inline]
pub fn doubled<N: Num>(bytes: &[u8; 4], brace: u8) -> [u8; 4]
    // At most this many.
    requires room { size bytes.now ≤ 4 }
    ensures { result ≡ bytes.now }
    ensures exact { (n : ℕ) → { n } ≡
        { n } }
{
    if brace == b'{' || brace == b'\\'' { "}" } else { bytes }
}

pub(crate) fn hidden() {}

/// Whether to go on.
pub enum Way {
    /// Yes.
    On,
    Off(u8),
}

pub trait Rule {
    const MOST: usize;
    ghost MOST: { ℕ };
    /// Answers.
    fn answer(&self) -> bool
        ensures { result ≡ true };
}

impl<'a, const N: usize> Way {
    pub fn is_on(&self) -> bool { true }
}

#[cfg(test)]
mod tests {
    fn none() {}
}

pub const LAST: &[u8] = b"fn not_one() {";
'''

SPEC = '''-- What the file is for.

use Rattle.std.specs.Prelude.{ℕ, List,
  length as size}
use Rattle.low.specs.Answer as low
pub use Rattle.low.specs.Base.{Base}

-- ---- a section
-- twice a number,
-- and no more
abbrev pub twice : ℕ → ℕ
twice zero = 0
-- otherwise
twice (suc n) = suc (suc (twice n))

-- a record
pub record Pair (n : ℕ) : Type 0 where
  pub first : List ℕ
  pub second : low.Thing first

unfoldable pub Plain : Type 0
Plain = Pair 0
'''


class Source(unittest.TestCase):
    def setUp(self) -> None:
        self.module = rust.read("some", (), SOURCE)
        self.items = {it.name: it for it in self.module.items}

    def test_items_are_those_at_the_top_without_tests(self) -> None:
        self.assertEqual([it.name for it in self.module.items], ["doubled", "hidden", "Way", "Rule", "Way", "LAST"])
        self.assertFalse(self.items["hidden"].is_public)

    def test_a_signature_ends_before_the_first_clause(self) -> None:
        signature = "pub fn doubled<N: Num>(bytes: &[u8; 4], brace: u8) -> [u8; 4]"
        self.assertEqual(self.items["doubled"].signature, signature)
        self.assertEqual(self.items["doubled"].doc, 'Doubles it, unless it is "{".')

    def test_clauses_have_kind_name_text_and_comment(self) -> None:
        clauses = self.items["doubled"].clauses
        named = [(it.kind, it.name) for it in clauses]
        self.assertEqual(named, [("requires", "room"), ("ensures", ""), ("ensures", "exact")])
        self.assertEqual(clauses[0].comment, "At most this many.")
        self.assertEqual(clauses[2].text, "(n : ℕ) → { n } ≡ { n }")

    def test_members_of_an_enum_a_trait_and_an_impl(self) -> None:
        enum, impl = (it for it in self.module.items if it.name == "Way")
        self.assertEqual([(it.name, it.doc) for it in enum.members], [("On", "Yes."), ("Off", "")])
        self.assertEqual([(it.kind, it.name) for it in self.items["Rule"].members],
                         [("const", "MOST"), ("ghost", "MOST"), ("fn", "answer")])
        self.assertEqual([it.name for it in impl.members], ["is_on"])

    def test_names_that_a_module_brings(self) -> None:
        self.assertEqual(self.module.ghost_uses["size"], "Rattle.std.specs.Prelude.length")
        self.assertEqual(self.module.uses["Fixed"], ("crate", "number", "Fixed"))
        self.assertEqual((self.module.exports, self.module.children), (["Thing"], {"inner": True}))


class Definitions(unittest.TestCase):
    def setUp(self) -> None:
        self.file = antt.read("some", "Spec", SPEC)

    def test_each_definition_has_its_comment_text_and_section(self) -> None:
        self.assertEqual(list(self.file.definitions), ["twice", "Pair", "Plain"])
        twice = self.file.definitions["twice"]
        self.assertEqual((twice.comment, twice.section), ("twice a number,\nand no more", "a section"))
        self.assertIn("twice (suc n)", twice.text)
        self.assertIn("-- otherwise", twice.text)

    def test_imports_aliases_and_what_is_passed_on(self) -> None:
        self.assertEqual(self.file.imports["size"], "Rattle.std.specs.Prelude.length")
        self.assertEqual(self.file.modules["low"], "Rattle.low.specs.Answer")
        self.assertEqual(self.file.exports, {"Base"})
        self.assertEqual(self.file.comment, "What the file is for.")

    def test_words_leave_out_texts_and_comments(self) -> None:
        self.assertEqual(antt.words('codes "no word" ++ low.Thing x -- nor this'), ["codes", "low.Thing", "x"])


class Documents(unittest.TestCase):
    def test_blocks(self) -> None:
        text = "## A `b`\n\ntext [x](docs/PROVED.md) [y](../README.md#a-b)\n\n- one\n  more\n- two\n\n    code\n\n    more\n\n"
        shown = markdown.page(text + "| a | b |\n|---|---|\n| c | d |\n", {})
        links = ('href="docs.PROVED.html"', 'href="README.html#a-b"')
        wanted = ('<h2 id="a-b">', *links, "<li>two</li>", "<pre>code\n\nmore</pre>", "<td>d</td>")
        for part in wanted:
            self.assertIn(part, shown)


if __name__ == "__main__":
    unittest.main()
