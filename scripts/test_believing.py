"""Small trees of crates, and what has to be believed of them."""
import tempfile
import unittest
from pathlib import Path

from believing import Promise, Tree, lines_in

FILES = {
    "low/specs/Width.antt": """\
-- Widths.
use Rattle.std.specs.Prelude.{ℕ, ◌≤◌, List, zero, suc}
use Rattle.low.specs.declared.rod.Rod.{Rod}
use Rattle.low.specs.declared.rod.Kind.TheVariants as kind

-- cited by the contract, and cites two
abbrev pub IsWide : Rod → Type 0
IsWide r = few ≤ r.length

-- ---- numbers

-- a comment of two lines,
-- of which both are kept
abbrev pub few : ℕ
few = 3 -- and not this

-- nobody cites it
abbrev pub many : ℕ
many = few

-- its own name is bound: few is not the number here
abbrev pub first : (few : ℕ) → ℕ
first few = few

-- a field is no definition
pub record Pair : Type 0 where
  pub many : ℕ
  pub rods : List Rod

pub data Side : Type 0 where
  Left : Side
  Right : (many : ℕ) → Side

abbrev pub is_plain : Rod → Type 0
is_plain r = r.kind ≡ kind.Plain

-- cut at this angle
abbrev pub IsCutAt : ℕ → Kind → Type 0
IsCutAt n (kind.Cut end) = end.angle ≡ n
IsCutAt n _ = ⊥

-- over any type
pub record Held {W : Type 0} (w : W) : Type 0 where
  pub rod : Rod

-- by a constructor
abbrev pub leftmost : Side
leftmost = Left
""",
    "low/src/rod.rt": """\
//! Rods.

use std::alloc::Global;

/// A rod.
#[derive(Clone)]
pub struct Rod {
    // its length
    pub length: u8,
    pub kind: Kind,
}

pub enum Kind {
    Plain,
    Hollow(u8),
    Cut {
        end: End,
    },
}

/// How a rod is cut.
pub struct End {
    pub angle: u8,
}

/// Text, of which contracts see the bytes.
pub struct Name {
    bytes: Vec<u8>,
    spare: Kind,
}

impl Model for Name {
    ghost use Rattle.std.specs.Prelude.{ℕ, List};

    ghost Value = { List ℕ };

    ghost view = { λ n. n.bytes.items };

    ghost invariant = { λ n. many };
}
""",
    "high/src/cut.rt": """\
//! Cutting.

ghost use Rattle.std.specs.Prelude.{IfOk, IfErr};
ghost use Rattle.low.specs.Width.{Held, IsCutAt, IsWide, Pair, first, is_plain, leftmost};

use low::rod::{Kind, Rod};
use low::rod::Name;

/// Cuts a rod.
pub fn cut(rod: &Rod, name: &Name) -> Result<Rod, Kind>
    ensures wide { IfOk result (λ r. IsWide r) }
    ensures kind { IfErr result (λ k. k ≡ k) }
    ensures named { name.now ≡ name.now }
{
    rod
}

/// A law.
pub fn first_is_first()
    ensures { (p : Pair) → first 2 ≡ 2 }
{}

pub fn held()
    ensures { (w : Rod) → Held w }
{}

pub fn left()
    ensures { leftmost ≡ leftmost }
{}

pub fn cut_at(kind: Kind)
    ensures { IsCutAt 3 kind }
{}

pub fn plain(rod: Rod) -> bool
    requires rod { is_plain rod }
    ensures { is_plain rod }
{
    true
}
""",
}


class Believing(unittest.TestCase):
    def base(self, function, *clauses):
        return self.tree.base([Promise("high/src/cut.rt", function, clauses or ("",))])

    def setUp(self):
        folder = tempfile.TemporaryDirectory()
        self.addCleanup(folder.cleanup)
        for name, text in FILES.items():
            path = Path(folder.name, name)
            path.parent.mkdir(parents=True, exist_ok=True)
            path.write_text(text, encoding="utf-8")
        self.tree = Tree(Path(folder.name))

    def names(self, function, *clauses):
        return [it.name for it in self.base(function, *clauses)]

    def test_each_after_what_it_needs_else_by_file_and_line(self):
        self.assertEqual(self.names("cut", "wide"), ["few", "Kind", "Rod", "IsWide"])

    def test_lines_without_comments(self):
        text = {it.name: it.text for it in self.base("cut", "wide")}
        self.assertEqual(text["few"], ["abbrev pub few : ℕ", "few = 3"])
        self.assertEqual(text["Rod"], ["pub struct Rod {", "    pub length: u8,", "    pub kind: Kind,", "}"])
        self.assertEqual(lines_in(self.base("cut", "wide")), 15)

    def test_comments_are_kept_apart(self):
        comments = {it.name: it.comment for it in self.base("cut", "wide")}
        self.assertEqual(comments["few"], ["-- a comment of two lines,", "-- of which both are kept"])
        self.assertEqual(comments["Rod"], ["/// A rod."])

    def test_only_the_part_of_the_result_that_is_spoken_of(self):
        self.assertEqual(self.names("cut", "kind"), ["Kind", "Rod"])
        self.assertNotIn("Name", self.names("cut", "wide"))

    def test_a_type_by_its_model(self):
        (name,) = self.base("cut", "named")
        self.assertEqual(name.text, ["    ghost Value = { List ℕ };", "    ghost view = { λ n. n.bytes.items };"])
        self.assertEqual(name.kit, {"std.specs.Prelude.List", "std.specs.Prelude.ℕ"})

    def test_names_that_are_bound_and_fields_are_no_definitions(self):
        self.assertEqual(self.names("first_is_first"), ["first", "Kind", "Rod", "Pair"])

    def test_a_definition_over_a_type(self):
        self.assertEqual(self.names("held"), ["Kind", "Rod", "Held"])

    def test_a_constructor_is_its_type(self):
        self.assertEqual(self.names("left"), ["Side", "leftmost"])

    def test_variants_of_a_type_and_one_clause_of_two(self):
        self.assertEqual(self.names("plain"), ["Kind", "Rod", "is_plain"])

    def test_what_a_variant_holds_where_it_is_named(self):
        self.assertNotIn("End", self.names("plain"))
        self.assertEqual(self.names("cut_at"), ["Kind", "End", "IsCutAt"])


if __name__ == "__main__":
    unittest.main()
