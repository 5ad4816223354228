"""Small trees of crates, what their public contracts cite, and the lists that are made of them."""
import tempfile
import unittest
from pathlib import Path

from believing import Tree
from citing import public_contracts
from listing import Citations, between_marks, definitions_of_crates, escaped, files_of_crates, outside_faults

FILES = {
    "crates.txt": "# the crates\nlow:\ntop: low\n",
    "crates/low/specs/Rods.antt": """\
-- Rods (profile), and
-- how long they are.
use Rattle.std.specs.Prelude.{ℕ, ◌≤◌}
use Rattle.std.specs.Int.{bit_or}
use Rattle.low.specs.declared.rod.Rod.{Rod}

-- under all others
abbrev pub few : ℕ
few = 3

-- it is long | wide
abbrev pub IsLong : Rod → Type 0
IsLong r = few ≤ r.length

-- the same of two
abbrev pub AreLong : Rod → Rod → Type 0
AreLong r s = IsLong r

abbrev pub bare : ℕ
bare = bit_or few few

-- of private functions
abbrev pub hidden : ℕ
hidden = few

-- of a trait of the crate alone
abbrev pub inner : ℕ
inner = few

-- what a length is
abbrev pub Length : Type 0
Length = ℕ

-- holds of each value
abbrev pub IsKept : ℕ → Type 0
IsKept n = few ≤ n

-- of a law
abbrev pub lawful : ℕ
lawful = few
""",
    "crates/low/src/lib.rt": "//! Rods.\npub mod laws;\nmod rod;\npub use crate::rod::{\n    Rod,\n    cut,\n};\n",
    "crates/low/src/laws.rt": """\
//! Laws of rods.

ghost use Rattle.low.specs.Rods.{lawful};

pub fn lawful_is_lawful()
    ensures { lawful ≡ lawful }
{}
""",
    "crates/low/src/rod.rt": """\
//! A rod.

ghost use Rattle.low.specs.Rods.{AreLong, IsLong, bare, hidden};

/// A rod.
pub struct Rod {
    length: u8,
}

impl Model for Rod {
    ghost use Rattle.low.specs.Rods.{IsKept, Length};
    ghost Value = { Length };
    ghost invariant = { λ r. IsKept r };
}

impl Secret for Rod {
    ghost use Rattle.low.specs.Rods.{inner};
    ghost shown = { inner };
}

impl Rod {
    /// Joins two.
    pub fn join(&self, other: &Rod) -> Rod
        requires { AreLong self.now other.now }
        ensures ok { IsLong result }
    {
        other
    }

    fn private(&self)
        ensures { hidden ≡ hidden }
    {
    }
}

pub(crate) trait Secret {
    fn see(&self)
        ensures { hidden ≡ hidden };
}

/// Cuts.
pub fn cut() -> u8
    ensures { result ≡ bare }
{
    3
}

pub fn not_exported() -> u8
    ensures { result ≡ hidden }
{
    3
}
""",
    "crates/top/src/main.rt": "//! A program.\nfn main() {}\n",
    "crates/top/src/words/line.rt": "//! A line\n//! of words.\n",
}


class Listing(unittest.TestCase):
    def setUp(self):
        folder = tempfile.TemporaryDirectory()
        self.addCleanup(folder.cleanup)
        self.root = Path(folder.name)
        for name, text in FILES.items():
            path = self.root / name
            path.parent.mkdir(parents=True, exist_ok=True)
            path.write_text(text, encoding="utf-8")
        self.citations = Citations(Tree(self.root / "crates"))

    def test_contracts_of_public_names_and_laws_alone(self):
        texts = sorted(it.text for it in public_contracts(self.citations.tree))
        self.assertEqual(texts, ["AreLong self.now other.now", "IsLong result", "Length", "lawful ≡ lawful", "result ≡ bare"])

    def test_what_is_cited_and_what_is_under_it(self):
        cited = {it.name for it in self.citations.reached if it.key in self.citations.cited}
        self.assertEqual(cited, {"AreLong", "IsLong", "Length", "bare", "lawful"})
        self.assertEqual({it.name for it in self.citations.reached} - cited, {"few"})

    def test_definitions_without_comment_are_known(self):
        self.assertEqual(self.citations.without_words(), {"low.Rods.bare"})

    def test_the_page_of_definitions(self):
        wanted = """
## low

Rods.

### `specs/Rods.antt`

Rods (profile), and how long they are.

| Definition | What it says |
|---|---|
| `IsLong` | it is long \\| wide |
| `AreLong` | it is long \\| wide; the same of two |
| `bare` | words of the table |
| `Length` | what a length is |
| `lawful` | of a law |

Under these: `few`.
"""
        page = definitions_of_crates(self.root, self.citations, {"low.Rods.bare": "words of the table"})
        self.assertEqual(page.replace("under all others; ", ""), wanted)

    def test_the_tables_of_files(self):
        wanted = """
| low | What it is | Public names |
|---|---|---|
| `laws` | Laws of rods. |  |
| `rod` | A rod. | `Rod`, `cut` |

| top | What it is | Public names |
|---|---|---|
| `words/line` | A line of words. |  |
"""
        self.assertEqual(files_of_crates(self.root, self.citations.tree), wanted)

    def test_only_what_is_between_the_marks_is_made(self):
        page = "before\n<!-- made by scripts/lists --write -->\nold\n<!-- up to here -->\nafter\n"
        wanted = "before\n<!-- made by scripts/lists --write -->\nnew\n<!-- up to here -->\nafter\n"
        self.assertEqual(between_marks(page, "new"), wanted)

    def test_names_from_outside_are_held_in_both_directions(self):
        page = "## Names from outside\n\n| `old_one`, `kept` | |\n"
        kit = {"std.specs.Int.bit_or", "std.specs.Int.kept", "std.specs.Prelude.length", "std.specs.Int.◌+◌"}
        wanted = ["Names from outside: std.specs.Int.bit_or is missing", "Names from outside: no definition uses old_one"]
        self.assertEqual([it.removeprefix("docs/DEFINITIONS.md, ") for it in outside_faults(page, kit)], wanted)

    def test_what_a_table_would_read_as_more_than_text(self):
        self.assertEqual(escaped("a | b * c < `d | e * f`, x_y"), "a \\| b \\* c \\< `d \\| e * f`, x_y")


if __name__ == "__main__":
    unittest.main()
