"""A small tree of crates, with definitions and lemmas that nothing names."""
import tempfile
import unittest
from pathlib import Path

from naming import unnamed

FILES = {
    "low/specs/Lib.antt": "pub mod Width\n",
    "low/specs/Width.antt": """\
-- Widths.
use Rattle.std.specs.Prelude.{ℕ}

-- cited by a contract
abbrev pub IsWide : ℕ → Type 0
IsWide n = few ≤ n

-- cited by the definition above
abbrev pub few : ℕ
few = 3

-- cited by itself alone
abbrev pub again : ℕ → ℕ
again zero = 0
again (suc n) = again n

-- cited by a lemma alone
pub record IsNarrow (n : ℕ) : Type 0 where
  pub small : n ≤ 2

-- named only in a comment: narrower
abbrev pub narrower : ℕ
narrower = 1
""",
    "low/proofs/WidthFacts.antt": """\
-- Facts on widths.
use Rattle.low.specs.Width.{IsNarrow, IsWide}

pub wide_more : (n : ℕ) → IsWide n → IsWide (suc n)
wide_more n h = helps n h

helps : (n : ℕ) → IsWide n → IsWide (suc n)
helps n h = omega arith

module _ (n : ℕ) where
  pub narrow : IsNarrow n → IsNarrow n
  narrow h = h

  pub used_above : IsWide n → IsWide n
  used_above h = h

pub in_a_ruleset : (n : ℕ) → n ≡ n
in_a_ruleset n = refl

pub ruleset widths = (in_a_ruleset)
""",
    "low/proofs/Sample.antt": "-- Examples: three is wide.\npub three : IsWide 3\nthree = tt\n",
    "low/proofs/width/Answers.antt": """\
use Rattle.low.proofs.WidthFacts.{wide_more}
use Rattle.low.proofs.width.Goals as goal

pub returns : goal.returns
returns c = wide_more c.n c.h
""",
    "low/src/lib.rt": """\
ghost use Rattle.low.specs.Width.{IsWide};

#[tactic(auto, using(crate::proofs::WidthFacts::widths))]
pub fn width() -> u8
    ensures { IsWide result }
{
    4
}
""",
    "high/proofs/HighFacts.antt": """\
use Rattle.low.proofs.WidthFacts.{used_above}

pub higher : ℕ
higher = used_above 3
""",
}


class Names(unittest.TestCase):
    def setUp(self):
        room = tempfile.TemporaryDirectory(prefix="a429-naming.")
        self.addCleanup(room.cleanup)
        self.crates = Path(room.name)
        for name, text in FILES.items():
            (self.crates / name).parent.mkdir(parents=True, exist_ok=True)
            (self.crates / name).write_text(text, encoding="utf-8")

    def found(self):
        return [(it.file.name, it.line, it.name) for it in unnamed(self.crates)]

    def test_what_nothing_names(self):
        wanted = [
            ("HighFacts.antt", 3, "higher"),
            ("WidthFacts.antt", 11, "narrow"),
            ("Width.antt", 13, "again"),
            ("Width.antt", 18, "IsNarrow"),
            ("Width.antt", 22, "narrower"),
        ]
        self.assertEqual(self.found(), wanted)

    def test_a_contract_that_no_longer_cites_a_definition(self):
        (self.crates / "low/src/lib.rt").write_text("pub fn width() -> u8 { 4 }\n")
        names = [name for _, _, name in self.found()]
        self.assertIn("IsWide", names)
        self.assertIn("widths", names)
        self.assertNotIn("few", names)


if __name__ == "__main__":
    unittest.main()
