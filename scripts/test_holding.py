"""A small repository with notes, and what is wrong with them."""
import tempfile
import textwrap
import unittest
from pathlib import Path

from believing import Promise, Tree
from holding import Holder, Notes, notes_table, read_notes, seconds_table, unheld

FILES = {
    "docs/RODS.md": "# Rods\n\nA rod is wide\nwhere it has | three. It is few.\n",
    "crates/low/specs/Rods.antt": """\
use Rattle.std.specs.Prelude.{ℕ, ◌≤◌}

abbrev pub few : ℕ
few = 3

abbrev pub IsWide : ℕ → Type 0
IsWide n = few ≤ n

abbrev pub other : ℕ
other = 4

abbrev pub IsLong : ℕ → Type 0
IsLong n = other ≤ n
""",
    "crates/low/src/lib.rt": "//! Rods.\npub mod laws;\nmod rod;\npub use crate::rod::{measure, weigh};\n",
    "crates/low/src/laws.rt": """\
//! Laws.

ghost use Rattle.low.specs.Rods.{IsWide, IsLong};

pub fn wide_is_wide()
    ensures { (n : ℕ) → IsWide n → IsWide n }
{}

pub fn all()
    ensures { (n : ℕ) → IsWide n → IsLong n }
{}
""",
    "crates/low/src/rod.rt": """\
//! Rods.

ghost use Rattle.low.specs.Rods.{IsWide, other};

pub fn measure() -> u8
    ensures { IsWide result }
{
    3
}

pub fn weigh() -> u8
    ensures { result ≡ other }
{
    4
}
""",
    "crates/rows/src/lib.rt": "//! Tests.\nmod calls;\nmod rods;\n",
    "crates/rows/src/calls.rt": "//! Calls.\nuse low::measure;\nfn call() {}\n",
    "crates/rows/src/rods.rt": "//! Rods.\nuse crate::calls::call;\n\n#[test]\nfn a_rod_of_three() {\n}\n\nfn no_test() {\n}\n",
    "scripts/compare": "class Rods:\n    def length(self):\n        pass\n",
    "scripts/cases/rods.md": "# Rods\n\n```console\n$ rod 3\nwide\n```\n",
    "scripts/wrong-definitions": """\
from collections import namedtuple
Mistake = namedtuple("Mistake", "law name changes lemma")
MISTAKES = (Mistake("low::laws::all", "two are few", (("specs/Rods.antt", "few = 3", "few = 2"),), "wide"),)
""",
}

NOTES = """\
[[sentence]]
page = "RODS"
says = "A rod is wide where it has | three."
definitions = ["low.Rods.IsWide", "low.Rods.IsLong"]

[[sentence]]
page = "RODS"
says = "It is few."
definitions = ["low.Rods.few", "low.Rods.other"]

[[second]]
law = "low::laws::wide_is_wide"
what = "wide rods are wide"
definitions = ["low.Rods.IsWide"]

[[second]]
test = "crates/rows/src/rods.rt a_rod_of_three"
what = "a rod"
definitions = ["low.Rods.few", "low.Rods.IsWide"]

[[second]]
comparison = "scripts/compare length"
what = "lengths by chance"
definitions = ["low.Rods.IsLong"]

[[second]]
line = "scripts/cases/rods.md $ rod 3"
what = "three are wide"
definitions = ["low.Rods.IsLong"]

[[second]]
mistake = "two are few"
what = "a law refuses it"
definitions = ["low.Rods.few"]
"""


class Holding(unittest.TestCase):
    def setUp(self):
        folder = tempfile.TemporaryDirectory()
        self.addCleanup(folder.cleanup)
        self.root = Path(folder.name)
        for name, text in FILES.items():
            path = self.root / name
            path.parent.mkdir(parents=True, exist_ok=True)
            path.write_text(text, encoding="utf-8")
        self.tree = Tree(self.root / "crates")
        self.base = self.tree.base([Promise("low/src/laws.rt", "all", ("",))])

    def faults(self, notes):
        holder = Holder(self.root, self.tree, read_notes(notes))
        return [*holder.sentence_faults(self.base), *holder.second_faults(self.base)]

    def test_notes_that_are_so(self):
        self.assertEqual(self.faults(NOTES), [])

    def test_sentences_are_on_their_pages_word_for_word(self):
        self.assertEqual(self.faults(NOTES.replace("is few.", "are few.")), ["docs/RODS.md does not say: It are few."])
        self.assertEqual(self.faults(NOTES.replace('"RODS"\nsays = "It', '"GONE"\nsays = "It')), ["docs/GONE.md does not say: It is few."])

    def test_each_definition_has_one_sentence(self):
        self.assertEqual(self.faults(NOTES.replace(', "low.Rods.other"', "")), ["low.Rods.other has no sentence"])
        twice = NOTES.replace(', "low.Rods.other"', ', "low.Rods.other", "low.Rods.IsLong"')
        self.assertEqual(self.faults(twice), ["low.Rods.IsLong has more than one sentence"])
        gone = NOTES.replace(', "low.Rods.other"', ', "low.Rods.other", "low.Rods.gone"')
        self.assertEqual(self.faults(gone), ["low.Rods.gone, of a sentence, is no definition of the base"])

    def test_second_statements_are_there(self):
        for old, new, said in (
            ("wide_is_wide", "gone", "there is no law low::laws::gone"),
            ("low::laws::wide", "low::gone::wide", "there is no law low::gone::wide_is_wide"),
            ("rods.rt a_rod_of_three", "rods.rt no_test", "there is no test crates/rows/src/rods.rt no_test"),
            ("compare length", "compare width", "there is no comparison scripts/compare width"),
            ("$ rod 3", "$ rod 4", "there is no line scripts/cases/rods.md $ rod 4"),
            ('"two are few"', '"one is few"', "there is no mistake one is few"),
        ):
            self.assertEqual(self.faults(NOTES.replace(old, new)), [said])

    def test_second_statements_have_to_do_with_what_they_hold(self):
        law = NOTES.replace('wide"\ndefinitions = ["low.Rods.IsWide"]', 'wide"\ndefinitions = ["low.Rods.other"]')
        self.assertEqual(self.faults(law), ["law low::laws::wide_is_wide has nothing to do with low.Rods.other"])
        test = NOTES.replace('"low.Rods.few", "low.Rods.IsWide"', '"low.Rods.other"')
        self.assertEqual(self.faults(test), ["test crates/rows/src/rods.rt a_rod_of_three has nothing to do with low.Rods.other"])
        mistake = NOTES.replace('it"\ndefinitions = ["low.Rods.few"]', 'it"\ndefinitions = ["low.Rods.IsWide"]')
        self.assertEqual(self.faults(mistake), ["mistake two are few has nothing to do with low.Rods.IsWide"])

    def test_what_nothing_holds(self):
        self.assertEqual([it.name for it in unheld(self.base, read_notes(NOTES))], ["other"])
        self.assertEqual([it.name for it in unheld(self.base, Notes())], ["few", "IsWide", "other", "IsLong"])

    def test_the_tables(self):
        notes = read_notes(NOTES.replace(', "low.Rods.IsWide"]', "]"))
        says = "A rod is wide where it has \\| three. ([RODS](RODS.md))"
        wanted = f"""
            | Definition | Says | What would fail if it were wrong |
            |---|---|---|
            | `few` | It is few. ([RODS](RODS.md)) | `a_rod_of_three`; mistake: two are few |
            | `other` | the same | **nothing yet** |
            | `IsWide` | {says} | `wide_is_wide` |
            | `IsLong` | the same | `length`; a line of `rods.md`: three are wide |
            """
        self.assertEqual(notes_table(self.base, notes), textwrap.dedent(wanted))
        same = notes_table([it for it in self.base if it.name != "few"], Notes(notes.sentences[:1], []))
        self.assertIn(f"| `IsWide`, `IsLong` | {says} | **nothing yet** |", same)
        wanted = """
            | What would fail | Where | What it is about | Definitions |
            |---|---|---|---|
            | `wide_is_wide` | law `low::laws::wide_is_wide` | wide rods are wide | 1 |
            | `a_rod_of_three` | `crates/rows/src/rods.rt` | a rod | 1 |
            | `length` | `scripts/compare` | lengths by chance | 1 |
            | a line of `rods.md`: three are wide | `scripts/cases/rods.md`, `$ rod 3` | three are wide | 1 |
            | mistake: two are few | `scripts/wrong-definitions` | a law refuses it | 1 |
            """
        self.assertEqual(seconds_table(notes), textwrap.dedent(wanted))


if __name__ == "__main__":
    unittest.main()
