"""Edits applied to a small crate, and what a check says of them."""
import os
import tempfile
import unittest

from console import ROOT
from wrongbodies.functions import text_of
from wrongbodies.tries import apply_all, edits_of, empty, kind_of, read_edit, refuses, write

SOURCE = """\
pub struct Word(u32);

impl Word {
    pub fn number(self) -> u32
        ensures { result ≡ self }
    {
        self.0
    }
}

impl Number for Word {
    fn double(self) -> u32 {
        self.0 * 2
    }
}

fn one() -> u32 {
    1
}
"""
ANSWERS = "use proofs.word.Word.number.Goals\n"


class Edits(unittest.TestCase):
    def setUp(self):
        room = tempfile.TemporaryDirectory()
        self.addCleanup(room.cleanup)
        self.folder = room.name
        for folder in ("src", "proofs/word/Word/number", "proofs/word/one"):
            os.makedirs(f"{self.folder}/{folder}")
        write(f"{self.folder}/src/word.rt", SOURCE)
        write(f"{self.folder}/proofs/word/Word/number/Answers.antt", ANSWERS)
        write(f"{self.folder}/proofs/word/one/Answers.antt", "one\n")

    def read(self, *pairs, file="src/word.rt"):
        """The edit of this file with these pairs of texts."""
        lines = [f"file: {file}", *(f"old: {old}\nnew: {new}" for old, new in pairs)]
        return read_edit("an_edit", "\n".join(lines), self.folder)

    def source(self):
        return text_of(f"{self.folder}/src/word.rt")

    def test_an_edit_is_of_the_function_that_has_its_line(self):
        it = self.read(("    1", "    2"))
        self.assertEqual((it.function, it.changes), ("word::one", (("src/word.rt", "    1", "    2"),)))

    def test_an_edit_outside_a_function_or_of_several_is_of_none(self):
        self.assertIsNone(self.read(("pub struct Word(u32);", "pub struct Word(u64);")).function)
        self.assertIsNone(self.read(("self.0 * 2", "self.0"), ("    1", "    2")).function)

    def test_an_edit_of_a_proof_is_of_no_function(self):
        self.assertIsNone(self.read(("one", "two"), file="proofs/word/one/Answers.antt").function)

    def test_an_old_text_has_to_be_there_once(self):
        for old in ("self.0", "self.1"):
            with self.assertRaises(SystemExit):
                self.read((old, "0"))

    def test_the_old_texts_of_all_crates_are_there_once(self):
        for folder in sorted(ROOT.glob("crates/*/wrong")):
            with self.subTest(folder.parent.name):
                self.assertTrue(edits_of(folder.parent))

    def test_the_first_edit_changes_the_function_and_each_other_a_double_with_its_own_proof(self):
        edits = [self.read(("ensures { result ≡ self }", f"ensures {{ result ≡ {it} }}")) for it in "abc"]
        self.assertEqual(apply_all(edits, self.folder), ["Word::number", "Word::number_2", "Word::number_3"])
        clauses = [it.split("≡ ")[1][0] for it in self.source().split("\n") if "ensures" in it]
        self.assertEqual(clauses, ["a", "c", "b"])
        proof = text_of(f"{self.folder}/proofs/word/Word/number_2/Answers.antt")
        self.assertEqual(proof, "use proofs.word.Word.number_2.Goals\n")

    def test_a_method_of_a_trait_has_no_double(self):
        edits = [self.read(("self.0 * 2", it)) for it in ("self.0", "self.0 * 3")]
        self.assertEqual(apply_all(edits, self.folder), ["WordNumber::double", None])
        self.assertEqual(self.source(), SOURCE.replace("self.0 * 2", "self.0"))

    def test_an_edit_that_is_undone_changes_nothing(self):
        it = self.read(("    1", "    2")).undone()
        self.assertEqual(apply_all([it], self.folder), ["word::one"])
        self.assertEqual(self.source(), SOURCE)

    def test_other_functions_lose_their_bodies_and_proofs(self):
        empty(self.folder, ["word::one"])
        self.assertEqual(self.source().count("unreachable!()"), 2)
        self.assertIn("    1\n", self.source())
        self.assertEqual(text_of(f"{self.folder}/proofs/word/one/Answers.antt"), "one\n")
        self.assertIn("unreachable-requires", text_of(f"{self.folder}/proofs/word/Word/number/Answers.antt"))


OPEN = """\
note: `ensures-clause-ok` is open
  it is not proved that the answer is below 3 (`ensures-clause-ok`)
fn a429_word::word::Word::number: not proved: expected answers in ./proofs/word/Word/number/Answers.antt
"""
NONE_TO_ITS_GOAL = """\
./proofs/word/Word/number/Answers.antt:5:24: error: `ensures-clause-ok`: expected type `1 ≡ 0`, but this has type `1 ≡ 1`
fn a429_word::word::Word::number: no proof: it has errors
"""
GONE = """\
./proofs/word/Word/number/Answers.antt:5:24: error: `loop-k-init`: `goal.loop-k-init`: module `Goals` has no `loop-k-init` that \
can be named from here
fn a429_word::word::Word::number: no proof: it has errors
"""

GONE_IN_A_LATER_LINE = """\
./proofs/word/Word/number/Answers.antt:5:24: error: `loop-k-init`: record
  `Rattle.a429_word.proofs.word.Word.number.Goals.In-Err` has no field `fault`
fn a429_word::word::Word::number: no proof: it has errors
"""


class Answers(unittest.TestCase):
    def test_an_open_goal_refuses(self):
        self.assertTrue(refuses(OPEN, "Word::number"))

    def test_another_function_is_not_refused_by_it(self):
        self.assertFalse(refuses(OPEN, "Word::number_2"))
        self.assertFalse(refuses(OPEN, "umber"))

    def test_an_answer_that_does_not_fit_its_goal_refuses(self):
        self.assertTrue(refuses(NONE_TO_ITS_GOAL, "Word::number"))

    def test_a_name_that_is_gone_does_not_refuse(self):
        self.assertFalse(refuses(GONE, "Word::number"))

    def test_a_name_that_is_gone_is_seen_in_a_later_line(self):
        self.assertFalse(refuses(GONE_IN_A_LATER_LINE, "Word::number"))

    def test_an_open_goal_refuses_where_the_answer_to_another_is_gone(self):
        self.assertTrue(refuses(GONE.partition("fn ")[0] + OPEN, "Word::number"))

    def test_an_open_goal_of_the_kind_whose_answer_is_gone_does_not_refuse(self):
        gone = GONE.partition("fn ")[0].replace("loop-k-init", "if-ensures-clause-ok")
        self.assertFalse(refuses(gone + OPEN, "Word::number"))

    def test_an_invariant_that_is_gone_does_not_refuse(self):
        self.assertFalse(refuses(GONE.partition("fn ")[0].replace("Answers", "Invariants") + OPEN, "Word::number"))

    def test_a_text_that_cannot_be_read_does_not_refuse(self):
        self.assertFalse(refuses("src/word.rt:3:4: error: expected `)`\n", "Word::number"))

    def test_kinds_of_goals(self):
        goals = ["if-ensures-clause-ok", "loop-k-init", "call-2-requires", "bound-3"]
        self.assertEqual([kind_of(it) for it in goals], ["ok", "init", "requires", "bound"])


if __name__ == "__main__":
    unittest.main()
