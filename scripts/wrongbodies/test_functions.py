"""What a function is, in small texts."""
import unittest

from wrongbodies.functions import functions_in, module_of, with_double, without_bodies

TEXT = """\
pub struct Word(u32);

impl Word {
    /// The number.
    #[tactic(auto)]
    #[inline]
    pub fn number(self) -> u32
        ensures least { 0 ≤ result }
        ensures value {
            result ≡ self
        }
    {
        if self.0 == 0 {
            return 0;
        }
        self.0
    }

    pub(crate) fn is_even(self) -> bool {
        self.0 % 2 == 0
    }
}

impl<R: Read<Item = u8>> io::Read for Tally<'_, R> {
    fn read(&mut self) -> usize {
        0
    }
}

const fn table() -> [u8; 2] {
    [0, 1]
}

pub trait Source {
    fn next(&mut self) -> u32
        ensures { result ≤ 3 };
}

fn nothing() {}

#[unsafe(no_mangle)]
pub extern "C" fn version() -> u32
    ensures { result ≡ 1 }
{
    1
}

fn last() -> u32
    requires never {
        ⊥
    }
{
    1
}"""
LINES = TEXT.split("\n")
FUNCTIONS = {it.name: it for it in functions_in("src/word.rt", LINES, {"Word": "word", "Tally": "tally"})}


def text(function, first, last):
    """The lines from the one of these places to the other, without spaces around them."""
    return [it.strip() for it in LINES[getattr(function, first) : getattr(function, last) + 1]]


class Functions(unittest.TestCase):
    def test_those_with_a_body_of_its_own_lines_are_found(self):
        self.assertEqual([*FUNCTIONS], ["Word::number", "Word::is_even", "TallyRead::read", "word::table", "word::version", "word::last"])

    def test_a_function_starts_with_its_first_attribute(self):
        it = FUNCTIONS["Word::number"]
        self.assertEqual(text(it, "start", "head"), ["#[tactic(auto)]", "#[inline]", "pub fn number(self) -> u32"])
        self.assertEqual(FUNCTIONS["Word::is_even"].start, FUNCTIONS["Word::is_even"].head)

    def test_a_brace_inside_a_contract_opens_no_body(self):
        self.assertEqual(text(FUNCTIONS["Word::number"], "first", "last")[:2], ["{", "if self.0 == 0 {"])
        self.assertEqual(text(FUNCTIONS["word::last"], "first", "last"), ["{", "1", "}"])

    def test_a_brace_inside_a_body_does_not_close_it(self):
        self.assertEqual(text(FUNCTIONS["Word::number"], "first", "last")[-2:], ["self.0", "}"])

    def test_a_body_can_open_in_the_line_of_the_head(self):
        it = FUNCTIONS["Word::is_even"]
        self.assertEqual((it.first, it.last), (it.head, it.head + 2))

    def test_a_method_of_a_trait_has_the_trait_in_its_names(self):
        it = FUNCTIONS["TallyRead::read"]
        self.assertEqual((it.trait, it.proof), ("Read", "tally/TallyRead/read"))

    def test_a_proof_is_in_the_module_of_the_type_or_of_the_file(self):
        self.assertEqual(FUNCTIONS["Word::number"].proof, "word/Word/number")
        self.assertEqual(FUNCTIONS["word::table"].proof, "word/table")

    def test_modules(self):
        self.assertEqual([module_of(it) for it in ("src/lib.rt", "src/main.rt", "src/a/b.rt")], ["", "", "a/b"])


class Bodies(unittest.TestCase):
    def test_all_bodies_are_taken_out_but_those_kept_and_those_of_constants(self):
        lines, out = without_bodies("src/word.rt", LINES, {}, ["Word::is_even"])
        self.assertEqual({it.name for it in out}, {"Word::number", "TallyRead::read", "word::version", "word::last"})
        left = [[it.strip() for it in lines[f.first + 1 : f.last]] for f in functions_in("src/word.rt", lines, {})]
        no_body = ["unreachable!()"]
        self.assertEqual(left, [no_body, ["self.0 % 2 == 0"], no_body, ["[0, 1]"], no_body, no_body])

    def test_heads_and_contracts_stay(self):
        lines, _ = without_bodies("src/word.rt", LINES, {}, [])
        it = FUNCTIONS["Word::number"]
        self.assertEqual(lines[: it.first + 1], LINES[: it.first + 1])

    def test_a_double_comes_after_its_function_with_attributes_and_contract(self):
        it = FUNCTIONS["Word::number"]
        lines = with_double(LINES, it, 2, lambda text: text.replace("return 0", "return 1"))
        double = [
            line.replace("fn number", "fn number_2").replace("return 0", "return 1") for line in LINES[it.start : it.last + 1]
        ]
        self.assertEqual(lines, [*LINES[: it.last + 1], *double, *LINES[it.last + 1 :]])


if __name__ == "__main__":
    unittest.main()
