"""Tries checks on edits of a429_word that they must not count as refused, each beside a wrong body."""
from wrongbodies.tries import Crate, read_edit

REFUSED = "file: src/word.rt\nold: parity_of(self.0) == 1\nnew: parity_of(self.0) == 0"
UNREADABLE = "file: src/word.rt\nold: self.0 >> (n - 1) & 1 == 1\nnew: self.0 >> (n - 1 & 1 == 1"
BESIDE = {
    "nothing_changed": "file: src/word.rt\nold: self.0 >> 10 & 0x7_FFFF\nnew: self.0 >> 10 & 0x7FFFF",
    "loop_variable_renamed": "file: src/bcd.rt\nold: for before in 0..k {\nnew: for earlier in 0..k {\n"
    "old: let digit = self.bcd_digit(before + 1);\nnew: let digit = self.bcd_digit(earlier + 1);\n"
    "old: return Err(BadDigit(before + 1));\nnew: return Err(BadDigit(earlier + 1));",
    "goals_renamed_by_a_test": "file: src/digits.rt\nold: let lower = number_of_four(letters, text[4], text[5], text[6], text[7]);\n"
    "new: if text.is_empty() { return None; } let lower = number_of_four(letters, text[4], text[5], text[6], text[7]);",
}
# The edits that a check has at once, and those of them that it has to show to be refused: the wrong body alone, and none where a text
# cannot be read.
CHECKS = (
    ({**BESIDE, "refused": REFUSED}, ["refused"]),
    ({"no_rust": UNREADABLE, "refused": REFUSED}, []),
)


def selftest(crates, rattle):
    """Whether each check shows just that: the exit status."""
    made = next(it for it in crates if it.name == "a429_word")
    crate, passed = Crate(made, rattle), 0
    with crate.room:
        for texts, wanted in CHECKS:
            seen = [it.name for it in crate.seen_refused([read_edit(name, text, made.folder) for name, text in texts.items()])]
            passed += seen == wanted
            print("seen refused of", ", ".join(texts), "are:", ", ".join(seen) or "none", flush=True)
    print(f"{passed} passed, {len(CHECKS) - passed} failed")
    return int(passed < len(CHECKS))
