"""The rounds of a crate whose checks are made up, and the order of crates."""
import contextlib
import io
import os
import tempfile
import threading
import unittest
from pathlib import Path
from types import SimpleNamespace

from wrongbodies.order import accepted, dearest_first, parts_of, refused
from wrongbodies.tries import Edit


class Crate:
    """A crate whose function with a name of `wrong` is refused, but where one of `hidden` is only refused in a check of its own."""

    name = "a429_test"

    def __init__(self, wrong="", hidden="", without=""):
        self.wrong, self.hidden, self.without, self.checks = wrong, hidden, without, []

    def seen_refused(self, edits):
        self.checks.append("".join(it.name for it in edits))
        if all(old == new for it in edits for _, old, new in it.changes):
            return [it for it in edits if it.name in self.without]
        return [it for it in edits if it.name in self.wrong or it.name in self.hidden and len(edits) == 1]

    def is_refused_by_any(self, edit):
        self.checks.append(edit.name)
        return edit.name in self.wrong


def edits(names, function="f"):
    return [Edit(it, (("src/a.rt", "old", "new"),), function) for it in names]


def names(found):
    return "".join(sorted(it.name for it in found))


class Rounds(unittest.TestCase):
    def test_one_check_is_enough_where_all_are_refused(self):
        crate = Crate(wrong="abcd")
        self.assertEqual((names(refused(crate, edits("abcd"))), crate.checks), ("abcd", ["abcd"]))

    def test_what_is_not_refused_is_tried_again_without_the_rest(self):
        crate = Crate(wrong="abd")
        self.assertEqual((names(refused(crate, edits("abcd"))), crate.checks), ("abd", ["abcd", "c"]))

    def test_where_a_check_shows_nothing_the_halves_are_tried(self):
        crate = Crate(hidden="ad")
        self.assertEqual(names(refused(crate, edits("abcd"))), "ad")
        self.assertEqual(crate.checks, ["abcd", "ab", "a", "b", "cd", "c", "d"])

    def test_what_is_not_refused_alone_is_accepted(self):
        crate = Crate(wrong="ac")
        self.assertEqual(names(accepted(crate, edits("abc"), True)), "b")

    def test_an_edit_of_no_function_is_tried_alone(self):
        crate = Crate(wrong="ab")
        self.assertEqual(accepted(crate, edits("a", None) + edits("b"), True), [])
        self.assertEqual(crate.checks, ["a", "b"])

    def test_a_function_that_is_refused_without_its_edit_refuses_nothing(self):
        crate, said = Crate(wrong="ab", without="a"), io.StringIO()
        with contextlib.redirect_stdout(said):
            self.assertEqual(names(accepted(crate, edits("ab"), False)), "a")
        self.assertEqual(said.getvalue(), "REFUSED WITHOUT IT: a429_test/wrong/a\n")
        self.assertEqual(crate.checks, ["ab", "b"])


class Order(unittest.TestCase):
    def test_the_dearest_that_has_come_is_next(self):
        have_come, tried = threading.Event(), []

        def come():
            yield from (SimpleNamespace(name=str(cost), cost=cost) for cost in (2, 5, 1, 4, 3))
            have_come.set()

        def try_it(crate):
            have_come.wait()
            tried.append(crate.cost)
            return crate.cost

        self.assertEqual(sum(dearest_first(come(), try_it, 1, 1)), 15)
        # (the first is what had come when the processor was free)
        self.assertEqual(tried[1:], sorted(tried[1:], reverse=True))

    def test_the_rest_of_the_processors_is_used_once_the_last_has_come(self):
        both = threading.Barrier(2, timeout=5)

        def try_it(crate):
            return both.wait() < 2

        crates = [SimpleNamespace(name="both", cost=1) for _ in range(2)]
        self.assertEqual(dearest_first(crates, try_it, 1, 2), [True, True])

    def test_a_crate_of_many_edits_is_tried_in_parts(self):
        with tempfile.TemporaryDirectory(prefix="a429-order.") as folder:
            os.makedirs(f"{folder}/wrong/named")
            edits = [*(f"{it:03}.edit" for it in range(160)), "named/one.edit"]
            for it in edits:
                Path(folder, "wrong", it).write_text("")
            made = SimpleNamespace(name="a429_test", folder=folder, below=lambda: [], words=lambda *_, **__: [])
            parts = parts_of(made, "rattle", 3)
            found = [[it.name for it in part.edits()] for part in parts]
            self.assertEqual((len(parts), sorted(sum(found, []))), (3, edits))
            self.assertLessEqual(max(map(len, found)), 80)
            on_two = parts_of(made, "rattle", 2)
            self.assertEqual([sorted(it.name for it in part.edits()) for part in on_two], [edits])
            for it in parts + on_two:
                it.room.cleanup()

    def test_for_a_change_those_of_a_release_are_left_out(self):
        with tempfile.TemporaryDirectory(prefix="a429-order.") as folder:
            for it in ("one.edit", "named/two.edit", "release/three.edit"):
                os.makedirs(os.path.dirname(f"{folder}/wrong/{it}"), exist_ok=True)
                Path(folder, "wrong", it).write_text("")
            made = SimpleNamespace(name="a429_test", folder=folder, below=lambda: [], words=lambda *_, **__: [])
            for is_release, wanted in ((True, "named/two one release/three"), (False, "named/two one")):
                part, = parts_of(made, "rattle", 4, is_release)
                self.assertEqual(" ".join(it.name.removesuffix(".edit") for it in part.edits()), wanted)
                part.room.cleanup()


if __name__ == "__main__":
    unittest.main()
