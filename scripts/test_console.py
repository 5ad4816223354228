"""Small pages, and what their commands write."""
import unittest

from console import Command, File, Written, answers_of, steps_of, wanted_of

PAGE = """\
Text, with a block that is not run:

```sh
exit 1
```

```sh twice
echo "$1 $1"
```

```console
$ sh twice a
a a
$ cat missing
2> cat: missing: No such file or directory
[status 1]
$ true
```
"""


class Pages(unittest.TestCase):
    def test_files_and_commands_in_their_order(self):
        file, *commands = steps_of(PAGE)
        self.assertEqual(file, File("twice", 'echo "$1 $1"\n'))
        self.assertEqual([(it.line, it.text) for it in commands], [(12, "sh twice a"), (14, "cat missing"), (17, "true")])

    def test_what_an_exact_page_wants(self):
        wanted = [wanted_of(it, True) for it in [*steps_of(PAGE)][1:]]
        error = "cat: missing: No such file or directory\n"
        self.assertEqual(wanted, [Written("a a\n", "", 0), Written("", error, 1), Written("", "", 0)])

    def test_each_kind_of_line_is_read_as_it_is_shown(self):
        for it in (Written("a\n\nb\n", "c\nd\n", 3), Written("", "", 2), Written("a\n", "", 0), Written("", "c\n", 0)):
            self.assertEqual(wanted_of(Command(1, "it", it.shown()), True), it)

    def test_a_page_of_docs_wants_what_a_terminal_shows(self):
        self.assertEqual(wanted_of(Command(1, "it", "a\n2> b\n"), False), Written("a\n2> b\n", "", None))


class Answers(unittest.TestCase):
    def answers(self, *commands, is_exact=True):
        steps = [Command(1, it, "") for it in commands]
        return [*answers_of(steps, "/bin/echo", is_exact).values()]

    def test_outputs_are_kept_apart_and_the_status_is_seen(self):
        self.assertEqual(self.answers("echo a; echo b >&2; false"), [Written("a\n", "b\n", 1)])

    def test_a_terminal_shows_both_outputs_in_their_order(self):
        found = self.answers("echo a; echo b >&2; echo c; false", is_exact=False)
        self.assertEqual(found, [Written("a\nb\nc\n", "", None)])

    def test_commands_share_a_shell_and_its_status(self):
        found = self.answers("x=1; cd /; false", "echo $? $x; pwd", "echo $?")
        self.assertEqual([it.output for it in found], ["", "1 1\n/\n", "0\n"])

    def test_the_tested_program_is_a429_and_standard_input_is_empty(self):
        self.assertEqual(self.answers("a429 word; cat"), [Written("word\n", "", 0)])

    def test_a_shell_that_ends_leaves_no_answers(self):
        self.assertEqual(self.answers("echo a", "exit 3", "echo b"), [Written("a\n", "", 0), None, None])

    def test_an_output_without_a_line_feed_is_another(self):
        self.assertEqual([it.shown() for it in self.answers("printf a")], ["a"])


if __name__ == "__main__":
    unittest.main()
