"""Small pages, and what is wrong with them."""
import tempfile
import unittest
from pathlib import Path

from console import blocks_of
from pages import (
    anchors_of, commands_never_run, dead_links, idle_files, lost_names, missing_files, run_on_engines, run_with_tools, shared_files,
)  # fmt: skip

PAGE = """\
# A page

See [the other](other.md#two-words), [none](none.md), [no heading](other.md#three), [here](#a-page) and `[code](none.md)`,
![a picture](a.svg) [outside](https://example.org/none.md). `scripts/there` and `scripts/gone -x`.

```sh try
a429 word 00000000
```

```sh
scripts/a429 show x    # with a remark
a429 labels y
```

```
[no link](none.md)
a429 is no command here
```

```console
$ sh try
```
"""


class Pages(unittest.TestCase):
    def setUp(self):
        folder = tempfile.TemporaryDirectory(prefix="a429-pages.")
        self.addCleanup(folder.cleanup)
        self.root = Path(folder.name)
        self.page = self.put("page.md", PAGE)
        self.put("other.md", "# Other\n\n## Two words\n\n```\n# Three\n```\n")
        self.put("a.svg", "")
        self.put("scripts/there", "")

    def put(self, name, text):
        path = self.root / name
        path.parent.mkdir(parents=True, exist_ok=True)
        path.write_text(text)
        return path

    def said(self, faults):
        return [(it.line, it.text) for it in faults]

    def test_links_lead_to_files_and_headings(self):
        wanted = [(3, "no such file: none.md"), (3, "no such heading: other.md#three")]
        self.assertEqual(self.said(dead_links(self.page)), wanted)

    def test_headings_are_named_as_links_name_them(self):
        self.assertEqual([*anchors_of("# `a429 word HEX`\n## A, b\n## A, b\n")], ["a429-word-hex", "a-b", "a-b-1"])

    def test_files_that_are_named_are_there(self):
        self.assertEqual(self.said(missing_files(self.page, self.root)), [(4, "no such file: scripts/gone")])

    def test_blocks_know_their_lines(self):
        self.assertEqual([(it.line, it.language, it.name) for it in blocks_of(PAGE)][:2], [(7, "sh", "try"), (11, "sh", "")])

    def test_commands_that_no_page_runs_are_named(self):
        wanted = [(11, "no test runs: scripts/a429 show x"), (12, "no test runs: a429 labels y"), (17, "no test runs: a429 is no command here")]
        self.assertEqual(self.said(commands_never_run(self.page, {self.page})), wanted)
        runs = self.put("runs.md", "```console\n$ a429 show x\nit\n$ a429 labels y\n$ a429 is no command here\n```\n")
        self.assertEqual(self.said(commands_never_run(self.page, {self.page, runs})), [])

    def test_a_block_can_say_why_it_is_not_run(self):
        text = "<!-- not run: no such tool -->\n```\na429 one\n```\n\n```\na429 two\n```\n"
        faults = commands_never_run(self.put("excused.md", text), set())
        self.assertEqual(self.said(faults), [(7, "no test runs: a429 two")])

    def test_a_block_can_say_that_it_is_run_on_engines(self):
        text = "```python Snakefile\nrule\n```\n\n<!-- run by scripts/test-campaign -->\n```sh\na429 one\nsnakemake\n```\n\n```\na429 two\n```\n"
        page = self.put("engines.md", text)
        self.assertEqual(run_on_engines(text), ["a429 one\nsnakemake\n"])
        self.assertEqual(self.said(commands_never_run(page, set())), [(12, "no test runs: a429 two")])
        self.assertEqual(self.said(idle_files(page)), [])

    def test_a_block_can_say_that_it_is_run_with_its_tools(self):
        text = "```python lost.py\nprint()\n```\n\n<!-- run by scripts/test-extras -->\n```sh\na429 one\npython3 lost.py\n```\n"
        page = self.put("tools.md", text)
        self.assertEqual(run_with_tools(text), ["a429 one\npython3 lost.py\n"])
        self.assertEqual([*commands_never_run(page, set()), *idle_files(page)], [])

    def test_commands_of_a_page_that_is_not_run_are_named(self):
        self.assertIn((21, "no test runs: sh try"), self.said(commands_never_run(self.page, set())))

    def test_files_that_no_command_uses_are_named(self):
        self.assertEqual(self.said(idle_files(self.page)), [])
        idle = self.put("idle.md", "```awk convert.awk\n{ print }\n```\n")
        self.assertEqual(self.said(idle_files(idle)), [(2, "no command uses the file convert.awk")])

    def test_files_that_two_runs_share_are_named(self):
        text = "```console\n$ cp a ~/tmp/b\n$ cp a /tmp/b\n```\n\n```\ncp a /tmp/b\n```\n"
        wanted = [(3, "another run has this file too: cp a /tmp/b")]
        self.assertEqual(self.said(shared_files(self.put("shared.md", text))), wanted)

    def test_names_of_code_are_in_the_sources(self):
        self.put("crates/low/src/lib.rt", "pub fn is_there() -> IsThere {}")
        text = "`is_there`, `Low::is_there`, `IsThere` of `low`\n\n`was_there`, `IsGone::was_new`, `NAME`, `a b_c`, was_never\n"
        faults = lost_names(self.put("names.md", text), self.root)
        self.assertEqual(self.said(faults), [(3, "no source has was_there"), (3, "no source has was_new")])


if __name__ == "__main__":
    unittest.main()
