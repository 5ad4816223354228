"""The picture of the crates (drawing.py)."""
import unittest
import xml.etree.ElementTree as Xml

from console import ROOT
from drawing import columns_of, crates_picture, drawn, paths_of, picture, rows_of, subject, uses_of

LISTED = """\
# The crates.
word: itoa
profile: word toml
link: word profile
check: word profile link
# Tests alone: cases.
rows: word
"""
USES = {"word": set(), "profile": {"word"}, "link": {"word", "profile"}, "check": {"word", "profile", "link"}}


class Pictures(unittest.TestCase):
    def test_the_crates_of_a_list_without_those_of_the_kit_and_of_tests(self):
        self.assertEqual(uses_of(LISTED), USES)

    def test_an_arrow_that_others_imply_is_left_out(self):
        self.assertEqual(drawn(USES), {"word": set(), "profile": {"word"}, "link": {"profile"}, "check": {"link"}})

    def test_each_crate_is_below_all_that_use_it(self):
        self.assertEqual(rows_of(USES), {"check": 0, "link": 1, "profile": 2, "word": 3})

    def test_a_way_has_a_place_in_each_row_that_no_crate_has(self):
        uses = {"word": set(), "profile": {"word"}, "import": {"word"}, "link": {"profile"}, "check": {"link", "import"}}
        rows = rows_of(uses)
        columns = columns_of(paths_of(uses, rows))
        for path in paths_of(uses, rows):
            self.assertEqual([row for _, row in path], list(range(path[0][1], path[-1][1] + 1)))
        places = [(columns[name], row) for name, row in {place for path in paths_of(uses, rows) for place in path}]
        self.assertEqual(len(places), len(set(places)))

    def test_what_a_crate_is_about(self):
        self.assertEqual(subject("//! Recordings of hours: what of them the transfer needs.\n"), ["Recordings of hours"])
        self.assertEqual(subject("use std;\n"), [])

    def test_names_and_words_are_escaped(self):
        self.assertIn("a &lt; b", picture({"one": set(), "two": {"one"}}, {"one": ["a < b"], "two": []}))

    def test_the_crates_of_this_repository(self):
        names = [it.text for it in Xml.fromstring(crates_picture(ROOT)).iter("{http://www.w3.org/2000/svg}text") if it.get("class")]
        self.assertEqual(names, [*uses_of((ROOT / "crates.txt").read_text(encoding="utf-8"))])
