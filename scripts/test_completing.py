"""The table of commands of a small page, in a small completion."""
import unittest

from completing import Row, rows_of, table_of, with_table

PAGE = """\
| Command | What it does |
|---|---|
| `a429 show REC [MOST]` | shows a `REC`: each word | there |
| `a429 stop` | stops, that is all | there |

`a429 show` is no row.
"""
ROWS = [Row("show", ("REC", "[MOST]"), "shows a REC"), Row("stop", (), "stops")]


class Table(unittest.TestCase):
    def test_rows(self):
        self.assertEqual(rows_of(PAGE), ROWS)

    def test_the_table_takes_the_place_of_another(self):
        made = with_table("# head\ntable='\nold: gone\n'\nit='a'\n", ROWS)
        self.assertEqual(made, "# head\ntable='\nshow REC [MOST]: shows a REC\nstop: stops\n'\nit='a'\n")
        self.assertEqual(with_table(made, ROWS), made)
        self.assertEqual(table_of(made), [str(it) for it in ROWS])

    def test_no_table(self):
        self.assertEqual(table_of("it='a'\n"), [])


if __name__ == "__main__":
    unittest.main()
