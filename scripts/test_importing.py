"""The second model of `import`: the pages of cases and docs, and exports made by chance."""
import random
import unittest
from pathlib import Path

from console import run
from exporting import export_by_chance
from importing import imported

SCRIPTS = Path(__file__).resolve().parent
class Imports(unittest.TestCase):
    def test_pages(self):
        for page, is_exact in ((SCRIPTS / "cases/import.md", True), (SCRIPTS.parent / "docs/IMPORT.md", False)):
            with self.subTest(page.name):
                self.assertEqual(run(page, SCRIPTS / "importing.py", is_exact)[1], 0)

    def test_exports_by_chance(self):
        for seed in range(600):
            kinds = [kind for kind, turn in (("clock", seed % 2), ("repeats", seed // 2 % 2)) if turn]
            with self.subTest(seed=seed):
                export = export_by_chance(random.Random(seed), kinds)
                answer = imported(export.map, export.export)
                self.assertEqual((answer.fault, answer.text), (None, export.recording))


if __name__ == "__main__":
    unittest.main()
