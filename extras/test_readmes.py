"""The commands of the pages of extras, and what they write."""

import os
import shutil
import sys
import unittest
from pathlib import Path

EXTRAS = Path(__file__).resolve().parent
sys.path.insert(0, str(EXTRAS.parent / "scripts"))
from console import run


@unittest.skipUnless(shutil.which(os.environ.get("A429", "a429")), "no program a429")
class Pages(unittest.TestCase):
    def page(self, name, *tools):
        missing = [it for it in tools if not shutil.which(it)]
        if missing:
            self.skipTest(f"no {missing[0]}")
        _, failed = run(EXTRAS / name / "README.md", shutil.which(os.environ.get("A429", "a429")), is_exact=False)
        self.assertEqual(failed, 0)

    def test_wireshark(self):
        self.page("wireshark", "tshark", "text2pcap")

    def test_sigrok(self):
        self.page("sigrok", "sigrok-cli")

    @unittest.skipIf(sys.version_info < (3, 10), "Python before 3.10")
    def test_python(self):
        self.page("python")


if __name__ == "__main__":
    unittest.main()
