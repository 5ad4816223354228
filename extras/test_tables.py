"""The questions of docs/MANY.md to all recordings, with pandas and DuckDB where these are here."""

import functools
import os
import re
import shutil
import subprocess
import sys
import tempfile
import unittest
from pathlib import Path

ROOT = Path(__file__).resolve().parent.parent
sys.path.insert(0, str(ROOT / "scripts"))
from console import Command, blocks_of, steps_of
from pages import run_with_tools

A429 = shutil.which(os.environ.get("A429", "a429"))
SECTION = re.search(r"^## Questions to all recordings\n.*?(?=^## )", (ROOT / "docs/MANY.md").read_text(), re.MULTILINE | re.DOTALL)[0]


@functools.cache
def python_with(module):
    """A Python that has this module: the one that runs this, or the one of the distribution."""
    pythons = (sys.executable, "/usr/bin/python3")
    return next((it for it in pythons if not subprocess.run([it, "-c", f"import {module}"], capture_output=True).returncode), None)


def command_of(line):
    """A command of the page, with the tool that runs it, or None where that is missing."""
    if line.startswith("duckdb"):
        return line if shutil.which("duckdb") else None
    python = python_with("pandas")
    return line.replace("python3", python) if python else None


def without_blanks(text):
    """Lines without the blanks at their ends, in which the versions of pandas differ."""
    return [it.rstrip() for it in text.splitlines()]


@unittest.skipUnless(A429, "no program a429")
class Questions(unittest.TestCase):
    @classmethod
    def setUpClass(cls):
        room = tempfile.TemporaryDirectory()
        cls.addClassCleanup(room.cleanup)
        cls.folder = folder = Path(room.name)
        (folder / "bin").mkdir()
        (folder / "bin/a429").symlink_to(A429)
        (folder / "recordings").mkdir()
        shutil.copy(ROOT / "examples/sample.toml", folder / "bench.toml")
        for it in (ROOT / "examples").glob("*.csv"):
            shutil.copy(it, folder / "recordings")
        shutil.copy(ROOT / "examples/one-byte.csv", folder / "recordings/one byte.csv")
        commands = "\n".join(it.text for it in steps_of(SECTION) if isinstance(it, Command))
        env = {**os.environ, "PATH": f"{folder}/bin:{os.environ['PATH']}"}
        subprocess.run(["bash", "-c", commands], cwd=folder, env=env, check=True)

    def ask(self, tool):
        """Runs the commands of the page that begin so, and compares what they write with the block after the file that they name."""
        blocks = list(blocks_of(SECTION))
        wanted = {it.name: after.text for it, after in zip(blocks, blocks[1:]) if it.name}
        lines = [it for text in run_with_tools(SECTION) for it in text.splitlines() if it.startswith(tool)]
        self.assertTrue(lines)
        if not command_of(lines[0]):
            self.skipTest(f"no {'pandas' if tool == 'python3' else tool}")
        for it in blocks:
            if it.name:
                (self.folder / it.name).write_text(it.text)
        for line in lines:
            with self.subTest(line):
                done = subprocess.run(["sh", "-c", command_of(line)], cwd=self.folder, capture_output=True, text=True)
                self.assertEqual(without_blanks(done.stdout), without_blanks(wanted[line.split()[-1]]), done.stderr)

    def test_pandas(self):
        self.ask("python3")

    def test_duckdb(self):
        self.ask("duckdb")


if __name__ == "__main__":
    unittest.main()
