"""scripts/a429 in a small repository of its own, with a command `rt` that only says that it was called."""
import os
import shutil
import subprocess
import tempfile
import time
import unittest
from pathlib import Path

SCRIPTS = Path(__file__).resolve().parent
# Builds a program that prints its words, and takes its time.
RT = """#!/bin/sh
echo called >>"$CALLS"
sleep 0.5
mkdir -p out
printf '#!/bin/sh\\necho "$@"\\n' >out/a429
chmod +x out/a429
"""


class Builds(unittest.TestCase):
    def setUp(self):
        folder = tempfile.TemporaryDirectory(prefix="a429-build.")
        self.addCleanup(folder.cleanup)
        self.root = Path(folder.name)
        for it in ("scripts", "bin", "crates/a429/src"):
            (self.root / it).mkdir(parents=True)
        shutil.copy(SCRIPTS / "a429", self.root / "scripts/a429")
        (self.root / "crates.txt").write_text("a429:\n")
        (self.root / "crates/a429/src/main.rt").write_text("")
        (self.root / "bin/rt").write_text(RT)
        (self.root / "bin/rt").chmod(0o755)

    def start(self, word, path="bin"):
        env = {**os.environ, "CALLS": str(self.root / "calls"), "PATH": f"{self.root}/{path}:/usr/bin:/bin"}
        return subprocess.Popen([self.root / "scripts/a429", word], env=env, stdout=subprocess.PIPE, stderr=subprocess.PIPE, text=True)

    def calls(self):
        return (self.root / "calls").read_text().count("called") if (self.root / "calls").exists() else 0

    def test_of_two_calls_at_once_one_builds(self):
        both = [self.start("first"), self.start("second")]
        self.assertEqual([it.communicate()[0] for it in both], ["first\n", "second\n"])
        self.assertEqual(self.calls(), 1)

    def test_a_built_program_is_not_built_again_but_where_a_source_is_newer(self):
        for source, calls in ((False, 1), (False, 1), (True, 2)):
            if source:
                later = (self.root / "crates/a429/out/a429").stat().st_mtime + 1
                os.utime(self.root / "crates/a429/src/main.rt", (later, later))
            self.assertEqual(self.start("word").communicate()[0], "word\n")
            self.assertEqual(self.calls(), calls)

    def test_a_source_that_is_saved_during_the_build_is_built_with_the_next_call(self):
        call = self.start("first")
        while self.calls() == 0:
            time.sleep(0.02)
        (self.root / "crates/a429/src/main.rt").write_text("// later\n")
        self.assertEqual(call.communicate()[0], "first\n")
        self.assertEqual(self.start("second").communicate()[0], "second\n")
        self.assertEqual(self.calls(), 2)

    def test_without_rt_the_status_is_125(self):
        call = self.start("word", path="none")
        self.assertIn("'rt', the toolchain's command, is not on the path", call.communicate()[1])
        self.assertEqual(call.returncode, 125)


if __name__ == "__main__":
    unittest.main()
