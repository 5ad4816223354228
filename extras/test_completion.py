"""What bash, zsh and fish make of a line for `a429` where TAB is pressed: scripts/a429.bash, a429.zsh and a429.fish."""

import os
import pty
import select
import shutil
import signal
import sys
import tempfile
import time
import unittest
from pathlib import Path

ROOT = Path(__file__).resolve().parent.parent
sys.path.insert(0, str(ROOT / "scripts"))
from completing import rows_of

ROWS = rows_of((ROOT / "README.md").read_text())
# Files and folders that differ in what they may be, for the first letters that are typed.
FILES = ("bench.toml", "bench.csv", "trial one.csv", "9.csv", "A.csv")
FOLDERS = ("parts",)
# What is typed for a word, and what TAB makes of it. Where it is no file and no folder, the files 9.csv and A.csv are not offered.
FILE, PROFILE, NUMBER = ("tri", "trial one.csv"), ("b", "bench.toml"), ("9", "9")
TYPED = {
    "PROFILE": PROFILE, "MAP": PROFILE, "REC": FILE, "EXPORT": FILE, "CERT": FILE, "OUT": FILE, "FILE..": FILE, "DIR": ("p", "parts"),
    "LINE": ("A", "A"), "HEX": NUMBER, "[MOST]": NUMBER, "[ANSWER]": NUMBER, "FROM": NUMBER, "TO": NUMBER,
}  # fmt: skip
# What stands for the program: it writes its words into a file.
PROGRAM = """#!/bin/sh
for it in "$@"; do printf '%s|' "$it"; done >>"$HOME/said"
echo >>"$HOME/said"
"""
SECONDS = 20


def unique(command):
    """The first letters of a command that no other one has, if any."""
    starts = (command[:length] for length in range(1, len(command)))
    return next((it for it in starts if sum(row.command.startswith(it) for row in ROWS) == 1), command)


class Terminal:
    """A shell with a terminal of its own, in a home of its own."""

    def __init__(self, home, *command):
        self.said = home / "said"
        self.said.touch()
        env = {"HOME": str(home), "ZDOTDIR": str(home), "PATH": f"{home}/bin:{os.environ['PATH']}", "TERM": "dumb", "LC_ALL": "C.UTF-8"}
        self.shown = b""
        self.shell, self.end = pty.fork()
        if not self.shell:
            os.chdir(home / "work")
            os.execvpe(command[0], command, env)

    def close(self):
        os.kill(self.shell, signal.SIGKILL)
        os.waitpid(self.shell, 0)
        os.close(self.end)

    def read_until(self, is_enough):
        last = time.monotonic() + SECONDS
        while not is_enough():
            if time.monotonic() > last:
                raise AssertionError(f"nothing more after {self.shown[-1000:]!r}")
            if select.select([self.end], [], [], 0.02)[0]:
                try:
                    self.shown += os.read(self.end, 4096)
                except OSError as fault:
                    raise AssertionError(f"it has ended after {self.shown[-1000:]!r}") from fault

    def words_of(self, line):
        """The words that a429 gets of a line in which TAB is pressed after each word."""
        size = self.said.stat().st_size
        os.write(self.end, line.encode())
        self.read_until(lambda: self.said.stat().st_size > size and self.said.read_text().endswith("\n"))
        return self.said.read_text().splitlines()[-1].split("|")[:-1]


class Shell:
    """Tests of one shell."""

    def setUp(self):
        if not shutil.which(self.name):
            self.skipTest(f"no {self.name}")
        room = tempfile.TemporaryDirectory(prefix="a429-completion.")
        self.addCleanup(room.cleanup)
        self.home = Path(room.name)
        for it in ("bin", "work", "share"):
            (self.home / it).mkdir()
        (self.home / "bin/a429").write_text(PROGRAM)
        (self.home / "bin/a429").chmod(0o755)
        for it in FILES:
            (self.home / "work" / it).touch()
        for it in FOLDERS:
            (self.home / "work" / it).mkdir()
        self.terminal = Terminal(self.home, *self.command())
        self.addCleanup(self.terminal.close)
        self.terminal.read_until(lambda: b"ready>" in self.terminal.shown)

    def typed(self, *words):
        """What a429 gets where each of these words is followed by TAB."""
        return [it.rstrip("/") for it in self.terminal.words_of("a429 " + " ".join(f"{it}\t" for it in words) + "\r")]

    def test_each_command(self):
        for row in ROWS:
            with self.subTest(row.command):
                self.assertEqual(self.typed(unique(row.command)), [row.command])

    def test_each_word_of_each_command(self):
        for row in ROWS:
            with self.subTest(row.command):
                starts, wanted = zip(*(TYPED[it] for it in row.words)) if row.words else ((), ())
                self.assertEqual(self.typed(row.command, *starts), [row.command, *wanted])

    def test_files_without_end_and_no_word_too_many(self):
        self.assertEqual(self.typed("make", "b", "tri", "tri"), ["make", "bench.toml", *["trial one.csv"] * 2])
        self.assertEqual(self.typed("pack", "tri", "tri"), ["pack", "trial one.csv", "tri"])
        self.assertEqual(self.typed("zebra", "tri"), ["zebra", "tri"])

    def test_a_profile_of_another_name(self):
        (self.home / "work/other.txt").touch()
        self.assertEqual(self.typed("labels", "ot"), ["labels", "other.txt"])


class Bash(Shell, unittest.TestCase):
    name = "bash"

    def command(self):
        (self.home / "rc").write_text(f"PS1='ready>'; source '{ROOT}/scripts/a429.bash'\n")
        return "bash", "--noprofile", "--rcfile", self.home / "rc", "-i"


class Zsh(Shell, unittest.TestCase):
    name = "zsh"

    def command(self):
        shutil.copy(ROOT / "scripts/a429.zsh", self.home / "share/_a429")
        (self.home / ".zshrc").write_text("fpath=(~/share $fpath)\nautoload -Uz compinit && compinit -u -D\nPS1='ready>'\n")
        return "zsh", "-d", "-i"


class Fish(Shell, unittest.TestCase):
    name = "fish"

    def command(self):
        start = f"function fish_prompt; echo 'ready>'; end; source '{ROOT}/scripts/a429.fish'"
        return "fish", "-i", "--no-config", "--init-command", start


if __name__ == "__main__":
    unittest.main()
