"""The package, made twice of this commit, and what is in it."""

import ctypes
import hashlib
import os
import re
import shutil
import subprocess
import sys
import tempfile
import unittest
from pathlib import Path

ROOT = Path(__file__).resolve().parent.parent
PROGRAM = ROOT / "crates/a429/out/a429"
LIBRARY = ROOT / "crates/a429_c/out/liba429_c.a"
COMPLETIONS = ("bash-completion/completions/a429", "zsh/vendor-completions/_a429", "fish/vendor_completions.d/a429.fish")
# Files of extras, and where their programs look for them.
PLACES = {
    "python/a429": "lib/python3/dist-packages/a429",
    "wireshark/a429.lua": "lib/x86_64-linux-gnu/wireshark/plugins/a429.lua",
    "sigrok/arinc429": "share/libsigrokdecode/decoders/arinc429",
}
# What lintian calls an error and we leave so: the project names no licence.
NO_LICENCE = "E: a429: no-copyright-file"


def output_of(*command, **how):
    return subprocess.run(command, cwd=ROOT, check=True, stdout=subprocess.PIPE, text=True, **how).stdout.strip()


def why_not():
    """Why there can be no package, if so."""
    missing = [it for it in ("dpkg-deb", "rt", "strip") if not shutil.which(it)]
    if missing:
        return f"no {missing[0]}"
    if not PROGRAM.exists():
        return "the program is not built"
    try:
        return "changes that are in no commit" if output_of("git", "status", "--porcelain", stderr=subprocess.DEVNULL) else None
    except (OSError, subprocess.CalledProcessError):
        return "no clone"


def package(*words):
    """Runs scripts/package with the program that is built: the gate has just built it. So it is with liba429, where that is built."""
    env = {**os.environ, "PROGRAM": str(PROGRAM), "LIBRARY": str(LIBRARY) if LIBRARY.exists() else "none"}
    return subprocess.run([ROOT / "scripts/package", *words], capture_output=True, text=True, env=env)


@unittest.skipIf(why_not(), why_not())
class Package(unittest.TestCase):
    @classmethod
    def setUpClass(cls):
        room = tempfile.TemporaryDirectory()
        cls.addClassCleanup(room.cleanup)
        cls.room = Path(room.name)
        cls.commit = output_of("git", "rev-parse", "HEAD")
        cls.gate = cls.room / "gate"
        cls.gate.write_text(f"commit {cls.commit}\n12 passed, 0 failed\n")
        done = package(cls.room / "one", cls.gate)
        if done.returncode:
            raise AssertionError(done.stderr)
        cls.deb = Path(done.stdout.strip())
        cls.version = cls.deb.name.split("_")[1]
        cls.text = cls.deb.with_suffix(".txt")
        subprocess.run(["dpkg-deb", "-x", cls.deb, cls.room / "root"], check=True)

    def test_the_files(self):
        name = f"a429_{self.version}_amd64"
        self.assertEqual(sorted(os.listdir(self.room / "one")), ["SHA256SUMS", "a429", f"{name}.deb", f"{name}.txt"])

    def test_the_version(self):
        _, unreleased, changes, released, *_ = re.split(r"^## \[(.+?)\]", (ROOT / "CHANGELOG.md").read_text(), flags=re.MULTILINE)
        self.assertEqual(unreleased, "Unreleased")
        suffix = rf"\+[0-9]{{8}}\.{self.commit[:8]}" if re.search(r"^[^#\n]", changes, re.MULTILINE) else ""
        self.assertRegex(self.version, rf"^{re.escape(released)}{suffix}$")

    def test_the_same_bytes_each_time(self):
        self.assertEqual(package(self.room / "two", self.gate).returncode, 0)
        for it in os.listdir(self.room / "one"):
            self.assertEqual((self.room / "one" / it).read_bytes(), (self.room / "two" / it).read_bytes(), it)

    def test_the_sums(self):
        sums = dict(reversed(line.split()) for line in (self.room / "one/SHA256SUMS").read_text().splitlines())
        found = {it: hashlib.sha256((self.room / "one" / it).read_bytes()).hexdigest() for it in (self.deb.name, "a429")}
        self.assertEqual(found, sums)

    def test_the_program_in_it_and_the_one_beside_it_run(self):
        for program in (self.room / "root/usr/bin/a429", self.room / "one/a429"):
            self.assertEqual(output_of(program, "word", "E13880C1").splitlines()[0], "word E13880C1")

    def test_the_program_beside_it_is_as_it_was_built(self):
        self.assertEqual((self.room / "one/a429").read_bytes(), PROGRAM.read_bytes())

    def test_the_extras_are_where_their_programs_look(self):
        for extra, place in PLACES.items():
            here = ROOT / "extras" / extra
            for file in [ROOT / it for it in output_of("git", "ls-files", here).splitlines()]:
                there = self.room / "root/usr" / place / file.relative_to(here)
                self.assertEqual(there.read_bytes(), file.read_bytes(), there)

    @unittest.skipUnless(shutil.which("tshark"), "no tshark")
    def test_wireshark_looks_there(self):
        folder = re.search(r"^Global Lua Plugins: *\t(.*)", output_of("tshark", "-G", "folders", stderr=subprocess.DEVNULL), re.MULTILINE)[1]
        self.assertEqual(f"{folder}/a429.lua", f"/usr/{PLACES['wireshark/a429.lua']}")

    @unittest.skipUnless(shutil.which("sigrok-cli"), "no sigrok-cli")
    def test_sigrok_finds_the_decoder(self):
        folder = self.room / "root/usr" / Path(PLACES["sigrok/arinc429"]).parent
        shown = output_of("sigrok-cli", "-P", "arinc429", "--show", env={**os.environ, "SIGROKDECODE_DIR": str(folder)})
        self.assertEqual(shown.splitlines()[0], "ID: arinc429")

    @unittest.skipIf(sys.version_info < (3, 10), "Python before 3.10")
    def test_python_imports_the_module(self):
        env = {**os.environ, "PYTHONPATH": str(self.room / "root/usr/lib/python3/dist-packages")}
        found = output_of(sys.executable, "-B", "-c", "import a429; print(a429.__file__)", env=env)
        self.assertEqual(found, f"{env['PYTHONPATH']}/a429/__init__.py")

    @unittest.skipUnless(LIBRARY.exists(), "liba429 is not built")
    def test_liba429_is_where_compilers_look(self):
        usr = self.room / "root/usr"
        self.assertEqual((usr / "include/a429.h").read_bytes(), (ROOT / "extras/c/a429.h").read_bytes())
        libraries = usr / "lib/x86_64-linux-gnu"
        self.assertEqual(ctypes.CDLL(str(libraries / "liba429.so")).a429_abi(), 1)
        self.assertTrue((libraries / "liba429.a").is_file())
        lines = (libraries / "pkgconfig/a429.pc").read_text().splitlines()
        self.assertEqual(lines[:2], ["prefix=/usr", "libdir=${prefix}/lib/x86_64-linux-gnu"])

    def test_report_runs(self):
        shown = output_of(sys.executable, self.room / "root/usr/bin/report", "--help")
        self.assertEqual(shown.splitlines()[0], "usage: report [-h] [--sent DIR] PROFILE REC OUT")

    @unittest.skipUnless(shutil.which("dpkg") and os.getuid() == 0, "no dpkg, or the user is not root")
    def test_it_is_installed_into_a_clean_root_and_removed_again(self):
        root = self.room / "clean"
        for it in ("info", "updates", "triggers"):
            (root / "var/lib/dpkg" / it).mkdir(parents=True)
        (root / "var/lib/dpkg/status").touch()

        def dpkg(*words):
            subprocess.run(["dpkg", f"--root={root}", "--force-depends", *words], check=True, capture_output=True)

        dpkg("--install", self.deb)
        self.assertEqual(output_of(root / "usr/bin/a429", "word", "E13880C1").splitlines()[0], "word E13880C1")
        dpkg("--purge", "a429")
        self.assertFalse((root / "usr").exists())

    @unittest.skipUnless(shutil.which("lintian"), "no lintian")
    def test_lintian_finds_no_error_but_the_licence(self):
        root = ["--allow-root"] if os.getuid() == 0 else []
        done = subprocess.run(["lintian", *root, "--fail-on", "none", self.deb], capture_output=True, text=True)
        found = [it for it in done.stdout.splitlines() if it.startswith("E: ")]
        self.assertEqual((done.returncode, found), (0, [NO_LICENCE]), done.stderr)

    def test_its_files(self):
        root = self.room / "root/usr/share"
        self.assertEqual((self.room / "root/usr/bin/campaign").read_bytes(), (ROOT / "extras/campaign/campaign").read_bytes())
        for it in output_of("git", "ls-files", "extras/report/report", "extras/report/a429_report").splitlines():
            self.assertEqual((root / "a429" / it.removeprefix("extras/")).read_bytes(), (ROOT / it).read_bytes(), it)
        for it in ("man/man1/a429.1.gz", "doc/a429/README.md", "doc/a429/docs/TUTORIAL.md", *COMPLETIONS):
            self.assertTrue((root / it).is_file(), it)
        for it in ("examples", "extras"):
            wanted = output_of("git", "ls-files", it).splitlines()
            self.assertEqual([str(file) for file in wanted if not (root / "doc/a429" / file).is_file()], [])

    def test_each_file_is_of_root_and_of_the_time_of_the_commit(self):
        time = output_of("git", "log", "-1", "--format=%cd", "--date=format-local:%Y-%m-%d %H:%M", env={**os.environ, "TZ": "UTC"})
        for line in output_of("dpkg-deb", "-c", self.deb, env={**os.environ, "TZ": "UTC"}).splitlines():
            mode, owner, _, *date, name = line.split(maxsplit=5)
            self.assertEqual((owner, " ".join(date)), ("root/root", time), name)
            self.assertIn(mode, ("drwxr-xr-x", "-rwxr-xr-x", "-rw-r--r--", "lrwxrwxrwx"), name)

    def test_its_fields(self):
        fields = dict(it.split(": ", 1) for it in output_of("dpkg-deb", "-f", self.deb).splitlines() if not it.startswith(" "))
        self.assertEqual([fields[it] for it in ("Package", "Version", "Architecture")], ["a429", self.version, "amd64"])

    def test_the_text(self):
        lines = self.text.read_text().splitlines()
        self.assertEqual(lines[0], f"a429 {self.version}")
        self.assertEqual(lines[1], f"commit {self.commit}")
        self.assertEqual(lines[3:], ["a program that was given, and not built here", "gate: 12 passed, 0 failed"])

    def test_without_a_gate_the_text_says_so(self):
        package(self.room / "three")
        self.assertTrue((self.room / "three" / self.text.name).read_text().endswith("gate: not shown\n"))

    def test_a_gate_that_failed_or_was_of_other_files(self):
        other = "0" * 40
        for text in (
            f"commit {self.commit}\n12 passed, 1 failed\n",
            f"commit {self.commit}\n0 passed, 0 failed\n",
            f"commit {other}\n12 passed, 0 failed\n",
            f"commit {self.commit} with changes\n12 passed, 0 failed\n",
            "12 passed, 0 failed\n",
            "",
        ):
            (self.room / "bad").write_text(text)
            self.assertEqual(package(self.room / "four", self.room / "bad").returncode, 1, text)
            self.assertEqual(os.listdir(self.room / "four"), [], text)

    def test_usage(self):
        self.assertEqual(package().returncode, 5)


if __name__ == "__main__":
    unittest.main()
