"""liba429, called from C, from C++ and from Python, and what it answers held against the program: `python3 -m unittest` in this
folder, with the program named by A429. The library is built of the proved `crates/a429_c/out/liba429_c.a`, or of the file that LIBRARY
names."""

import ctypes
import os
import re
import shutil
import subprocess
import tempfile
import unittest
from pathlib import Path
from typing import NamedTuple

ROOT = Path(__file__).resolve().parents[2]
HERE = ROOT / "extras/c"
EXAMPLES = ROOT / "examples"
PROFILE = EXAMPLES / "sample.toml"
ARCHIVE = Path(os.environ.get("LIBRARY", ROOT / "crates/a429_c/out/liba429_c.a"))
A429 = os.environ.get("A429", str(ROOT / "scripts/a429"))
RECORDINGS = [path.with_suffix(".csv") for path in sorted(EXAMPLES.glob("*.verdict"))]
STRICT = ["-Wall", "-Wextra", "-Werror", "-O2"]
# How many kilobytes of stack a429.h says that a call wants.
STACK = int(re.search(r"A call wants (\d+) KB", (HERE / "a429.h").read_text())[1])
CONSTANTS = {name: int(number) for name, number in re.findall(r"A429_(\w+) = (\d+)", (HERE / "a429.h").read_text())}
# The words that the program has for the reasons of a refused certificate.
REFUSALS = {
    "CERT_VERSION": "version", "CERT_LINE": "line", "CERT_NOT_ALLOWED": "not allowed", "CERT_STATE_DIFFERS": "state differs",
    "CERT_WORD_DIFFERS": "word differs", "CERT_UNFINISHED": "unfinished",
}  # fmt: skip


def why_not():
    """Why there can be no library, if so."""
    missing = [it for it in ("rt", "cc", "ld", "objcopy", "strip") if not shutil.which(it)]
    return f"no {missing[0]}" if missing else None if ARCHIVE.exists() else "liba429 is not built"


def program(*words):
    return subprocess.run([A429, *map(str, words)], capture_output=True)


class Found(ctypes.Structure):
    _fields_ = [(it, ctypes.c_size_t) for it in ("entry", "line", "files", "bytes", "text")] + [("reason", ctypes.c_uint32)]


class FileSize(ctypes.Structure):
    _fields_ = [("length", ctypes.c_size_t), ("number", ctypes.c_uint8)]


class Answer(NamedTuple):
    """What a call has answered: `files` are pairs of a number and the bytes."""

    status: int
    entry: int
    line: int
    reason: int
    files: list
    text: bytes


class Library:
    """The four calls over bytes, each made once for the sizes and once with room for all."""

    def __init__(self, path):
        self.library = ctypes.CDLL(str(path))

    def call(self, name, *slices, has_files):
        """Makes a call, over what an earlier one has found. Lists of numbers are lengths."""
        found, none = Found(*[7] * 6), (ctypes.c_uint8 * 1)()
        words = []
        for it in slices:
            words += [(ctypes.c_size_t * max(len(it), 1))(*it) if isinstance(it, list) else it, ctypes.c_size_t(len(it))]
        function = getattr(self.library, f"a429_{name}")
        function.restype = ctypes.c_uint8
        files, room = (FileSize * 1)(), [none, ctypes.c_size_t(0)]
        first = function(*words, *([files, ctypes.c_size_t(0), *room] if has_files else []), *room, ctypes.byref(found))
        files = (FileSize * max(found.files, 1))()
        content, text = (ctypes.c_uint8 * max(found.bytes, 1))(), (ctypes.c_uint8 * max(found.text, 1))()
        sizes = [found.files, found.bytes, found.text]
        buffers = [it for pair in zip((files, content, text), map(ctypes.c_size_t, sizes)) for it in pair]
        status = function(*words, *(buffers if has_files else buffers[4:]), ctypes.byref(found))
        assert first == status and sizes == [found.files, found.bytes, found.text]
        rest, crossed = bytes(content)[: found.bytes], []
        for it in list(files)[: found.files]:
            crossed.append((it.number, rest[: it.length]))
            rest = rest[it.length :]
        assert not rest
        return Answer(status, found.entry, found.line, found.reason, crossed, bytes(text)[: found.text])

    def decide(self, profile, recording):
        return self.call("decide", profile, recording, has_files=True)

    def verify(self, profile, recording, certificate):
        return self.call("verify", profile, recording, certificate, has_files=True)

    def make(self, profile, files):
        return self.call("make", profile, b"".join(files), [len(it) for it in files], has_files=False)

    def show(self, profile, recording):
        return self.call("show", profile, recording, has_files=False)


def camel(name):
    return "".join(it.capitalize() for it in name.split("_"))


def decided(answer):
    """What the program prints of an answer of a429_decide."""
    if answer.status == 0:
        return "".join([f"YES files {len(answer.files)}\n", *(f"file {number} {len(it)}\n" for number, it in answer.files)])
    reason = next(camel(name) for name, number in CONSTANTS.items() if number == answer.reason and name not in STATUS)
    return f"{('', 'IMPOSSIBLE', 'UNEXPLAINED')[answer.status]} {answer.entry} {reason}\n"


STATUS = ("YES", "IMPOSSIBLE", "UNEXPLAINED", "INPUT", "MEMORY")


def refused(answer):
    """What the program prints of a certificate that a429_verify refuses."""
    name = next(it for it in REFUSALS if CONSTANTS[it] == answer.reason)
    others = {"CERT_VERSION": [], "CERT_UNFINISHED": [answer.entry], "CERT_WORD_DIFFERS": [answer.line, answer.entry]}
    numbers = others.get(name, [answer.line])
    return " ".join(["NO", REFUSALS[name], *map(str, numbers)]) + "\n"


@unittest.skipIf(why_not(), why_not())
class LibraryCase(unittest.TestCase):
    @classmethod
    def setUpClass(cls):
        room = tempfile.TemporaryDirectory()
        cls.addClassCleanup(room.cleanup)
        cls.room = Path(room.name)
        cls.prefix = cls.room / "prefix"
        subprocess.run([ROOT / "scripts/library", cls.prefix], check=True, capture_output=True, env={**os.environ, "LIBRARY": str(ARCHIVE)})
        cls.shared = cls.prefix / "lib/liba429.so.1"
        cls.include, cls.link = [f"-I{cls.prefix}/include"], [f"-L{cls.prefix}/lib", "-la429"]
        cls.library = Library(cls.shared)
        cls.profile = PROFILE.read_bytes()

    def built(self, name, *words):
        """A program of this folder, compiled."""
        out = self.room / f"{name}-{len(os.listdir(self.room))}"
        done = subprocess.run([*words, "-o", out], capture_output=True, text=True)
        self.assertEqual(done.returncode, 0, done.stderr)
        return out

    def run_built(self, built, *words, **env):
        env = {**os.environ, "LD_LIBRARY_PATH": str(self.prefix / "lib"), **env}
        return subprocess.run([built, *map(str, words)], capture_output=True, text=True, env=env)


class Built(LibraryCase):
    """What is built, and programs that call it."""

    def test_only_the_interface_is_exported(self):
        for words in (["-D", "--defined-only", self.shared], ["-g", "--defined-only", self.prefix / "lib/liba429.a"]):
            names = subprocess.run(["nm", *words], check=True, capture_output=True, text=True).stdout
            found = {it.split("@")[0] for it in re.findall(r" [TBDR] (\S+)", names)}
            self.assertEqual(found, {f"a429_{it}" for it in ("abi", "decide", "make", "show", "verify")})

    @unittest.skipUnless(shutil.which("readelf"), "no readelf")
    def test_it_has_a_name_with_its_version_and_needs_the_c_library_alone(self):
        dynamic = subprocess.run(["readelf", "-d", self.shared], check=True, capture_output=True, text=True).stdout
        self.assertEqual(re.findall(r"SONAME.*\[(.*)\]", dynamic), [f"liba429.so.{self.library.library.a429_abi()}"])
        self.assertEqual(re.findall(r"NEEDED.*\[(.*)\]", dynamic), ["libc.so.6"])

    def check_judge(self, built):
        for recording in RECORDINGS:
            with self.subTest(recording.stem):
                done = self.run_built(built, PROFILE, recording)
                answer = self.library.decide(self.profile, recording.read_bytes())
                said = decided(answer).splitlines()
                wanted = [said[0], *(line for size, it in zip(said[1:], answer.files) for line in (size, it[1].hex()))]
                self.assertEqual((done.stdout.splitlines(), done.returncode), (wanted, answer.status))

    def test_from_c(self):
        self.check_judge(self.built("judge", "cc", "-std=c11", *STRICT, *self.include, HERE / "judge.c", *self.link))

    def test_from_c_with_the_static_library(self):
        self.check_judge(self.built("judge", "cc", "-std=c11", *STRICT, *self.include, HERE / "judge.c", self.prefix / "lib/liba429.a"))

    @unittest.skipUnless(shutil.which("c++"), "no c++")
    def test_from_c_plus_plus(self):
        self.check_judge(self.built("judge", "c++", "-x", "c++", "-std=c++17", *STRICT, *self.include, HERE / "judge.c", *self.link))

    @unittest.skipUnless(shutil.which("pkg-config"), "no pkg-config")
    def test_by_pkg_config(self):
        env = {**os.environ, "PKG_CONFIG_PATH": str(self.prefix / "lib/pkgconfig")}
        flags = subprocess.run(["pkg-config", "--cflags", "--libs", "a429"], check=True, capture_output=True, text=True, env=env).stdout
        self.check_judge(self.built("judge", "cc", "-std=c11", *STRICT, HERE / "judge.c", *flags.split()))

    def hostile(self):
        return self.built("hostile", "cc", "-std=c11", "-O2", "-pthread", *self.include, HERE / "hostile.c", *self.link)

    def test_each_allocation_refused_and_buffers_of_every_size_and_four_threads(self):
        built = self.hostile()
        for recording in RECORDINGS:
            with self.subTest(recording.stem):
                done = self.run_built(built, PROFILE, recording, STACK)
                self.assertEqual(done.returncode, 0, done.stdout + done.stderr)

    def test_the_same_with_faults_in_the_profile(self):
        built = self.hostile()
        bad = self.room / "bad.toml"
        bad.write_text(PROFILE.read_text().replace("to_sink", "to_nobody", 1))
        done = self.run_built(built, bad, RECORDINGS[0], STACK)
        self.assertEqual(done.returncode, 0, done.stdout + done.stderr)

    @unittest.skipUnless(shutil.which("valgrind"), "no valgrind")
    def test_valgrind_finds_nothing(self):
        built = self.built("judge", "cc", "-g", *STRICT, *self.include, HERE / "judge.c", *self.link)
        words = ["valgrind", "--quiet", "--error-exitcode=99", "--leak-check=full", built, PROFILE]
        for recording in RECORDINGS:
            with self.subTest(recording.stem):
                done = self.run_built(*words, recording)
                self.assertNotEqual(done.returncode, 99, done.stderr)


class Answers(LibraryCase):
    """Each answer is the program's."""

    def test_decide(self):
        for recording in RECORDINGS:
            with self.subTest(recording.stem):
                cert = self.room / "a.cert"
                said = program("decide", PROFILE, recording, cert)
                answer = self.library.decide(self.profile, recording.read_bytes())
                self.assertEqual((decided(answer), answer.status), (said.stdout.decode(), said.returncode))
                self.assertEqual(answer.text, cert.read_bytes())

    def test_the_bytes_of_the_files(self):
        for recording in RECORDINGS:
            with self.subTest(recording.stem):
                answer = self.library.decide(self.profile, recording.read_bytes())
                if answer.status == 0:
                    cert, folder = self.room / "a.cert", self.room / f"files-{recording.stem}"
                    cert.write_bytes(answer.text)
                    folder.mkdir()
                    self.assertEqual(program("extract", PROFILE, recording, cert, folder).returncode, 0)
                    self.assertEqual([it for _, it in answer.files], [it.read_bytes() for it in sorted(folder.iterdir())])

    def test_verify(self):
        for recording in RECORDINGS:
            answer = self.library.decide(self.profile, recording.read_bytes())
            for certificate in [answer.text, *changed(answer.text)]:
                with self.subTest(recording.stem, certificate=certificate[-80:]):
                    cert = self.room / "a.cert"
                    cert.write_bytes(certificate)
                    said = program("verify", PROFILE, recording, cert)
                    held = self.library.verify(self.profile, recording.read_bytes(), certificate)
                    line = decided(held) if held.status == 0 else refused(held)
                    self.assertEqual((line, held.status), (said.stdout.decode(), said.returncode))
                    if held.status == 0:
                        self.assertEqual(held.files, answer.files)

    def test_make(self):
        # (the last recording has more than a million bytes)
        for files in ([b"a"], [b"abc", bytes(range(256)) * 5], [b"x" * 631, b"y" * 632, b"z" * 633], [b"z" * 160_000]):
            paths = [self.room / f"{k}.bin" for k in range(len(files))]
            for path, it in zip(paths, files):
                path.write_bytes(it)
            said = program("make", PROFILE, *paths)
            answer = self.library.make(self.profile, files)
            self.assertEqual((answer.text, answer.status), (said.stdout, said.returncode))
            crossed = self.library.decide(self.profile, answer.text)
            self.assertEqual(crossed.files, [(number, it) for number, it in enumerate(files, 1)])

    def test_show(self):
        for recording in sorted(EXAMPLES.glob("*.csv")):
            with self.subTest(recording.stem):
                said = program("show", PROFILE, recording)
                answer = self.library.show(self.profile, recording.read_bytes())
                self.assertEqual((answer.text, answer.status), (said.stdout, said.returncode))

    def test_nothing_is_left_of_an_earlier_call(self):
        library, recording = self.library, RECORDINGS[0].read_bytes()
        for answer in (library.make(self.profile, [b"ab"]), library.show(self.profile, recording), library.decide(b"", recording)):
            self.assertEqual((answer.entry, answer.line, answer.reason, answer.files), (0, 0, 0, []))

    def test_the_line_of_a_fault_is_that_of_the_program(self):
        profile, recording = self.room / "a.toml", self.room / "a.csv"
        good = self.profile, RECORDINGS[0].read_bytes()
        profiles = [b"", b"\xff", good[0].replace(b"to_sink", b"to_nobody", 1)]
        bad = [*((it, good[1]) for it in profiles), (good[0], b""), (good[0], good[1] + b"x\n")]
        for one, other in bad:
            profile.write_bytes(one)
            recording.write_bytes(other)
            said = program("decide", profile, recording, self.room / "a.cert")
            for answer in (self.library.decide(one, other), self.library.show(one, other), self.library.verify(one, other, b"")):
                self.assertEqual((answer.text + b"\n", answer.status), (said.stderr, 3))

    def test_the_line_of_a_file_that_is_refused(self):
        for files in ([b""], [b"a", b""], [b"a", b"b" * 161161]):
            paths = [self.room / f"{k}.bin" for k in range(len(files))]
            for path, it in zip(paths, files):
                path.write_bytes(it)
            answer = self.library.make(self.profile, files)
            self.assertEqual((answer.text + b"\n", answer.status), (program("make", PROFILE, *paths).stderr, 3))

    def test_lengths_that_are_not_those_of_the_bytes(self):
        for lengths in ([], [1], [3], [2**64 - 1, 3]):
            answer = self.library.call("make", self.profile, b"ab", lengths, has_files=False)
            self.assertEqual((answer.text, answer.status), (b"files: lengths", 3))


def changed(certificate):
    """A certificate with changes: cut off, a line less, a line twice, a letter another."""
    lines = certificate.splitlines(keepends=True)
    places = range(0, len(lines), max(1, len(lines) // 6))
    yield b""
    yield certificate[:-1]
    for at in places:
        yield b"".join(lines[:at])
        yield b"".join(lines[:at] + lines[at + 1 :])
        yield b"".join(lines[:at] + [lines[at]] + lines[at:])
        yield b"".join(lines[:at] + [lines[at].swapcase()] + lines[at + 1 :])


if __name__ == "__main__":
    unittest.main()
