"""The module on the examples: `python3 -m unittest` in this folder, with `a429` on the path or named by A429."""

import importlib.util
import os
import re
import shutil
import subprocess
import sys
import tempfile
import time
import unittest
from itertools import islice
from pathlib import Path
from unittest import mock

import a429
from a429 import (
    Attempt, Bus, Destination, Error, File, Form, Impossible, Imported, Jump, Kind, Label, Missing, No, Only, Open, Piece, Refused, Side,
    SinkNo, SinkYes, Survey, Timeout, Trace, Traced, Unexplained, Unit, Why, Yes,
)  # fmt: skip

ROOT = Path(__file__).resolve().parents[2]
EXAMPLES = ROOT / "examples"
# What scripts/library builds liba429 of, where no A429_LIBRARY is there.
ARCHIVE = Path(os.environ.get("LIBRARY", ROOT / "crates/a429_c/out/liba429_c.a"))
PROFILE = EXAMPLES / "sample.toml"
VERDICTS = {
    "one-byte": Yes((File(1, 1),)),
    "request-twice": Yes((File(1, 1),)),
    "lost-acknowledgement": Yes((File(1, 1),)),
    "damaged-word": Yes((File(1, 1),)),
    "broken-off": Yes(()),
    "given-up": Yes((File(2, 1),)),
    "impossible": Impossible(1, "NotGranted"),
    "unexplained": Unexplained(0, "NeverWhole"),
}
CERTIFIED = [name for name, verdict in VERDICTS.items() if isinstance(verdict, Yes)]


def recording(name):
    return EXAMPLES / f"{name}.csv"


def certificate(name):
    return EXAMPLES / f"{name}.cert"


@unittest.skipUnless(shutil.which(os.environ.get("A429", "a429")), "no program a429")
class Program(unittest.TestCase):
    """What the program says."""

    def setUp(self):
        room = tempfile.TemporaryDirectory()
        self.addCleanup(room.cleanup)
        self.room = Path(room.name)

    def error_of(self, status, *call):
        with self.assertRaises(Error) as caught:
            call[0](*call[1:])
        self.assertEqual(caught.exception.status, status)
        return caught.exception

    def test_check(self):
        for name, verdict in VERDICTS.items():
            with self.subTest(name):
                self.assertEqual(a429.check(PROFILE, recording(name)), verdict)

    def test_decide_finds_a_run_where_check_does_not(self):
        for name, verdict in {**VERDICTS, "unexplained": Yes(())}.items():
            with self.subTest(name):
                self.assertEqual(a429.decide(PROFILE, recording(name)), verdict)

    def test_the_certificate_goes_where_it_is_wanted(self):
        a429.check(PROFILE, recording("one-byte"), self.room / "cert")
        self.assertEqual((self.room / "cert").read_bytes(), certificate("one-byte").read_bytes())

    def test_verify(self):
        for name in CERTIFIED:
            with self.subTest(name):
                self.assertEqual(a429.verify(PROFILE, recording(name), certificate(name)), VERDICTS[name])

    def refused(self, line, text):
        """The verdict on the certificate of one-byte with another line, or with its first lines alone."""
        lines = certificate("one-byte").read_text().splitlines(keepends=True)
        lines = lines[:line] if text is None else [*lines[: line - 1], text, *lines[line:]]
        (self.room / "cert").write_text("".join(lines))
        return a429.verify(PROFILE, recording("one-byte"), self.room / "cert")

    def test_faults_of_a_certificate(self):
        self.assertEqual(self.refused(1, "arinc429-cert 3\n"), No("version"))
        self.assertEqual(self.refused(3, "first 1\n"), No("line", 3))
        self.assertEqual(self.refused(5, "t I Q 0 0\n"), No("not allowed", 5))
        self.assertEqual(self.refused(4, "n I Q 0 0\n"), No("word differs", 4, 0))
        self.assertEqual(self.refused(4, "a S0 Q 1 0\n"), No("state differs", 4))
        self.assertEqual(self.refused(13, None), No("unfinished", None, 5))

    def test_extract(self):
        verdict = a429.extract(PROFILE, recording("given-up"), certificate("given-up"), self.room)
        self.assertEqual(verdict, Yes((File(2, 1),)))
        self.assertEqual([(self.room / it).read_bytes() for it in verdict.names], [b"A"])

    def test_units(self):
        units = a429.units(PROFILE, recording("given-up"), certificate("given-up"))
        first = Unit(1, 1, 3, 1, False, 1, 1, 0, 0, 0, 1, 0, 3, 0, 3000, False)
        second = Unit(2, 1, 3, 1, True, 1, 0, 0, 0, 0, 0, 4, 9, 4000, 9000, True)
        self.assertEqual(units, [first, second])

    def test_units_of_another_recording(self):
        with self.assertRaises(Refused) as caught:
            a429.units(PROFILE, recording("broken-off"), certificate("one-byte"))
        self.assertEqual((caught.exception.status, caught.exception.verdict.fault), (2, "word differs"))

    def test_errors_carry_the_status(self):
        self.assertEqual(self.error_of(4, a429.check, PROFILE, self.room / "missing").line, "device")
        self.assertEqual(self.error_of(3, a429.check, PROFILE, PROFILE).line, "recording: header")
        self.assertTrue(self.error_of(3, a429.check, recording("one-byte"), PROFILE).line.startswith("profile: "))
        self.assertEqual(self.error_of(4, a429.extract, PROFILE, recording("one-byte"), certificate("one-byte"), __file__).line, "device")

    def test_a_name_that_begins_with_a_hyphen_is_no_option(self):
        shutil.copy(recording("one-byte"), self.room / "-x")
        before = os.getcwd()
        os.chdir(self.room)
        self.addCleanup(os.chdir, before)
        self.assertEqual(a429.check(PROFILE, "-x"), VERDICTS["one-byte"])

    def test_version(self):
        self.assertEqual(a429.version().certificates, (1, 2))

    def test_trace(self):
        for name, text in (("impossible", IMPOSSIBLE), ("unexplained", UNEXPLAINED)):
            found, wanted = a429.trace(PROFILE, recording(name)), trace_of(text)
            self.assertEqual([*found], [*wanted])
            self.assertEqual(found.verdict, wanted.verdict)
        found = a429.trace(PROFILE, recording("lost-acknowledgement"))
        self.assertEqual([*found][-1], Traced(11, 11000, "B", 0x450101A3, "ack 1 1", "quiet, again 1 1"))
        self.assertEqual(found.verdict, Only((File(1, 1),)))

    def test_a_trace_names_the_files_of_a_yes(self):
        for name, verdict in VERDICTS.items():
            with self.subTest(name):
                found = a429.trace(PROFILE, recording(name)).verdict
                self.assertEqual(found, verdict if isinstance(verdict, Impossible) else Only(getattr(verdict, "files", ())))

    def test_lines_before_a_fault_of_the_recording(self):
        (self.room / "rec").write_text("time,bus,word\n0,A,41410323\n1,A,6\n")
        found = a429.trace(PROFILE, self.room / "rec")
        self.assertEqual(next(found), next(trace_of(IMPOSSIBLE)))
        self.assertEqual(self.error_of(3, next, found).line, "recording: row 1")

    def test_forms(self):
        found = [*a429.forms(PROFILE, EXAMPLES / "forms.csv")]
        self.assertEqual(found[0], Form(0, "A", 0x41410323, "rts 3"))
        self.assertEqual(len(found), 16)

    def test_survey(self):
        self.assertEqual(a429.survey(PROFILE, EXAMPLES / "forms.csv"), a429._survey(SURVEY))

    def test_blocks(self):
        found = [*a429.blocks(PROFILE, recording("impossible"))]
        open_one = Attempt(0, 0, 0, 0, None, None, 3, 0, 0, "open", None)
        self.assertEqual(found, [open_one, Attempt(1, 1, 1000, 1000, None, None, None, None, None, "not-allowed", None)])
        first = next(a429.blocks(PROFILE, recording("damaged-word")))
        self.assertEqual(first, Attempt(0, 5, 0, 5000, 1, 1, 3, 2, 1, "refused", "too-few"))

    def test_why(self):
        self.assertEqual(a429.why(PROFILE, recording("impossible")), Why(Impossible(1, "NotGranted"), None, "allowed: rts, cts 3"))
        self.assertEqual(a429.why(PROFILE, recording("one-byte")), Why(Yes((File(1, 1),))))
        # (the unit comes again with another end word)
        rows = recording("one-byte").read_text().splitlines()[:6]
        again = [f"{n},{row.partition(',')[2]}" for n, row in enumerate(rows[1:4], 5000)] + ["5003,A,F0A3F523"]
        found = a429.why(PROFILE, "".join(f"{row}\n" for row in rows + again).encode())
        self.assertEqual(found, Why(Impossible(8, "OtherBlock"), 4, "end word F0A3F523, before 71A3F523"))

    def test_history(self):
        # (the sink is restarted while it owes an answer)
        lines = recording("one-byte").read_text() + "6000,A,41410323\n7000,B,450101A3\n"
        found = a429.history(PROFILE, lines.encode(), self.room)
        self.assertEqual(found, [Piece(1, 8, 0, False, Impossible(7, "WrongAnswer"), (File(1, 1),), ())])
        self.assertEqual((self.room / found[0].name).read_text(), lines)
        self.assertEqual([(self.room / it).read_bytes() for it in found[0].names], [b"A"])
        self.assertEqual(self.error_of(3, a429.history, PROFILE, PROFILE, self.room).output, "")

    def test_bytes_in_place_of_files(self):
        profile, words, cert = (it.read_bytes() for it in (PROFILE, recording("given-up"), certificate("given-up")))
        self.assertEqual(a429.decide(profile, words), VERDICTS["given-up"])
        self.assertEqual(a429.check(profile, words).certificate, cert)
        self.assertEqual(a429.verify(profile, words, cert), VERDICTS["given-up"])
        self.assertEqual(len(a429.units(profile, words, cert)), 2)
        self.assertEqual(a429.trace(profile, words).verdict, Only((File(2, 1),)))
        self.assertEqual(a429.extract(profile, words, cert, self.room).names, ["000001.bin"])

    def test_make_and_show(self):
        (self.room / "A").write_bytes(b"A")
        made = a429.make(PROFILE, self.room / "A", b"BC")
        self.assertEqual(a429.decide(PROFILE, made), Yes((File(1, 1), File(2, 2))))
        shown = a429.show(PROFILE, made)
        self.assertEqual((len(shown), shown[0].split()[:2]), (12, ["0", "A"]))

    def test_sink(self):
        self.assertEqual(a429.sink(PROFILE, recording("given-up")), SinkYes((File(2, 1),)))
        self.assertEqual(a429.sink(PROFILE, EXAMPLES / "duplex.csv"), SinkNo(1, ("cts 5",)))

    def test_side(self):
        found = a429.side(EXAMPLES / "back.toml", EXAMPLES / "duplex.csv", "B", self.room / "out")
        self.assertEqual(found, Side(17, 9, 8, 0))
        self.assertEqual(a429.decide(EXAMPLES / "back.toml", self.room / "out"), Yes((File(1, 8),)))
        renamed = a429.side(PROFILE, EXAMPLES / "duplex.csv", "A", self.room / "out", 0x0B)
        self.assertEqual(renamed, Side(17, 8, 9, 0, renamed=0))
        self.assertEqual(self.error_of(5, a429.side, PROFILE, recording("one-byte"), "C", self.room / "out").line, "usage")

    def test_import(self):
        (self.room / "export").write_text(EXPORT)
        found = a429.import_(EXAMPLES / "maps/counter-that-wraps.toml", self.room / "export", self.room / "out")
        self.assertEqual(found, a429._imported(IMPORTED))
        self.assertEqual((self.room / "out").read_text().splitlines()[1], "4294967290,A,41410323")


IMPOSSIBLE = """\
0 0 A 41410323 rts 3 | owes cts 3
1 1000 A 60010123 sot 1 1 gfi 0 | refused, allowed: rts, cts 3
IMPOSSIBLE 1 NotGranted
"""
UNEXPLAINED = """\
0 0 A 41410323 rts 3 | owes cts 3
1 1000 B C24103A3 cts 3 | granted 3
2 2000 A 60010123 sot 1 1 gfi 0 | in block 1 1, 0 of 1 data words
3 3000 A 92004123 free parity, else data 14
4 4000 A 71A3F523 eot flags 1 check A3F5 final | owes nak, 0 of 1 data words
5 5000 B 460000A3 nak 0000 | quiet
ONLY files 0
if there is such a transfer, which decide finds out; if there is none, see sink
"""


SURVEY = """\
entries 16
from 0 to 15
A 12
A rts 1 first 0
A sot 1 first 2
A data 2 first 3
A eot 2 first 5
A no form 2 first 14
A free parity 1 first 9
A free label 1 first 10
A free type 1 first 12
A free code 1 first 13
A label 203 1 even 0
A label 304 11 even 1
B 4
B cts 1 first 1
B ack 1 first 7
B nak 1 first 8
B free label 1 first 11
B label 304 1 even 0
B label 305 3 even 0
"""
EXPORT = """\
# card 2
4294967290  1  41410323
2           1  60010123
4294967295  2  C24103A3
9           1  41410323
"""
IMPORTED = """\
wrap 1 line 3
entries 4
on A 3
on B 1
lines 5
comments 1
wraps undone 1
times lifted 1 by at most 3
"""


def trace_of(text):
    return Trace(it for it in text.splitlines(keepends=True))


class Lines(unittest.TestCase):
    """Lines that the program writes, without it."""

    def test_a_trace_that_ends_early(self):
        found = trace_of(IMPOSSIBLE)
        self.assertEqual(next(found), Traced(0, 0, "A", 0x41410323, "rts 3", "owes cts 3"))
        self.assertEqual(next(found).sink, "refused, allowed: rts, cts 3")
        self.assertEqual([*found], [])
        self.assertEqual(found.verdict, Impossible(1, "NotGranted"))

    def test_a_trace_with_a_free_word(self):
        found = [*trace_of(UNEXPLAINED)]
        self.assertEqual(len(found), 6)
        self.assertEqual(found[3], Traced(3, 3000, "A", 0x92004123, "free parity, else data 14", None))

    def test_the_verdict_of_a_trace_that_nobody_reads(self):
        self.assertEqual(trace_of(UNEXPLAINED).verdict, Only(()))
        self.assertEqual(trace_of(UNEXPLAINED.replace("files 0", "files 1\nfile 1 632")).verdict, Only((File(1, 632),)))

    def test_a_trace_without_a_verdict(self):
        with self.assertRaises(Error):
            trace_of("").verdict

    def test_a_survey(self):
        found = a429._survey(SURVEY)
        self.assertEqual((found.entries, found.first_time, found.last_time), (16, 0, 15))
        self.assertEqual([found.buses[it].entries for it in "AB"], [12, 4])
        self.assertEqual([*found.buses["B"].kinds], ["cts", "ack", "nak", "free label"])
        self.assertEqual(found.buses["A"].kinds["no form"], Kind(2, 14))
        self.assertEqual(found.buses["A"].labels, {0o203: Label(1, 0), 0o304: Label(11, 1)})

    def test_a_survey_of_nothing(self):
        nothing = Bus(0, {}, {})
        self.assertEqual(a429._survey("entries 0\nA 0\nB 0\n"), Survey(0, None, None, {"A": nothing, "B": nothing}))

    def test_a_sink(self):
        self.assertEqual(a429._sink("SINK YES files 1\nfile 2 1\n"), SinkYes((File(2, 1),)))
        self.assertEqual(a429._sink("SINK NO 0 allowed nothing\n"), SinkNo(0, ()))
        self.assertEqual(a429._sink("SINK NO 5 allowed ack 1 1, nak\n"), SinkNo(5, ("ack 1 1", "nak")))
        self.assertEqual(a429._sink("SINK NO 6 owed before 5 allowed cts 3\n"), SinkNo(6, ("cts 3",), 5))

    def test_a_side(self):
        counts = "entries 9\nkept 3\nother direction 2\nno direction 1\n"
        self.assertEqual(a429._side(counts), Side(9, 3, 2, 1))
        more = "destination 0B requests 1 words 4\nclear answers renamed 2\n"
        self.assertEqual(a429._side(counts + more), Side(9, 3, 2, 1, (Destination(0x0B, 1, 4),), 2))

    def test_an_import(self):
        found = a429._imported(IMPORTED)
        self.assertEqual(found.jumps, (Jump(1, 3),))
        self.assertEqual([found.counts[it] for it in ("entries", "on A", "wraps undone", "times lifted by at most")], [4, 3, 1, 3])
        reset = a429._imported("reset 1 line 4 by 4992\nentries 2\nbit 32 made: good 7 bad 1\n")
        self.assertEqual(reset, Imported({"entries": 2, "bit 32 made: good": 7, "bit 32 made: bad": 1}, (Jump(1, 4, 4992),)))

    def test_pieces(self):
        lines = "part 1 entries 8 from 0\nstopped 7 WrongAnswer\nfile 1 1\npart 2 entries 6 from 8\nbegun before\nfile 1 1\nfile 2 9\n"
        found = a429._pieces(lines + "open 3 units 1 to 4\na file listed has crossed\n")
        self.assertEqual(found[0], Piece(1, 8, 0, False, Impossible(7, "WrongAnswer"), (File(1, 1),), ()))
        self.assertEqual(found[1], Piece(2, 6, 8, True, None, (File(1, 1), File(2, 9)), (Open(3, 1, 4),)))
        self.assertEqual((found[1].name, found[1].names), ("000002.csv", ["000002-000001.bin", "000002-000002.bin"]))

    def test_a_form(self):
        self.assertEqual(a429._form("7 B C24103A3 cts 3\n"), Form(7, "B", 0xC24103A3, "cts 3"))

    def test_an_error_shows_status_and_line(self):
        self.assertEqual(str(Error(3, "recording: header")), "a429: recording: header (status 3)")


def why_no_library():
    """Why liba429 is not tried, if so."""
    if os.environ.get("A429_LIBRARY"):
        return None
    missing = [it for it in ("rt", "cc", "ld", "objcopy", "strip") if not shutil.which(it)]
    return f"no {missing[0]}" if missing else None if ARCHIVE.exists() else "liba429 is not built"


def said(name):
    """What the program prints for a reason of a429.h."""
    first, *rest = name.lower().split("_")
    return " ".join(rest) if first == "cert" else "".join(map(str.capitalize, [first, *rest]))


class Library(unittest.TestCase):
    """Which library is taken, and when."""

    def setUp(self):
        room = tempfile.TemporaryDirectory()
        self.addCleanup(room.cleanup)
        self.room = Path(room.name)

    def named(self, **variables):
        return mock.patch.dict(os.environ, {"A429": "no-such-a429", **{it: str(value) for it, value in variables.items()}})

    def refusal_of(self, path):
        with self.named(A429_LIBRARY=path), self.assertRaises(Missing) as caught:
            a429.decide(PROFILE, recording("one-byte"))
        self.assertEqual(caught.exception.status, 127)
        self.assertIn("the library that A429_LIBRARY names cannot be used: ", caught.exception.line)
        return caught.exception.line

    def test_one_that_is_not_there(self):
        self.assertIn("/no-such-library", self.refusal_of(self.room / "no-such-library"))

    @unittest.skipUnless(shutil.which("cc"), "no cc")
    def test_another_one(self):
        for source, why in (("int other;", "is not liba429"), ("unsigned a429_abi(void) { return 2; }", "has version 2 of the interface")):
            path = self.room / f"{len(source)}.so"
            subprocess.run(["cc", "-shared", "-x", "c", "-", "-o", path], input=source, text=True, check=True)
            self.assertIn(why, self.refusal_of(path))

    def test_its_numbers_are_those_of_the_header(self):
        header = {name: int(it) for name, it in re.findall(r"A429_(\w+) = (\d+)", (ROOT / "extras/c/a429.h").read_text())}
        statuses = [header.pop(it) for it in ("YES", "IMPOSSIBLE", "UNEXPLAINED", "INPUT", "MEMORY")]
        self.assertEqual(statuses, [0, 1, 2, 3, 4])
        self.assertEqual(a429._library.REASONS, {0: "", **{number: said(name) for name, number in header.items()}})

    def test_none_where_a_program_is_named_or_the_variable_is_empty(self):
        with self.named(), mock.patch.object(a429._library, "_loaded", side_effect=AssertionError):
            os.environ.pop("A429_LIBRARY", None)
            self.assertIsNone(a429._library.find())
            os.environ["A429_LIBRARY"] = ""
            self.assertIsNone(a429._library.find())
            del os.environ["A429"]
            self.assertIsNone(a429._library.find())

    def test_that_of_the_system(self):
        with self.named(), mock.patch.object(a429._library, "_loaded", side_effect=[OSError, "found"]) as loaded:
            os.environ.pop("A429_LIBRARY", None)
            del os.environ["A429"]
            self.assertEqual([a429._library.find(), a429._library.find()], [None, "found"])
        self.assertEqual(loaded.call_args.args, ("liba429.so.1",))


@unittest.skipIf(why_no_library(), why_no_library())
@unittest.skipUnless(shutil.which(os.environ.get("A429", "a429")), "no program a429")
class BothWays(unittest.TestCase):
    """What the program and the library answer is the same."""

    @classmethod
    def setUpClass(cls):
        room = tempfile.TemporaryDirectory()
        cls.addClassCleanup(room.cleanup)
        cls.room = Path(room.name)
        cls.library = os.environ.get("A429_LIBRARY")
        if not cls.library:
            env = {**os.environ, "LIBRARY": str(ARCHIVE)}
            subprocess.run([ROOT / "scripts/library", cls.room], check=True, capture_output=True, env=env)
            cls.library = str(cls.room / "lib/liba429.so.1")

    def answer(self, call, *given, **how):
        """What a call returns or raises, as a tuple."""
        try:
            found = call(*given, **how)
        except Error as error:
            return type(error), error.status, error.line, error.output
        return found, getattr(found, "certificate", None)

    def by_library(self, call, *given, **how):
        """What it does where there is no program."""
        with mock.patch.dict(os.environ, {"A429": "no-such-a429", "A429_LIBRARY": self.library}):
            return self.answer(call, *given, **how)

    def same(self, call, *given):
        """What it does, with and without the library, and with bytes in place of files."""
        with mock.patch.dict(os.environ, {"A429_LIBRARY": ""}):
            wanted = self.answer(call, *given)
        contents = [it.read_bytes() if isinstance(it, Path) and it.exists() else it for it in given]
        with self.subTest(call.__name__, given=given):
            self.assertEqual(self.by_library(call, *given), wanted)
            self.assertEqual(self.by_library(call, *contents), wanted)
        return wanted[0]

    def test_decide_and_show(self):
        for it in sorted(EXAMPLES.glob("*.csv")):
            self.same(a429.decide, PROFILE, it)
            self.same(a429.show, PROFILE, it)

    def test_verify(self):
        lines = certificate("one-byte").read_text().splitlines(keepends=True)
        changed = {0: "arinc429-cert 3\n", 2: "first 1\n", 3: "n I Q 0 0\n", 4: "t I Q 0 0\n"}
        certificates = ["".join([*lines[:at], line, *lines[at + 1 :]]).encode() for at, line in changed.items()]
        certificates += ["".join([*lines[:3], "a S0 Q 1 0\n", *lines[4:]]).encode(), "".join(lines[:13]).encode(), b""]
        found = [self.same(a429.verify, PROFILE, recording("one-byte"), it) for it in [*certificates, certificate("one-byte")]]
        faults = ["version", "line", "word differs", "not allowed", "state differs", "unfinished", "version"]
        self.assertEqual([it.fault for it in found[:-1]], faults)
        self.assertEqual(found[-1], VERDICTS["one-byte"])

    def test_make(self):
        parts = [b"x" * 631, b"y" * 632, b"z" * 633]
        for files in ([], [b"a"], [b"abc", bytes(range(256)) * 5], parts, [b"a", b"b" * 40_000], [b"c"] * 70):
            made = self.same(a429.make, PROFILE, *files)
            found = self.by_library(a429.decide, PROFILE, made)[0]
            self.assertEqual([it.size for it in found.files], [len(it) for it in files])

    def test_faults(self):
        bad, missing = recording("one-byte"), self.room / "missing"
        calls = [(a429.decide, ()), (a429.show, ()), (a429.verify, (certificate("one-byte"),))]
        for call, more in calls:
            for profile, words in ((bad, bad), (PROFILE, PROFILE), (missing, bad), (PROFILE, missing), (bad, missing), (b"\xff", b"")):
                self.assertEqual(self.same(call, profile, words, *more), Error)
        for profile, *files in ((bad, b"a"), (PROFILE, b""), (PROFILE, b"a", b"b" * 161161), (bad, b""), (bad, missing), (missing, b"")):
            self.assertEqual(self.same(a429.make, profile, *files), Error)

    def test_a_recording_and_a_certificate_that_both_have_a_fault(self):
        given = (a429.verify, PROFILE, PROFILE, b"")
        with mock.patch.dict(os.environ, {"A429_LIBRARY": self.library}):
            self.assertEqual(self.answer(*given)[0], No("version"))
        self.assertEqual(self.by_library(*given)[1:3], (3, "recording: header"))

    def test_what_the_program_is_asked_for_all_the_same(self):
        words, files = recording("one-byte"), (PROFILE, recording("one-byte"))
        os.mkfifo(self.room / "pipe")
        self.assertEqual(self.by_library(a429.decide, *files)[0], VERDICTS["one-byte"])
        self.assertEqual(self.by_library(a429.decide, *files, timeout=600)[0], Missing)
        self.assertEqual(self.by_library(a429.decide, *files, self.room / "cert")[0], Missing)
        self.assertEqual(self.by_library(a429.show, PROFILE, self.room / "pipe")[0], Missing)
        with mock.patch.object(a429, "SMALL", words.stat().st_size - 1):
            self.assertEqual(self.by_library(a429.show, b"", words)[0], Missing)
            self.assertEqual(self.by_library(a429.show, b"", words.read_bytes())[0], Missing)


class Running(unittest.TestCase):
    """How a program is run, on one that stands for `a429`."""

    def setUp(self):
        room = tempfile.TemporaryDirectory()
        self.addCleanup(room.cleanup)
        self.room = Path(room.name)

    def program(self, text):
        """Has this shell script run in place of the program."""
        (self.room / "a429").write_text(f"#!/bin/sh\n{text}\n")
        (self.room / "a429").chmod(0o755)
        named = mock.patch.dict(os.environ, {"A429": str(self.room / "a429")})
        named.start()
        self.addCleanup(named.stop)

    def is_running(self, number):
        return Path(f"/proc/{number}").exists() and not re.search(r"^State:\s+Z", Path(f"/proc/{number}/status").read_text(), re.MULTILINE)

    def test_a_program_that_is_not_there(self):
        for name in ("no-such-a429", str(self.room), __file__ + "/a429"):
            with self.subTest(name), mock.patch.dict(os.environ, {"A429": name}), self.assertRaises(Missing) as caught:
                a429.survey("p", "r")
            self.assertEqual(caught.exception.status, 127)
            self.assertRegex(str(caught.exception), re.escape(name) + ".* cannot be run: .*Install a429, or name the program by")

    def test_an_error_has_what_was_written_before(self):
        self.program("echo a b; echo 'recording: row 1' >&2; exit 3")
        with self.assertRaises(Error) as caught:
            a429.survey("p", "r")
        self.assertEqual((caught.exception.status, caught.exception.line, caught.exception.output), (3, "recording: row 1", "a b\n"))

    def test_a_program_that_does_not_end(self):
        # (with what it has started, which holds its output open)
        self.program("echo entries 0; sleep 600; exit 0")
        begin = time.monotonic()
        with self.assertRaises(Timeout) as caught:
            a429.survey("p", "r", timeout=0.5)
        self.assertLess(time.monotonic() - begin, 300)
        self.assertEqual((caught.exception.line, caught.exception.output), ("no end after 0.5 s", "entries 0\n"))
        self.program("exec sleep 600")
        with self.assertRaises(Timeout):
            next(a429.trace("p", "r", timeout=0.1))

    def test_a_program_that_ends_in_time(self):
        self.program("printf 'entries 0\\nA 0\\nB 0\\n'")
        self.assertEqual(a429.survey("p", "r", timeout=600).entries, 0)

    def test_a_program_that_a_signal_ends(self):
        self.program("kill -9 $$")
        with self.assertRaises(Error) as caught:
            a429.survey("p", "r", timeout=600)
        self.assertEqual((caught.exception.status, type(caught.exception)), (-9, Error))

    def test_entries_come_as_they_are_written_and_the_program_ends_with_the_reader(self):
        self.program(f"echo $$ >'{self.room}/number'; exec yes '0 0 A 41410323 rts 3 | owes cts 3'")
        with a429.trace("p", "r") as entries:
            self.assertEqual(len([*islice(entries, 10_000)]), 10_000)
            number = (self.room / "number").read_text().strip()
            self.assertTrue(self.is_running(number))
        self.assertFalse(self.is_running(number))
        self.assertEqual([*entries], [])


@unittest.skipUnless(importlib.util.find_spec("pip"), "no pip")
class Installed(unittest.TestCase):
    """The module in a folder where `pip install` puts it."""

    def test_it_is_imported_from_there(self):
        here = Path(__file__).resolve().parent
        with tempfile.TemporaryDirectory() as room:
            shutil.copytree(here, f"{room}/source", ignore=shutil.ignore_patterns("__pycache__"))
            words = ["--no-index", "--no-build-isolation", "--no-compile", "--disable-pip-version-check", "--target", f"{room}/there"]
            subprocess.run([sys.executable, "-m", "pip", "install", "--quiet", *words, f"{room}/source"], check=True, stderr=subprocess.PIPE)
            script = "import a429, importlib.metadata as it; print(a429.__file__, it.version('a429'))"
            done = subprocess.run(
                [sys.executable, "-B", "-c", script], cwd=room, check=True, stdout=subprocess.PIPE, text=True,
                env={**os.environ, "PYTHONPATH": f"{room}/there"},
            )  # fmt: skip
            released = re.search(r"^## \[(\d.*?)\]", (here.parents[1] / "CHANGELOG.md").read_text(), re.MULTILINE)[1]
            self.assertEqual(done.stdout.split(), [f"{room}/there/a429/__init__.py", released])
            self.assertTrue(Path(room, "there/a429/py.typed").is_file())


if __name__ == "__main__":
    unittest.main()
