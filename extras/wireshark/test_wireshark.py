"""Captures of examples, as tshark shows them."""

import os
import shutil
import subprocess
import tempfile
import unittest
from pathlib import Path

HERE = Path(__file__).resolve().parent
EXAMPLES = HERE.parents[1] / "examples"


def capture(*words):
    """Runs `capture`, and returns its exit status."""
    return subprocess.run([HERE / "capture", EXAMPLES / "sample.toml", *words], stderr=subprocess.DEVNULL).returncode


def output(command, recording):
    """The lines that a command of `a429` prints."""
    program = os.environ.get("A429", "a429")
    return subprocess.run([program, command, EXAMPLES / "sample.toml", recording], stdout=subprocess.PIPE, text=True).stdout.splitlines()


def shown(file, *words):
    """The lines that tshark shows of a capture."""
    command = ["tshark", "-X", f"lua_script:{HERE}/a429.lua", "-r", file, *words]
    done = subprocess.run(command, check=True, stdout=subprocess.PIPE, stderr=subprocess.DEVNULL, text=True)
    return done.stdout.splitlines()


@unittest.skipUnless(shutil.which("tshark") and shutil.which("text2pcap"), "no tshark")
@unittest.skipUnless(shutil.which(os.environ.get("A429", "a429")), "no program a429")
class Captures(unittest.TestCase):
    def setUp(self):
        room = tempfile.TemporaryDirectory()
        self.addCleanup(room.cleanup)
        self.room = Path(room.name)
        self.file = self.room / "it.pcapng"

    def fields(self, *names):
        """The fields of each packet that have these names."""
        return shown(self.file, "-T", "fields", *(it for name in names for it in ("-e", name)))

    def test_each_entry_is_a_packet_with_its_fields(self):
        self.assertEqual(capture(EXAMPLES / "forms.csv", self.file), 0)
        found = self.fields("frame.time_epoch", "a429.bus", "a429.word", "a429.label", "a429.form")
        labels = ["304", "305", *["304"] * 5, *["305"] * 2, "304", "203", "304", *["304"] * 2, "304", "304"]
        lines = (EXAMPLES / "forms.forms").read_text().splitlines()
        self.assertEqual(len(lines), 16)
        wanted = []
        for line, label in zip(lines, labels):
            time, bus, word, form = line.split(" ", 3)
            wanted.append(f"{int(time) / 1e6:.9f}\t{bus}\t0x{word.lower()}\t{label}\t{form}")
        self.assertEqual(found, wanted)

    def test_sdi_and_ssm(self):
        recording = self.room / "it.csv"
        words = ("00000100", "00000200", "20000000", "40000000", "60000300", "80000000")
        recording.write_text("time,bus,word\n" + "".join(f"0,A,{it}\n" for it in words))
        self.assertEqual(capture(recording, self.file), 0)
        self.assertEqual(self.fields("a429.sdi", "a429.ssm"), ["1\t0", "2\t0", "0\t1", "0\t2", "3\t3", "0\t0"])

    def test_the_sink_is_that_of_trace(self):
        """Of each example the packets are lines of `trace`, and where it has none those of `forms`."""
        for recording in sorted(EXAMPLES.glob("*.csv")):
            self.assertEqual(capture(recording, self.file), 0, recording)
            lines = [it.split(" ", 3) for it in output("forms", recording)]
            for line in output("trace", recording):
                entry, *traced = line.split(" ", 4)
                if entry.isdecimal():
                    lines[int(entry)] = traced
            wanted = []
            for _, bus, word, rest in lines:
                form, _, sink = rest.partition(" | ")
                allowed = sink.removeprefix("refused, allowed: ") if sink.startswith("refused") else ""
                wanted.append(f"{bus}\t0x{word.lower()}\t{form}\t{'' if allowed else sink}\t{allowed}")
            found = self.fields("a429.bus", "a429.word", "a429.form", "a429.sink", "a429.allowed")
            self.assertEqual(found, wanted, recording)

    def test_filters(self):
        for recording, text, frames in (
            ("forms", 'a429.form contains "ack"', ["8"]),
            ("forms", 'a429.bus == "B"', ["2", "8", "9", "12"]),
            ("forms", 'a429.src == "sink"', ["2", "8", "9", "12"]),
            ("forms", 'a429.dst == "source" && a429.label == "304"', ["12"]),
            ("forms", 'a429.label == "203"', ["11"]),
            ("forms", "a429.word == 0x450101a3", ["8"]),
            ("forms", "a429.wrong_parity", ["10"]),
            ("forms", "a429.refused", ["5"]),
            ("forms", "a429.no_form", ["15", "16"]),
            ("forms", '_ws.expert.severity == "Error"', ["5", "15", "16"]),
            ("impossible", 'a429.allowed contains "cts"', ["2"]),
            ("damaged-word", 'a429.sink contains "owes nak"', ["5"]),
            ("damaged-word", 'a429.sink contains "crosses"', ["12"]),
            ("damaged-word", "a429.wrong_parity && !a429.sink", ["4"]),
        ):
            capture(EXAMPLES / f"{recording}.csv", self.file)
            self.assertEqual(shown(self.file, "-Y", text, "-T", "fields", "-e", "frame.number"), frames, text)

    def test_the_list_of_what_is_wrong(self):
        capture(EXAMPLES / "forms.csv", self.file)
        found = [it.split(None, 3) for it in shown(self.file, "-q", "-z", "expert") if "A429" in it]
        self.assertEqual(
            found,
            [
                ["1", "Sequence", "A429", "No run records this word here"],
                ["2", "Protocol", "A429", "No transfer records this word"],
                ["1", "Checksum", "A429", "Wrong parity"],
            ],
        )

    def test_the_columns(self):
        capture(EXAMPLES / "impossible.csv", self.file)
        found = self.fields(*(f"_ws.col.{it}" for it in ("Source", "Destination", "Protocol", "Info")))
        self.assertEqual(
            found,
            [
                "source\tsink\tA429\tA 41410323 rts 3 | owes cts 3",
                "source\tsink\tA429\tA 60010123 sot 1 1 gfi 0 | refused, allowed: rts, cts 3",
            ],
        )

    def test_no_user_link_type_is_taken(self):
        capture(EXAMPLES / "impossible.csv", self.file)
        names = ("frame.encap_type", "frame.interface_name", "frame.protocols")
        self.assertEqual(self.fields(*names), ["155\tARINC 429\texported_pdu:a429"] * 2)
        self.write("0 A 41410323 rts 3", "-l", "147")
        self.assertEqual(shown(self.file, "-Y", "a429"), [])

    def test_a_recording_without_entries(self):
        recording = self.room / "it.csv"
        recording.write_text("time,bus,word\n")
        self.assertEqual(capture(recording, self.file), 0)
        self.assertEqual(self.fields("frame.number"), [])

    def test_times_of_any_size(self):
        times = [0, 999_999, 1_000_000, 4_294_967_296_000_001]
        recording = self.room / "it.csv"
        recording.write_text("time,bus,word\n" + "".join(f"{it},A,41410323\n" for it in times))
        self.assertEqual(capture(recording, self.file), 0)
        found = shown(self.file, "-T", "fields", "-e", "frame.time_epoch")
        self.assertEqual(found, ["0.000000000", "0.999999000", "1.000000000", "4294967296.000001000"])

    def test_a_recording_with_a_fault_leaves_no_capture(self):
        command = [HERE / "capture", EXAMPLES / "sample.toml", EXAMPLES / "sample.toml", self.file]
        done = subprocess.run(command, capture_output=True, text=True)
        self.assertEqual((done.returncode, done.stdout, done.stderr), (3, "", "recording: header\n"))
        self.assertFalse(self.file.exists())

    def write(self, line, *link):
        """Writes a capture with one packet, this line."""
        text = f"000000 {line.encode().hex(' ')}\n"
        subprocess.run(["text2pcap", "-q", *link, "-", self.file], input=text, text=True, check=True, stderr=subprocess.DEVNULL)

    def test_a_packet_that_is_no_line_is_left_alone(self):
        for line in ("hello", "0 C 41410323 rts 3", "0 A 4141032 rts 3", "0 A 41410323 "):
            self.write(line, "-P", "a429")
            self.assertEqual(shown(self.file, "-Y", "a429.bus"), [], line)


if __name__ == "__main__":
    unittest.main()
