"""Lines drawn of an example, and the words that the decoder finds on them."""

import os
import shutil
import subprocess
import tempfile
import unittest
from pathlib import Path

from draw import LEAD, Pulse, entries_of, pulses_of, vcd_of

HERE = Path(__file__).resolve().parent
ONE_BYTE = entries_of(str(HERE.parents[1] / "examples/one-byte.csv"))


@unittest.skipUnless(shutil.which("sigrok-cli"), "no sigrok-cli")
class Rows(unittest.TestCase):
    def found(self, vcd, *words):
        """What `rows` finds: the exit status, the entries, and the lines of standard error."""
        with tempfile.NamedTemporaryFile("w", suffix=".vcd") as file:
            file.write(vcd)
            file.flush()
            done = subprocess.run([HERE / "rows", file.name, *words], capture_output=True, text=True)
        head, *rows = done.stdout.splitlines() or [""]
        entries = [(int(time), bus, int(word, 16)) for time, bus, word in (it.split(",") for it in rows)]
        return done.returncode, entries, done.stderr.splitlines()

    def test_fast_words_come_back_with_their_times(self):
        status, entries, faults = self.found(vcd_of(pulses_of(ONE_BYTE, 100_000)))
        lead = LEAD * 10
        self.assertEqual((status, faults), (0, []))
        self.assertEqual(entries, [(time + lead, bus, word) for time, bus, word in ONE_BYTE])

    def test_slow_words_come_back_in_their_order(self):
        status, entries, faults = self.found(vcd_of(pulses_of(ONE_BYTE, 12_500)), "12500")
        self.assertEqual((status, faults), (0, []))
        self.assertEqual([it[1:] for it in entries], [it[1:] for it in ONE_BYTE])
        self.assertEqual([it[0] for it in entries], [LEAD * 80 * n for n in range(1, 7)])

    def test_slow_lines_may_be_somewhat_faster(self):
        status, entries, faults = self.found(vcd_of(pulses_of(ONE_BYTE, 14_500)), "12500")
        self.assertEqual([it[1:] for it in entries], [it[1:] for it in ONE_BYTE])

    def test_lines_of_other_names(self):
        vcd = vcd_of(pulses_of(ONE_BYTE, 100_000))
        for n, name in enumerate(("A1", "A0", "B1", "B0")):
            vcd = vcd.replace(f"{name} {name} $end", f"{name} D{n} $end")
        self.assertEqual(len(self.found(vcd, "100000", "D0", "D1", "D2", "D3")[1]), 6)
        status, entries, said = self.found(vcd)
        self.assertEqual((status, entries), (1, []))

    def test_the_other_speed_is_a_fault_of_each_word(self):
        status, entries, faults = self.found(vcd_of(pulses_of(ONE_BYTE, 100_000)), "12500")
        self.assertEqual((status, entries), (0, []))
        self.assertEqual(faults[0], "360,A,pulse of 0.12 half bits")
        self.assertEqual(len(faults), 6)

    def test_a_word_without_a_pulse(self):
        pulses = pulses_of(ONE_BYTE, 100_000)
        for place, sizes in ((31, [31]), (0, [31]), (12, [12, 19])):
            status, entries, faults = self.found(vcd_of(pulses[:place] + pulses[place + 1 :]))
            self.assertEqual([it[1:] for it in entries], [it[1:] for it in ONE_BYTE[1:]])
            self.assertEqual([it.split(",")[1:] for it in faults], [["A", f"{size} bits"] for size in sizes])

    def test_a_word_with_a_pulse_too_many(self):
        pulses = pulses_of(ONE_BYTE, 100_000)
        last = pulses[31]
        status, entries, faults = self.found(vcd_of([*pulses, Pulse(last.begin + 10, last.end + 10, "A0")]))
        self.assertEqual(len(entries), 5)
        self.assertEqual(faults, ["370,A,33 bits"])

    def test_both_lines_at_once(self):
        pulses = pulses_of(ONE_BYTE, 100_000)
        first = pulses[0]
        self.assertEqual(first.line, "A1")
        for begin, end in ((first.begin, first.end), (first.begin + 2, first.end + 2), (first.end, first.end + 2)):
            status, entries, faults = self.found(vcd_of([*pulses, Pulse(begin, end, "A0")]))
            self.assertEqual([it[1:] for it in entries], [it[1:] for it in ONE_BYTE[1:]])
            self.assertEqual([it.split(",")[1:] for it in faults], [["A", "pulses overlap"]])

    def decoded(self, pulses, *words):
        """What the decoder gives of bus A on these lines, as bytes."""
        with tempfile.NamedTemporaryFile("w", suffix=".vcd") as file:
            file.write(vcd_of(pulses))
            file.flush()
            command = ["sigrok-cli", "-i", file.name, "-P", "arinc429:one=A1:zero=A0", *words]
            env = {**os.environ, "SIGROKDECODE_DIR": str(HERE)}
            return subprocess.run(command, check=True, stdout=subprocess.PIPE, env=env).stdout

    def test_words_as_bytes(self):
        wanted = b"".join(word.to_bytes(4, "big") for _, bus, word in ONE_BYTE if bus == "A")
        self.assertEqual(wanted[:4], bytes((0x41, 0x41, 0x03, 0x23)))
        pulses = pulses_of(ONE_BYTE, 100_000)
        self.assertEqual(self.decoded(pulses, "-B", "arinc429=words"), wanted)
        # What is no word has no bytes: it lacks a pulse, has one too many, or both lines are high.
        last = pulses[31]
        for faulty in (
            pulses[1:],
            [*pulses, Pulse(last.begin + 10, last.end + 10, "A0")],
            [*pulses, Pulse(pulses[0].begin, pulses[0].end, "A0")],
        ):
            self.assertEqual(self.decoded(faulty, "-B", "arinc429=words"), wanted[4:])

    def test_bits(self):
        pulses = pulses_of(ONE_BYTE, 100_000)
        shown = self.decoded(pulses, "-A", "arinc429=bit", "--protocol-decoder-samplenum").decode().splitlines()
        on_bus = [it for it in pulses if it.line[0] == "A"]
        self.assertEqual(len(on_bus), 4 * 32)
        wanted = [f"{it.begin}-{it.end} arinc429-1: bit {place % 32 + 1}: {it.line[1]}" for place, it in enumerate(on_bus)]
        self.assertEqual(shown, wanted)

    def test_bits_of_what_is_no_word(self):
        shown = self.decoded(pulses_of(ONE_BYTE[:1], 100_000)[:3], "-A", "arinc429").decode().splitlines()
        self.assertEqual([it.partition(": ")[2] for it in shown], ["bit 1: 1", "bit 2: 1", "bit 3: 0", "70,A,3 bits"])

    def test_a_file_that_is_not_there(self):
        done = subprocess.run([HERE / "rows", HERE / "missing.vcd"], capture_output=True, text=True)
        self.assertEqual((done.returncode, done.stdout), (1, ""))
        self.assertIn("missing.vcd", done.stderr)


if __name__ == "__main__":
    unittest.main()
