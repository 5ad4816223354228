"""The second model of `trace`: the rows that its description shows, and the files of transfers made by chance."""
import random
import unittest

from console import ROOT
from tracing import PREMISE, Sink, lines_of, message_of, traced
from transfers import Habits, Profile, Run, profile_by_chance, unit_by_chance

IMPOSSIBLE = """\
0 0 A 41410323 rts 3 | owes cts 3
1 1000 A 60010123 sot 1 1 gfi 0 | refused, allowed: rts, cts 3
IMPOSSIBLE 1 NotGranted
"""
UNEXPLAINED = """\
0 0 A 41410323 rts 3 | owes cts 3
1 1000 B C24103A3 cts 3 | granted 3
2 2000 A 60010123 sot 1 1 gfi 0 | in block 1 1, 0 of 1 data words
3 3000 A 92004123 free parity, else data 14
4 4000 A 71A3F523 eot flags 1 check A3F5 final | owes nak, 0 of 1 data words
5 5000 B 460000A3 nak 0000 | quiet
ONLY files 0
if there is such a transfer, which decide finds out; if there is none, see sink
"""
LOST_ACKNOWLEDGEMENT = """\
10 10000 A 71A3F523 eot flags 1 check A3F5 final | owes ack 1 1
11 11000 B 450101A3 ack 1 1 | quiet, again 1 1
ONLY files 1
file 1 1
if there is such a transfer, which decide finds out; if there is none, see sink
"""
LOSSES = Habits(lost=0.1, silent=0.1, unheard=0.2, refused=0.1, free=0.1, late=0.3, idle=0.05)


def recording(name):
    return (ROOT / f"examples/{name}.csv").read_bytes()


class Traces(unittest.TestCase):
    def test_the_rows_of_its_description(self):
        self.assertEqual(traced(Profile(), recording("impossible")), (1, IMPOSSIBLE.splitlines(), None))
        self.assertEqual(traced(Profile(), recording("unexplained")), (0, UNEXPLAINED.splitlines(), None))
        status, lines, fault = traced(Profile(), recording("lost-acknowledgement"))
        self.assertEqual((status, lines[-5:], fault), (0, LOST_ACKNOWLEDGEMENT.splitlines(), None))

    def test_lines_before_a_fault(self):
        cut = recording("impossible").replace(b"1000,A", b"1000,C")
        self.assertEqual(traced(Profile(), cut), (3, IMPOSSIBLE.splitlines()[:1], "recording: row 1"))

    def test_each_message_is_read_as_it_was_written(self):
        for seed in range(100):
            dice = random.Random(seed)
            profile = profile_by_chance(dice, False)
            unit = unit_by_chance(profile, dice, 9, True)
            numbers = [dice.randrange(256), dice.randrange(256)]
            messages = [("rts", 11), ("cts", 255), ("ack", *numbers), ("nak", unit.check), ("sot", unit.gfi, *numbers),
                        ("eot", unit.flags, unit.check), *unit.data]
            for message in messages:
                self.assertEqual(message_of(profile, *profile.word(message)), message)

    def test_the_files_of_transfers_by_chance(self):
        for seed in range(100):
            dice = random.Random(seed)
            profile = profile_by_chance(dice, False)
            run = Run(dice, profile, LOSSES)
            for _ in range(3):
                run.send_file([unit_by_chance(profile, dice, 4, is_final) for is_final in (False, True)])
            entries, files, _ = run.broken_off(len(run.transfer.entries))
            lines = list(lines_of(profile, ((bus, word, 0) for bus, word in entries)))
            wanted = [f"ONLY files {len(files)}", *(f"file {number} {len(data)}" for number, data in files), PREMISE]
            self.assertEqual(lines[-len(wanted) :], wanted)

    def test_the_list_of_what_is_allowed(self):
        sink = Sink(Profile())
        self.assertEqual(sink.allowed(), ["rts"])
        sink.take(("rts", 4))
        self.assertEqual(sink.allowed(), ["rts", "cts 4"])
        sink.take(("cts", 4))
        self.assertEqual(sink.allowed(), ["rts", "sot", "data", "eot"])
        sink.take(("data", 1, 4))
        self.assertEqual(sink.allowed(), ["rts", "data", "eot"])
        sink.take(("data", 1, 4))
        self.assertEqual(sink.allowed(), ["rts", "eot"])


if __name__ == "__main__":
    unittest.main()
