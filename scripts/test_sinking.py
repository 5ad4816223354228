"""The second model of `sink`: recordings whose answer was worked out by hand, and transfers made by chance."""
import random
import unittest

from console import ROOT
from reading import entries_of
from sinking import lines_of
from transfers import Habits, Profile, Run, profile_by_chance, unit_by_chance

LOSSES = Habits(lost=0.1, silent=0.1, unheard=0.2, refused=0.1, free=0.1, late=0.3, idle=0.05)

RTS, CTS, SOT, DATA, EOT, ACK = ("rts", 3), ("cts", 3), ("sot", 0, 1, 1), ("data", 1, 4), ("eot", 1, 0xA3F5), ("ack", 1, 1)
NAK, BLOCK = ("nak", 0), [SOT, DATA, EOT]
ONE_BYTE = [RTS, CTS, *BLOCK]

# what is recorded, and the lines
ROWS = {
    "no word": ([], "SINK YES files 0"),
    "one byte": ([*ONE_BYTE, ACK], "SINK YES files 1|file 1 1"),
    "an answer that nobody asked for": ([CTS], "SINK NO 0 allowed nothing"),
    "a clear answer with another count": ([RTS, ("cts", 4)], "SINK NO 1 allowed cts 3"),
    "a clear answer to the request before": ([RTS, ("rts", 4), CTS], "SINK NO 2 owed before 1 allowed cts 4"),
    "an acknowledgement of the attempt before": ([*ONE_BYTE, RTS, ACK], "SINK NO 6 owed before 5 allowed cts 3"),
    "a negative answer for the attempt before": ([*ONE_BYTE, RTS, NAK], "SINK NO 6 owed before 5 allowed cts 3"),
    "an acknowledgement of the attempt before, after a clear answer": ([*ONE_BYTE, RTS, CTS, ACK], "SINK NO 7 owed before 5 allowed nothing"),
    "an acknowledgement two requests late": ([*ONE_BYTE, RTS, RTS, ACK], "SINK NO 7 allowed cts 3"),
    "an acknowledgement of another unit": ([*ONE_BYTE, ("ack", 1, 2)], "SINK NO 5 allowed ack 1 1, nak"),
    "an acknowledgement of a block without data": ([RTS, CTS, SOT, EOT, ACK], "SINK NO 4 allowed nak"),
    "a negative answer to a good block": ([*ONE_BYTE, NAK], "SINK YES files 0"),
    "a negative answer with any bits": ([RTS, CTS, EOT, ("nak", 0xFFFF)], "SINK YES files 0"),
    "a block without a request": ([*BLOCK, RTS, CTS, *BLOCK, ACK], "SINK YES files 1|file 1 1"),
    "a block twice under one grant": ([RTS, CTS, SOT, DATA, *BLOCK, ACK], "SINK YES files 1|file 1 1"),
    "a data word too many": ([RTS, CTS, SOT, DATA, DATA, EOT, ACK], "SINK NO 6 allowed nak"),
    "255 data words too many, and the block again": ([RTS, CTS, SOT, *[DATA] * 256, *BLOCK, ACK], "SINK YES files 1|file 1 1"),
    "words of a block while an answer is owed": ([*ONE_BYTE, SOT, DATA, EOT, ACK], "SINK YES files 1|file 1 1"),
    "a unit that comes again": ([*ONE_BYTE, ACK, *ONE_BYTE, ACK], "SINK YES files 1|file 1 1"),
    "the second unit of a file first": ([RTS, CTS, ("sot", 0, 1, 2), DATA, EOT, ("ack", 1, 2)], "SINK NO 5 allowed nak"),
}
EXAMPLES = {
    "impossible": "SINK YES files 0",
    "damaged-word": "SINK YES files 1|file 1 1",
    "given-up": "SINK YES files 1|file 2 1",
}


class Sinks(unittest.TestCase):
    def test_rows_worked_out_by_hand(self):
        profile = Profile()
        for name, (messages, wanted) in ROWS.items():
            with self.subTest(name):
                self.assertEqual(lines_of(profile, [profile.word(message) for message in messages]), wanted.split("|"))

    def test_words_that_are_no_answers(self):
        profile = Profile()
        # On bus B a start word has no form, so no sink sends it. A word of even parity is free, and so is one with another label.
        start = profile.word(SOT)[1] & 0x7FFFFF00 | profile.label("B")
        odd, even = sorted((start, start | 1 << 31), key=lambda word: -(word.bit_count() % 2))
        self.assertEqual(lines_of(profile, [("B", odd)]), ["SINK NO 0 allowed nothing"])
        self.assertEqual(lines_of(profile, [("B", even), ("B", odd ^ 0x101)]), ["SINK YES files 0"])

    def test_the_examples(self):
        for name, wanted in EXAMPLES.items():
            with self.subTest(name):
                entries = entries_of((ROOT / f"examples/{name}.csv").read_bytes())
                self.assertEqual(lines_of(Profile(), entries), wanted.split("|"))

    def test_the_sink_of_a_run_keeps_the_rules(self):
        for seed in range(100):
            dice = random.Random(seed)
            profile = profile_by_chance(dice, False)
            run = Run(dice, profile, LOSSES)
            for _ in range(3):
                run.send_file([unit_by_chance(profile, dice, 4, is_final) for is_final in (False, True)])
            entries, files, _ = run.broken_off(len(run.transfer.entries))
            wanted = [f"SINK YES files {len(files)}", *(f"file {number} {len(data)}" for number, data in files)]
            self.assertEqual(lines_of(profile, entries), wanted)


if __name__ == "__main__":
    unittest.main()
