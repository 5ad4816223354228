"""The second model of `history`: recordings whose pieces were worked out by hand, and parts of transfers made by chance."""
import random
import unittest

from telling import first_refused, known_of, lines_of
from transfers import Habits, Profile, Run, profile_by_chance, unit_by_chance

LOSSES = Habits(lost=0.1, silent=0.1, unheard=0.2, refused=0.1, free=0.1, late=0.3, idle=0.05)
# Units of one byte, A or B, by their number and whether they are the last of their file.
FLAGS = {True: 1, False: 0}
DATA = {b"A": ("data", 1, 4), b"B": ("data", 2, 4)}


def unit(file, ldu, is_final=True, byte=b"A"):
    """The six messages of a unit that crosses without loss."""
    check = Profile().check_word(byte)
    return [("rts", 3), ("cts", 3), ("sot", 0, file, ldu), DATA[byte], ("eot", FLAGS[is_final], check), ("ack", file, ldu)]


def words(*messages):
    return [Profile().word(message) for message in messages]


TWO_FILES = [*unit(1, 1, False), *unit(1, 2, True, b"B"), *unit(2, 1)]
LOAD = [*unit(1, 1), *unit(2, 1, True, b"B")]

# what is recorded, and the lines
ROWS = {
    "no word": ([], "part 1 entries 0 from 0"),
    "two files": (TWO_FILES, "part 1 entries 18 from 0|file 1 2|file 2 1"),
    "the same load twice": ([*LOAD, *LOAD], "part 1 entries 12 from 0|file 1 1|file 2 1|part 2 entries 12 from 12|file 1 1|file 2 1"),
    "a file of which the first unit is not there": (TWO_FILES[6:], "part 1 entries 12 from 0|begun before|file 2 1|open 1 units 2 to 2"),
    "a request alone": ([("rts", 3), ("cts", 3)], "part 1 entries 2 from 0"),
    "a request that is asked again": ([("rts", 3), ("rts", 3), ("cts", 3), ("sot", 0, 1, 2)], "part 1 entries 4 from 0|begun before"),
    "a first unit before a second": ([("rts", 3), ("cts", 3), ("sot", 0, 1, 1), ("rts", 3), ("cts", 3), ("sot", 0, 1, 2)], "part 1 entries 6 from 0"),
    "a start word before the first request": ([("sot", 0, 1, 2), ("rts", 3), ("cts", 3), ("sot", 0, 2, 1)], "part 1 entries 4 from 0"),
    "a file of which the last unit is not there": (TWO_FILES[:6], "part 1 entries 6 from 0|open 1 units 1 to 1"),
    "a file that was given up": ([*unit(1, 1, False), *unit(2, 1)], "part 1 entries 12 from 0|file 2 1|open 1 units 1 to 1"),
    "an answer that nobody asked for": (
        [*unit(1, 1), ("cts", 3), *unit(2, 1)],
        "part 1 entries 7 from 0|stopped 6 WrongAnswer|file 1 1|part 2 entries 6 from 7|file 2 1",
    ),
    "a word without a grant": ([("rts", 3), ("sot", 0, 1, 1)], "part 1 entries 2 from 0|stopped 1 NotGranted"),
    "a gap inside a file": (
        [*unit(1, 1, False)[:5], *unit(3, 2)[2:], *unit(4, 1)],
        "part 1 entries 9 from 0|stopped 5 NotGranted|part 2 entries 6 from 9|file 4 1",
    ),
}


class Pieces(unittest.TestCase):
    def test_rows_worked_out_by_hand(self):
        for name, (messages, wanted) in ROWS.items():
            with self.subTest(name):
                self.assertEqual(lines_of(Profile(), words(*messages))[0], wanted.split("|"))

    def test_two_files_cut_at_each_entry(self):
        """A file is sure with its bytes from each cut before its first request, and from one right after it, where the clear answer comes next."""
        entries = words(*TWO_FILES)
        for cut in range(len(entries)):
            files = known_of(Profile(), entries[cut:]).files
            wanted = [(1, b"AB")] * (cut <= 1) + [(2, b"A")] * (cut <= 13)
            self.assertEqual((cut, files), (cut, wanted))

    def test_parts_of_transfers_by_chance(self):
        for seed in range(5):
            dice = random.Random(seed)
            profile = profile_by_chance(dice, False)
            run = Run(dice, profile, LOSSES)
            for _ in range(3):
                run.send_file([unit_by_chance(profile, dice, 4, is_final) for is_final in (False, True)])
            entries, files, _ = run.broken_off(len(run.transfer.entries))
            self.assertEqual(known_of(profile, entries).files, files)
            for cut in range(len(entries)):
                self.assertIsNone(first_refused(profile, entries[cut:]))
                sure = known_of(profile, entries[cut:]).files
                self.assertEqual(sure, files[len(files) - len(sure) :])


if __name__ == "__main__":
    unittest.main()
