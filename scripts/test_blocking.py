"""The second model of `blocks`: the rows that its description shows, and the files of transfers made by chance."""
import random
import re
import unittest

from blocking import COLUMNS, blocked, rows_of
from console import ROOT
from tracing import lines_of
from transfers import Habits, Profile, Run, profile_by_chance, unit_by_chance

LOSSES = Habits(lost=0.1, silent=0.1, unheard=0.2, refused=0.1, free=0.1, late=0.3, idle=0.05)
BLOCKS = (ROOT / "docs/BLOCKS.md").read_text()
REQUEST, CLEAR, START, DATA, END = "A,41410323", "B,C24103A3", "A,60010123", "A,12004123", "A,71A3F523"
ACK, NAK = "B,450101A3", "B,460000A3"


def by_hand(name):
    """The rows of an example as its page has them."""
    block = re.search(rf"^\$ a429 blocks sample\.toml {name}\.csv\n(.*?)(?=^\$ |^```)", BLOCKS, re.DOTALL | re.MULTILINE)
    return block[1].split()


def rows(*words):
    """The status and the rows of a recording of these words, an entry each microsecond."""
    text = "time,bus,word\n" + "".join(f"{n},{word}\n" for n, word in enumerate(words))
    status, lines, fault = blocked(Profile(), text.encode())
    return status, lines[1:]


class Rows(unittest.TestCase):
    def test_the_rows_of_its_description(self):
        for name in ("damaged-word", "lost-acknowledgement", "request-twice", "given-up", "broken-off", "impossible"):
            status, lines, fault = blocked(Profile(), (ROOT / f"examples/{name}.csv").read_bytes())
            self.assertEqual((name, status, lines, fault), (name, name == "impossible", by_hand(name), None))

    def test_no_attempt(self):
        self.assertEqual(rows(), (0, []))
        self.assertEqual(rows("A,E13880C1", "A,C1410323"), (0, []))
        self.assertEqual(rows("A,E13880C1", START), (1, ["1,1,1,1,,,,,,not-allowed,"]))

    def test_each_reason(self):
        begun = (REQUEST, CLEAR)
        self.assertEqual(rows(*begun, DATA, END, NAK)[1], ["0,4,0,4,,,3,2,0,refused,no-start"])
        self.assertEqual(rows(*begun, START, END, NAK)[1], ["0,4,0,4,1,1,3,2,0,refused,too-few"])
        self.assertEqual(rows(*begun, START, "A,91000123", END, NAK)[1], ["0,5,0,5,1,1,3,3,0,refused,half-bytes"])
        self.assertEqual(rows(*begun, START, "A,12000023", END, NAK)[1], ["0,5,0,5,1,1,3,3,0,refused,check"])
        self.assertEqual(rows(*begun, "A,E0010223", DATA, END)[1], ["0,4,0,4,,,3,2,1,open,no-start"])
        self.assertEqual(rows(*begun, "A,60010223", DATA, END, REQUEST)[1][0], "0,4,0,4,1,2,3,3,0,unanswered,sequence")
        self.assertEqual(rows(*begun, START, DATA, END, NAK)[1], ["0,5,0,5,1,1,3,3,0,refused,"])

    def test_words_at_the_end(self):
        self.assertEqual(rows(REQUEST, CLEAR, START, DATA, END, ACK, "A,C1410323", "A,50000023", "B,424103A3", "A,E13880C1")[1],
                         ["0,8,0,8,1,1,3,3,1,acknowledged,"])
        self.assertEqual(rows(REQUEST, REQUEST, CLEAR, REQUEST)[1],
                         ["0,0,0,0,,,3,0,0,ungranted,", "1,2,1,2,,,3,0,0,unanswered,", "3,3,3,3,,,3,0,0,open,"])

    def test_rows_before_a_fault(self):
        text = b"time,bus,word\n0,A,41410323\n1,A,41410323\n2,C,C24103A3\n"
        self.assertEqual(blocked(Profile(), text), (3, [COLUMNS, "0,0,0,0,,,3,0,0,ungranted,"], "recording: row 2"))

    def test_transfers_by_chance(self):
        for seed in range(200):
            dice = random.Random(seed)
            profile = profile_by_chance(dice, False)
            run = Run(dice, profile, LOSSES)
            for _ in range(3):
                run.send_file([unit_by_chance(profile, dice, 4, is_final) for is_final in (False, True)])
            entries, files, _ = run.broken_off(dice.randrange(len(run.transfer.entries) + 1))
            timed = [(bus, word, 10 * n) for n, (bus, word) in enumerate(entries)]
            found = [row.split(",") for row in rows_of(profile, timed)][1:]
            trace = list(lines_of(profile, timed))
            # One row for each request, in order; each accepted block is acknowledged, and each file that crosses is among them.
            self.assertEqual([int(row[0]) for row in found], [int(line.split()[0]) for line in trace if "| owes cts " in line])
            accepted = [line.split("accepts ")[1].split(",")[0].split() for line in trace if " accepts " in line]
            self.assertEqual([row[4:6] for row in found if row[9] == "acknowledged"], accepted)
            self.assertEqual(sum(row[9] == "again" for row in found), sum(", again " in line for line in trace))
            self.assertEqual(sum(row[10] != "" for row in found), sum("owes nak, " in line for line in trace))
            after_request = trace[next((n for n, line in enumerate(trace) if "| owes cts " in line), len(trace)) :]
            damaged = sum(line.split()[2] == "A" and "free parity" in line for line in after_request if line[0].isdigit())
            self.assertEqual(sum(int(row[8]) for row in found), damaged)
            for row, after in zip(found, found[1:]):
                self.assertLess(int(row[1]), int(after[0]))
                self.assertNotIn(row[9], ("open", "not-allowed"))
