"""The second model of what `why` prints below a verdict: recordings whose answer was worked out by hand."""

import unittest

from opposing import lines_below, lines_of
from transfers import Profile

RTS, CTS, SOT, DATA, EOT, ACK = ("rts", 3), ("cts", 3), ("sot", 0, 1, 1), ("data", 1, 4), ("eot", 1, 0xA3F5), ("ack", 1, 1)
LONG, LONG_CTS, FIRST, SECOND, THIRD = ("rts", 5), ("cts", 5), ("data", 1, 2, 3, 4), ("data", 5, 6), ("data", 7, 8)
ONE_BYTE = [RTS, CTS, SOT, DATA, EOT]
OPEN = [RTS, CTS, SOT, DATA, ("eot", 0, 0xA3F5)]
WHOLE = [LONG, LONG_CTS, SOT, FIRST, SECOND, THIRD, ("eot", 1, 1)]

# what is recorded, the reason of the last word, and the lines below the verdict; `{n}` is the word of entry n in the sample profile
ROWS = {
    "a start word first": ([SOT], "NotGranted", "allowed: rts"),
    "another clear answer": ([RTS, ("cts", 4)], "WrongAnswer", "allowed: rts, cts 3"),
    "an acknowledgement of another unit": ([*ONE_BYTE, ("ack", 1, 2)], "WrongAnswer", "allowed: rts, ack 1 1, nak"),
    "half a byte": ([RTS, CTS, ("data", 1, 2, 3)], "BadBlock", "semi-octets 3, no whole bytes"),
    "half a byte of three data words": ([LONG, LONG_CTS, FIRST, SECOND, ("data", 1)], "BadBlock", "semi-octets 7, no whole bytes"),
    "another check word": ([*ONE_BYTE[:4], ("eot", 1, 0x1234)], "BadBlock", "check word 1234, that of the bytes is A3F5"),
    "the second unit first": ([RTS, CTS, ("sot", 0, 1, 2)], "WrongNumber", "number 1 2, none acknowledged before"),
    "one past the next unit": ([*OPEN, ACK, RTS, CTS, ("sot", 0, 1, 3)], "WrongNumber", "against 5|number 1 3 after 1 1"),
    "129 files on": ([*ONE_BYTE, ACK, RTS, CTS, ("sot", 0, 130, 1)], "WrongNumber", "against 5|number 130 1 after 1 1"),
    "a file back": ([RTS, CTS, ("sot", 0, 2, 1), RTS, CTS, SOT], "WrongNumber", "against 2|number 1 1 after 2 1"),
    "another identifier": ([RTS, CTS, SOT, RTS, CTS, SOT, RTS, CTS, ("sot", 1, 1, 1)], "OtherBlock", "against 5|start word {8}, before {2}"),
    "another count": ([RTS, CTS, SOT, LONG, LONG_CTS, SOT], "OtherBlock", "against 2|count 5, before 3"),
    "another end word": ([*ONE_BYTE, RTS, CTS, SOT, ("eot", 0, 0xA3F5)], "OtherBlock", "against 4|end word {8}, before {4}"),
    "two data words of one": ([RTS, CTS, SOT, ("data", 3, 3), *ONE_BYTE], "NoRun", "against 0|words of both, more than 3"),
    "two data words of one, before its end word": ([RTS, CTS, SOT, ("data", 3, 3), *ONE_BYTE[:4]], "NoRun", "against 0|words of both, more than 3"),
    "two data words of one, with no start word": (
        [RTS, CTS, SOT, RTS, CTS, ("data", 3, 3), *ONE_BYTE[:4]],
        "NoRun",
        "against 3|words of both, more than 3",
    ),
    "another count in between": ([RTS, CTS, SOT, LONG, LONG_CTS, FIRST, RTS, CTS, SOT], "NoRun", "against 3|count 3, before 5"),
    "another data word": ([*WHOLE, LONG, LONG_CTS, SOT, FIRST, THIRD, SECOND], "OtherBlock", "against 6|word {12}, the block goes on with {6}"),
}


class Opposing(unittest.TestCase):
    def test_rows_worked_out_by_hand(self):
        profile = Profile()
        for name, (messages, reason, wanted) in ROWS.items():
            with self.subTest(name):
                entries = [profile.word(message) for message in messages]
                texts = {str(n): f"{word:08X}" for n, (_, word) in enumerate(entries)}
                for n, text in texts.items():
                    wanted = wanted.replace("{" + n + "}", text)
                self.assertEqual(lines_below(profile, entries, len(entries) - 1, reason), wanted.split("|"))

    def test_a_verdict_that_names_no_word_is_all(self):
        for said in (["YES files 1", "file 1 1"], ["UNEXPLAINED 0 NeverWhole"], ["UNEXPLAINED 3 NotOneBlock"]):
            self.assertEqual(lines_of(Profile(), [("A", 0)] * 4, said), said)


if __name__ == "__main__":
    unittest.main()
