"""The words and check words that docs/TRANSFER.md shows, and the certificate of the run that docs/CERTIFICATES.md shows."""
import random
import unittest

from transfers import Habits, Profile, Run, cut_unit

BLOCK = [("sot", 0, 1, 1), ("data", 1, 4), ("eot", 1, 0xA3F5)]
LINES = """\
arinc429-cert 1
first {first}
L 0 1 A3F5 12004123
a C Q 1 0
k C c 0 0
b C G 0 1
g S0 G 0 0
a S1 G 1 0
k S1 B1 0 0
a S2 B1 1 0
k S2 B2 0 0
a W B2 1 0
k W A 0 0
b W Q 0 1
g I Q 0 0
"""
NEVER = Habits(0, 0, 0, 0, 0, 0, 0)


class Transfers(unittest.TestCase):
    def test_words_of_the_page(self):
        words = [f"{Profile().word(message)[1]:08X}" for message in [("rts", 3), ("cts", 3), *BLOCK, ("data", 1, 4, 2, 4, 3)]]
        self.assertEqual(words, ["41410323", "C24103A3", "60010123", "12004123", "71A3F523", "03424123"])

    def test_check_words_of_the_page(self):
        high_first = Profile(xor=0, low_first=False)
        digits = b"123456789"
        found = [Profile().check_word(digits), high_first.check_word(digits), Profile().check_word(b"A")]
        self.assertEqual(found, [0x906E, 0x29B1, 0xA3F5])

    def test_the_run_of_one_byte(self):
        run = Run(random.Random(1), Profile(), NEVER)
        first = run.transfer.file
        run.send_file([cut_unit(Profile(), b"A", True)])
        entries, files, certificate = run.broken_off(6)
        # (the last step is after the last entry)
        self.assertEqual(certificate.decode(), LINES.format(first=first).removesuffix("g I Q 0 0\n"))
        self.assertEqual((len(entries), files), (6, [(first, b"A")]))
        self.assertEqual(run.broken_off(5)[1], [])


if __name__ == "__main__":
    unittest.main()
