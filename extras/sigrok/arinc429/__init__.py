"""The words of one ARINC 429 bus, from the two lines of a receiver.

A receiver has a line for ones and a line for zeros. Each bit is a pulse of half a bit's length on one of them; between words both
lines are low for four bits at least (ARINC 429 Part 1). Bit 1 comes first. An annotation `word` is a row `time,bus,word` of a
recording for a429. Its time is where the 32nd pulse ends, in microseconds from the first sample. An annotation `bit` is a bit's number and
its value. The binary output has four bytes for each word, bit 32 first.
"""

from .pd import Decoder
