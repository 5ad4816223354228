"""The decoder. It is written for libsigrokdecode's interface of version 3."""

import sigrokdecode as srd

NULL = (0, 0)
ONE = (1, 0)
ZERO = (0, 1)
WORD, FAULT, BIT = 0, 1, 2
WORDS = 0


class Decoder(srd.Decoder):
    api_version = 3
    id = "arinc429"
    name = "ARINC 429"
    longname = "ARINC 429 receiver lines"
    desc = "Words of an ARINC 429 bus, from a receiver's lines for ones and zeros."
    license = "unknown"
    inputs = ["logic"]
    outputs = []
    tags = ["Automotive", "Embedded/industrial"]
    channels = (
        {"id": "one", "name": "One", "desc": "Line for ones"},
        {"id": "zero", "name": "Zero", "desc": "Line for zeros"},
    )
    options = (
        {"id": "rate", "desc": "Bits per second", "default": 100000, "values": (12500, 100000)},
        {"id": "bus", "desc": "Bus that the rows name", "default": "A", "values": ("A", "B")},
    )
    annotations = (("word", "Row of a recording"), ("fault", "No word"), ("bit", "Bit of a word"))
    annotation_rows = (("bits", "Bits", (BIT,)), ("words", "Words", (WORD,)), ("faults", "Faults", (FAULT,)))
    binary = (("words", "Words, four bytes each, bit 32 first"),)

    def __init__(self):
        self.reset()

    def reset(self):
        self.samplerate = None
        self.begin_word()

    def start(self):
        self.annotations_out = self.register(srd.OUTPUT_ANN)
        self.binary_out = self.register(srd.OUTPUT_BINARY)

    def metadata(self, key, value):
        if key == srd.SRD_CONF_SAMPLERATE:
            self.samplerate = value

    def begin_word(self):
        """Forgets the bits of the last word."""
        self.bits, self.first, self.last, self.fault = [], None, None, None

    def end_word(self):
        """Writes the row of the bits since the last gap, or what is wrong with them."""
        if self.first is None:
            return
        if not self.fault and len(self.bits) != 32:
            self.fault = f"{len(self.bits)} bits"
        time = self.last * 1000000 // self.samplerate
        word = sum(bit << place for place, bit in enumerate(self.bits))
        kind, text = (FAULT, self.fault) if self.fault else (WORD, f"{word:08X}")
        self.put(self.first, self.last, self.annotations_out, [kind, [f"{time},{self.options['bus']},{text}", text]])
        if kind == WORD:
            self.put(self.first, self.last, self.binary_out, [WORDS, word.to_bytes(4, "big")])
        self.begin_word()

    def end_pulse(self, level, begin):
        """Takes a bit: the lines had this level since the sample `begin`, and are low now."""
        half_bits = 2 * (self.samplenum - begin) * self.options["rate"] / self.samplerate
        if not 0.5 < half_bits < 1.5:
            self.fault = self.fault or f"pulse of {half_bits:.2g} half bits"
        bit = int(level == ONE)
        self.bits.append(bit)
        number = len(self.bits)
        self.put(begin, self.samplenum, self.annotations_out, [BIT, [f"bit {number}: {bit}", f"{number}: {bit}", f"{bit}"]])

    def decode(self):
        if not self.samplerate:
            raise ValueError("the sample rate is not known")
        edges = [{0: "e"}, {1: "e"}]
        one_bit = {"skip": max(1, self.samplerate // self.options["rate"])}
        level, begin = self.wait(), self.samplenum
        while True:
            is_gap = level == NULL and self.first is not None
            now = self.wait(edges + [one_bit] if is_gap else edges)
            if level == now == NULL:
                self.end_word()
                continue
            if self.first is None:
                self.first = self.samplenum if level == NULL else begin
            if level in (ONE, ZERO) and now == NULL:
                self.end_pulse(level, begin)
            elif level != NULL or now not in (ONE, ZERO):
                self.fault = self.fault or "pulses overlap"
            level, begin, self.last = now, self.samplenum, self.samplenum
