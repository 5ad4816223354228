"""A second reading of recordings and certificates, under the sample profile: what scripts/test-hostile and
scripts/test-decide hold the program's answers against. It is written from docs/RECORDINGS.md, TRANSFER.md and
CERTIFICATES.md, and not from the program: a state is kept as the text that a line of a certificate spells, and a file
as bytes that grow.
"""

import csv
import re

# The address label of each bus, as it stands in bits 1 to 8.
LABELS = {"A": 0x23, "B": 0xA3}
FREE = ("Free",)
PACKED = b"A429REC1"

STEP = rb"([%s]) (I|C|W|S(\d+)) (Q|c|G|A|N|B(\d+)) (\d+) (\d+)"
# The lines of steps, by the first line.
STEPS = {b"arinc429-cert 1": re.compile(STEP % b"altgdksbn"), b"arinc429-cert 2": re.compile(STEP % b"altgdksbnx")}
LOAD = re.compile(rb"L ([0-9A-F]) ([0-9A-F]) ([0-9A-F]{4})((?: [0-9A-F]{8}){1,253})")
FIRST = re.compile(rb"first (\d+)")


class Refused(Exception):
    """Why there is no yes: the verdict of a certificate, or the fault of a recording."""


# ---- recordings


def records_of(text):
    """The records of the lines of a text."""
    for line in text.split(b"\n"):
        yield from csv.reader([line.decode("latin-1").replace("\0", "?")])


def rows_of(text):
    """The bus, the word and the time of each row after the header; None for one that is no entry."""
    records = (record for record in records_of(text) if record)
    if next(records, None) != ["time", "bus", "word"]:
        raise Refused("recording: header")
    for record in records:
        found = re.fullmatch(r"(\d{1,20}),([AB]),([0-9A-Fa-f]{8})", ",".join(record), re.ASCII)
        fits = found and len(record) == 3 and int(found[1]) < 1 << 64
        yield (found[2], int(found[3], 16), int(found[1])) if fits else None


def pieces_of(packed):
    """The same of a binary recording."""
    for at in range(len(PACKED), len(packed), 13):
        piece = packed[at : at + 13]
        bus = chr(piece[8]) if len(piece) == 13 else None
        yield (bus, int.from_bytes(piece[9:], "big"), int.from_bytes(piece[:8], "big")) if bus in LABELS else None


def timed_entries(recording, most):
    """The bus, the word and the time of each entry, at most so many, and the first fault where its entry is wanted."""
    before = 0
    rows = pieces_of(recording) if recording.startswith(PACKED) else rows_of(recording)
    for n, row in enumerate(rows):
        if n == most:
            raise Refused("recording: too many")
        if row is None:
            raise Refused(f"recording: row {n}")
        if row[2] < before:
            raise Refused(f"recording: time back {n}")
        before = row[2]
        yield row


def entries_of(recording):
    """The same without times, for the commands that read 1,000,000 entries at most."""
    return (row[:2] for row in timed_entries(recording, 1_000_000))


# ---- words


def form_of(bus, word):
    """The form of a word, a name and its numbers; `FREE`, or None where it has none."""
    kind, upper, high, low = word >> 28 & 7, word >> 24 & 15, word >> 16 & 255, word >> 8 & 255
    if bin(word).count("1") % 2 == 0 or word & 255 != LABELS[bus] or kind == 5 or (kind, upper) == (4, 3):
        return FREE
    if kind == 4 and upper == (1 if bus == "A" else 2) and high == 0x41 and low >= 3:
        return ("Ask" if bus == "A" else "Clear", low)
    if bus == "B":
        names = {5: ("Ack", high, low), 6: ("Nak",)}
        return names.get(upper) if kind == 4 else None
    semis = [word >> place & 15 for place in (8, 12, 16, 20, 24)]
    if kind == 0:
        return ("Part", semis)
    if kind == 1 and 1 <= upper <= 4 and not any(semis[upper:4]):
        return ("Part", semis[:upper])
    names = {6: ("Start", high, low), 7: ("End", upper & 1 == 1, high << 8 | low)}
    return names.get(kind)


def with_parity(label, kind, upper, bits):
    word = label | bits << 8 | upper << 24 | kind << 28
    return word | (1 - bin(word).count("1") % 2) << 31


def bytes_of(words):
    """The bytes that data words carry, or None."""
    forms = [form_of("A", word) or FREE for word in words]
    semis = [semi for form in forms if form[0] == "Part" for semi in form[1]]
    if any(form[0] != "Part" for form in forms) or not semis or len(semis) % 2:
        return None
    return bytes(low | high << 4 for low, high in zip(semis[::2], semis[1::2]))


def check_word(data):
    """The remainder of the division, low bits first."""
    register = 0xFFFF
    for byte in data:
        for place in range(8):
            moved = register << 1
            register = moved & 0xFFFF ^ (0x1021 if (moved >> 16 ^ byte >> place) & 1 else 0)
    return int(f"{register:016b}"[::-1], 2) ^ 0xFFFF


# ---- source and sink


class Bench:
    """A source, a sink, and the words between them."""

    def __init__(self, step, file):
        self.step = step
        self.source, self.file, self.ldu, self.unit, self.given_up = "I", file, 1, None, 0
        self.sink, self.count, self.block = "Q", 0, []
        self.to_sink, self.to_source = [], []
        self.last, self.unfinished, self.files = None, b"", []

    def states(self):
        return f"{self.source} {self.sink} {len(self.to_sink)} {len(self.to_source)}"

    def owes(self):
        return self.sink in ("c", "A", "N")

    def sends(self):
        """The words that the source sends, one after the other, beginning with its request."""
        gfi, flags, check, words = self.unit
        start = with_parity(LABELS["A"], 6, gfi, self.file << 8 | self.ldu)
        end = with_parity(LABELS["A"], 7, flags, check)
        return [with_parity(LABELS["A"], 4, 1, 0x4100 | len(words) + 2), start, *words, end]

    def may(self, step):
        """Whether there is a step of this name."""
        is_sending = self.unit is not None and self.source not in ("C", "W")
        waits = self.source in ("C", "W") and not self.to_sink and not self.to_source and not self.owes()
        is_fresh = self.source == "I" and self.unit is None and self.ldu <= 255
        return {
            "L": is_fresh, "a": is_sending, "l": is_sending, "t": waits,
            "g": bool(self.to_source), "d": bool(self.to_source), "k": bool(self.to_sink) and not self.owes(),
            "s": self.owes(), "b": self.owes(), "n": True, "x": self.source == "I" and self.given_up <= 126,
        }[step]

    def send(self, seen):
        sent = 0 if self.source == "I" else int(self.source[1:]) + 1
        words = self.sends()
        if seen is not None:
            if seen != ("A", words[sent]):
                return False
            self.to_sink.append(seen[1])
        self.source = "C" if sent == 0 else "W" if sent + 1 == len(words) else f"S{sent}"
        return True

    def hear(self):
        answer = form_of("B", self.to_source.pop(0))
        if self.source == "C" and answer == ("Clear", len(self.unit[3]) + 2):
            self.source = "S0"
        elif self.source == "W" and answer == ("Nak",):
            self.source = "I"
        elif self.source == "W" and answer == ("Ack", self.file, self.ldu):
            is_last = self.unit[1] & 1 == 1
            self.source, self.unit, self.given_up = "I", None, 0
            self.file, self.ldu = ((self.file + 1) % 256, 1) if is_last else (self.file, self.ldu + 1)

    def take(self):
        word = self.to_sink.pop(0)
        name, *numbers = form_of("A", word)
        if name == "Ask":
            self.sink, self.count = "c", numbers[0]
        elif name == "Start" and self.sink != "Q":
            self.sink, self.block = "B1", [numbers]
        elif name == "Part" and self.sink[0] == "B":
            self.block.append(word)
            self.sink = f"B{len(self.block)}"
        elif name == "End" and self.sink != "Q":
            self.block.append(numbers)
            self.sink = "A" if self.sink[0] == "B" and self.is_good() else "N"

    def is_good(self):
        numbers, *words, (_, check) = self.block
        carried = bytes_of(words)
        is_whole = len(words) + 2 == self.count and carried is not None
        return is_whole and check_word(carried) == check and self.comes(*numbers)

    def comes(self, file, ldu):
        """These numbers are the last accepted ones, or come next, after files that were given up, too."""
        if self.last is None:
            return ldu == 1
        last_file, last_ldu, is_final = self.last
        if file != last_file:
            return ldu == 1 and (file - last_file) % 256 <= 128
        return ldu == last_ldu or not is_final and ldu == last_ldu + 1

    def answer(self, seen):
        bus, word = seen
        form = form_of(bus, word)
        if bus != "B" or form is None or form is FREE:
            return False
        if self.sink == "c":
            self.sink, fits = "G", form == ("Clear", self.count)
            return fits
        if self.sink == "A" and form == ("Ack", *self.block[0]):
            self.accept(*self.block[0], self.block[-1][0])
        elif form != ("Nak",):
            return False
        self.sink = "Q"
        return True

    def accept(self, file, ldu, is_final):
        if self.last is not None and self.last[:2] == (file, ldu):
            return
        if self.last is not None and self.last[0] != file:
            self.unfinished = b""
        self.last = (file, ldu, is_final)
        self.unfinished += bytes_of(self.block[1:-1])
        if is_final:
            self.files.append((file, self.unfinished))
            self.unfinished = b""

    def make(self, step, seen):
        """Makes a step that there is; whether it has this word."""
        if step in "al":
            return self.send(seen)
        if step == "b":
            fits = self.answer(seen)
            self.to_source.append(seen[1])
            return fits
        if step == "n":
            return form_of(*seen) is FREE
        if step == "g":
            self.hear()
        elif step == "k":
            self.take()
        elif step == "d":
            self.to_source.pop(0)
        elif step == "t":
            self.source = "I"
        elif step == "s":
            self.sink = "Q"
        elif step == "x":
            self.file, self.ldu, self.unit, self.given_up = (self.file + 1) % 256, 1, None, self.given_up + 1
        return True


# ---- certificates


def number_in(text, most, least=0):
    """Whether these are the digits of a number, written without leading zeros, in a range."""
    return text is None or text == b"%d" % int(text) and least <= int(text) <= most


def unit_of(found):
    """The link data unit that a line loads, or None where it is none."""
    gfi, flags, check = (int(found[place], 16) for place in (1, 2, 3))
    words = [int(word, 16) for word in found[4].split()]
    carried = bytes_of(words)
    return (gfi, flags, check, words) if carried is not None and check_word(carried) == check else None


def files_of(recording, certificate):
    """The files that cross where the certificate explains the recording."""
    *lines, cut_off = certificate.split(b"\n")
    if not lines or lines[0] not in STEPS:
        raise Refused("NO version")
    first = FIRST.fullmatch(lines[1]) if len(lines) > 1 else None
    if first is None or not number_in(first[1], 255):
        raise Refused("NO line 2")
    bench, entries, used = Bench(STEPS[lines[0]], int(first[1])), entries_of(recording), 0
    for n, line in enumerate(lines[2:], 3):
        used += pass_over(bench, line, n, entries, used)
    if cut_off:
        raise Refused(f"NO line {len(lines) + 1}")
    if next(entries, None) is not None:
        raise Refused(f"NO unfinished {used}")
    return bench.files


def pass_over(bench, line, n, entries, used):
    """Goes over line n, and answers how many entries it uses."""
    load, found = LOAD.fullmatch(line), bench.step.fullmatch(line)
    if load:
        unit = unit_of(load)
        if unit is None or not bench.may("L"):
            raise Refused(f"NO not allowed {n}")
        bench.unit = unit
        return 0
    if not found or not (number_in(found[3], 254) and number_in(found[5], 254, 1)):
        raise Refused(f"NO line {n}")
    if not (number_in(found[6], 255) and number_in(found[7], 255)):
        raise Refused(f"NO line {n}")
    step = found[1].decode()
    if not bench.may(step):
        raise Refused(f"NO not allowed {n}")
    uses = step in "abn"
    seen = next(entries, None) if uses else None
    if uses and (seen is None or not bench.make(step, seen)):
        raise Refused(f"NO word differs {n} {used}")
    if not uses:
        bench.make(step, None)
    if line[2:].decode() != bench.states():
        raise Refused(f"NO state differs {n}")
    return int(uses)


def verdict(recording, certificate):
    """The verdict and the files of a certificate, or the first fault that is met."""
    try:
        files = files_of(recording, certificate)
    except Refused as why:
        return str(why), []
    lines = [f"YES files {len(files)}", *(f"file {number} {len(data)}" for number, data in files)]
    return "\n".join(lines), files
