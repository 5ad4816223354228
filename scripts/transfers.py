"""Transfers by chance, with losses, for scripts/test-decide. It is written from docs/TRANSFER.md, PROFILE.md and
CERTIFICATES.md, and not from the program: a source and a sink make their steps one after the other, and each step appends its
line to a certificate and its word, if it records one, to a recording. A word on its way is a message here, a name and numbers,
so no word is decoded.
"""

import functools
from dataclasses import dataclass
from typing import NamedTuple

# The bits of a byte in reverse, for each byte.
REVERSED = bytes(int(f"{byte:08b}"[::-1], 2) for byte in range(256))


# ---- profiles


@dataclass
class Profile:
    """The numbers of a bench; those of examples/sample.toml where nothing else is said."""

    to_sink: int = 0o304
    to_source: int = 0o305
    destination: int = 0x41
    first_ldu: int = 1
    final_bit: int = 25
    # full, partial, protocol, sot, eot, and the ignored ones
    types: tuple = (0, 1, 4, 6, 7, 5)
    # rts, cts, ack, nak, and the ignored ones
    codes: tuple = (1, 2, 5, 6, 3)
    partial: tuple = (1, 2, 3, 4)
    poly: int = 0x1021
    init: int = 0xFFFF
    xor: int = 0xFFFF
    low_first: bool = True
    compare: bool = True

    def text(self):
        """The profile as a TOML document."""
        kinds = zip(("full", "partial", "protocol", "sot", "eot"), self.types)
        codes = zip(("rts", "cts", "ack", "nak"), self.codes)
        lines = [
            "[transfer]", f'to_sink = "{self.to_sink:03o}"', f'to_source = "{self.to_source:03o}"',
            f"destination = {self.destination}", f"first_ldu = {self.first_ldu}", f"final_bit = {self.final_bit}",
            "[types]", *(f"{name} = {number}" for name, number in kinds), f"ignored = {list(self.types[5:])}",
            "[codes]", *(f"{name} = {number}" for name, number in codes), f"ignored = {list(self.codes[4:])}",
            "[partial]", f"codes = {list(self.partial)}",
            "[check]", f"poly = {self.poly}", f"init = {self.init}", f"xor = {self.xor}",
            f"low_first = {str(self.low_first).lower()}", f"compare = {str(self.compare).lower()}",
        ]  # fmt: skip
        return "".join(f"{line}\n" for line in lines)

    def label(self, bus):
        """The address label of a bus as bits 1 to 8 have it."""
        return REVERSED[self.to_sink if bus == "A" else self.to_source]

    def word(self, message):
        """The bus and the word of a message."""
        name, *numbers = message
        full, partial, protocol, sot, eot = self.types[:5]
        bus = "B" if name in ("cts", "ack", "nak") else "A"
        if name == "data":
            semis = [*numbers, 0, 0, 0, 0][:5]
            bits = sum(semi << 4 * n for n, semi in enumerate(semis[:4]))
            is_full = len(numbers) == 5
            kind, upper = (full, semis[4]) if is_full else (partial, self.partial[len(numbers) - 1])
        elif name == "sot":
            kind, upper, bits = sot, numbers[0], numbers[1] << 8 | numbers[2]
        elif name == "eot":
            kind, (upper, bits) = eot, numbers
        else:
            kind, upper = protocol, self.codes[("rts", "cts", "ack", "nak").index(name)]
            before = [self.destination] if name in ("rts", "cts") else []
            bits = functools.reduce(lambda high, low: high << 8 | low, [*before, *numbers])
        return bus, with_odd_parity(self.label(bus) | bits << 8 | upper << 24 | kind << 28)

    def check_word(self, data):
        """The check word of these bytes."""
        register, steps = self.init, table(self.poly)
        for byte in data.translate(REVERSED) if self.low_first else data:
            register = (register << 8 & 0xFFFF) ^ steps[register >> 8 ^ byte]
        return (int(f"{register:016b}"[::-1], 2) if self.low_first else register) ^ self.xor


def with_odd_parity(word):
    return word | (1 - bin(word).count("1") % 2) << 31


@functools.cache
def table(poly):
    """What a register without any bits becomes by each byte, the highest bit first."""
    sums = []
    for byte in range(256):
        register = byte << 8
        for _ in range(8):
            register = register << 1 ^ (0x10000 | poly if register & 0x8000 else 0)
        sums.append(register)
    return sums


def profile_by_chance(dice, is_even):
    """A profile with a polynomial that ends in 0 or in 1."""
    kinds = dice.sample(range(8), dice.randint(5, 8))
    codes = dice.sample(range(16), dice.randint(4, 8))
    to_sink = dice.randrange(256)
    return Profile(
        to_sink, dice.choice([to_sink, dice.randrange(256)]), dice.randrange(256), dice.randrange(2), dice.randint(25, 28),
        tuple(kinds), tuple(codes), tuple(dice.sample(range(16), 4)), dice.randrange(0, 65536, 2) + (not is_even),
        dice.randrange(65536), dice.randrange(65536), dice.random() < 0.5, is_even or dice.random() < 0.75,
    )  # fmt: skip


# ---- link data units


class Unit(NamedTuple):
    """A link data unit: its messages of data, and its bytes."""

    gfi: int
    flags: int
    check: int
    data: list
    carried: bytes


def semis_of(data):
    return [semi for byte in data for semi in (byte & 15, byte >> 4)]


def cut_unit(profile, data, is_final):
    """The link data unit of these bytes, as a file is cut."""
    semis = semis_of(data)
    messages = [("data", *semis[at : at + 5]) for at in range(0, len(semis), 5)]
    return Unit(0, is_final << profile.final_bit - 25, profile.check_word(data), messages, data)


def unit_by_chance(profile, dice, words, is_final):
    """A link data unit of so many words of data, with partial words anywhere, and any numbers in its start and end word."""
    sizes = [dice.choice([1, 2, 3, 4, 5, 5, 5]) for _ in range(words)]
    if sum(sizes) % 2:
        sizes[dice.randrange(words)] += 1
    sizes = [size if size <= 5 else 4 for size in sizes]
    data = bytes(dice.choice([dice.randrange(256), 0]) for _ in range(sum(sizes) // 2))
    semis = iter(semis_of(data))
    messages = [("data", *(next(semis) for _ in range(size))) for size in sizes]
    final = 1 << profile.final_bit - 25
    flags = dice.randrange(16) & ~final | (final if is_final else 0)
    check = profile.check_word(data) if profile.compare else dice.randrange(65536)
    return Unit(dice.randrange(16), flags, check, messages, data)


# ---- source and sink


class Transfer:
    """A source and a sink, the messages between them, and what was recorded and listed of their steps."""

    def __init__(self, profile, first):
        self.profile = profile
        self.file, self.ldu, self.unit, self.given_up = first, profile.first_ldu, None, 0
        self.source, self.sent, self.block = "I", 0, []
        self.sink, self.count, self.taken = "Q", 0, []
        self.to_sink, self.to_source = [], []
        self.accepted, self.unfinished, self.files = None, b"", []
        # after each entry: how many lines there are, and how many files are delivered
        self.lines, self.entries, self.marks = [f"first {first}"], [], []

    def made(self, letter, entry=None):
        """A step was made, and recorded this."""
        source = f"S{self.sent}" if self.source == "S" else self.source
        sink = f"B{len(self.taken)}" if self.sink == "B" else self.sink
        self.lines.append(f"{letter} {source} {sink} {len(self.to_sink)} {len(self.to_source)}")
        if entry:
            self.entries.append(entry)
            self.marks.append((len(self.lines), len(self.files)))

    def owes(self):
        return self.sink in ("c", "A", "N")

    # the source

    def load(self, unit):
        assert self.source == "I" and self.unit is None and self.ldu <= self.profile.first_ldu + 254
        self.unit = unit
        words = "".join(f" {self.profile.word(message)[1]:08X}" for message in unit.data)
        self.lines.append(f"L {unit.gfi:X} {unit.flags:X} {unit.check:04X}{words}")
        start, end = ("sot", unit.gfi, self.file, self.ldu), ("eot", unit.flags, unit.check)
        self.block = [start, *unit.data, end]

    def send(self, is_lost):
        """The next word of the source, which it is."""
        assert self.unit and self.source in ("I", "S")
        if self.source == "I":
            message, self.source = ("rts", len(self.block)), "C"
        else:
            message = self.block[self.sent]
            self.sent += 1
            self.source = "W" if self.sent == len(self.block) else "S"
        entry = self.profile.word(message)
        if is_lost:
            self.made("l")
        else:
            self.to_sink.append(message)
            self.made("a", entry)
        return entry

    def time_out(self):
        assert self.source in ("C", "W") and not self.to_sink and not self.to_source and not self.owes()
        self.source = "I"
        self.made("t")

    def take_answer(self):
        answer = self.to_source.pop(0)
        if self.source == "C" and answer == ("cts", len(self.block)):
            self.source, self.sent = "S", 0
        elif self.source == "W" and answer == ("ack", self.file, self.ldu):
            self.source, self.given_up = "I", 0
            if self.is_final(self.unit.flags):
                self.next_file()
            else:
                self.ldu += 1
            self.unit = None
        elif self.source == "W" and answer[0] == "nak":
            self.source = "I"
        self.made("g")

    def lose_answer(self):
        self.to_source.pop(0)
        self.made("d")

    def give_up(self):
        assert self.source == "I" and self.given_up <= 126
        self.unit, self.given_up = None, self.given_up + 1
        self.next_file()
        self.made("x")

    def next_file(self):
        self.file, self.ldu = (self.file + 1) % 256, self.profile.first_ldu

    def is_final(self, flags):
        return flags >> self.profile.final_bit - 25 & 1 == 1

    # the sink

    def sink_takes(self):
        assert not self.owes()
        message = self.to_sink.pop(0)
        name = message[0]
        if name == "rts":
            self.sink, self.count = "c", message[1]
        elif name == "sot" and self.sink in ("G", "B"):
            self.sink, self.taken = "B", [message]
        elif name == "data" and self.sink == "B":
            self.taken.append(message)
        elif name == "eot" and self.sink == "B":
            self.taken.append(message)
            self.sink = "A" if self.is_good() else "N"
        elif name == "eot" and self.sink == "G":
            self.sink = "N"
        self.made("k")

    def carried(self):
        """The bytes that the block's data carry, or None."""
        semis = [semi for message in self.taken[1:-1] for semi in message[1:]]
        if not semis or len(semis) % 2:
            return None
        return bytes(low | high << 4 for low, high in zip(semis[::2], semis[1::2]))

    def is_good(self):
        (_, _, file, ldu), (_, _, check), carried = self.taken[0], self.taken[-1], self.carried()
        if len(self.taken) != self.count or carried is None:
            return False
        if self.profile.compare and check != self.profile.check_word(carried):
            return False
        first = self.profile.first_ldu
        if self.accepted is None:
            return ldu == first
        file_before, ldu_before, was_final = self.accepted
        goes_on = not was_final and ldu == ldu_before + 1 <= first + 254
        if file == file_before:
            return ldu == ldu_before or goes_on
        return ldu == first and (file - file_before) % 256 <= 128

    def silent(self):
        assert self.owes()
        self.sink = "Q"
        self.made("s")

    def owed(self):
        """The answer that the sink owes; for a bad block, the one with bits 0."""
        if self.sink == "c":
            return "cts", self.count
        return ("ack", *self.taken[0][2:]) if self.sink == "A" else ("nak", 0)

    def answer(self, message):
        if message[0] == "ack":
            self.accept(*self.taken[0][2:], self.is_final(self.taken[-1][1]))
        self.sink = "G" if message[0] == "cts" else "Q"
        self.to_source.append(message)
        self.made("b", self.profile.word(message))

    def accept(self, file, ldu, is_final):
        if self.accepted and self.accepted[:2] == (file, ldu):
            return
        kept = self.unfinished if self.accepted and self.accepted[0] == file else b""
        self.accepted, self.unfinished = (file, ldu, is_final), kept + self.carried()
        if is_final:
            self.files.append((file, self.unfinished))
            self.unfinished = b""

    # the recorder

    def free_seen(self, bus, word):
        self.made("n", (bus, word))


# ---- by chance


class Habits(NamedTuple):
    """How often what happens."""

    # a word of the source doesn't arrive: lost, or damaged
    lost: float
    # an answer that is owed is left out, or damaged
    silent: float
    # an answer is lost between the recorder and the source
    unheard: float
    # a good block is refused
    refused: float
    # a free word comes, after each step
    free: float
    # a word on its way is taken only after the next one was sent
    late: float
    # a file is given up between two units, or before its first one
    idle: float


class Run:
    """A transfer of files, made by dice."""

    def __init__(self, dice, profile, habits):
        self.dice, self.profile, self.habits = dice, profile, habits
        self.transfer = Transfer(profile, dice.randrange(256))

    def happens(self, often):
        return self.dice.random() < often

    def damaged(self, entry):
        """A word with one bit turned over is recorded: it has even parity, so it is free."""
        bus, word = entry
        self.transfer.free_seen(bus, word ^ 1 << self.dice.randrange(32))

    def free_word(self):
        """A word that has no part in the transfer, of one of the four kinds."""
        profile, dice = self.profile, self.dice
        bus, word = dice.choice("AB"), dice.randrange(1 << 31)
        kinds = ["parity", "label"] + ["type"] * (len(profile.types) > 5) + ["code"] * (len(profile.codes) > 4)
        kind = dice.choice(kinds)
        if kind == "label":
            word = word & ~255 | dice.choice([label for label in range(256) if label != profile.label(bus)])
        else:
            word = word & ~255 | profile.label(bus)
        if kind == "type":
            word = word & ~(7 << 28) | dice.choice(profile.types[5:]) << 28
        elif kind == "code":
            word = word & ~(127 << 24) | profile.types[2] << 28 | dice.choice(profile.codes[4:]) << 24
        word = with_odd_parity(word)
        self.transfer.free_seen(bus, word ^ (1 << 31 if kind == "parity" else 0))

    def transmit(self):
        if not self.happens(self.habits.lost):
            self.transfer.send(False)
        elif self.happens(0.5):
            self.transfer.send(True)
        else:
            self.damaged(self.transfer.send(True))

    def answer(self):
        owed = self.transfer.owed()
        if owed[0] == "nak" or owed[0] == "ack" and self.happens(self.habits.refused):
            owed = ("nak", self.dice.choice([0, self.dice.randrange(65536)]))
        if not self.happens(self.habits.silent):
            self.transfer.answer(owed)
        elif self.happens(0.5):
            self.transfer.silent()
        else:
            self.transfer.silent()
            self.damaged(self.profile.word(owed))

    def attempt(self):
        """A request and what follows, until the source is idle again."""
        transfer, habits = self.transfer, self.habits
        self.transmit()
        while transfer.source != "I":
            if transfer.owes():
                self.answer()
            elif transfer.to_sink and not (transfer.source == "S" and self.happens(habits.late)):
                transfer.sink_takes()
            elif transfer.to_source:
                transfer.lose_answer() if self.happens(habits.unheard) else transfer.take_answer()
            elif transfer.source == "S":
                self.transmit()
            else:
                transfer.time_out()
            if self.happens(habits.free):
                self.free_word()

    def crosses(self, unit):
        """Whether the source sees the unit acknowledged; it asks three to five times."""
        self.transfer.load(unit)
        if self.happens(self.habits.idle):
            return False
        for _ in range(self.dice.randint(3, 5)):
            self.attempt()
            if self.transfer.unit is None:
                return True
        return False

    def send_file(self, units):
        for unit in units:
            if self.happens(self.habits.idle) or not self.crosses(unit):
                self.give_up()
                return

    def give_up(self):
        """This file, and now and then some more."""
        more = self.dice.choice([1, 2, 3, 40]) if self.happens(self.habits.idle) else 0
        for _ in range(1 + more):
            if self.transfer.given_up <= 126:
                self.transfer.give_up()

    def broken_off(self, entries):
        """The recording's first entries, as far as it goes; its files and its certificate."""
        lines, files = self.transfer.marks[entries - 1] if entries else (1, 0)
        lines = self.transfer.lines[:lines]
        version = 2 if any(line[0] == "x" for line in lines) else 1
        certificate = "".join(f"{line}\n" for line in [f"arinc429-cert {version}", *lines])
        return self.transfer.entries[:entries], self.transfer.files[:files], certificate.encode()
