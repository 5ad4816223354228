"""A second model of `a429 history`, for any profile: the pieces of a recording, and what it has to print of each.
scripts/test_telling.py tests it. It is written from the definitions in a429_sink, and not from the program. All entries are in memory
here, so it looks ahead where the program has to wait.
"""

from cutting import start_of_file
from tracing import Sink, is_final, message_of


# ---- what no run records, wherever the recording begins


class Glimpse(Sink):
    """An observer to which phase and unit accepted last are not known at first: the phase is from the first request or clear answer on."""

    def __init__(self, profile):
        super().__init__(profile)
        self.is_known = False

    def may_come(self, file, ldu):
        return self.accepted is None or super().may_come(file, ldu)

    def accept(self):
        self.accepted = (*self.start[2:], is_final(self.profile, self.flags))

    def see(self, message):
        """Takes a message, unless no run records it."""
        if self.is_known and not self.allows(message):
            return False
        self.is_known = self.is_known or message[0] in ("rts", "cts")
        if message[0] == "cts":
            self.count = message[1]
        if self.is_known:
            self.take(message)
        return True


def reason_of(bus, message):
    """Why no run records a word that is refused."""
    return "NoForm" if isinstance(message, str) else "NotGranted" if bus == "A" else "WrongAnswer"


def first_refused(profile, entries):
    """The first of these entries that no run records after those before it, whatever came before; None if there is none."""
    glimpse = Glimpse(profile)
    for n, (bus, word) in enumerate(entries):
        message = message_of(profile, bus, word)
        if isinstance(message, str) and message.startswith("free"):
            continue
        if isinstance(message, str) or not glimpse.see(message):
            return n
    return None


# ---- pieces


def places(profile, entries):
    """The requests of these entries that begin a file."""
    messages = [message_of(profile, bus, word) for bus, word in entries]
    starts = [(n, *message[2:]) for n, message in enumerate(messages) if message[0] == "sot"]
    requests = [n for n, message in enumerate(messages) if message[0] == "rts"]
    return [n for n in requests if start_of_file(profile, n, starts, requests) is not None]


def sizes_of(profile, entries):
    """How many entries each piece has."""
    begin, sizes, found = 0, [], places(profile, entries)
    while True:
        refused = first_refused(profile, entries[begin:])
        later = [place for place in found if place > begin]
        if refused is None or not later:
            return [*sizes, len(entries) - begin]
        before = [place for place in later if place <= begin + refused]
        sizes.append((before[-1] if before else later[0]) - begin)
        begin += sizes[-1]


def goes_on_with_file(profile, messages):
    """Whether the first start word after a request is not that of a file's first unit."""
    is_asked = False
    for message in messages:
        is_asked = is_asked or message[0] == "rts"
        if is_asked and message[0] == "sot":
            return message[3] != profile.first_ldu
    return False


# ---- what is sure of a piece


class Known:
    """What is known of the sink: its block, as far as it is recorded; the unit acknowledged last; the bytes of the file under way, if all are
    known; the files that have crossed; and the acknowledged units of files that are not whole."""

    def __init__(self, profile):
        self.profile = profile
        self.forget()

    def forget(self):
        self.phase, self.block, self.flags = "quiet", None, 0
        self.last, self.bytes, self.files = None, None, []
        self.open, self.left = None, []

    def learn(self, message):
        name = message[0]
        if name in ("rts", "nak"):
            self.phase = "quiet"
        elif name == "cts":
            self.phase = "granted"
        elif name == "sot" and self.phase in ("granted", "block"):
            self.phase, self.block = "block", (message[2:], [])
        elif name == "data" and self.phase == "block":
            self.block[1].extend(message[1:])
        elif name == "eot" and self.phase in ("granted", "block"):
            self.phase, self.flags = "ended" if self.phase == "block" else "quiet", message[1]
        elif name == "ack":
            self.acknowledge()

    def acknowledge(self):
        if self.phase != "ended":
            self.forget()
            return
        self.phase = "quiet"
        (file, ldu), semis = self.block
        before, self.last = self.last, (file, ldu)
        if before == self.last:
            return
        data = bytes(low | high << 4 for low, high in zip(semis[::2], semis[1::2]))
        if ldu == self.profile.first_ldu:
            self.bytes = data
        elif before and before[0] == file and self.bytes is not None:
            self.bytes += data
        else:
            self.bytes = None
        if self.open and (self.open[0] != file or ldu == self.profile.first_ldu):
            self.left.append(self.open)
            self.open = None
        self.open = (file, self.open[1] if self.open else ldu, ldu)
        if is_final(self.profile, self.flags):
            if self.bytes is None:
                self.left.append(self.open)
            else:
                self.files.append((file, self.bytes))
            self.bytes, self.open = None, None

    def not_whole(self):
        return self.left + [self.open] * (self.open is not None)


def known_of(profile, entries):
    """What is known by the end of these entries."""
    known = Known(profile)
    for bus, word in entries:
        message = message_of(profile, bus, word)
        if isinstance(message, tuple):
            known.learn(message)
    return known


# ---- the lines

# The last line: how the others are meant.
CAVEAT = "a file listed has crossed, here or before; that a part ends there is an assumption"


def lines_of(profile, entries):
    """The lines of `history`, and the files of each piece."""
    lines, files, begin = [], [], 0
    for k, size in enumerate(sizes_of(profile, entries), 1):
        piece = entries[begin : begin + size]
        messages = [message_of(profile, bus, word) for bus, word in piece]
        refused = first_refused(profile, piece)
        # No run goes on with the refused word, so what comes after it says nothing.
        known = known_of(profile, piece[:refused])
        lines.append(f"part {k} entries {size} from {begin}")
        if goes_on_with_file(profile, messages):
            lines.append("begun before")
        if refused is not None:
            lines.append(f"stopped {begin + refused} {reason_of(piece[refused][0], messages[refused])}")
        lines += [f"file {number} {len(data)}" for number, data in known.files]
        lines += [f"open {number} units {first} to {last}" for number, first, last in known.not_whole()]
        files.append(known.files)
        begin += size
    return lines, files
