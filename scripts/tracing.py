"""A second model of `a429 trace`, for any profile: what it has to write of a recording. scripts/test-hostile, scripts/test-decide and
scripts/test_tracing.py compare with it. It is written from docs/TRANSFER.md and TRACE.md, and not from the program: a word is a
message, a name and its numbers, as in transfers.py, and what may come next is a list of texts.
"""

from reading import Refused, timed_entries

# The forms of a bus, by their types and codes in the order of the profile's keys.
PROTOCOL = {"A": ("rts", None, None, None), "B": (None, "cts", "ack", "nak")}


# ---- words


def message_of(profile, bus, word):
    """The form of a word as a message; or why it has none, as a text: why it is free, or that it has no form."""
    if bin(word).count("1") % 2 == 0:
        return "free parity"
    if word & 255 != profile.label(bus):
        return "free label"
    kind, upper = word >> 28 & 7, word >> 24 & 15
    if kind in profile.types[5:]:
        return "free type"
    if kind == profile.types[2] and upper in profile.codes[4:]:
        return "free code"
    return form_on(profile, bus, word, profile.destination)


def other_message_of(profile, bus, word):
    """The form that a word without one has in the other direction, whatever its destination."""
    return form_on(profile, "BA"["AB".index(bus)], word, word >> 16 & 255)


def form_on(profile, bus, word, destination):
    """The form that the numbers of a word have on a bus, for this destination."""
    kind, upper, high, low = word >> 28 & 7, word >> 24 & 15, word >> 16 & 255, word >> 8 & 255
    full, partial, protocol, sot, eot = profile.types[:5]
    if kind == protocol:
        name = dict(zip(profile.codes, PROTOCOL[bus])).get(upper)
        if name in ("rts", "cts"):
            return (name, low) if high == destination and low >= 3 else "no form"
        return {"ack": ("ack", high, low), "nak": ("nak", high << 8 | low)}.get(name, "no form")
    if bus == "B":
        return "no form"
    semis = [word >> place & 15 for place in range(8, 28, 4)]
    if kind == full:
        return ("data", *semis)
    if kind == partial and upper in profile.partial:
        size = profile.partial.index(upper) + 1
        return "no form" if any(semis[size:4]) else ("data", *semis[:size])
    return {sot: ("sot", upper, high, low), eot: ("eot", upper, high << 8 | low)}.get(kind, "no form")


def gap_of(profile, bus, word):
    """The first number in a word of neither direction that no form has there, as `trace` says it."""
    kind, upper, high, low = word >> 28 & 7, word >> 24 & 15, word >> 16 & 255, word >> 8 & 255
    full, partial, protocol, sot, eot = profile.types[:5]
    rts, cts = profile.codes[:2]
    if kind not in (full, partial, protocol, sot, eot):
        return f"type {kind}"
    if kind == partial and upper in profile.partial:
        return "semi-octets"
    if kind == partial or upper not in (rts, cts):
        return f"code {upper}"
    is_asked = upper == {"A": rts, "B": cts}[bus]
    return f"destination {high}" if is_asked and high != profile.destination else f"count {low}"


def text_of(profile, message):
    """A message as `forms` says it."""
    name, *numbers = message
    if name == "sot":
        gfi, file, ldu = numbers
        return f"sot {file} {ldu} gfi {gfi}"
    if name == "data":
        return "data " + "".join(f"{semi:X}" for semi in numbers)
    if name == "eot":
        flags, check = numbers
        return f"eot flags {flags} check {check:04X}{' final' if is_final(profile, flags) else ''}"
    if name == "nak":
        return f"nak {numbers[0]:04X}"
    return " ".join(map(str, message))


def what_is(profile, bus, word):
    """What a word is to the transfer, and of a damaged one what it would be else."""
    message = message_of(profile, bus, word)
    if isinstance(message, tuple):
        return text_of(profile, message)
    intact = message_of(profile, bus, word ^ 1 << 31)
    if message == "free parity" and isinstance(intact, tuple):
        return f"free parity, else {text_of(profile, intact)}"
    other = other_message_of(profile, bus, word)
    if message == "no form" and isinstance(other, tuple):
        return f"other {text_of(profile, other)}"
    return f"no form, {gap_of(profile, bus, word)}" if message == "no form" else message


def is_final(profile, flags):
    return flags >> profile.final_bit - 25 & 1 == 1


# ---- the sink


class Sink:
    """A sink that takes each word of bus A, and gives each answer of bus B, at the moment it is recorded."""

    def __init__(self, profile):
        self.profile = profile
        # what the last request asked for; the start word taken under the grant; the data words recorded, and those taken
        self.phase, self.count, self.start, self.recorded, self.taken = "quiet", 0, None, 0, []
        self.flags, self.why = 0, None
        self.accepted, self.unfinished, self.files = None, 0, []

    def allowed(self):
        """What may be recorded next, besides free words."""
        kinds = ["rts"]
        if self.phase == "granted":
            kinds += ["sot"] * (self.start is None and self.recorded == 0)
            kinds += ["data"] * (self.recorded < self.count - 2)
            kinds.append("eot")
        elif self.phase == "owes cts":
            kinds.append(f"cts {self.count}")
        elif self.phase == "owes ack":
            kinds += [f"ack {self.number()}", "nak"]
        elif self.phase == "owes nak":
            kinds.append("nak")
        return kinds

    def allows(self, message):
        name = message[0]
        return (" ".join(map(str, message)) if name in ("cts", "ack") else name) in self.allowed()

    def number(self):
        """File and link data unit of the block."""
        return "{} {}".format(*self.start[2:])

    def take(self, message):
        """The sink after a message that is allowed, as a text."""
        name = message[0]
        if name == "rts":
            self.phase, self.count, self.start = "owes cts", message[1], None
        elif name == "cts":
            self.phase, self.start, self.recorded, self.taken = "granted", None, 0, []
        elif name == "sot":
            self.start = message
        elif name == "data":
            self.recorded += 1
            self.taken += [message] if self.start else []
        elif name == "eot":
            self.flags, check = message[1:]
            self.why = self.why_bad(check)
            self.phase = "owes nak" if self.why else "owes ack"
        else:
            self.phase = "quiet"
            return self.accept() if name == "ack" else "quiet"
        return self.text()

    def text(self):
        if self.phase == "granted" and self.start:
            return f"in block {self.number()}, {len(self.taken)} of {self.count - 2} data words"
        last = {"owes cts": f" {self.count}", "granted": f" {self.count}", "owes nak": f", {self.why}"}
        return self.phase + (f" {self.number()}" if self.phase == "owes ack" else last[self.phase])

    def semis(self):
        return [semi for message in self.taken for semi in message[1:]]

    def carried(self):
        return bytes(low | high << 4 for low, high in zip(self.semis()[::2], self.semis()[1::2]))

    def why_bad(self, check):
        """The first reason why the block is not good, or None."""
        if self.start is None:
            return "no start word"
        if len(self.taken) != self.count - 2:
            return f"{len(self.taken)} of {self.count - 2} data words"
        if len(self.semis()) % 2 == 1:
            return f"{len(self.semis())} semi-octets"
        wanted = self.profile.check_word(self.carried())
        if self.profile.compare and check != wanted:
            return f"check word {wanted:04X}"
        return None if self.may_come(*self.start[2:]) else "out of sequence"

    def may_come(self, file, ldu):
        first = self.profile.first_ldu
        if self.accepted is None:
            return ldu == first
        last_file, last_ldu, was_final = self.accepted
        if file == last_file:
            return ldu == last_ldu or not was_final and ldu == last_ldu + 1 <= first + 254
        return ldu == first and (file - last_file) % 256 <= 128

    def accept(self):
        """The sink after its acknowledgement: it has the block, and perhaps a file."""
        file, ldu = self.start[2:]
        before = self.accepted
        if before and before[:2] == (file, ldu):
            return f"quiet, again {self.number()}"
        kept = self.unfinished if before and before[0] == file else 0
        self.accepted = file, ldu, is_final(self.profile, self.flags)
        self.unfinished = kept + len(self.carried())
        text = f"quiet, accepts {self.number()}"
        if not self.accepted[2]:
            return text
        self.files.append((file, self.unfinished))
        self.unfinished = 0
        return f"{text}, file {file} crosses, {self.files[-1][1]} bytes"


# ---- recordings

# The last line where no word is refused: of which transfers the lines above it speak.
PREMISE = "if there is such a transfer, which decide finds out; if there is none, see sink"


def lines_of(profile, entries):
    """The lines of `trace` for entries with a bus, a word and a time."""
    sink = Sink(profile)
    for n, (bus, word, time) in enumerate(entries):
        if word & 255 != profile.label(bus):
            continue
        line, message = f"{n} {time} {bus} {word:08X} {what_is(profile, bus, word)}", message_of(profile, bus, word)
        if isinstance(message, str) and message.startswith("free"):
            yield line
        elif isinstance(message, tuple) and sink.allows(message):
            yield f"{line} | {sink.take(message)}"
        else:
            yield f"{line} | refused, allowed: {', '.join(sink.allowed())}"
            reason = "NoForm" if isinstance(message, str) else "NotGranted" if bus == "A" else "WrongAnswer"
            yield f"IMPOSSIBLE {n} {reason}"
            return
    yield f"ONLY files {len(sink.files)}"
    yield from (f"file {number} {size}" for number, size in sink.files)
    yield PREMISE


def traced(profile, recording):
    """What `trace` has to write of the bytes of a recording: the status, the lines, and the error line, if there is one."""
    lines, fault = [], None
    try:
        for line in lines_of(profile, timed_entries(recording, None)):
            lines.append(line)
    except Refused as why:
        fault = str(why)
    status = 3 if fault else 1 if lines[-1].startswith("IMPOSSIBLE ") else 0
    return status, lines, fault
