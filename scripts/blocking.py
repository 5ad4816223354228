"""A second model of `a429 blocks`, for any profile: what it has to write of a recording. scripts/test_blocking.py compares it with rows
written by hand. It is written from docs/BLOCKS.md and TRANSFER.md, and not from the program: the entries are cut into attempts first, and
each column is then a question to the entries of one attempt and to the sink of tracing.py, which takes them one after the other.
"""

from dataclasses import dataclass, field

from reading import Refused, timed_entries
from tracing import Sink, message_of

COLUMNS = "first,last,from,to,file,ldu,asked,got,damaged,outcome,why"

# The reasons of `trace` by what they end in, or are.
REASONS = {"no start word": "no-start", "data words": "too-few", "semi-octets": "half-bytes", "out of sequence": "sequence"}


@dataclass
class Recorded:
    """An entry with its number, its message or why it has none, and what the sink does then, where its word is allowed."""

    entry: int
    time: int
    bus: str
    has_label: bool
    message: tuple | str
    sink: str = ""

    def name(self):
        return self.message[0] if isinstance(self.message, tuple) else ""

    def is_damaged(self):
        return self.has_label and self.bus == "A" and self.message == "free parity"


@dataclass
class Attempt:
    """A request, with all that is recorded after it up to the next request."""

    request: Recorded
    after: list = field(default_factory=list)

    def row(self, is_last):
        labelled = [self.request, *(item for item in self.after if item.has_label)]
        ends = [self.request, labelled[-1]]
        starts = [item.message[2:] for item in self.after if item.name() == "sot"]
        got = sum(item.name() in ("sot", "data", "eot") for item in self.after)
        damaged = sum(item.is_damaged() for item in self.after)
        cells = [*(item.entry for item in ends), *(item.time for item in ends), *(starts[0] if starts else ("", ""))]
        cells += [self.request.message[1], got, damaged, self.outcome(is_last), self.why()]
        return ",".join(map(str, cells))

    def outcome(self, is_last):
        answers = {item.name(): item.sink for item in self.after if item.bus == "B" and item.name()}
        if "ack" in answers:
            return "again" if answers["ack"].startswith("quiet, again ") else "acknowledged"
        if "nak" in answers:
            return "refused"
        if is_last:
            return "open"
        return "unanswered" if "cts" in answers else "ungranted"

    def why(self):
        reasons = [item.sink.removeprefix("owes nak, ") for item in self.after if item.sink.startswith("owes nak, ")]
        if not reasons:
            return ""
        if reasons[0].startswith("check word "):
            return "check"
        return next(word for text, word in REASONS.items() if reasons[0].endswith(text))


def rows_of(profile, entries):
    """The lines for entries with a bus, a word and a time: of attempts that have ended, as soon as they have; the rest at the end."""
    yield COLUMNS
    sink, attempt = Sink(profile), None
    for n, (bus, word, time) in enumerate(entries):
        item = Recorded(n, time, bus, word & 255 == profile.label(bus), message_of(profile, bus, word))
        is_free = isinstance(item.message, str) and item.message.startswith("free")
        if not is_free:
            if not item.name() or not sink.allows(item.message):
                if attempt:
                    yield attempt.row(True)
                yield f"{n},{n},{time},{time},,,,,,not-allowed,"
                return
            item.sink = sink.take(item.message)
        if item.name() == "rts":
            if attempt:
                yield attempt.row(False)
            attempt = Attempt(item)
        elif attempt:
            attempt.after.append(item)
    if attempt:
        yield attempt.row(True)


def blocked(profile, recording):
    """What `blocks` has to write of the bytes of a recording: the status, the lines, and the error line, if there is one."""
    lines, fault = [], None
    try:
        for line in rows_of(profile, timed_entries(recording, None)):
            lines.append(line)
    except Refused as why:
        fault = str(why)
    status = 3 if fault else 1 if lines[-1].endswith(",not-allowed,") else 0
    return status, lines, fault
