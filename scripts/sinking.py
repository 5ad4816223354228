"""A second model of `a429 sink`, for any profile: what it has to print of a recording. scripts/test_sinking.py tests it. It is written from
docs/TRANSFER.md, and not from the program: a sink takes each word of bus A when it is recorded, whatever its source sends, and on bus B
it gives what it owes.
"""

from tracing import Sink, message_of

ANSWERS = ("cts", "ack", "nak")


class Alone(Sink):
    """A sink by itself."""

    def owed(self):
        """What it may send, besides free words."""
        return [kind for kind in self.allowed() if kind.split()[0] in ANSWERS]

    def hear(self, message):
        """Takes a message of bus A. Without a grant it passes over all but requests; a start word begins a block, or begins it again."""
        if message[0] != "rts" and self.phase != "granted":
            return
        if message[0] == "sot":
            self.taken = []
        self.take(message)


def is_among(message, kinds):
    """An answer of one of these kinds; a negative answer may have any bits."""
    return ("nak" if message[0] == "nak" else " ".join(map(str, message))) in kinds


def lines_of(profile, entries):
    """The lines of `sink` for entries with a bus and a word."""
    sink, asked, owed_then = Alone(profile), None, []
    for n, (bus, word, *_) in enumerate(entries):
        message = message_of(profile, bus, word)
        if bus == "A" and isinstance(message, tuple):
            if message[0] == "rts":
                asked, owed_then = n, sink.owed()
            sink.hear(message)
        elif bus == "B" and isinstance(message, tuple) and is_among(message, sink.owed()):
            sink.take(message)
        elif bus == "B" and not (isinstance(message, str) and message.startswith("free")):
            was_owed = isinstance(message, tuple) and is_among(message, owed_then)
            before = f" owed before {asked}" if was_owed else ""
            return [f"SINK NO {n}{before} allowed {', '.join(sink.owed()) or 'nothing'}"]
    return [f"SINK YES files {len(sink.files)}", *(f"file {number} {size}" for number, size in sink.files)]
