"""A slow walk of source and sink, for scripts/test-impossible: all states in which the steps of docs/TRANSFER.md can be after
recorded words. It is written apart from the program and from transfers.py, for a few words and one small set of link data
units, and follows each step that may be made.
"""

from typing import NamedTuple

# A message is a name and numbers: ("rts", n), ("cts", n), ("sot", gfi, file, ldu), ("data", semi, ..), ("eot", flags, check),
# ("ack", file, ldu), ("nak", bits). Only the flags 0 and 1 are used; flag 1 ends a file.


class State(NamedTuple):
    """Where source and sink are, and the messages between them."""

    # the source: its number, its block if it has one, the files given up since an acknowledgement, what it does, words sent
    file: int
    ldu: int
    block: tuple
    given_up: int
    source: str
    sent: int
    # the sink: what it does, the count of the last request, its block, and the number accepted last, with its final flag
    sink: str
    count: int
    taken: tuple
    accepted: object
    to_sink: tuple
    to_source: tuple


class Walk:
    """The states of transfers whose link data units have blocks of these, with every number in place of the one that a start
    word has. Files after the last one are left out: no word of the recordings needs them."""

    def __init__(self, blocks, first_ldu, files):
        self.blocks, self.first_ldu, self.files = blocks, first_ldu, files

    def starts(self):
        return {State(file, self.first_ldu, (), 0, "I", 0, "Q", 0, (), None, (), ()) for file in self.files}

    def after(self, states, message):
        """All states after one more recorded message."""
        return {after for state in self.closed(states) for after in self.records(state, message)}

    def closed(self, states):
        """These states, and those that steps lead to which record nothing."""
        known, left = set(states), list(states)
        while left:
            for after in self.silent_steps(left.pop()):
                if after not in known:
                    known.add(after)
                    left.append(after)
        return known

    # steps that record a message

    def records(self, s, message):
        if message == self.next_word(s):
            yield self.sent_one(s)._replace(to_sink=s.to_sink + (message,))
        name = message[0]
        if name == "cts" and s.sink == "c" and message[1] == s.count:
            yield s._replace(sink="G", to_source=s.to_source + (message,))
        elif name == "ack" and s.sink == "A" and message[1:] == s.taken[0][2:]:
            accepted = s.accepted
            if accepted is None or accepted[:2] != message[1:]:
                accepted = (*message[1:], s.taken[-1][1])
            yield s._replace(sink="Q", taken=(), accepted=accepted, to_source=s.to_source + (message,))
        elif name == "nak" and s.sink in "AN":
            yield s._replace(sink="Q", taken=(), to_source=s.to_source + (message,))

    def next_word(self, s):
        if s.source == "I" and s.block:
            return "rts", len(s.block)
        return s.block[s.sent] if s.source == "S" else None

    def sent_one(self, s):
        if s.source == "I":
            return s._replace(source="C")
        sent = s.sent + 1
        return s._replace(sent=sent, source="W" if sent == len(s.block) else "S")

    # steps that record nothing

    def silent_steps(self, s):
        owes = s.sink in "cAN"
        if s.source == "I":
            if not s.block and s.ldu <= self.first_ldu + 254:
                for gfi, *rest in self.blocks:
                    yield s._replace(block=(("sot", gfi, s.file, s.ldu), *rest))
            if s.given_up <= 126 and s.file + 1 in self.files:
                yield s._replace(file=s.file + 1, ldu=self.first_ldu, block=(), given_up=s.given_up + 1)
        if self.next_word(s):
            yield self.sent_one(s)
        if s.source in "CW" and not s.to_sink and not s.to_source and not owes:
            yield s._replace(source="I", sent=0)
        if s.to_source:
            yield s._replace(to_source=s.to_source[1:])
            yield self.heard(s, s.to_source[0])
        if owes:
            yield s._replace(sink="Q", taken=())
        elif s.to_sink:
            yield self.taken(s._replace(to_sink=s.to_sink[1:]), s.to_sink[0])

    def heard(self, s, answer):
        s = s._replace(to_source=s.to_source[1:])
        if s.source == "C" and answer == ("cts", len(s.block)):
            return s._replace(source="S", sent=0)
        if s.source == "W" and answer == ("ack", s.file, s.ldu):
            number = (s.file + 1, self.first_ldu) if s.block[-1][1] else (s.file, s.ldu + 1)
            return s._replace(file=number[0], ldu=number[1], block=(), given_up=0, source="I", sent=0)
        if s.source == "W" and answer[0] == "nak":
            return s._replace(source="I", sent=0)
        return s

    def taken(self, s, message):
        name = message[0]
        if name == "rts":
            return s._replace(sink="c", count=message[1], taken=())
        if name == "sot" and s.sink in "GB":
            return s._replace(sink="B", taken=(message,))
        if name == "data" and s.sink == "B":
            return s._replace(taken=s.taken + (message,))
        if name == "eot" and s.sink == "B":
            block = s.taken + (message,)
            return s._replace(sink="A", taken=block) if self.is_good(s, block) else s._replace(sink="N", taken=())
        return s._replace(sink="N") if name == "eot" and s.sink == "G" else s

    def is_good(self, s, block):
        semis = sum(len(message) - 1 for message in block[1:-1])
        if len(block) != s.count or semis % 2:
            return False
        file, ldu = block[0][2:]
        if s.accepted is None:
            return ldu == self.first_ldu
        file_before, ldu_before, was_final = s.accepted
        if file == file_before:
            return ldu == ldu_before or not was_final and ldu == ldu_before + 1 <= self.first_ldu + 254
        return ldu == self.first_ldu and (file - file_before) % 256 <= 128
