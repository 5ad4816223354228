"""A second model of `a429 why`, for any profile: what it has to print below the verdict of `decide`. scripts/test_opposing.py tests it. It is
written from docs/WHY.md and CHECKER.md, and not from the program: the entries before the one that is impossible are walked once, and what is
looked for is the earlier word, or what may come in its place.
"""

from tracing import Sink, message_of

BLOCK = ("sot", "data", "eot")


class Unit:
    """What was recorded of the link data unit whose start word came last."""

    def __init__(self, number, start, count):
        self.number, self.start, self.count, self.end, self.block = number, start, count, None, None


class Watch:
    """The words of a recording so far."""

    def __init__(self, profile):
        self.sink, self.acked, self.unit = Sink(profile), None, None
        # the words of the block since the clear answer, with their messages
        self.attempt = []

    def words(self):
        return [word for word, _ in self.attempt]

    def is_sent(self):
        """Whether the attempt is one to send the unit."""
        return self.unit is not None and self.words()[:1] == [self.unit.start]

    def take(self, n, word, message):
        """Takes entry n, which is allowed."""
        name = message[0]
        if name in ("rts", "cts"):
            self.attempt = []
        elif name == "ack":
            self.acked = n, message[1:]
            self.unit = self.unit if self.unit and self.unit.number == message[1:] else None
        elif name == "sot" and not self.attempt and not (self.unit and self.unit.number == message[2:]):
            self.unit = Unit(message[2:], word, self.sink.count)
        if name in BLOCK:
            sent = self.is_sent()
            self.attempt.append((word, message))
            if name == "eot" and sent:
                self.unit.end = word
                self.unit.block = self.words() if len(self.attempt) == self.sink.count else self.unit.block
        self.sink.take(message)


def passed(words, block):
    """How many words of a block are passed with these, which are some of it in order; None if they are not."""
    at = 0
    for word in words:
        if word not in block[at:]:
            return None
        at += block[at:].index(word) + 1
    return at


def lines_below(profile, entries, n, reason):
    """The lines below the verdict that entry n is impossible, by this reason."""
    watch, last = Watch(profile), {}
    for k, (bus, word, *_) in enumerate(entries[:n]):
        message = message_of(profile, bus, word)
        if isinstance(message, tuple):
            watch.take(k, word, message)
        if bus == "A":
            last[word] = k
    bus, word, *_ = entries[n]
    message = message_of(profile, bus, word)
    if reason in ("NoForm", "NotGranted", "WrongAnswer"):
        return [f"allowed: {', '.join(watch.sink.allowed())}"]
    if reason == "BadBlock":
        return [bad(watch, message)]
    if reason == "WrongNumber":
        return wrong(watch, message, last)
    return other(watch, word, message, last) if reason == "OtherBlock" else rival(attempts_of(profile, entries[: n + 1]))


def bad(watch, message):
    """Why the block makes no unit that this word ends, or whose last data word it is."""
    if message[0] == "data":
        semis = [semi for _, part in [*watch.attempt, (None, message)] if part[0] == "data" for semi in part[1:]]
        return f"semi-octets {len(semis)}, no whole bytes"
    why = watch.sink.why_bad(message[2])
    if why.endswith("semi-octets"):
        return f"semi-octets {why.split()[0]}, no whole bytes"
    return f"check word {message[2]:04X}, that of the bytes is {why.split()[-1]}"


def wrong(watch, message, last):
    """What the number of a start word is held against."""
    number = "number {} {}".format(*message[2:])
    if not watch.sink.may_come(*message[2:]):
        if watch.acked is None:
            return [f"{number}, none acknowledged before"]
        return [f"against {watch.acked[0]}", "{} after {} {}".format(number, *watch.acked[1])]
    return [f"against {last[watch.unit.start]}", "{} after {} {}".format(number, *watch.unit.number)]


def other(watch, word, message, last):
    """What a word is held against that contradicts what was recorded of the same unit."""
    unit = watch.unit
    if message[0] == "sot":
        if word != unit.start:
            return [f"against {last[unit.start]}", f"start word {word:08X}, before {unit.start:08X}"]
        return [f"against {last[unit.start]}", f"count {watch.sink.count}, before {unit.count}"]
    if message[0] == "eot" and word != unit.end and unit.end is not None:
        return [f"against {last[unit.end]}", f"end word {word:08X}, before {unit.end:08X}"]
    return [f"against {last[unit.end]}", f"word {word:08X}, the block goes on with {unit.block[passed(watch.words(), unit.block)]:08X}"]


# ---- attempts of one unit


class Attempt:
    """A request, and the words of the block since its clear answer, also the data words alone."""

    def __init__(self, request, count):
        self.request, self.count, self.words, self.data = request, count, [], []


def attempts_of(profile, entries):
    """The attempts to send the unit of the last one, and the last one: none where the last one does not begin with a start word."""
    number, kept, last, is_named = None, [], Attempt(None, 0), False
    for n, (bus, word, *_) in enumerate(entries):
        message = message_of(profile, bus, word)
        name = message[0] if isinstance(message, tuple) else None
        if name == "rts":
            kept.append(last)
            last, is_named = Attempt(n, message[1]), False
        elif name == "cts":
            last.words, last.data, is_named = [], [], False
        elif name == "ack" and number != message[1:]:
            number, is_named = None, False
        elif name in BLOCK:
            if name == "sot" and not last.words:
                number, kept, is_named = message[2:], kept if number == message[2:] else [], True
            last.words.append(word)
            if name == "data":
                last.data.append(word)
    return [it for it in kept if it.request is not None and is_named], last


def shortest(ours, others):
    """How many words the shortest list has that has both lists, each in its order."""
    row = list(range(len(others), -1, -1))
    for word in reversed(ours):
        before, row = row, [0] * len(row)
        row[-1] = before[-1] + 1
        for k in range(len(others) - 1, -1, -1):
            row[k] = 1 + (before[k + 1] if others[k] == word else min(before[k], row[k + 1]))
    return row[0]


def rival(attempts):
    """The first attempt of which no unit has the words and those of the last."""
    kept, last = attempts
    for it in kept:
        if it.count != last.count:
            return [f"against {it.request}", f"count {last.count}, before {it.count}"]
        if shortest(it.data, last.data) + 2 > last.count:
            return [f"against {it.request}", f"words of both, more than {last.count}"]
    return []


def lines_of(profile, entries, said):
    """The lines of `why` for entries with a bus and a word, where it says so: its verdict, and those that belong below it."""
    if not said[0].startswith("IMPOSSIBLE "):
        return said
    _, n, reason = said[0].split()
    return [said[0], *lines_below(profile, entries, int(n), reason)]
