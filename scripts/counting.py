"""A second model of `a429 survey` and `a429 keep`, for any profile: what they have to write of a recording. scripts/test-hostile
compares with it. It is written from docs/RECORDINGS.md and TRANSFER.md, and not from the program.
"""

from collections import Counter

from reading import Refused, timed_entries
from tracing import message_of, other_message_of

KINDS = [
    "rts", "cts", "sot", "data", "eot", "ack", "nak", "other", "no form", "free parity", "free label", "free type", "free code",
]


def entries_before_a_fault(recording):
    """The entries of a recording of any length up to its first fault, and this fault, or none."""
    entries, fault = [], None
    try:
        for entry in timed_entries(recording, None):
            entries.append(entry)
    except Refused as why:
        fault = str(why)
    return entries, fault


def surveyed(profile, recording):
    """The lines of `survey`: the fault of the recording, or what is counted."""
    entries, fault = entries_before_a_fault(recording)
    if fault:
        return [fault]
    times = [time for _, _, time in entries]
    lines = [f"entries {len(entries)}", *([f"from {times[0]} to {times[-1]}"] if times else [])]
    for bus in "AB":
        words = [(n, word) for n, (on, word, _) in enumerate(entries) if on == bus]
        lines += [f"{bus} {len(words)}", *kinds_of(profile, bus, words), *labels_of(bus, words)]
    return lines


def kinds_of(profile, bus, words):
    """A line for each kind of word, with its first entry."""
    kinds = [(kind_of(profile, bus, word), n) for n, word in words]
    for kind in KINDS:
        places = [n for name, n in kinds if name == kind]
        if places:
            yield f"{bus} {kind} {len(places)} first {places[0]}"


def kind_of(profile, bus, word):
    """The kind of a word: the name of its form, or why it has none."""
    message = message_of(profile, bus, word)
    if message == "no form" and isinstance(other_message_of(profile, bus, word), tuple):
        return "other"
    return message if isinstance(message, str) else message[0]


def labels_of(bus, words):
    """A line for each label, which is in bits 1 to 8 from the last to the first, with how many of its words are of even parity."""
    labels, even = Counter(), Counter()
    for _, word in words:
        label = int(f"{word & 255:08b}"[::-1], 2)
        labels[label] += 1
        even[label] += bin(word).count("1") % 2 == 0
    for label in sorted(labels):
        yield f"{bus} label {label:03o} {labels[label]} even {even[label]}"


def kept(profile, recording):
    """The lines of `keep`: the entries that have the label of the transfer on their bus, and the fault after them. Where a fault comes
    before each entry, nothing else is written."""
    entries, fault = entries_before_a_fault(recording)
    rows = [f"{time},{bus},{word:08X}" for bus, word, time in entries if word & 255 == profile.label(bus)]
    header = ["time,bus,word"] if entries or not fault else []
    return [*header, *rows, *([fault] if fault else [])]
