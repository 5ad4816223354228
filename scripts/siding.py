"""A second model of `a429 side`, for any profile: what it has to write of a recording, and the counts that it has to print.
scripts/test-decide compares with it. It is written from docs/SIDE.md, and not from the program.
"""

from collections import Counter

from transfers import with_odd_parity

OTHER = {"A": "B", "B": "A"}


def is_free(profile, bus, word):
    """Whether the transfer passes over a word."""
    kind, code = word >> 28 & 7, word >> 24 & 15
    ignored = kind in profile.types[5:] or kind == profile.types[2] and code in profile.codes[4:]
    return bin(word).count("1") % 2 == 0 or word & 255 != profile.label(bus) or ignored


def is_of_line(profile, bus, word):
    """Whether a direction has words with this type and code on this line of its own."""
    full, partial, protocol, sot, eot = profile.types[:5]
    rts, cts, ack, nak = profile.codes[:4]
    kind, code = word >> 28 & 7, word >> 24 & 15
    if bus == "B":
        return kind == protocol and code in (cts, ack, nak)
    return code == rts if kind == protocol else kind in (full, partial, sot, eot)


def sided(profile, entries, line, answer=None):
    """The entries that are written of (bus, word, time), and the lines that are printed."""
    last, written = profile.destination, []
    counts, requests, words, renamed = Counter(), Counter(), Counter(), 0
    for bus, word, time in entries:
        bus = OTHER[bus] if line == "B" else bus
        if is_free(profile, bus, word):
            written.append((bus, word, time))
        elif is_of_line(profile, OTHER[bus], word):
            counts["other"] += 1
        elif not is_of_line(profile, bus, word):
            counts["none"] += 1
            written.append((bus, word, time))
        else:
            is_request = bus == "A" and word >> 28 & 7 == profile.types[2]
            last = word >> 16 & 255 if is_request else last
            if last != profile.destination:
                words[last] += 1
                requests[last] += is_request
                continue
            if answer is not None and bus == "B" and word >> 24 & 15 == profile.codes[1] and word >> 16 & 255 == answer:
                renamed += 1
                word = with_odd_parity(word & 0x7F00FFFF | profile.destination << 16)
            written.append((bus, word, time))
    lines = [f"entries {len(entries)}", f"kept {len(written)}", f"other direction {counts['other']}", f"no direction {counts['none']}"]
    lines += [f"destination {code:02X} requests {requests[code]} words {words[code]}" for code in sorted(words)]
    return written, lines + ([f"clear answers renamed {renamed}"] if answer is not None else [])
