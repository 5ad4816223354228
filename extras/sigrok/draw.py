#!/usr/bin/env python3
"""Draws what a logic analyser sees of a recording, as a VCD file: `draw.py REC [RATE] >lines.vcd`.

Of each bus a receiver has a line for ones and a line for zeros: A1 and A0, B1 and B0. A word's last pulse ends at the time of its
entry, LEAD bits later for all. At RATE, 100000 bits per second unless it is named, a word may take longer than the entries are
apart; it is then drawn later, after all words before it.
"""

import csv
import sys
from typing import NamedTuple

LEAD = 36


class Pulse(NamedTuple):
    """A pulse on a line, by microseconds."""

    begin: int
    end: int
    line: str


def pulses_of(entries: list[tuple[int, str, int]], rate: int) -> list[Pulse]:
    """The pulses of these entries: time, bus and word."""
    bit = 1_000_000 / rate
    pulses, free = [], 0.0
    for time, bus, word in entries:
        begin = max(time + (LEAD - 31.5) * bit, free)
        free = begin + LEAD * bit
        for place in range(32):
            at = begin + place * bit
            pulses.append(Pulse(round(at), round(at + bit / 2), f"{bus}{word >> place & 1}"))
    return pulses


def vcd_of(pulses: list[Pulse]) -> str:
    """A VCD file of these pulses, with a millisecond after the last."""
    lines = ("A1", "A0", "B1", "B0")
    changes: dict[int, list[str]] = {0: [f"0{line}" for line in lines]}
    for pulse in pulses:
        changes.setdefault(pulse.begin, []).append(f"1{pulse.line}")
        changes.setdefault(pulse.end, []).append(f"0{pulse.line}")
    changes.setdefault(max(changes) + 1000, [])
    head = "".join(f"$var wire 1 {line} {line} $end\n" for line in lines)
    body = "".join(f"#{time}\n" + "".join(f"{change}\n" for change in changes[time]) for time in sorted(changes))
    return f"$timescale 1 us $end\n$scope module buses $end\n{head}$upscope $end\n$enddefinitions $end\n{body}"


def entries_of(recording: str) -> list[tuple[int, str, int]]:
    """The entries of a recording in its text form."""
    with open(recording, newline="") as it:
        return [(int(row["time"]), row["bus"], int(row["word"], 16)) for row in csv.DictReader(it)]


if __name__ == "__main__":
    sys.stdout.write(vcd_of(pulses_of(entries_of(sys.argv[1]), int(sys.argv[2]) if len(sys.argv) > 2 else 100000)))
