#!/usr/bin/env python3
"""A second model of `a429 import`: what it has to write of an export by a map, and what it has to print. scripts/test-hostile compares with
it. It is written from what docs/IMPORT.md says, and not from the program; its examples are in test_importing.py.
"""

import datetime
import re
import sys
import tomllib
from collections import Counter, deque
from pathlib import Path
from typing import NamedTuple

MICROSECONDS = {"s": 10**6, "ms": 10**3, "us": 1, "ns": None}
FORMS, DATES = ["integer", "decimal", "clock"], ["none", "mdy", "dmy", "ymd", "day"]
BIT_32 = ["parity", "error_set", "error_clear", "absent", "column"]
OTHER_BITS = 0x7FFFFFFF
HEADER = "time,bus,word\n"


class Fault(Exception):
    """The first thing wrong with a map or an export, as it is printed."""


class Imported(NamedTuple):
    """The text of OUT, what is printed, and the fault after that, or none."""

    text: str
    printed: list
    fault: str


# ---- the map


def is_separator(text):
    return text in ("tab", "blanks") or len(text) == 1 and text.isascii() and text not in '"\r\n'


def is_wrap(number):
    return number == 0 or 1000 <= number <= 2**62


# Each key: its kind, the value that stands for it, or None where it is needed, and whether a value is in range.
KEYS = {
    "rows.separator": (str, None, is_separator),
    "rows.header": (bool, None, None),
    "rows.quotes": (bool, True, None),
    "rows.skip": (int, 0, range(1_000_001).__contains__),
    "rows.comment": (str, "", None),
    "rows.pass": (list, [], None),
    "time.column": ("column", None, None),
    "time.form": (str, None, FORMS.__contains__),
    "time.unit": (str, "us", MICROSECONDS.__contains__),
    "time.point": (str, ".", (".", ",").__contains__),
    "time.date": (str, "none", DATES.__contains__),
    "time.half_days": (bool, False, None),
    "time.wraps_at": (int, 0, is_wrap),
    "time.back": (int, 0, range(2**62 + 1).__contains__),
    "time.resets": (bool, False, None),
    "channel.column": ("column", None, None),
    "channel.a": (list, None, None),
    "channel.b": (list, None, None),
    "channel.pass": (list, [], None),
    "channel.pass_others": (bool, False, None),
    "word.bit_32": (str, None, BIT_32.__contains__),
    "word.bytes_reversed": (bool, False, None),
    "word.label_reversed": (bool, False, None),
    "repeats.drop": (bool, False, None),
    "repeats.within": (int, 0, range(1_000_001).__contains__),
    "repeats.among": (int, 1, range(1, 1_000_001).__contains__),
}
STATUS_KEYS = {
    "error.column": ("column", None, None),
    "error.good": (list, None, None),
    "error.bad": (list, None, None),
}
PART_KEYS = {
    "column": ("column", None, None),
    "base": (int, None, (2, 8, 10, 16).__contains__),
    "low": (int, None, range(1, 33).__contains__),
    "bits": (int, None, range(1, 33).__contains__),
    "reversed": (bool, False, None),
    "prefix": (str, "", None),
    "split": (str, "", lambda text: len(text) <= 1 and text.isascii()),
    "piece": (int, 1, range(1, 10).__contains__),
}


def has_kind(kind, value):
    """Whether a value is of this kind: a truth value is no number, and all elements of a list are texts."""
    if kind is list:
        return isinstance(value, list) and all(isinstance(it, str) for it in value)
    return isinstance(value, kind) and (kind is bool or not isinstance(value, bool))


def value_of(name, key, table, header):
    """The value of a key in a table, or what stands for it."""
    kind, default, is_in_range = key
    if kind == "column":
        kind, is_in_range = (str, None) if header else (int, range(1, 1001).__contains__)
    last = name.split(".")[-1].split(" ")[-1]
    if last not in table:
        if default is None:
            raise Fault(f"map: missing {name}")
        return default
    value = table[last]
    if not has_kind(kind, value):
        raise Fault(f"map: wrong kind {name}")
    if is_in_range and not is_in_range(value):
        raise Fault(f"map: out of range {name}")
    return value


def section_value(document, name, key, header):
    section = document.get(name.split(".")[0], {})
    if not isinstance(section, dict):
        raise Fault(f"map: wrong kind {name}")
    return value_of(name, key, section, header)


def read_part(number, table, header):
    part = {}
    for key, rule in PART_KEYS.items():
        part[key] = value_of(f"part {number} {key}", rule, table, header)
        if key == "bits" and part["low"] + part["bits"] > 33:
            raise Fault(f"map: out of range part {number} bits")
    return part


def bits_of(part):
    return range(part["low"], part["low"] + part["bits"])


def read_parts(document, header):
    tables = document.get("part")
    if tables is None:
        raise Fault("map: missing part")
    if not isinstance(tables, list) or not tables or not all(isinstance(it, dict) for it in tables):
        raise Fault("map: wrong kind part")
    parts = []
    for number, table in enumerate(tables):
        part = read_part(number, table, header)
        taken = {bit for other in parts for bit in bits_of(other)}
        for bit in bits_of(part):
            if bit in taken:
                raise Fault(f"map: bit clash {bit}")
        parts.append(part)
    return parts


def read_map(text):
    """The values of all keys, and the parts; or the first fault."""
    try:
        document = tomllib.loads(text.decode())
    except (UnicodeDecodeError, tomllib.TOMLDecodeError, RecursionError):
        raise Fault("map: not toml") from None
    values, header = {}, False
    for name, key in KEYS.items():
        values[name] = section_value(document, name, key, header)
        header = values.get("rows.header", False)
    if values["word.bit_32"] == "column":
        for name, key in STATUS_KEYS.items():
            values[name] = section_value(document, name, key, header)
    values["part"] = read_parts(document, header)
    covered = {bit for part in values["part"] for bit in bits_of(part)}
    looks = values["word.bit_32"] in BIT_32[:3] or values["word.bytes_reversed"]
    for bit in range(1, 33 if looks else 32):
        if bit not in covered:
            raise Fault(f"map: bit missing {bit}")
    for what, lists in (("error", ["error.good", "error.bad"]), ("channel", ["channel.a", "channel.b", "channel.pass"])):
        texts = [text for name in lists for text in values.get(name, [])]
        if len(set(texts)) < len(texts):
            raise Fault(f"map: text twice {what}")
    return values


# ---- lines and their fields


def fields_in_quotes(line, separator):
    """The fields of a line by the rules of csv; an open quote closes at its end."""
    fields, field, at, is_quoted = [], b"", 0, False
    while at < len(line):
        byte = line[at : at + 1]
        if is_quoted and byte == b'"' and line[at + 1 : at + 2] == b'"':
            field, at = field + byte, at + 1
        elif is_quoted and byte == b'"':
            is_quoted = False
        elif is_quoted:
            field += byte
        elif byte == separator:
            fields, field = [*fields, field], b""
        elif byte == b'"' and not field and (at == 0 or line[at - 1 : at] == separator):
            is_quoted = True
        else:
            field += byte
        at += 1
    return [*fields, field]


def fields_of(values, line):
    if values["rows.separator"] == "blanks":
        return re.findall(rb"[^ \t]+", line)
    separator = {"tab": b"\t"}.get(values["rows.separator"], values["rows.separator"].encode())
    fields = fields_in_quotes(line, separator) if values["rows.quotes"] else line.split(separator)
    return [field.strip(b" \t") for field in fields]


def lines_of(export):
    """The lines, without a byte order mark at their start and carriage returns at their end."""
    lines = export.split(b"\n")
    for line in lines if lines[-1] else lines[:-1]:
        yield line.rstrip(b"\r").removeprefix(b"\xef\xbb\xbf")


def columns_of(values):
    """The columns that are read, in the order in which a row is."""
    status = [values["error.column"]] if values["word.bit_32"] == "column" else []
    return [values["channel.column"], values["time.column"], *status, *(part["column"] for part in values["part"])]


# ---- times


def cut_down(number, divisor):
    """The quotient, rounded down, and whether something was cut off."""
    return number // divisor, number % divisor != 0


def number_time(values, text):
    point = re.escape(values["time.point"])
    pattern = r"(\d{1,30})" + (rf"(?:{point}(\d{{1,30}}))?" if values["time.form"] == "decimal" else "()")
    found = re.fullmatch(pattern, text, re.ASCII)
    if not found:
        return None
    part = found[2] or ""
    number, size = int(found[1] + part), 10 ** len(part)
    factor = MICROSECONDS[values["time.unit"]]
    return cut_down(number * factor, size) if factor else cut_down(number, size * 1000)


DATE = {
    "none": "",
    "mdy": r"(?P<month>\d\d?)[/.-](?P<day>\d\d?)[/.-](?P<year>\d{4})(?:[ \t]+|T)",
    "dmy": r"(?P<day>\d\d?)[/.-](?P<month>\d\d?)[/.-](?P<year>\d{4})(?:[ \t]+|T)",
    "ymd": r"(?P<year>\d{4})[/.-](?P<month>\d\d?)[/.-](?P<day>\d\d?)(?:[ \t]+|T)",
    "day": r"(?P<day>\d{1,3})[:/ ]",
}


def clock_time(values, text):
    point, half = re.escape(values["time.point"]), r"[ \t]*(?P<half>[AaPp])[Mm]" if values["time.half_days"] else ""
    time = rf"(?P<h>\d\d?):(?P<m>\d\d):(?P<s>\d\d)(?:{point}(?P<part>\d{{1,30}}))?{half}"
    found = re.fullmatch(DATE[values["time.date"]] + time, text, re.ASCII)
    if not found:
        return None
    hour, minute, second = (int(found[it]) for it in "hms")
    hours = range(1, 13) if half else range(24)
    days = days_of(values["time.date"], found)
    if hour not in hours or minute > 59 or second > 59 or days is None:
        return None
    if half:
        hour = hour % 12 + (12 if found["half"] in "Pp" else 0)
    part = found["part"] or ""
    number = int(f"{((days * 24 + hour) * 60 + minute) * 60 + second}{part}")
    return cut_down(number * 10**6, 10 ** len(part))


def days_of(date, found):
    """How many days come before the day, or None for one that the calendar does not have."""
    if date == "none":
        return 0
    if date == "day":
        return int(found["day"]) - 1 if 1 <= int(found["day"]) <= 366 else None
    try:
        day = datetime.date(*(int(found[it]) for it in ("year", "month", "day")))
    except ValueError:
        return None
    days = (day - datetime.date(1970, 1, 1)).days
    return days if days >= 0 else None


class Clock:
    """The clock of an export: what is added to its times, and the latest time that was written."""

    def __init__(self, values):
        self.wraps_at, self.back, self.resets = (values[f"time.{it}"] for it in ("wraps_at", "back", "resets"))
        self.offset, self.has_wrapped, self.latest = 0, False, 0

    def moved(self, read):
        """The time that is meant, and whether the clock has begun again."""
        time = read + self.offset
        if self.wraps_at and 2 * (self.latest - time) > self.wraps_at:
            return time + self.wraps_at, True
        if self.has_wrapped and 0 < self.latest - (time - self.wraps_at) <= self.back and time >= self.wraps_at:
            return time - self.wraps_at, False
        return time, False


# ---- the word


def reversed_bits(number, count):
    return int(f"{number:0{count}b}"[::-1], 2)


DIGITS = {2: "[01]+", 8: "[0-7]+", 10: "[0-9]+", 16: "[0-9A-Fa-f]+"}


def part_of(part, field):
    """The bits of the word that a field has, or None."""
    if part["split"]:
        pieces = field.split(part["split"].encode())
        if part["piece"] > len(pieces):
            return None
        field = pieces[part["piece"] - 1]
    prefix = part["prefix"].encode()
    digits = field[len(prefix) :].decode("latin-1")
    if not field.startswith(prefix) or not re.fullmatch(DIGITS[part["base"]], digits):
        return None
    number = int(digits, part["base"])
    if number >> part["bits"]:
        return None
    return (reversed_bits(number, part["bits"]) if part["reversed"] else number) << part["low"] - 1


def turned(values, word):
    if values["word.bytes_reversed"]:
        word = int.from_bytes(word.to_bytes(4), "little")
    if values["word.label_reversed"]:
        word = word & ~255 | reversed_bits(word & 255, 8)
    return word


def is_bad(values, word, status):
    """Whether the export says that a word was received with the wrong parity, or None where bit 32 is the bit that was received."""
    says = {"parity": None, "error_set": word >> 31 == 1, "error_clear": word >> 31 == 0, "absent": False, "column": status}
    return says[values["word.bit_32"]]


def with_parity(word, bad):
    """The word with the bit 32 that makes its parity good, or wrong."""
    other = word & OTHER_BITS
    odd = other.bit_count() % 2 == 1
    return other | (0 if odd != bad else 1) << 31


# ---- the rows


class Importer:
    """An import, line after line."""

    def __init__(self, values):
        self.values, self.clock = values, Clock(values)
        self.counts, self.largest_lift = Counter(), 0
        self.rows, self.places = [], []
        self.columns = None if values["rows.header"] else [number - 1 for number in columns_of(values)]
        self.last = deque(maxlen=values["repeats.among"])

    def take(self, number, line):
        """Takes the line of this number, and counts what becomes of it."""
        self.counts["lines"] += 1
        self.counts[self.lot_of(number, line)] += 1

    def lot_of(self, number, line):
        values = self.values
        if number <= values["rows.skip"]:
            return "lines skipped"
        if not line.strip(b" \t"):
            return "empty lines"
        if values["rows.comment"] and line.startswith(values["rows.comment"].encode()):
            return "comments"
        fields = fields_of(values, line)
        if self.columns is None:
            names = [name.encode() for name in columns_of(values)]
            if all(name in fields for name in names):
                self.columns = [fields.index(name) for name in names]
            return "lines up to the header"
        if fields[0] in [text.encode() for text in values["rows.pass"]]:
            return "rows passed over"
        return self.row(number, fields)

    def row(self, number, fields):
        def needed(value, what):
            if value is None:
                raise Fault(f"export: line {number} {what}")
            return value

        values = self.values
        needed(True if max(self.columns) < len(fields) else None, "fields")
        channel, time, *others = (fields[column] for column in self.columns)
        bus = needed(self.bus_of(channel), "channel")
        if not bus:
            return "rows of other channels"
        read_time = clock_time if values["time.form"] == "clock" else number_time
        read, is_cut = needed(read_time(values, time.decode("latin-1")), "time")
        status = None
        if values["word.bit_32"] == "column":
            status = needed(self.status_of(others.pop(0)), "error")
        word = 0
        for k, (part, field) in enumerate(zip(values["part"], others)):
            word |= needed(part_of(part, field), f"part {k}")
        word = turned(values, word)
        bad = is_bad(values, word, status)
        return self.entry(number, read, is_cut, bus, word if bad is None else with_parity(word, bad), bad)

    def bus_of(self, channel):
        """The bus of a channel, an empty text where its rows are passed over, or None where it is in no list."""
        named = {text.encode(): bus for key, bus in (("a", "A"), ("b", "B"), ("pass", "")) for text in self.values[f"channel.{key}"]}
        return named.get(channel, "" if self.values["channel.pass_others"] else None)

    def status_of(self, text):
        named = {text.encode(): bad for key, bad in (("good", False), ("bad", True)) for text in self.values[f"error.{key}"]}
        return named.get(text)

    def entry(self, number, read, is_cut, bus, word, bad):
        """Writes an entry, unless it is a repeat."""
        clock, counts = self.clock, self.counts
        time, wraps = clock.moved(read)
        if time >> 64:
            raise Fault(f"export: line {number} time")
        if self.values["repeats.drop"] and self.is_repeat(bus, word, time):
            return "repeats left out"
        offset = clock.offset + (clock.wraps_at if wraps else 0)
        fall, written = max(clock.latest - time, 0), max(clock.latest, time)
        if fall > clock.back and not clock.resets:
            raise Fault(f"export: line {number} time back")
        if wraps:
            self.places.append(f"wrap {len(self.rows)} line {number}")
            counts["wraps undone"] += 1
        if fall > clock.back:
            self.places.append(f"reset {len(self.rows)} line {number} by {fall}")
            counts["resets joined"] += 1
            offset = clock.latest - read
        elif fall:
            counts["times lifted"] += 1
            self.largest_lift = max(self.largest_lift, fall)
        clock.offset, clock.has_wrapped, clock.latest = offset, clock.has_wrapped or wraps, written
        self.last.append((bus, word, written if fall > clock.back else time))
        self.rows.append(f"{written},{bus},{word:08X}\n")
        counts["times cut to microseconds"] += is_cut
        counts["good"] += bad is False
        counts["bad"] += bad is True
        return f"on {bus}"

    def is_repeat(self, bus, word, time):
        within = self.values["repeats.within"]
        return any((bus, word) == other[:2] and abs(time - other[2]) <= within for other in self.last)

    def printed(self):
        counts, values = self.counts, self.values
        entries = counts["on A"] + counts["on B"]
        always = [f"entries {entries}", *(f"{name} {counts[name]}" for name in ("on A", "on B", "lines"))]
        counts["words with bytes reversed"] = entries * values["word.bytes_reversed"]
        counts["words with labels reversed"] = entries * values["word.label_reversed"]
        some = [f"{name} {counts[name]}" for name in SOMETIMES if counts[name]]
        lifted = [f"times lifted {counts['times lifted']} by at most {self.largest_lift}"] if counts["times lifted"] else []
        made = [f"bit 32 made: good {counts['good']} bad {counts['bad']}"] if counts["good"] or counts["bad"] else []
        return [*self.places, *always, *some, *lifted, *made]


SOMETIMES = [
    "lines skipped", "empty lines", "comments", "lines up to the header", "rows passed over", "rows of other channels", "repeats left out",
    "wraps undone", "resets joined", "times cut to microseconds", "words with bytes reversed", "words with labels reversed",
]


def imported(map_text, export):
    """What has to be written of an export by a map, and what has to be printed. With a fault nothing of the rows stays, and nothing is printed."""
    try:
        importer = Importer(read_map(map_text))
        for number, line in enumerate(lines_of(export), 1):
            importer.take(number, line)
        if importer.columns is None:
            raise Fault("export: header")
    except Fault as fault:
        return Imported("", [], str(fault))
    return Imported(HEADER + "".join(importer.rows), importer.printed(), None)


def main(words):
    """As the program: writes OUT, prints, and answers the exit status. scripts/test_importing.py runs pages with it."""
    if len(words) != 4 or words[3] in ("", *words[1:3]):
        print("usage", file=sys.stderr)
        return 5
    try:
        answer = imported(Path(words[1]).read_bytes(), Path(words[2]).read_bytes())
        Path(words[3]).write_text(answer.text)
        print("".join(f"{line}\n" for line in answer.printed), end="", flush=True)
    except OSError:
        print("device", file=sys.stderr)
        return 4
    if answer.fault:
        print(answer.fault, file=sys.stderr)
    return 3 if answer.fault else 0


if __name__ == "__main__":
    sys.exit(main(sys.argv[1:]))
