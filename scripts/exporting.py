"""Exports of other programs made by chance, each with its map and with the recording that it is: for scripts/test-hostile, which compares
the program with a second model, and for scripts/test_importing.py, which compares that model with the entries that were chosen here.
"""

import json
from datetime import datetime, timedelta
from typing import NamedTuple

DAY = 86_400_000_000
# How a unit is a number of nanoseconds.
NANOSECONDS = {"s": 10**9, "ms": 10**6, "us": 1000, "ns": 1}
DIGITS = {2: "b", 8: "o", 10: "d", 16: "x"}
NUMBERS = ["integer", "decimal"]


class Export(NamedTuple):
    """A map, an export, and the text of the recording that it is."""

    map: bytes
    export: bytes
    recording: str


class Entry(NamedTuple):
    """An entry: its time as the clock shows it, the time that is written, its line, its word, and whether it was received without error."""

    shown: int
    time: int
    bus: str
    word: int
    good: bool


def odd(word):
    """Whether a word has odd parity."""
    return word.bit_count() % 2 == 1


def reversed_bits(number, count):
    return sum((number >> bit & 1) << count - 1 - bit for bit in range(count))


class Recorder:
    """A recorder: how it writes times, channels and words, and the map that says so."""

    def __init__(self, dice, kinds):
        self.dice, self.kinds = dice, kinds
        self.sections = {"rows": {}, "time": {}, "channel": {}, "word": {}}
        self.columns, self.parts = {}, []
        self.separator = dice.choice([",", ";", "\t", "|", " " if dice.random() < 0.3 else ","])
        self.has_header = dice.random() < 0.7
        self.choose_time()
        self.choose_channels()
        self.choose_word()
        names = [*self.columns, *(f"x{n}" for n in range(dice.randrange(3)))]
        dice.shuffle(names)
        self.names = names
        self.choose_rows()

    def maybe(self, chance=0.5):
        return self.dice.random() < chance

    # ---- what is chosen

    def choose_rows(self):
        rows = self.sections["rows"]
        rows["separator"] = {"\t": "tab", " ": "blanks"}.get(self.separator, self.separator)
        rows["header"] = self.has_header
        self.has_quotes = self.separator != " " and self.maybe()
        if not self.has_quotes:
            rows["quotes"] = False
        self.skip = self.dice.randrange(3) if self.maybe(0.3) else 0
        self.comment = self.dice.choice(["#", "//", "* "]) if self.maybe(0.3) else ""
        self.sums = ["Total", "Summe"][: self.dice.randrange(3)]
        for key in ("skip", "comment"):
            if getattr(self, key):
                rows[key] = getattr(self, key)
        if self.sums:
            rows["pass"] = self.sums

    def choose_time(self):
        time, dice = self.sections["time"], self.dice
        self.form = "clock" if "clock" in self.kinds else dice.choice(NUMBERS)
        self.unit = dice.choice(list(NANOSECONDS)) if self.form != "clock" else "us"
        self.point = dice.choice(".,") if self.separator != "," else "."
        self.date = dice.choice(["none", "mdy", "dmy", "ymd", "day"]) if self.form == "clock" and self.separator != " " else "none"
        self.half_days = self.form == "clock" and self.separator != " " and self.maybe()
        # a step is a whole number of the microseconds that the form can write
        self.step = NANOSECONDS[self.unit] // 1000 if self.form == "integer" and self.unit in ("s", "ms") else 1
        self.wraps_at = dice.choice([DAY] if self.date == "none" and self.form == "clock" else [DAY, 1 << 32, 65_536_000])
        self.may_wrap = self.date == "none" and self.wraps_at % self.step == 0 and self.maybe(0.4)
        self.back = dice.choice([0, 0, self.step, 5 * self.step])
        self.resets = not self.may_wrap and self.maybe(0.3)
        time["form"] = self.form
        for key, default in {"unit": "us", "point": ".", "date": "none", "half_days": False, "back": 0, "resets": False}.items():
            if getattr(self, key) != default:
                time[key] = getattr(self, key)
        if self.may_wrap:
            time["wraps_at"] = self.wraps_at
        self.columns["time"] = self.text_of_time

    def choose_channels(self):
        channel = self.sections["channel"]
        names = ["RX1", "RX2", "0", "1", "ARINC RX 01", "Ä"] if self.separator != " " else ["RX1", "RX2", "0", "1", "a", "b"]
        self.dice.shuffle(names)
        channel["a"], channel["b"], others = names[:2], names[2:3], names[3:]
        self.named = {"A": channel["a"], "B": channel["b"]}
        self.others = others if self.maybe(0.4) else []
        if self.others and self.maybe():
            channel["pass_others"] = True
        elif self.others:
            channel["pass"] = self.others
        self.columns["channel"] = lambda entry: self.dice.choice(self.named[entry.bus])

    def choose_word(self):
        word = self.sections["word"]
        self.bit_32 = self.dice.choice(["parity", "error_set", "error_clear", "absent", "column"])
        self.turns_bytes, self.turns_label = self.maybe(0.2), self.maybe(0.2)
        word["bit_32"] = self.bit_32
        if self.turns_bytes:
            word["bytes_reversed"] = True
        if self.turns_label:
            word["label_reversed"] = True
        if self.bit_32 == "column":
            self.sections["error"] = {"good": ["ok", *[""] * (self.separator != " ")], "bad": ["ERR", "parity"]}
            self.columns["error"] = lambda entry: self.dice.choice(self.sections["error"]["good" if entry.good else "bad"])
        self.choose_parts(self.turns_bytes or self.bit_32 in ("parity", "error_set", "error_clear"))

    def choose_parts(self, is_whole):
        """Cuts bits 1 to 32, or 31, into parts, each with its digits."""
        dice, low, end = self.dice, 1, 33 if is_whole or self.maybe() else 32
        while low < end:
            bits = end - low if self.maybe(0.3) else dice.randrange(1, end - low + 1)
            base = dice.choice(list(DIGITS))
            part = {"base": base, "low": low, "bits": bits}
            if self.maybe(0.3):
                part["reversed"] = True
            if self.maybe(0.3):
                part["prefix"] = dice.choice(["0x", "$", "h", "07"])
            if self.maybe(0.2):
                part["split"], part["piece"] = "-", dice.randrange(1, 4)
            self.parts.append(part)
            self.columns[f"part{len(self.parts) - 1}"] = lambda entry, part=part: self.text_of_part(entry, part)
            low += bits

    # ---- what is written

    def text_of_time(self, entry):
        if self.form == "clock":
            return self.text_of_clock(entry.shown)
        # (a number of nanoseconds, with some that are cut off)
        count = entry.shown * 1000 + (self.dice.randrange(1000) if self.unit == "ns" or self.form == "decimal" and self.maybe(0.3) else 0)
        whole, rest = divmod(count, NANOSECONDS[self.unit])
        if self.form == "integer":
            return "0" * self.dice.randrange(3) + str(whole)
        size = len(str(NANOSECONDS[self.unit])) - 1
        part = f"{rest:0{size}}" if size else ""
        part = part.rstrip("0") if self.maybe() else part + "0" * self.dice.randrange(3)
        return f"{whole}{self.point}{part}" if part else str(whole)

    def text_of_clock(self, shown):
        at = datetime(1970, 1, 1) + timedelta(microseconds=shown)
        days, within = divmod(shown, DAY)
        part = f"{within % 1_000_000:06}"
        part = part + str(self.dice.randrange(1000)) if self.maybe(0.3) else part.rstrip("0") if self.maybe() else part
        hour = at.hour % 12 or 12 if self.half_days else at.hour
        text = f"{hour}" if self.maybe() else f"{hour:02}"
        text += at.strftime(":%M:%S") + (self.point + part if part else "")
        if self.half_days:
            text += self.dice.choice(["", " "]) + self.dice.choice([str.upper, str.lower])(at.strftime("%p"))
        return self.text_of_date(at, days) + text

    def text_of_date(self, at, days):
        sign = self.dice.choice("/-.")
        month, day = (f"{n}" if self.maybe() else f"{n:02}" for n in (at.month, at.day))
        between = self.dice.choice([" ", "T", "  "])
        texts = {"none": "", "mdy": sign.join([month, day, f"{at.year}"]) + between, "dmy": sign.join([day, month, f"{at.year}"]) + between,
                 "ymd": sign.join([f"{at.year}", month, day]) + between, "day": f"{days + 1:03}{self.dice.choice(':/ ')}"}
        return texts[self.date]

    def text_of_part(self, entry, part):
        word = self.sent(entry)
        number = word >> part["low"] - 1 & (1 << part["bits"]) - 1
        if part.get("reversed"):
            number = reversed_bits(number, part["bits"])
        digits = "0" * self.dice.randrange(3) + format(number, DIGITS[part["base"]])
        text = part.get("prefix", "") + (digits.upper() if self.maybe() else digits)
        pieces = ["7"] * (part.get("piece", 1) - 1) + [text] + ["z"] * self.dice.randrange(2)
        return "-".join(pieces) if "split" in part else text

    def sent(self, entry):
        """The word as the recorder writes it: bit 32 first, then the label, then the bytes."""
        flag = {"parity": entry.word >> 31, "error_set": not entry.good, "error_clear": entry.good}.get(self.bit_32, self.dice.randrange(2))
        word = entry.word & 0x7FFFFFFF | int(flag) << 31
        if self.turns_label:
            word = word & ~255 | reversed_bits(word & 255, 8)
        return int.from_bytes(word.to_bytes(4, "big"), "little") if self.turns_bytes else word

    def row(self, fields):
        texts = [self.quoted(text) for text in fields]
        if self.separator == " ":
            return self.dice.choice(["", " "]) + self.dice.choice([" ", "  ", "\t"]).join(text or "-" for text in texts)
        return self.separator.join(texts)

    def quoted(self, text):
        if self.has_quotes and self.maybe(0.2):
            return '"' + text.replace('"', '""') + '"'
        return self.dice.choice(["", "", " "]) + text + self.dice.choice(["", "", " "]) if self.separator != " " else text

    # ---- all of it

    def map_text(self):
        """The map. A text of JSON is one of TOML."""
        def column(name):
            return name if self.has_header else self.names.index(name) + 1

        for section in ("time", "channel", "error"):
            if section in self.columns:
                self.sections[section]["column"] = column(section)
        lines = []
        for section, keys in self.sections.items():
            lines += [f"[{section}]", *(f"{key} = {json.dumps(value, ensure_ascii=False)}" for key, value in keys.items())]
        for n, part in enumerate(self.parts):
            lines += ["[[part]]", *(f"{key} = {json.dumps(value)}" for key, value in {"column": column(f"part{n}"), **part}.items())]
        return "\n".join(lines).encode() + b"\n"

    def fields(self, entry):
        others = ["", "7", "x y"] if self.separator != " " else ["", "7", "x"]
        return [self.columns[name](entry) if name in self.columns else self.dice.choice(others) for name in self.names]


def entries_by_chance(dice, recorder, count):
    """Entries in time, as the clock of the recorder shows them."""
    entries, now, added, latest = [], dice.randrange(recorder.wraps_at // recorder.step) * recorder.step, 0, 0
    for _ in range(count):
        bus, word, good = dice.choice("AAB"), dice.getrandbits(31), dice.random() < 0.8
        word |= (odd(word) != good) << 31
        if recorder.bit_32 == "absent":
            good, word = True, word & 0x7FFFFFFF | (not odd(word & 0x7FFFFFFF)) << 31
        shown = now
        if recorder.back and entries and dice.random() < 0.2:
            shown = max(now - dice.randrange(recorder.back // recorder.step + 1) * recorder.step, 0)
        elif recorder.resets and entries and dice.random() < 0.1 and latest - added > recorder.back + recorder.step:
            # the clock is set back to a time below the latest by more than may be lifted
            now = shown = dice.randrange((latest - added - recorder.back - 1) // recorder.step) * recorder.step
            added = latest - shown
        time = max(latest, shown + added)
        latest = time
        entries.append(Entry(shown % recorder.wraps_at if recorder.may_wrap else shown, time, bus, word, good))
        most = recorder.wraps_at // 2 - 2 * recorder.back - 1 if recorder.may_wrap and dice.random() < 0.3 else 50_000
        now += dice.randrange(max(most // recorder.step, 2)) * recorder.step
    return entries


def export_by_chance(dice, kinds=()):
    """A recorder of chance and some entries. Clocks with dates and rows that come again are only of the kinds `clock` and `repeats`."""
    recorder = Recorder(dice, kinds)
    if "repeats" in kinds:
        recorder.sections["repeats"] = {"drop": True, "among": dice.randrange(1, 5)}
    entries = entries_by_chance(dice, recorder, dice.randrange(12))
    if recorder.may_wrap and entries:
        # the times that are written go on from the first one as the clock shows it
        first = entries[0].time - entries[0].shown
        entries = [entry._replace(time=entry.time - first) for entry in entries]
    lines = [recorder.dice.choice(["junk", "", recorder.row(recorder.names)]) for _ in range(recorder.skip)]
    if recorder.has_header:
        lines += ["Lab 4"] * dice.randrange(2) + [recorder.row(recorder.names)]
    for entry in entries:
        row = recorder.row(recorder.fields(entry))
        while recorder.comment and row.startswith(recorder.comment) or row.split(recorder.separator)[0].strip(' "') in recorder.sums:
            row = recorder.row(recorder.fields(entry))
        lines += between(recorder, entry) + [row] * (dice.randrange(1, 4) if "repeats" in kinds else 1)
    if recorder.sums:
        lines.append(recorder.row([dice.choice(recorder.sums), "1"]))
    end = dice.choice(["\n", "\r\n"])
    text = dice.choice(["", "\ufeff"]) + end.join(lines) + dice.choice(["", end])
    rows = "".join(f"{entry.time},{entry.bus},{entry.word:08X}\n" for entry in entries)
    return Export(recorder.map_text(), text.encode(), "time,bus,word\n" + rows)


def between(recorder, entry):
    """Lines that are no entries: an empty one, a comment, a row of another channel."""
    lines, dice = [], recorder.dice
    if dice.random() < 0.1:
        lines.append(dice.choice(["", " ", "\t "]))
    if recorder.comment and dice.random() < 0.2:
        lines.append(f'{recorder.comment} "no row')
    if recorder.others and dice.random() < 0.2:
        fields = recorder.fields(entry)
        fields[recorder.names.index("channel")] = dice.choice(recorder.others)
        row = recorder.row(fields)
        lines += [row] if not (recorder.comment and row.startswith(recorder.comment)) else []
    return lines

