"""What the program a429 says of one recording under one profile."""

from __future__ import annotations

import csv
import os
import shutil
import subprocess
from dataclasses import dataclass, field
from pathlib import Path
from typing import Iterator, NamedTuple

A429 = os.environ.get("A429", "a429")



class Stop(Exception):
    """The command ends, with a line on standard error and a status."""

    def __init__(self, line: str, status: int) -> None:
        super().__init__(line)
        self.status = status





class File(NamedTuple):
    """A file that crossed."""

    number: int
    size: int


class Verdict(NamedTuple):
    """The answer of `decide`. The entry and the reason are those of IMPOSSIBLE and UNEXPLAINED, the files those of YES; `held` is what `why`
    says of IMPOSSIBLE."""

    line: str
    word: str
    entry: int = 0
    reason: str = ""
    files: tuple[File, ...] = ()
    held: tuple[str, ...] = ()


class Attempt(NamedTuple):
    """A row of `blocks`. File and LDU are empty texts where no start word was recorded."""

    first: int
    last: int
    began: int
    ended: int
    file: str
    ldu: str
    asked: int
    got: int
    damaged: int
    outcome: str
    why: str


class Unit(NamedTuple):
    """What the page needs of a row of `units`."""

    file: int
    requests: int
    began: int | None
    ended: int | None
    last: int | None
    is_end: bool


class Kind(NamedTuple):
    """Words of one kind on a bus: how many, and the entry of the first."""

    count: int
    first: int


class Label(NamedTuple):
    """Words of one label on a bus: how many, and how many of these have even parity."""

    count: int
    even: int


@dataclass
class Survey:
    """The counts of `survey`, by bus and kind, and by bus and label."""

    entries: int = 0
    began: int = 0
    ended: int = 0
    kinds: dict[tuple[str, str], Kind] = field(default_factory=dict)
    labels: dict[tuple[str, str], Label] = field(default_factory=dict)

    def damaged(self) -> int:
        return sum(self.kinds[it].count for it in self.kinds if it[1] == "free parity")


class Word(NamedTuple):
    """An entry, and what `forms` says of it."""

    entry: int
    time: int
    bus: str
    word: str
    what: str


class Program:
    """The program with one profile and one recording, copies of the files that were given, so that all answers are of the same bytes."""

    def __init__(self, room: Path, profile: str, recording: str) -> None:
        if not shutil.which(A429):
            raise Stop(f"no program {A429}: put a429 on the path, or name it by the environment variable A429", 4)
        self.room, self.profile, self.recording = room, room / "profile.toml", room / "recording"
        for name, copy in ((profile, self.profile), (recording, self.recording)):
            with open(name, "rb") as given, open(copy, "wb") as out:
                shutil.copyfileobj(given, out)
        self.certificate, self.files = room / "certificate", room / "files"

    def command(self, name: str, *more: Path) -> list[str]:
        files = {"version": [], "labels": [self.profile]}.get(name, [self.profile, self.recording, *more])
        return [A429, name, *map(str, files)]

    def run(self, name: str, *more: Path) -> list[str]:
        """The lines that a command writes; a fault ends the report."""
        done = subprocess.run(self.command(name, *more), stdin=subprocess.DEVNULL, capture_output=True, encoding="utf-8", errors="replace")
        if done.returncode not in (0, 1, 2):
            raise Stop(f"a429 {name}: {done.stderr.strip() or f'status {done.returncode}'}", 3 if done.returncode == 3 else 4)
        return done.stdout.splitlines()

    def decide(self) -> Verdict:
        first, *rest = self.run("decide", self.certificate)
        word, *more = first.split()
        if word == "YES":
            return Verdict(first, word, files=tuple(File(*map(int, it.split()[1:])) for it in rest))
        held = tuple(self.run("why")[1:]) if word == "IMPOSSIBLE" else ()
        return Verdict(first, word, int(more[0]), more[1], held=held)

    def attempts(self) -> tuple[list[Attempt], int | None]:
        """The rows of `blocks`, and the entry that no run records, if there is one."""
        rows, stop = [], None
        # (of up to 100,000 rows and more, so by the places of the columns)
        for first, last, began, ended, file, ldu, asked, got, damaged, outcome, why in csv.reader(self.run("blocks")[1:]):
            if outcome == "not-allowed":
                stop = int(first)
            else:
                places = (int(first), int(last), int(began), int(ended))
                rows.append(Attempt(*places, file, ldu, int(asked), int(got), int(damaged), outcome, why))
        return rows, stop

    def units(self) -> list[Unit]:
        return [
            Unit(int(it["file"]), int(it["requests"]), number_of(it["first_time"]), number_of(it["last_time"]), number_of(it["last_entry"]),
                 it["final"] == it["crossed"] == "yes")
            for it in csv.DictReader(self.run("units", self.certificate))
        ]  # fmt: skip

    def extract(self, count: int) -> list[bytes]:
        """The bytes of the files that crossed, in their order."""
        self.files.mkdir()
        self.run("extract", self.certificate, self.files)
        return [(self.files / f"{place:06}.bin").read_bytes() for place in range(1, count + 1)]

    def survey(self) -> Survey:
        out = Survey()
        for line in self.run("survey"):
            words = line.split()
            if words[0] == "entries":
                out.entries = int(words[1])
            elif words[0] == "from":
                out.began, out.ended = int(words[1]), int(words[3])
            elif words[1] == "label":
                out.labels[words[0], words[2]] = Label(int(words[3]), int(words[5]))
            elif len(words) > 2:
                out.kinds[words[0], " ".join(words[1:-3])] = Kind(int(words[-3]), int(words[-1]))
        return out

    def names(self) -> dict[str, str]:
        """The names of the labels of the profile, by their octal digits."""
        out: dict[str, list[str]] = {}
        for line in self.run("labels"):
            octal, _, kind, rest = line.split(" ", 3)
            out.setdefault(octal, []).append(rest.split(" ", {"bnr": 3, "bcd": 2, "discrete": 1}[kind])[-1])
        return {octal: ", ".join(names) for octal, names in out.items()}

    def words(self) -> Iterator[Word]:
        """Each entry, and what its word is to the transfer."""
        with subprocess.Popen(self.command("forms"), stdin=subprocess.DEVNULL, stdout=subprocess.PIPE, encoding="ascii") as done:
            for entry, line in enumerate(done.stdout or ()):
                time, bus, word, what = line.split(" ", 3)
                yield Word(entry, int(time), bus, word, what.rstrip("\n"))
        if done.returncode != 0:
            raise Stop(f"a429 forms: status {done.returncode}", 4)


def number_of(text: str) -> int | None:
    return int(text) if text else None
