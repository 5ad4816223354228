"""What the page shows of what the program says."""

from __future__ import annotations

import functools
import hashlib
import itertools
from collections import deque
from dataclasses import dataclass
from pathlib import Path

from a429_report.program import Attempt, Program, Survey, Unit, Verdict, Word
from a429_report.wording import grouped

# How many columns the picture of a bus has. How many messages are shown before and after the entry of a chart.
SLICES, BEFORE, AFTER = 360, 13, 8



@dataclass
class Crossing:
    """A file of the table: one that crossed, with the last entry of its last unit, or, where there is no yes, one of which start words were
    recorded."""

    number: int
    began: int | None
    ended: int | None
    units: int
    tries: int
    last: int | None = None
    size: int | None = None
    sha256: str = ""
    name: str = ""
    sent: str = ""


@dataclass
class Sent:
    """How the files that crossed compare with those that were sent: names of files."""

    wanted: int
    missing: list[str]
    unsent: list[str]
    other: list[str]

    def is_so(self) -> bool:
        return not (self.missing or self.unsent or self.other)


# What a word is to the picture of its bus, by the first six letters of what `forms` says; of any other word it is TRANSFER.
TRANSFER, OTHER, DAMAGED, STRAY = range(4)
KIND_OF = {"free p": DAMAGED, "free l": OTHER, "free t": OTHER, "free c": OTHER, "no for": STRAY, "other ": STRAY}


class Timeline:
    """How many words of each kind each bus had, in slices of the time from `first` to `last`."""

    def __init__(self, first: int, last: int) -> None:
        self.first, self.last, self.span = first, last, max(last - first, 1)
        self.counts = {bus: [[0] * SLICES for _ in range(4)] for bus in "AB"}

    def slice(self, time: int) -> int:
        return (time - self.first) * SLICES // (self.span + 1)

    def add(self, time: int, bus: str, kind: int) -> None:
        if self.first <= time <= self.last:
            self.counts[bus][kind][self.slice(time)] += 1

    def x(self, time: int) -> float:
        """The place of a time, in hundredths of the width."""
        return min(max((time - self.first) * 100 / self.span, 0), 100)


class Near:
    """The words of the transfer around an entry, damaged ones with its label among them."""

    def __init__(self, entry: int) -> None:
        self.entry = entry
        self.labels: dict[str, str] = {}
        self.before: deque[Word] = deque(maxlen=1500)
        self.after: list[Word] = []

    def add(self, word: Word, kind: int) -> None:
        if kind in (TRANSFER, STRAY):
            self.labels[word.bus] = word.word[6:]
        if kind == OTHER:
            return
        if word.entry <= self.entry:
            self.before.append(word)
        elif len(self.after) < 500:
            self.after.append(word)

    def rows(self) -> list[list[Word]]:
        """The rows of the chart: a message each, or three and more data words, one after the other."""
        words = [it for it in (*self.before, *self.after) if self.labels.get(it.bus) == it.word[6:]]
        rows: list[list[Word]] = []
        for is_data, group in itertools.groupby(words, lambda it: it.what.startswith("data") and it.entry != self.entry):
            run = list(group)
            rows += [run] if is_data and len(run) > 2 else [[it] for it in run]
        place = sum(it[0].entry <= self.entry for it in rows)
        return rows[max(place - BEFORE - 1, 0) : place + AFTER]


def grouped_by_outcome(attempts: list[Attempt]) -> dict[str, list[Attempt]]:
    out: dict[str, list[Attempt]] = {}
    for it in attempts:
        out.setdefault(it.outcome, []).append(it)
    return out


@dataclass
class Report:
    """All that the page shows."""

    name: str
    verdict: Verdict
    attempts: list[Attempt]
    stop: int | None
    survey: Survey
    names: dict[str, str]
    files: list[Crossing]
    sent: Sent | None
    whole: Timeline
    closer: Timeline | None
    near: Near | None
    sums: dict[str, str]
    version: str

    @functools.cached_property
    def by_outcome(self) -> dict[str, list[Attempt]]:
        return grouped_by_outcome(self.attempts)

    def with_outcome(self, *outcomes: str) -> list[Attempt]:
        """The attempts that ended so, in their order."""
        found = [self.by_outcome.get(it, []) for it in outcomes]
        return found[0] if len(found) == 1 else sorted(itertools.chain.from_iterable(found))

    def seconds(self, time: int | None) -> str:
        """A time since the first entry."""
        if time is None:
            return ""
        whole, part = divmod(time - self.survey.began, 1_000_000)
        return f"{grouped(whole)}.{part:06}"


TROUBLES = ("refused", "unanswered", "ungranted", "open", "again")


def first_trouble(verdict: Verdict, attempts: list[Attempt]) -> int | None:
    """The entry that the chart is about: where the verdict points; else the end of the first attempt that the sink did not take, of the
    first that came again, or of the first of all."""
    if verdict.word != "YES":
        return verdict.entry
    ranked = [next((it.last for it in attempts if it.outcome in kinds), None) for kinds in (TROUBLES[:4], TROUBLES[4:])]
    return next((it for it in ranked if it is not None), attempts[0].last if attempts else None)


def around(entry: int | None, attempts: list[Attempt], survey: Survey) -> Timeline | None:
    """The time of some attempts before and after an entry, where there are many."""
    if entry is None or len(attempts) <= 40:
        return None
    place = max(sum(it.first <= entry for it in attempts), 1)
    some = attempts[max(place - 13, 0) : place + 12]
    return Timeline(some[0].began, max(some[-1].ended, min(some[0].began + 1, survey.ended)))


def crossings(verdict: Verdict, units: list[Unit], contents: list[bytes]) -> list[Crossing]:
    """The files that crossed, each with its units and its name in a folder of files sent."""
    groups = [list(it) for _, it in itertools.groupby(units, lambda unit: unit.file)]
    ended = [it for it in groups if it[-1].is_end]
    out, seen = [], set()
    for place, (file, group, content) in enumerate(zip(verdict.files, ended, contents), 1):
        name = f"{file.number}-{place}" if str(file.number) in seen else str(file.number)
        seen.add(name)
        began = [it.began for it in group if it.began is not None]
        last = [it.ended for it in group if it.ended is not None]
        out.append(
            Crossing(file.number, min(began, default=None), max(last, default=None), len(group), sum(it.requests for it in group),
                     group[-1].last, file.size, hashlib.sha256(content).hexdigest(), name)
        )  # fmt: skip
    return out


def started(attempts: list[Attempt]) -> list[Crossing]:
    """The files of which start words were recorded, one after the other."""
    out = []
    for number, group in itertools.groupby((it for it in attempts if it.file), lambda it: it.file):
        some = list(group)
        taken = len({it.ldu for it in some if it.outcome == "acknowledged"})
        out.append(Crossing(int(number), some[0].began, some[-1].ended, taken, len(some)))
    return out


def compared(folder: Path, files: list[Crossing], contents: list[bytes]) -> Sent:
    """Compares the files that crossed, byte for byte, with those of a folder, and says of each file how."""
    wanted = sorted((it.name for it in folder.iterdir() if not it.name.startswith(".")), key=lambda it: (len(it), it))
    for file, content in zip(files, contents):
        if file.name not in wanted:
            file.sent = "not sent"
        else:
            file.sent = "as sent" if (folder / file.name).read_bytes() == content else "other bytes"
    crossed = {it.name for it in files}
    kinds = ([it.name for it in files if it.sent == kind] for kind in ("not sent", "other bytes"))
    return Sent(len(wanted), [it for it in wanted if it not in crossed], *kinds)


def looked_at(program: Program, name: str, sent: Path | None) -> Report:
    """Asks the program, and finds out what the page shows."""
    verdict, survey = program.decide(), program.survey()
    attempts, stop = program.attempts()
    is_yes = verdict.word == "YES"
    contents = program.extract(len(verdict.files)) if is_yes else []
    files = crossings(verdict, program.units(), contents) if is_yes else started(attempts)
    entry = first_trouble(verdict, attempts)
    whole, closer = Timeline(survey.began, survey.ended), around(entry, attempts, survey)
    near = None if entry is None else Near(entry)
    for word in program.words():
        kind = KIND_OF.get(word.what[:6], TRANSFER)
        whole.add(word.time, word.bus, kind)
        if closer:
            closer.add(word.time, word.bus, kind)
        if near:
            near.add(word, kind)
    sums = {name: hashlib.sha256(it.read_bytes()).hexdigest()
            for name, it in (("recording", program.recording), ("profile", program.profile), ("certificate", program.certificate))
            if is_yes or name != "certificate"}  # fmt: skip
    return Report(
        name, verdict, attempts, stop, survey, program.names(), files, compared(sent, files, contents) if sent and is_yes else None,
        whole, closer, near, sums, program.run("version")[0],
    )  # fmt: skip
