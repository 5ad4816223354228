"""The timelines, drawn in hundredths of their width, so that texts keep their size on any screen."""

from __future__ import annotations

from collections import Counter
from typing import Iterator

from a429_report.findings import DAMAGED, OTHER, SLICES, STRAY, TRANSFER, Report, Timeline, grouped_by_outcome
from a429_report.program import Attempt
from a429_report.tables import Table
from a429_report.wording import OUTCOMES, block_of, grouped, many, said_of, shown

# Above this number of attempts a picture has a bar for a stretch of time and not for an attempt.
MOST_BARS = 1000
# A drawing that is stretched to the width of its lane.
FLAT = 'preserveAspectRatio="none" width="100%"'



class Picture:
    """The lanes of a timeline: a name at the left of each, and a drawing whose places are hundredths of the width."""

    def __init__(self, report: Report, line: Timeline, label: str) -> None:
        self.report, self.line, self.label, self.lanes = report, line, label, []
        visible = [it for it in report.attempts if it.ended >= line.first and it.began <= line.last]
        self.visible, self.is_thinned = grouped_by_outcome(visible), len(visible) > MOST_BARS
        self.marks = "".join(f'<line class=grid x1="{line.x(it):.2f}%" x2="{line.x(it):.2f}%" y2="100%"/>' for it, _ in self.ticks())
        self.over = ""

    def ticks(self) -> Iterator[tuple[int, str]]:
        """Round times, and what they are called, in seconds since the first entry."""
        start = self.report.survey.began
        step = next(base * 10**k for k in range(20) for base in (1, 2, 5) if self.line.span <= 5 * base * 10**k)
        digits = max(0, 7 - len(str(step)))
        first = -(-(self.line.first - start) // step) * step
        for time in range(first, self.line.last - start + 1, step):
            yield start + time, f"{time // 1_000_000}" + (f".{time % 1_000_000:06}"[: digits + 1] if digits else "")

    def mark(self, time: int, text: str) -> None:
        """A line through all lanes, with a text above."""
        x = self.line.x(time)
        self.over += f'<line class=stop x1="{x:.2f}%" x2="{x:.2f}%" y2="100%"/>'
        side = "end" if x > 50 else "start"
        self.lane("", 18, f'<text class="stop {side}" x="{x:.2f}%" dx="{-5 if x > 50 else 5}" y="13">{text}</text>')

    def lane(self, name: str, height: int, drawing: str, is_ruled: bool = True) -> None:
        inside = f"{self.marks}{drawing}{self.over}" if is_ruled else drawing
        self.lanes.append(f'<div class=lane><span>{name}</span><svg height="{height}">{inside}</svg></div>')

    def bus(self, bus: str) -> None:
        """How many words of each kind a bus had over time; damaged and stray ones below the line."""
        counts = self.line.counts[bus]
        most = max(map(sum, zip(*counts[:2])), default=0) or 1
        both = [a + b for a, b in zip(counts[TRANSFER], counts[OTHER])]
        hills = f"<path class=other d='{hill(both, most)}'/><path class=words d='{hill(counts[TRANSFER], most)}'/>"
        bad = f"<path class=damaged d='{ridge(counts[DAMAGED])}'/><path class=stray d='{ridge(counts[STRAY])}'/>"
        above = f'<svg {FLAT} viewBox="0 0 {SLICES} 100" height="40">{hills}</svg>'
        below = f'<svg {FLAT} viewBox="0 0 {SLICES} 10" y="41" height="9">{bad}</svg>'
        self.lane(f"bus {bus}", 52, above + below)

    def attempts(self, outcome: str) -> None:
        """A lane of bars, one for each attempt that ended so, or one for each stretch that has any."""
        line = self.line
        some = self.visible.get(outcome)
        if not some:
            return
        if self.is_thinned:
            slices = Counter(line.slice(max(it.began, line.first)) for it in some)
            bars = "".join(rect(at * 100 / SLICES, (at + 1) * 100 / SLICES, many(n, "attempt")) for at, n in slices.items())
        else:
            bars = "".join(self.bar(it) for it in some)
        self.lane(f"{outcome} <b>{grouped(len(some))}</b>", 17, f"<g class={outcome}>{bars}</g>")

    def bar(self, it: Attempt) -> str:
        x, end = self.line.x(it.began), self.line.x(it.ended)
        title = f"{block_of(it)}: {said_of(it)}; entries {it.first} to {it.last}, {self.report.seconds(it.began)} s"
        return rect(x, end, shown(title))

    def bands(self) -> None:
        """A band for each file, with its number where there is room; or one for each stretch in which a file was under way."""
        line, out = self.line, []
        times = [(it.number, max(it.began, line.first), min(it.ended, line.last)) for it in self.report.files
                 if it.began is not None and it.ended is not None and it.ended >= line.first and it.began <= line.last]  # fmt: skip
        if len(times) > MOST_BARS:
            slices = sorted({at for _, began, ended in times for at in range(line.slice(began), line.slice(ended) + 1)})
            bands = "".join(f"M{at} 0h1v1h-1z" for at in slices)
            self.lane("files", 22, f'<svg {FLAT} viewBox="0 0 {SLICES} 1" y="2" height="18"><path class=band1 d="{bands}"/></svg>')
            return
        for n, (number, began, ended) in enumerate(times):
            x, end = line.x(began), line.x(ended)
            out.append(f"<g class=band{n % 2}>{rect(x, end, f'file {number}', 2, 18)}</g>")
            if end - x > 3:
                out.append(f'<text class="mid{"" if end - x > 9 else " wide"}" x="{(x + end) / 2:.2f}%" y="15">{number}</text>')
        self.lane("files", 22, "".join(out))

    def axis(self) -> None:
        ticks = list(self.ticks())
        places = [("start" if self.line.x(it) < 3 else "end" if self.line.x(it) > 97 else "mid") for it, _ in ticks]
        texts = (f'<text class="tick {at}" x="{self.line.x(it):.2f}%" y="13">{text}</text>' for (it, text), at in zip(ticks, places))
        self.lane("seconds", 18, "".join(texts), is_ruled=False)

    def __str__(self) -> str:
        return f'<div class=lanes role=img aria-label="{self.label}">{"".join(self.lanes)}</div>'


def rect(x: float, end: float, title: str, y: int = 3, height: int = 11) -> str:
    """A bar from one place to another, never too narrow to be drawn."""
    return f'<rect x="{x:.2f}%" width="{max(end - x, 0.05):.2f}%" y="{y}" height="{height}"><title>{title}</title></rect>'


def hill(counts: list[int], most: int) -> str:
    """The outline of a row of counts, from the left below to the right below."""
    out, last = ["M0 100"], 0
    for place, count in enumerate(counts):
        height = -(-count * 100 // most)
        if height != last:
            out.append(f"H{place}V{100 - height}")
            last = height
    return "".join(out) + f"H{SLICES}V100z"


def ridge(counts: list[int]) -> str:
    """A stroke for each slice that has any, the longer the more there are."""
    most = max(counts)
    return "".join(f"M{place} 0h1.2v{4 + 6 * count // most}h-1.2z" for place, count in enumerate(counts) if count)


def timeline(report: Report, line: Timeline, label: str, mark: tuple[int, str] | None) -> str:
    picture = Picture(report, line, label)
    if mark and line.first <= mark[0] <= line.last:
        picture.mark(*mark)
    picture.bus("A")
    picture.bus("B")
    for outcome in OUTCOMES:
        picture.attempts(outcome)
    if report.files:
        picture.bands()
    picture.axis()
    return str(picture)


def slices_table(report: Report, line: Timeline) -> Table:
    """What a timeline shows, in numbers: ten stretches of it."""
    table = Table("stretches", "The same in ten stretches of equal length", ("From, s", "n"), ("Words on A", "n"), ("Words on B", "n"),
                  ("Damaged", "n"), ("Attempts begun", "n"), ("Acknowledged", "n"), ("Refused", "n"), ("No answer", "n"))  # fmt: skip
    size, answers = SLICES // 10, (OUTCOMES, ("acknowledged", "again"), ("refused",), ("unanswered", "ungranted"))
    begun = Counter((line.slice(it.began) // size, it.outcome) for it in report.attempts if line.first <= it.began <= line.last)
    for n in range(10):
        cut = slice(n * size, (n + 1) * size)
        words = [sum(sum(it[cut]) for it in line.counts[bus]) for bus in "AB"]
        damaged = sum(sum(line.counts[bus][DAMAGED][cut]) for bus in "AB")
        outcomes = [sum(begun[n, it] for it in some) for some in answers]
        table.add(report.seconds(line.first + line.span * n // 10), *map(grouped, (*words, damaged, *outcomes)))
    return table
