"""Draws the crates of crates.txt, each above those that it uses: docs/crates.svg (scripts/lists writes it, and sees that it is so)."""
import re
import textwrap
from html import escape
from pathlib import Path

WIDE, HIGH, ACROSS, DOWN = 190, 66, 220, 104
STYLE = """\
text{font:12px sans-serif;fill:#1a1a1a;text-anchor:middle}.name{font:bold 14px monospace}
polyline{fill:none;stroke:#717171;stroke-width:1.5}.head{fill:#717171}rect{fill:#f2f2f2;stroke:#1a1a1a}.page{fill:#fff;stroke:none}
@media(prefers-color-scheme:dark){text{fill:#ececec}polyline{stroke:#9a9a9a}.head{fill:#9a9a9a}rect{fill:#262626;stroke:#ececec}
.page{fill:#161616;stroke:none}}"""


def uses_of(listed: str) -> dict[str, set[str]]:
    """The crates of a list as crates.txt has it, up to those of tests alone, each with those of the list that it uses."""
    lines = [line.split(":") for line in listed.partition("\n# Tests alone")[0].splitlines() if ":" in line and not line.startswith("#")]
    uses = {name.split()[0]: {*used.split()} for name, used in lines}
    return {name: used & {*uses} for name, used in uses.items()}


def all_below(uses: dict[str, set[str]], name: str) -> set[str]:
    """The crates that one uses, and those that they use, and so on."""
    return uses[name].union(*(all_below(uses, it) for it in uses[name]))


def drawn(uses: dict[str, set[str]]) -> dict[str, set[str]]:
    """Of the crates that one uses, those that no other of them uses."""
    return {name: used.difference(*(all_below(uses, it) for it in used)) for name, used in uses.items()}


def rows_of(uses: dict[str, set[str]]) -> dict[str, int]:
    """The row of each crate, the first one for those that no other uses: one below the lowest that uses it."""

    def row(name: str) -> int:
        return 1 + max((row(it) for it, used in uses.items() if name in used), default=-1)

    return {name: row(name) for name in uses}


def paths_of(uses: dict[str, set[str]], rows: dict[str, int]) -> list[list[tuple[str, int]]]:
    """The way from each crate down to one that it uses, by a place in each row between them."""
    return [
        [(name, rows[name]), *((f"{name} {used} {row}", row) for row in range(rows[name] + 1, rows[used])), (used, rows[used])]
        for name, all_used in uses.items()
        for used in sorted(all_used)
    ]


def columns_of(paths: list[list[tuple[str, int]]]) -> dict[str, float]:
    """The column of each crate and of each place on the way between two, so that the ways are short and cross seldom."""
    beside: dict[str, set[str]] = {}
    rows: dict[int, list[str]] = {}
    for path in paths:
        for (a, _), (b, _) in zip(path, path[1:]):
            beside.setdefault(a, set()).add(b)
            beside.setdefault(b, set()).add(a)
        for name, row in path:
            if name not in rows.setdefault(row, []):
                rows[row].append(name)
    most = max(map(len, rows.values()))
    columns = {name: at for names in rows.values() for at, name in enumerate(names)}
    for _ in range(20):
        for names in rows.values():
            names.sort(key=lambda it: (sum(columns[other] for other in beside[it]) / len(beside[it]), it))
            columns |= {name: (most - len(names)) / 2 + at for at, name in enumerate(names)}
    return columns


def subject(source: str) -> list[str]:
    """What a crate is about, by the first words of its first file, in short lines."""
    first = re.match(r"//! ([^:,.\n]+)", source)
    return textwrap.wrap(first[1].replace("`", ""), 28)[:2] if first else []


def picture(uses: dict[str, set[str]], subjects: dict[str, list[str]]) -> str:
    """The picture, as SVG."""
    uses = drawn(uses)
    rows = rows_of(uses)
    paths = paths_of(uses, rows)
    columns = columns_of(paths)
    wide, high = int(ACROSS * (max(columns.values()) + 1)) + 20, DOWN * (max(rows.values()) + 1)
    middle = {name: int(10 + ACROSS * at + ACROSS / 2) for name, at in columns.items()}

    def way(path: list[tuple[str, int]]) -> str:
        places = [f"{middle[path[0][0]]},{DOWN * path[0][1] + 10 + HIGH}"]
        for name, row in path[1:-1]:
            places += [f"{middle[name]},{DOWN * row + 10}", f"{middle[name]},{DOWN * row + 10 + HIGH}"]
        return " ".join([*places, f"{middle[path[-1][0]]},{DOWN * path[-1][1] + 8}"])

    def box(name: str) -> list[str]:
        x, y = middle[name], DOWN * rows[name] + 10
        lines = [f"<text x='{x}' y='{y + 40 + 15 * n}'>{escape(line)}</text>" for n, line in enumerate(subjects[name])]
        corner = f"x='{x - WIDE // 2}' y='{y}' width='{WIDE}' height='{HIGH}' rx='4'"
        return [f"<rect {corner}/>", f"<text class='name' x='{x}' y='{y + 20}'>{name}</text>", *lines]

    return "\n".join([
        f"<svg xmlns='http://www.w3.org/2000/svg' width='{wide}' height='{high}' viewBox='0 0 {wide} {high}' role='img'>",
        "<title>The crates, each above those that it uses</title>",
        f"<style>\n{STYLE}\n</style>",
        f"<rect class='page' width='{wide}' height='{high}'/>",
        "<marker id='head' viewBox='0 0 8 8' refX='8' refY='4' markerWidth='8' markerHeight='8' orient='auto'>"
        "<path class='head' d='M0 0 8 4 0 8z'/></marker>",
        *(f"<polyline marker-end='url(#head)' points='{way(path)}'/>" for path in paths),
        *(line for name in rows for line in box(name)),
        "</svg>",
        "",
    ])


def crates_picture(root: Path) -> str:
    """The picture of a repository's crates."""
    uses = uses_of((root / "crates.txt").read_text(encoding="utf-8"))

    def source(name: str) -> str:
        lib, main = (root / f"crates/{name}/src/{file}.rt" for file in ("lib", "main"))
        return (lib if lib.exists() else main).read_text(encoding="utf-8")

    return picture(uses, {name: subject(source(name)) for name in uses})
