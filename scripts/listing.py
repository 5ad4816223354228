"""The lists of pages that are made of what the sources say: docs/DEFINITIONS.md, and the files of docs/MAP.md.

A definition's words are the comment above it, with the comment of the definition before where it goes on from there. One that has no comment
has its words in a table of the script, as long as it has none.
"""

import re
import textwrap
from pathlib import Path
from typing import Iterator

from believing import Code, Definition, Tree
from citing import cited_by, exported, public_contracts

MARKS = ("<!-- made by scripts/lists --write -->", "<!-- up to here -->")
# How a comment begins that goes on from the one before it.
GOES_ON = re.compile(r"(the same|and|as|by|it|its|they)\b")
# Names of the kit that need no words: those that the language begins with, and types and variants of code.
KNOWN = re.compile(r"\.Prelude\.|\.declared\.|^std\.specs\.(Borrow|Global)\.")
# A line of the table of names from outside.
OUTSIDE = re.compile(r"\| `")


def escaped(text: str) -> str:
    """A text as it has to stand in a cell of a table, where it is no code."""
    parts = re.split(r"(`[^`]*`)", text.replace("|", "\\|"))
    return "".join(it if it.startswith("`") else re.sub(r"([*<]|\b_|_\b)", r"\\\1", it) for it in parts)


def words_of(comment: list[str]) -> str:
    """A comment as one text."""
    return " ".join(re.sub(r"^\s*(--|//[/!]?) ?", "", it).strip() for it in comment).strip()


def head_of(path: Path, mark: str) -> str:
    """The comment with which a file begins."""
    head: list[str] = []
    for line in path.read_text(encoding="utf-8").split("\n"):
        if not line.startswith(mark + " "):
            break
        head.append(line)
    return words_of(head)


def crates_in_order(root: Path) -> list[str]:
    """The crates, each after those that it rests on."""
    lines = (root / "crates.txt").read_text(encoding="utf-8").split("\n")
    return [it.partition(":")[0].split()[0] for it in lines if ":" in it and not it.startswith("#")]


# ---- definitions


class Citations:
    """The definitions that public contracts and laws cite, and those that these rest on."""

    def __init__(self, tree: Tree) -> None:
        self.tree = tree
        keys = cited_by(tree, [*public_contracts(tree)])
        done: dict[str, None] = {}
        top = Definition("", "", tree.crates, 0, needs={it for it in keys if it in tree.definitions})
        tree.visit(top, done)
        every = [tree.definitions[it] for it in done]
        self.cited = {it.key for it in every if it.key in keys}
        self.reached = [it for it in every if it.path.suffix == ".antt"]
        self.kit = (keys - self.cited).union(*(it.kit for it in every))

    def without_words(self) -> set[str]:
        """The cited definitions that have no comment, by `crate name`."""
        return {short_key(it) for it in self.reached if it.key in self.cited and not it.comment}


def short_key(it: Definition) -> str:
    """A definition by its crate, its file and its name."""
    return f"{it.path.parent.parent.name}.{it.path.stem}.{it.name}"


def files_in_order(definitions: list[Definition]) -> list[list[Definition]]:
    """The definitions by their files, each file after those that it needs, as far as they stand in this order."""
    files: dict[Path, list[Definition]] = {}
    for it in definitions:
        files.setdefault(it.path, []).append(it)
    return [sorted(group, key=lambda it: it.line) for group in files.values()]


def words_in(tree: Tree, table: dict[str, str], path: Path) -> dict[str, str]:
    """What the definitions of a file say, by their keys."""
    words: dict[str, str] = {}
    before = ""
    for it in sorted((it for it in tree.definitions.values() if it.path == path), key=lambda it: it.line):
        own = words_of(it.comment) or table.get(short_key(it), "")
        before = words[it.key] = f"{before}; {own}" if before and GOES_ON.match(own) else own
    return words


def file_section(group: list[Definition], cited: set[str], words: dict[str, str]) -> str:
    """What the page has of a file: what it is about, the definitions that contracts cite, and those that these rest on."""
    path = group[0].path
    text = f"\n### `specs/{path.name}`\n\n{escaped(head_of(path, '--'))}\n"
    rows = [it for it in group if it.key in cited]
    if rows:
        text += "\n| Definition | What it says |\n|---|---|\n"
        text += "".join(f"| `{it.name}` | {escaped(words[it.key])} |\n" for it in rows)
    if others := [it for it in group if it.key not in cited]:
        text += textwrap.fill("Under these: " + ", ".join(f"`{it.name}`" for it in others) + ".", 140, initial_indent="\n") + "\n"
    return text


def definitions_of_crates(root: Path, citations: Citations, table: dict[str, str]) -> str:
    """The page's chapters, one for each crate that has definitions."""
    text = ""
    for crate in crates_in_order(root):
        own = [it for it in citations.reached if it.path.parent.parent.name == crate]
        if own:
            text += f"\n## {crate}\n\n{escaped(head_of(root / f'crates/{crate}/src/lib.rt', '//!'))}\n"
            for group in files_in_order(own):
                text += file_section(group, citations.cited, words_in(citations.tree, table, group[0].path))
    return text


def names_from_outside(page: str) -> set[str]:
    """The names of the kit that the page explains."""
    rows = page.partition("## Names from outside")[2].split("\n")
    return {name for row in rows if OUTSIDE.match(row) for name in re.findall(r"`(\w+)`", row.split(" | ")[0])}


def outside_faults(page: str, kit: set[str]) -> Iterator[str]:
    """Names of the kit that definitions use and the page does not explain, and such as it explains and none uses."""
    listed, used = names_from_outside(page), {it.rpartition(".")[2] for it in kit}
    for it in sorted(it for it in kit if not KNOWN.search(it)):
        if re.fullmatch(r"\w+", it.rpartition(".")[2]) and it.rpartition(".")[2] not in listed:
            yield f"docs/DEFINITIONS.md, Names from outside: {it} is missing"
    for name in sorted(listed - used):
        yield f"docs/DEFINITIONS.md, Names from outside: no definition uses {name}"


# ---- files


def public_names(code: Code) -> dict[str, list[str]]:
    """The names that a root file makes public, by the modules in which they are."""
    names: dict[str, list[str]] = {}
    for module, name in exported(code):
        names.setdefault(module, []).append(name)
    return names


def file_rows(crate: str, tree: Tree) -> Iterator[str]:
    """A row for each file of a crate: its stem, what it is, and what it makes public."""
    root = next(code for (other, module), code in tree.code.items() if other == crate and module in ("lib", "main"))
    public = public_names(root)
    for (other, module), code in sorted(tree.code.items(), key=lambda it: it[0]):
        if other == crate and code is not root:
            names = ", ".join(f"`{it}`" for it in public.get(module, []))
            yield f"| `{module.replace('.', '/')}` | {escaped(head_of(code.path, '//!'))} | {names} |\n"


def files_of_crates(root: Path, tree: Tree) -> str:
    """The tables of files, one for each crate."""
    text = ""
    for crate in crates_in_order(root):
        if rows := "".join(file_rows(crate, tree)):
            text += f"\n| {crate} | What it is | Public names |\n|---|---|---|\n{rows}"
    return text


def between_marks(page: str, made: str) -> str:
    """A page with this text between its marks."""
    before, _, rest = page.partition(MARKS[0])
    _, _, after = rest.partition(MARKS[1])
    return f"{before}{MARKS[0]}\n{made}\n{MARKS[1]}{after}"
