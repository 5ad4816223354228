"""What is said beside each definition of a promise: the sentence of a document that it formalises, and its second statements, each of which
would fail if the definition were wrong. scripts/base.toml has both by hand, and this looks whether they are so.

A second statement is a law, a test of the crates, a comparison that a script makes of the built program with a second reading, a line of a page of
scripts/cases, by its begin, or a mistake of scripts/wrong-definitions. It can hold a definition only where it has to do with it. A law and the
functions that a test calls rest on it, and a mistake changes it. Of a comparison and of a line of scripts/cases only its place is looked at.
"""

import re
import tomllib
from dataclasses import dataclass, field
from functools import cached_property
from importlib.machinery import SourceFileLoader
from pathlib import Path
from types import ModuleType
from typing import Iterator, NamedTuple

from believing import Definition, Promise, Tree, header_of
from citing import cited_by, exported, of_name

KINDS = ("law", "test", "comparison", "line", "mistake")


class Sentence(NamedTuple):
    """A sentence of a page of docs, and the definitions that formalise it."""

    page: str
    says: str
    definitions: tuple[str, ...]


class Second(NamedTuple):
    """What would fail if one of these definitions were wrong: of which kind it is, where it is, and what it is about."""

    kind: str
    name: str
    what: str
    definitions: tuple[str, ...]


def short(key: str) -> str:
    """A definition by its crate, its file and its name."""
    return key.removeprefix("Rattle.").replace(".specs.", ".")


def joined(text: str) -> str:
    """A text with one blank between its words."""
    return " ".join(text.split())


def second_of(row: dict) -> Second:
    """A second statement by its table, in which one key names its kind."""
    kind = next(it for it in KINDS if it in row)
    return Second(kind, row[kind], row["what"], tuple(row["definitions"]))


@dataclass
class Notes:
    """What scripts/base.toml says."""

    sentences: list[Sentence] = field(default_factory=list)
    seconds: list[Second] = field(default_factory=list)

    @cached_property
    def sentence_of(self) -> dict[str, Sentence]:
        return {name: it for it in self.sentences for name in it.definitions}

    @cached_property
    def seconds_of(self) -> dict[str, list[Second]]:
        found: dict[str, list[Second]] = {}
        for it in self.seconds:
            for name in it.definitions:
                found.setdefault(name, []).append(it)
        return found


def read_notes(text: str) -> Notes:
    table = tomllib.loads(text)
    sentences = [Sentence(it["page"], it["says"], tuple(it["definitions"])) for it in table.get("sentence", [])]
    return Notes(sentences, [second_of(it) for it in table.get("second", [])])


class Holder:
    """Looks in a repository for what notes name."""

    def __init__(self, root: Path, tree: Tree, notes: Notes) -> None:
        self.root, self.tree, self.notes = root, tree, notes
        self.below: dict[tuple[str, str], set[str]] = {}

    # ---- sentences

    def sentence_faults(self, base: list[Definition]) -> Iterator[str]:
        """Definitions without a sentence, or with two; names that are none of the base; sentences that are not on their page."""
        names = [name for it in self.notes.sentences for name in it.definitions]
        for it in base:
            if short(it.key) not in names:
                yield f"{short(it.key)} has no sentence"
        for name in sorted({*names} - {short(it.key) for it in base}):
            yield f"{name}, of a sentence, is no definition of the base"
        for name in sorted(it for it in {*names} if names.count(it) > 1):
            yield f"{name} has more than one sentence"
        for it in self.notes.sentences:
            page = self.root / f"docs/{it.page}.md"
            if not page.exists() or joined(it.says) not in joined(page.read_text(encoding="utf-8")):
                yield f"docs/{it.page}.md does not say: {it.says}"

    # ---- second statements

    def second_faults(self, base: list[Definition]) -> Iterator[str]:
        """Second statements that are not there, or that have nothing to do with a definition that they are to hold."""
        known = {short(it.key): it for it in base}
        for it in self.notes.seconds:
            if not self.is_there(it):
                yield f"there is no {it.kind} {it.name}"
                continue
            for name in it.definitions:
                if name not in known:
                    yield f"{name}, of {it.kind} {it.name}, is no definition of the base"
                elif not self.has_to_do(it, known[name]):
                    yield f"{it.kind} {it.name} has nothing to do with {name}"

    def is_there(self, it: Second) -> bool:
        if it.kind == "mistake":
            return it.name in self.mistakes
        file, _, name = self.place_of(it)
        if not file.is_file():
            return False
        text = file.read_text(encoding="utf-8")
        if it.kind == "line":
            return any(line.startswith(name) for line in text.split("\n"))
        heads = {"law": rf"^pub fn {name}\(", "test": rf"#\[test\]\nfn {name}\(", "comparison": rf"^ *def {name}\("}
        return bool(re.search(heads[it.kind], text, re.M))

    def place_of(self, it: Second) -> tuple[Path, str, str]:
        """Its file, this file as its crate names it, and its name there."""
        if it.kind == "law":
            crate, *path, name = it.name.split("::")
            return self.root / f"crates/{crate}/src/{'/'.join(path)}.rt", f"{crate}/src/{'/'.join(path)}.rt", name
        file, _, name = it.name.partition(" ")
        return self.root / file, file.removeprefix("crates/"), name

    @cached_property
    def mistakes(self) -> dict:
        module = ModuleType("wrong_definitions")
        module.__file__ = str(self.root / "scripts/wrong-definitions")
        SourceFileLoader(module.__name__, module.__file__).exec_module(module)
        return {it.name: it for it in module.MISTAKES}

    def has_to_do(self, it: Second, definition: Definition) -> bool:
        if it.kind in ("comparison", "line"):
            return True
        if it.kind == "mistake":
            return self.is_changed(it, definition)
        key = (it.kind, it.name)
        if key not in self.below:
            self.below[key] = self.below_law(it) if it.kind == "law" else self.below_test(it)
        return definition.key in self.below[key]

    def is_changed(self, it: Second, definition: Definition) -> bool:
        """Whether a mistake changes a text of this definition."""
        text = "\n".join(definition.text)
        return any(definition.path.match(f"*/{file}") and old.strip("\n") in text for file, old, _ in self.mistakes[it.name].changes)

    def below_law(self, it: Second) -> set[str]:
        _, file, name = self.place_of(it)
        crate, _, *rest = Path(file).with_suffix("").parts
        clauses = header_of(self.tree.code[crate, ".".join(rest)].lines, name).clauses
        return {found.key for found in self.tree.base([Promise(file, name, tuple(clauses))])}

    def below_test(self, it: Second) -> set[str]:
        """What the contracts rest on of all that a test's file calls, by itself or by files of its own crate."""
        _, file, _ = self.place_of(it)
        crate, _, *rest = Path(file).with_suffix("").parts
        contracts = []
        for home, module, name in self.called(crate, ".".join(rest), set()):
            contracts += of_name(self.tree, home, module, name)
        types = {self.tree.type_key(home, module, name) for home, module, name in self.called(crate, ".".join(rest), set())}
        keys = {it for it in cited_by(self.tree, contracts) | types if it in self.tree.definitions}
        done: dict[str, None] = {}
        self.tree.visit(Definition("", "", self.root, 0, needs=keys), done)
        return {*done}

    def called(self, crate: str, module: str, seen: set[str]) -> Iterator[tuple[str, str, str]]:
        """The public names of other crates that a file uses, or files of its crate that it uses."""
        seen.add(module)
        for name, path in self.tree.code[crate, module].uses.items():
            other, *rest = path.split("::")
            if other == "crate" and (inner := ".".join(rest)) not in seen and (crate, inner) in self.tree.code:
                yield from self.called(crate, inner, seen)
            elif (other, "lib") in self.tree.code:
                yield from ((other, home, name) for home, it in exported(self.tree.code[other, "lib"]) if it == name)


# ---- the page


def quoted(it: Sentence) -> str:
    """A sentence as it stands in a cell of a table, with a link to its page."""
    return f"{joined(it.says)} ([{it.page}]({it.page}.md))".replace("|", "\\|")


def named(it: Second) -> str:
    """A second statement in few words."""
    if it.kind == "line":
        return f"a line of `{it.name.partition(' ')[0].rpartition('/')[2]}`: {it.what}"
    if it.kind == "mistake":
        return f"mistake: {it.name}"
    return f"`{re.split(r'::| ', it.name)[-1]}`"


def placed(it: Second) -> str:
    """Where a second statement is."""
    if it.kind == "law":
        return f"law `{it.name}`"
    if it.kind == "mistake":
        return "`scripts/wrong-definitions`"
    file, _, name = it.name.partition(" ")
    return f"`{file}`" if it.kind in ("test", "comparison") else f"`{file}`, `{name}`".replace("|", "\\|")


def notes_table(group: list[Definition], notes: Notes) -> str:
    """What is said of the definitions of a file, sentence by sentence: a row for those of which the same would fail."""
    sentences: dict[str, dict[str, list[str]]] = {}
    for it in group:
        says = quoted(notes.sentence_of[short(it.key)]) if short(it.key) in notes.sentence_of else ""
        held = "; ".join(map(named, notes.seconds_of.get(short(it.key), []))) or "**nothing yet**"
        sentences.setdefault(says, {}).setdefault(held, []).append(f"`{it.name}`")
    text = "\n| Definition | Says | What would fail if it were wrong |\n|---|---|---|\n"
    for says, rows in sentences.items():
        for number, (held, names) in enumerate(rows.items()):
            text += f"| {', '.join(names)} | {'the same' if number else says} | {held} |\n"
    return text


def seconds_table(notes: Notes) -> str:
    """All second statements, with where they are."""
    rows = [f"| {named(it)} | {placed(it)} | {it.what} | {len(it.definitions)} |\n" for it in notes.seconds]
    return "\n| What would fail | Where | What it is about | Definitions |\n|---|---|---|---|\n" + "".join(rows)


def unheld(base: list[Definition], notes: Notes) -> list[Definition]:
    """The definitions that no second statement holds."""
    return [it for it in base if short(it.key) not in notes.seconds_of]
