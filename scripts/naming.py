"""What the definitions and lemmas of the crates are named by: those that nothing names carry nothing.

A definition of `specs/` is cited by a contract or by another definition; a lemma of `proofs/` by a proof, a contract's ruleset or
another lemma. A name is looked for where its module is imported, or in its own file outside of its own lines. Lemmas that show on examples
what a definition computes are named by nothing: their file begins with the word that says so.
"""
import re
from dataclasses import dataclass, field
from pathlib import Path

WORD = re.compile(r"[^\s(){}\[\];,:λ]+")
# What begins a definition: at the line's begin, or indented where it is in a `module _`.
BEGIN = re.compile(r"^(?P<indent>(?:  )?)(?:(?:abbrev|unfoldable|pub|record|data|ruleset) )*(?P<name>[^\s():]+)(?: :|.* where$|.*: Type| = \()")

# How a file of lemmas begins that nothing has to name: each computes a definition on an example.
EXAMPLES = "-- Examples: "


@dataclass(frozen=True)
class Definition:
    """A definition or lemma: its file, the line where it begins, its name."""

    file: Path
    line: int
    name: str


@dataclass
class Source:
    """A file, with its definitions, the files that it imports, and how often each word is in it, without comments."""

    path: Path
    module: str
    definitions: list = field(default_factory=list)
    own: dict = field(default_factory=dict)
    words: dict = field(default_factory=dict)
    imports: set = field(default_factory=set)


def module_of(path, crates):
    """The name by which other files import this one."""
    crate, *rest = path.relative_to(crates).with_suffix("").parts
    return ".".join(("Rattle", crate, *rest))


def counted(text):
    """How often each name is in a text. A name after a point counts, as that of an imported module."""
    counts = {}
    for word in WORD.findall(text):
        for name in {word, *word.split("."), word.rstrip(".")}:
            counts[name] = counts.get(name, 0) + 1
    return counts


def imported(text, module):
    """The modules that a text imports from, by their names or, in code, by a path in its crate."""
    crate = module.split(".")[1]
    by_name = re.findall(r"\b(Rattle\.[\w.]+?)(?:\.\{| as )", text)
    by_path = re.findall(r"\b(?:crate|(\w+))::(proofs|specs)((?:::\w+)+)::", text)
    return {*by_name, *(f"Rattle.{other or crate}.{kind}{rest.replace('::', '.')}" for other, kind, rest in by_path)}


def without_comment(line):
    """The line without the comment at its end."""
    return re.sub(r"(^|\s)(--|//).*$", "", line)


def read(path, crates):
    """The file as a source."""
    source = Source(path, module_of(path, crates))
    lines = [without_comment(it) for it in path.read_text(encoding="utf-8").split("\n")]
    text = "\n".join(lines)
    source.words = counted(text)
    source.imports = imported(text, source.module)
    if path.suffix != ".antt":
        return source
    in_module, current, own = False, None, {}
    for number, line in enumerate(lines, 1):
        if line.lstrip().startswith("module "):
            in_module, current = True, None
            continue
        if line and not line.startswith(" "):
            in_module = False
        found = BEGIN.match(line)
        begins = found and (not found["indent"] or in_module) and not line.startswith(("use ", "infix", "mod ", "pub mod ", "unfolding "))
        if begins and re.search(r" : goal\.", line):
            current = None
        elif begins and found["name"] not in own:
            current = found["name"]
            source.definitions.append(Definition(path, number, current))
            own[current] = []
        if current is not None:
            own[current].append(line)
    source.own = {name: counted("\n".join(text)) for name, text in own.items()}
    return source


def sources_of(crates):
    """All files of the crates that may name something, and those that define something."""
    paths = [it for kind in ("specs/**/*.antt", "proofs/**/*.antt", "src/**/*.rt") for it in crates.glob(f"*/{kind}")]
    return [read(path, crates) for path in sorted(paths)]


def unnamed(crates):
    """The definitions that no contract and no other definition cites, and the lemmas that nothing names, without examples."""
    sources = sources_of(crates)
    users = {}
    for it in sources:
        for module in it.imports:
            users.setdefault(module, []).append(it)
    for home in sources:
        if not home.definitions or home.path.read_text(encoding="utf-8").startswith(EXAMPLES):
            continue
        others = [it for it in users.get(home.module, []) if ".specs." not in home.module or ".proofs." not in it.module]
        for definition in home.definitions:
            name = definition.name
            outside = home.words.get(name, 0) > home.own[name].get(name, 0)
            if not outside and not any(it.words.get(name, 0) for it in others):
                yield definition
