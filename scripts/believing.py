"""What has to be believed for a promise: its definitions, and those that they rest on, down to the bottom.

A promise is what clauses of a contract say. Their words are the names that the file imports for its contracts, and the types of the parameters
and of the result that they speak of. A type is what contracts see of it: its model where it has one, else its fields; what a variant of an enum
holds only where a definition names this variant. Definitions of the kit are named apart, and not followed: who believes a promise takes the
kit's words as the kit explains them.
"""

import re
from dataclasses import dataclass, field
from pathlib import Path
from typing import Iterator, NamedTuple

# What begins a definition, at the line's begin.
BEGIN = re.compile(r"^(?:(?:abbrev|unfoldable|pub) )*(?:(?P<kind>record|data) )?(?P<name>[^\s(){}:]+)(?: :| [({]| where$)")
# A clause of a definition: the patterns that its names are bound by.
CLAUSE = re.compile(r"^(?!abbrev |unfoldable |pub |record |data )\S+\s(?P<patterns>.*?)\s?=(?:\s|$)", re.S)
WORD = re.compile(r"[^\s(){}\[\];,]+")
TYPE = re.compile(r"^(?:pub(?:\(crate\))? )?(?:struct|enum) (\w+)")
MODEL = re.compile(r"^impl.* Model for (\w+)")
CONSTRUCTOR = re.compile(r"^\s+([^\s:]+) : ")


class Promise(NamedTuple):
    """Clauses of the contract of a function, or of a law."""

    file: str
    function: str
    clauses: tuple[str, ...]


@dataclass
class Definition:
    """A definition, or a type as contracts see it: where it stands, its comment, and its lines without comments."""

    key: str
    name: str
    path: Path
    line: int
    comment: list[str] = field(default_factory=list)
    text: list[str] = field(default_factory=list)
    needs: set[str] = field(default_factory=set)
    kit: set[str] = field(default_factory=set)


@dataclass
class Imports:
    """What a file imports: names of a module by the name that they have here, and modules by theirs."""

    names: dict[str, tuple[str, str]] = field(default_factory=dict)
    modules: dict[str, str] = field(default_factory=dict)


def imports_of(lines: list[str], word: str) -> Imports:
    """The imports of lines that begin with this word."""
    found = Imports()
    for line in lines:
        line = line.strip().rstrip(";")
        if not line.startswith(word + " "):
            continue
        line = line[len(word) + 1 :]
        if listed := re.match(r"(\S+)\.\{(.*)\}$", line):
            for name in listed[2].split(","):
                old, _, new = name.strip().partition(" as ")
                found.names[new or old] = (listed[1], old)
        elif renamed := re.match(r"(\S+) as (\S+)$", line):
            found.modules[renamed[2]] = renamed[1]
    return found


def without_comment(line: str) -> str:
    return re.sub(r"(^|\s)--.*$", "", line).rstrip()


def pieces(text: list[str]) -> Iterator[str]:
    """The signature and the clauses of a definition."""
    piece: list[str] = []
    for line in text:
        if piece and not line.startswith(" "):
            yield "\n".join(piece)
            piece = []
        piece.append(line)
    if piece:
        yield "\n".join(piece)


def bound_in(piece: str) -> set[str]:
    """The names that a piece binds itself: by patterns, functions, and parameters with their types."""
    names: set[str] = set()
    if clause := CLAUSE.match(piece):
        names |= {it for it in WORD.findall(clause["patterns"]) if re.match(r"[a-z]\w*$", it)}
    for found in re.finditer(r"λ ([^.]*?)\.", piece):
        names |= set(found[1].split())
    for found in re.finditer(r"[({]([^(){}:=]+?) : ", piece):
        names |= set(found[1].split())
    return names


def without_fields(piece: str) -> str:
    """A piece without the names of the fields that its records set or declare."""
    piece = re.sub(r"(?<![\w.])(\w+) = (?=[^=])", "= ", piece) if "record" in piece else piece
    return re.sub(r"^(\s+)(?:pub )?\w+ :", r"\1 :", piece, flags=re.M) if re.match(r"(abbrev )?(pub )?record", piece) else piece


@dataclass
class Code:
    """A file of code: its lines, what it imports from other files, its types and their models, each with its lines."""

    path: Path
    lines: list[str]
    uses: dict[str, str] = field(default_factory=dict)
    types: dict[str, tuple[int, list[str]]] = field(default_factory=dict)
    models: dict[str, tuple[int, list[str]]] = field(default_factory=dict)


def read_code(path: Path) -> Code:
    code = Code(path, path.read_text(encoding="utf-8").split("\n"))
    for it in re.finditer(r"^use ([a-z0-9_:]+?)::(?:\{([^{}]*)\}|(\w+));", "\n".join(code.lines), re.M):
        for name in (it[2] or it[3]).split(","):
            if name := name.strip().partition(" as ")[0]:
                code.uses[name] = it[1]
    for number, line in enumerate(code.lines):
        for found, kept in ((TYPE.match(line), code.types), (MODEL.match(line), code.models)):
            if found:
                kept[found[1]] = (number + 1, block_from(code.lines, number))
    return code


def variants_of(block: list[str]) -> dict[str, str]:
    """The variants of an enum by their names, each with its text; none of a struct."""
    found: dict[str, str] = {}
    for line in block[1:-1] if re.match(r"(?:pub(?:\(crate\))? )?enum ", block[0]) else []:
        if made := re.match(r"    ([A-Z]\w*)(.*)", line):
            found[made[1]] = made[2]
        elif found:
            found[[*found][-1]] += f"\n{line}"
    return found


def block_from(lines: list[str], begin: int) -> list[str]:
    """An item of code, up to the brace that ends it."""
    if lines[begin].rstrip().endswith((";", "}")):
        return [lines[begin]]
    end = next(it for it in range(begin + 1, len(lines)) if lines[it].startswith("}"))
    return lines[begin : end + 1]


class Tree:
    """All definitions of a repository's crates, and the types of its code."""

    def __init__(self, crates: Path) -> None:
        self.crates = crates
        self.definitions: dict[str, Definition] = {}
        self.constructors: dict[str, str] = {}
        self.imports: dict[str, Imports] = {}
        self.code: dict[tuple[str, str], Code] = {}
        for path in sorted(crates.glob("*/specs/*.antt")):
            if path.name != "Lib.antt":
                self.load(path)
        for path in sorted(crates.glob("*/src/**/*.rt")):
            crate, _, *rest = path.relative_to(crates).with_suffix("").parts
            self.code[crate, ".".join(rest)] = read_code(path)
        for key, it in [*self.definitions.items()]:
            self.resolve(it, key.rpartition(".")[0], it.text)

    def load(self, path: Path) -> None:
        """Reads the definitions of a file of specs."""
        module = f"Rattle.{path.parent.parent.name}.specs.{path.stem}"
        lines = path.read_text(encoding="utf-8").split("\n")
        self.imports[module] = imports_of(lines, "use")
        current, comment = None, []
        for number, line in enumerate(lines, 1):
            if line.startswith(("--", "use ", "pub mod ", "infix")) or not line.strip():
                comment = [*comment, line] if line.startswith("-- ") and not line.startswith("-- ----") else []
                continue
            begin = BEGIN.match(line)
            if begin and f"{module}.{begin['name']}" not in self.definitions:
                current = Definition(f"{module}.{begin['name']}", begin["name"], path, number, comment)
                self.definitions[current.key] = current
            comment = []
            if current and (kept := without_comment(line)).strip():
                current.text.append(kept)
                if (made := CONSTRUCTOR.match(kept)) and re.match(r"(abbrev )?(pub )?data ", current.text[0]):
                    self.constructors[f"{module}.{made[1]}"] = current.key

    def resolve(self, of: Definition, module: str, text: list[str]) -> None:
        """Finds what the words of a text are, by what its module imports and defines."""
        known = self.imports[module]
        signs = {it.strip("◌"): it for it in known.names if it.startswith("◌") and it.endswith("◌") and it.count("◌") == 2}
        for piece in pieces(text):
            bound = bound_in(piece)
            for word in {it.strip(":").lstrip("λ") for it in WORD.findall(without_fields(piece))}:
                first, _, rest = word.partition(".")
                if first in bound:
                    continue
                if word in signs:
                    self.need(of, *known.names[signs[word]])
                elif first in known.names:
                    self.need(of, *known.names[first])
                elif first in known.modules and rest:
                    self.need(of, known.modules[first], rest.partition(".")[0])
                elif (key := f"{module}.{first}") in self.definitions or key in self.constructors:
                    self.need(of, module, first)

    def need(self, of: Definition, module: str, name: str) -> None:
        """Notes that a definition needs another one, or a word of the kit."""
        if key := self.key_of(module, name):
            of.needs |= {it for it in (key, f"{key}.{name}") if it in self.definitions} - {of.key}
        else:
            of.kit.add(f"{module}.{name}".removeprefix("Rattle."))

    def key_of(self, module: str, name: str) -> str:
        """The definition that a module has under a name, or nothing for one of the kit."""
        key = self.constructors.get(f"{module}.{name}", f"{module}.{name}")
        if key in self.definitions:
            return key
        declared = re.match(r"Rattle\.(\w+)\.specs\.declared\.(.+?)(?:\.The\w+)?$", module)
        if not declared or (declared[1], declared[2].rpartition(".")[0]) not in self.code:
            return ""
        return self.type_key(declared[1], *declared[2].rpartition(".")[::2])

    def type_key(self, crate: str, file: str, name: str) -> str:
        """A type of the code, as contracts see it."""
        code, key = self.code[crate, file], f"{crate}.{file}.{name}"
        if name not in code.types:
            return ""
        if key not in self.definitions:
            line, block = code.models.get(name, code.types[name])
            comment = comment_above(code.lines, code.types[name][0] - 1)
            it = self.definitions[key] = Definition(key, name, code.path, line, comment)
            if name in code.models:
                self.see_model(it, crate, file, block)
            else:
                it.text = [line for line in block if not re.match(r"\s*(//|#\[|ghost )", line)]
                self.see_fields(it, crate, file)
        return key

    def see_fields(self, it: Definition, crate: str, file: str) -> None:
        """What contracts see of a type without a model: of a struct its fields; of an enum those of the variants that are named, each
        of which is a definition without text."""
        variants = variants_of(it.text)
        for name, text in variants.items():
            variant = self.definitions[f"{it.key}.{name}"] = Definition(f"{it.key}.{name}", name, it.path, it.line)
            variant.needs |= self.types_in(crate, file, text) - {it.key}
        if not variants:
            it.needs |= self.types_in(crate, file, "\n".join(it.text)) - {it.key}

    def see_model(self, it: Definition, crate: str, file: str, block: list[str]) -> None:
        """What contracts see of a type with a model: its value, and how its fields make it."""
        parts = re.findall(r"^    ghost (?:Value|view) = .*?\};$", "\n".join(block), re.M | re.S)
        it.comment.append(f"// {it.name}, as contracts see it")
        it.text = "\n".join(parts).split("\n")
        self.imports[it.key] = imports_of(block, "ghost use")
        self.resolve(it, it.key, it.text)
        for line in self.code[crate, file].types[it.name][1]:
            if (kept := re.match(r"\s+(?:pub(?:\(crate\))? )?(\w+): (.*)", line)) and re.search(rf"\.{kept[1]}\b", "\n".join(parts)):
                it.needs |= self.types_in(crate, file, kept[2]) - {it.key}

    def types_in(self, crate: str, file: str, text: str) -> set[str]:
        """The types of this repository that a piece of code names."""
        found = set()
        for name in re.findall(r"\b[A-Z]\w+", re.sub(r"//.*", "", text)):
            home = self.home_of(crate, file, name)
            found |= {self.type_key(*home, name)} - {""} if home else set()
        return found

    def home_of(self, crate: str, file: str, name: str) -> tuple[str, str] | None:
        """The crate and the file of a type that a file names."""
        code = self.code[crate, file]
        if name in code.types:
            return crate, file
        other, *path = code.uses.get(name, "").split("::")
        if other == "crate":
            return (crate, ".".join(path)) if (crate, ".".join(path)) in self.code else None
        homes = [it for it, made in self.code.items() if it[0] == other and name in made.types]
        return homes[0] if len(homes) == 1 else None

    # ---- promises

    def roots(self, promise: Promise) -> Definition:
        """What the clauses of a promise say, with their own words as what they need."""
        path = self.crates / promise.file
        crate, _, *rest = Path(promise.file).with_suffix("").parts
        file = ".".join(rest)
        lines = self.code[crate, file].lines
        key = f"{promise.file} {promise.function}"
        head = header_of(lines, promise.function)
        self.imports[key] = imports_of(lines, "ghost use")
        it = Definition(key, promise.function, path, head.line, head.comment)
        for clause in promise.clauses:
            it.text.append(head.clauses[clause])
        self.resolve(it, key, it.text)
        said = "\n".join(it.text)
        for name, kind in head.parameters.items():
            if re.search(rf"\b{name}\b", said):
                it.needs |= self.types_in(crate, file, kind)
        if re.search(r"\bresult\b", said):
            it.needs |= self.types_in(crate, file, spoken_of(head.result, it.text))
        return it

    def base(self, promises: list[Promise]) -> list[Definition]:
        """All definitions that promises rest on, each after those that it needs, and below these the lower crate first."""
        done: dict[str, None] = {}
        for promise in promises:
            self.visit(self.roots(promise), done)
        return [self.definitions[it] for it in done if self.definitions[it].text]

    def visit(self, it: Definition, done: dict[str, None]) -> None:
        for key in sorted(it.needs, key=lambda key: (self.definitions[key].path, self.definitions[key].line, key)):
            if key not in done:
                below = self.definitions[key]
                done[key] = None
                self.visit(below, done)
                done[key] = done.pop(key)


class Header(NamedTuple):
    """What stands above the body of a function."""

    line: int
    comment: list[str]
    clauses: dict[str, str]
    parameters: dict[str, str]
    result: str


def header_of(lines: list[str], function: str) -> Header:
    """The header of a public function. A clause without a name has the name ''."""
    begin = next(number for number, it in enumerate(lines) if re.match(rf"\s*pub fn {function}\b", it))
    indent = len(lines[begin]) - len(lines[begin].lstrip())
    end = next(number for number in range(begin, len(lines)) if lines[number][indent:] in ("{", "{}"))
    text = "\n".join(lines[begin:end])
    signature, *rest = re.split(r"\n\s*(?=ensures|requires)", text)
    clauses = {}
    for it in rest:
        clause = re.match(r"(?:ensures|requires)(?: (\w+))? \{(.*)\}", it, re.S)
        clauses[clause[1] or ""] = clause[2].strip()
    parameters = dict(re.findall(r"(\w+): ([^,()]+(?:\([^)]*\))?)", signature))
    result = signature.rpartition("->")[2] if "->" in signature else ""
    return Header(begin + 1, comment_above(lines, begin), clauses, parameters, result)


def comment_above(lines: list[str], begin: int) -> list[str]:
    """The comment of an item of code, which stands above its attributes."""
    comment: list[str] = []
    for it in reversed(lines[:begin]):
        if it.strip().startswith("///"):
            comment.insert(0, it.strip())
        elif not it.strip().startswith("#["):
            break
    return comment


def spoken_of(result: str, clauses: list[str]) -> str:
    """The part of the result's type that clauses speak of: of `Result<A, E>` only A where each says what holds of a value."""
    of_value = re.match(r"\s*Result<(.*)>\s*$", result, re.S)
    if of_value and all(it.startswith("IfOk result") for it in clauses):
        depth = 0
        for place, sign in enumerate(of_value[1]):
            depth += {"<": 1, "(": 1, ">": -1, ")": -1}.get(sign, 0)
            if sign == "," and not depth:
                return of_value[1][:place]
    return result


def lines_in(definitions: list[Definition]) -> int:
    """How many lines they have, without comments and empty ones."""
    return sum(len(it.text) for it in definitions)
