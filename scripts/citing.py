"""Which definitions the public contracts and laws of the crates cite.

Public is what `lib.rt` of a crate names in `pub use`, and what is in a module that it names in `pub mod`, as laws are. A contract is what
stands between `requires` or `ensures` and the body of a function. A definition is cited where its name stands in a contract of a public
function, of a function of a public type or trait, or in what contracts see of a public type: its model, and what it gives a public trait.
"""

import re
from typing import Iterator, NamedTuple

from believing import Code, Definition, Tree, block_from, imports_of

USE = re.compile(r"^pub use crate::([\w:]+?)::(?:\{([^{}]*)\}|(\w+));", re.M)
MODULE = re.compile(r"^pub mod (\w+);", re.M)
# The begin of a function, and of a clause of its contract.
FUNCTION = re.compile(r"^(\s*)(pub )?(?:const )?fn \w+")
CLAUSE = re.compile(r"\b(?:requires|ensures)(?: \w+)? (?=\{)")
# What contracts see of a type, and what it gives a trait. Its invariant and its inverse are no part of that.
SEEN = re.compile(r"^    ghost (?!use |inv)\w+(?: =|:) (?=\{)", re.M)


class Cited(NamedTuple):
    """A piece of a public contract, with the lines whose imports its words have."""

    crate: str
    text: str
    scope: list[str]


def braced(text: str, begin: int) -> str:
    """What is between a brace and the one that closes it."""
    depth = 0
    for place in range(begin, len(text)):
        depth += {"{": 1, "}": -1}.get(text[place], 0)
        if not depth:
            return text[begin + 1 : place].strip()
    return text[begin + 1 :]


def exported(code: Code) -> Iterator[tuple[str, str]]:
    """The public names of a root file, each with its module."""
    for it in USE.finditer("\n".join(code.lines)):
        for name in (it[2] or it[3]).split(","):
            if name.strip():
                yield it[1].replace("::", "."), name.strip()


def public_modules(tree: Tree, crate: str, module: str) -> Iterator[str]:
    """The modules that a file names in `pub mod`, and those that these name."""
    for name in MODULE.findall("\n".join(tree.code[crate, module].lines)):
        inner = name if module == "lib" else f"{module}.{name}"
        yield inner
        yield from public_modules(tree, crate, inner)


def clauses_in(lines: list[str], all_public: bool) -> Iterator[str]:
    """The clauses of the contracts of public functions among these lines; of a trait all functions are public."""
    for number, line in enumerate(lines):
        found = FUNCTION.match(line)
        if not found or not (found[2] or all_public):
            continue
        ends = range(number, len(lines))
        end = next((it for it in ends if lines[it].strip() in ("{", "{}") or lines[it].endswith((";", " {"))), len(lines) - 1)
        text = "\n".join(lines[number : end + 1])
        yield from (braced(text, it.end()) for it in CLAUSE.finditer(text))


def top_level(lines: list[str]) -> list[str]:
    """The imports of a whole file."""
    return [it for it in lines if it.startswith("ghost use ")]


def blocks_of(tree: Tree, crate: str, code: Code, name: str) -> Iterator[tuple[list[str], bool]]:
    """The blocks of a file that belong to a public type or trait, each with whether all of its functions are public."""
    for number, line in enumerate(code.lines):
        if made := re.match(rf"impl(?:<.*?>)? (?:(\w+)(?:<.*?>)? for )?{name}\b", line):
            if not made[1] or is_public_trait(tree, crate, made[1]):
                yield block_from(code.lines, number), bool(made[1])
        elif re.match(rf"pub trait {name}\b", line):
            yield block_from(code.lines, number), True


def is_public_trait(tree: Tree, crate: str, name: str) -> bool:
    """Whether a trait is one of another crate, or one that this crate makes public."""
    is_own = any(it.startswith(f"pub(crate) trait {name}") for (other, _), code in tree.code.items() if other == crate for it in code.lines)
    return not is_own


def of_name(tree: Tree, crate: str, module: str, name: str) -> Iterator[Cited]:
    """What is cited by the contracts of a public name."""
    lines = tree.code[crate, module].lines
    for number, line in enumerate(lines):
        if re.match(rf"pub (?:const )?fn {name}\b", line):
            end = next(it for it in range(number, len(lines)) if lines[it].startswith("}") or lines[it].endswith("{}"))
            yield from (Cited(crate, it, top_level(lines)) for it in clauses_in(lines[number : end + 1], False))
    for (other, _), code in tree.code.items():
        if other == crate:
            for block, all_public in blocks_of(tree, crate, code, name):
                scope = [*top_level(code.lines), *block]
                text = "\n".join(block)
                seen = [braced(text, it.end()) for it in SEEN.finditer(text)]
                yield from (Cited(crate, it, scope) for it in [*seen, *clauses_in(block, all_public)])


def public_contracts(tree: Tree) -> Iterator[Cited]:
    """All pieces of public contracts of a tree."""
    for (crate, module), code in tree.code.items():
        if module == "lib":
            for inner in public_modules(tree, crate, "lib"):
                lines = tree.code[crate, inner].lines
                yield from (Cited(crate, it, lines) for it in clauses_in(lines, False))
            for home, name in exported(code):
                yield from of_name(tree, crate, home, name)


def cited_by(tree: Tree, contracts: list[Cited]) -> set[str]:
    """The keys of the definitions that these name, and the names of the kit."""
    keys: set[str] = set()
    for number, it in enumerate(contracts):
        of = Definition("", "", tree.crates, 0)
        module = f"contract {number}"
        tree.imports[module] = imports_of(it.scope, "ghost use")
        tree.resolve(of, module, [it.text])
        keys |= of.needs | of.kit
    return keys
