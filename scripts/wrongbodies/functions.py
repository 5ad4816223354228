"""What a function is in the text of a file of src/: where it begins and ends, its text without its body, and its double.

The text is in the layout of `rt fmt`: the brace that closes a body has the indent of the function's head. Lines are
counted from 0.
"""
import re
from dataclasses import dataclass
from pathlib import Path

HEAD = re.compile(r'( *)(?:pub(?:\(\w+\))? )?(?:const |extern "C" )?fn (\w+)')
TYPE = re.compile(r"(?m)^(?:pub(?:\(\w+\))? )?(?:struct|enum) (\w+)")
# What a function has in the place of a body that is taken out.
NO_BODY = "unreachable!()"


@dataclass(frozen=True)
class Function:
    """A function of a file, and where it is: the lines of its first attribute, of its head, and of its body's two braces."""

    # The end of the name that `rattle` gives it.
    name: str
    # The trait that has it, or nothing.
    trait: str
    # The folder of its proof, in proofs/.
    proof: str
    start: int
    head: int
    first: int
    last: int


def functions_in(path, lines, homes):
    """The functions of a file whose bodies have lines of their own. The homes are the modules of the crate's types."""
    module = module_of(path)
    for number, line in enumerate(lines):
        head = HEAD.match(line)
        first = head and first_brace(lines, number, head[1])
        if first:
            type_name, trait = type_of(lines[:number]) if head[1] else ("", "")
            name = f"{type_name}{trait}::{head[2]}" if type_name else f"{module.replace('/', '::')}::{head[2]}"
            proof = "/".join(filter(None, [homes.get(type_name, module), type_name + trait, head[2]]))
            yield Function(name, trait, proof, start_of(lines, number, head[1]), number, first, lines.index(head[1] + "}", first))


def start_of(lines, number, indent):
    """The line of the first attribute of the function with this head, or the head where it has none."""
    while lines[number - 1].startswith(indent + "#["):
        number -= 1
    return number


def first_brace(lines, number, indent):
    """The line with the brace that opens the body of the function with this head, or None where the function has no such line."""
    clause = 0
    for at in range(number, len(lines)):
        # (a line inside a clause is none of these)
        if not clause:
            if lines[at] == indent + "{" or lines[at].endswith(" {") and not lines[at].lstrip().startswith(("ensures", "requires")):
                return at
            if lines[at].endswith((";", "{}")) or at == number and lines[at].endswith("}"):
                return None
        clause += lines[at].count("{") - lines[at].count("}")
    return None


def type_of(lines):
    """The type of the last `impl` of these lines, and its trait, if it is of one."""
    head = [it for it in lines if re.match(r"impl\b", it)][-1].removeprefix("impl").partition(" {")[0]
    while "<" in head:
        head = re.sub(r"<[^<>]*>", "", head)
    *trait, type_name = [it.strip().split("::")[-1].split(" ")[-1] for it in head.split(" for ")]
    return type_name, "".join(trait)


def without_bodies(path, lines, homes, kept):
    """The lines with the bodies of the functions taken out, except those of these names, and the functions whose body is out.
    A `const fn` keeps its body, since constants are computed by it."""
    lines, out = [*lines], []
    for it in reversed([*functions_in(path, lines, homes)]):
        if it.name not in kept and "const fn" not in lines[it.head]:
            lines[it.first + 1 : it.last] = [NO_BODY]
            out.append(it)
    return lines, out


def with_double(lines, function, number, changed):
    """The lines with a double after the function: its text under a name with this number, as `changed` makes it of a text."""
    name = function.name.rpartition("::")[2]
    text = "\n".join(lines[function.start : function.last + 1]).replace(f"fn {name}", f"fn {name}_{number}", 1)
    return [*lines[: function.last + 1], *changed(text).split("\n"), *lines[function.last + 1 :]]


def homes_of(folder):
    """The module of each type of a crate."""
    return {name: module_of(path) for path in sources_of(folder) for name in TYPE.findall(text_of(f"{folder}/{path}"))}


def sources_of(folder):
    """The files of a crate's src/, by their paths in the crate."""
    return [f"src/{it}" for it in files_below(f"{folder}/src") if it.endswith(".rt")]


def module_of(path):
    """The module that a file of src/ is, with / between its names."""
    return re.sub(r"^(lib|main)$", "", path[4:-3])


def files_below(folder):
    """The files of a folder and of the folders in it, by their paths there."""
    return sorted(str(it.relative_to(folder)) for it in Path(folder).rglob("*") if not it.is_dir())


def text_of(file):
    return Path(file).read_text(encoding="utf-8")
