"""One try of wrong bodies: edits are applied to a copy of their crate, the edited functions are checked, the answer is judged."""
import os
import re
import shutil
import subprocess
import sys
import tempfile
from dataclasses import dataclass, replace
from pathlib import Path

from wrongbodies.functions import files_below, functions_in, homes_of, sources_of, text_of, with_double, without_bodies

# The answer to the goal of a body that is taken out. It names what is not there: an answer of another type would be held against the goal first.
NO_PROOF = "pub unreachable-requires : no_such_goal\nunreachable-requires = no_such_goal\n"
# How an error reads where a proof names something that an edit took away, or that was rejected itself.
GONE = re.compile(r"has no field|is not in scope|has no `|was not admitted|is no name|declarations? that depends? on")


@dataclass(frozen=True)
class Edit:
    """A wrong body: its changes (file, old text, new text), and the end of its function's name, if it is of one function."""

    name: str
    changes: tuple
    function: str = None

    def undone(self):
        """An edit of the same function that changes nothing."""
        return replace(self, changes=tuple((file, old, old) for file, old, _ in self.changes))

    def apply(self, folder):
        for path in {path for path, _, _ in self.changes}:
            write(f"{folder}/{path}", self.changed(path, text_of(f"{folder}/{path}")))

    def changed(self, path, text):
        """A text of this file with all changes at once. Each old text is changed where it is first, since a double of the function
        comes after it."""
        places = sorted((text.index(old), old, new) for file, old, new in self.changes if file == path)
        for at, old, new in reversed(places):
            text = text[:at] + new + text[at + len(old) :]
        return text


def names_of(folder, is_release=True):
    """The names of a crate's wrong bodies; for a mere change without those of wrong/release."""
    return [it for it in files_below(f"{folder}/wrong") if is_release or not it.startswith("release/")]


def edits_of(folder, is_release=True):
    """The wrong bodies of a crate, as `names_of` names them."""
    return [read_edit(it, text_of(f"{folder}/wrong/{it}"), folder) for it in names_of(folder, is_release)]


def read_edit(name, text, folder):
    """The edit that this text lists, with its function in the crate of this folder."""
    path, old, changes = "", "", []
    for line in text.splitlines():
        word, _, rest = line.partition(":")
        rest = rest.removeprefix(" ")
        if word == "file":
            path = rest.strip()
        elif word == "old":
            old = rest
        elif word == "new":
            changes.append((path, old, rest))
    functions = {function_of(path, old, folder) for path, old, _ in changes} - {None}
    return Edit(name, tuple(changes), functions.pop() if len(functions) == 1 else None)


def function_of(path, old, folder):
    """The end of the name of the function that has this line, or None. The line has to be in the file exactly once."""
    text = text_of(f"{folder}/{path}") if os.path.isfile(f"{folder}/{path}") else ""
    if text.count(old) != 1:
        sys.exit(f"wrong-bodies: in {folder}/{path} a text stands {text.count(old)} times, and not once: {old}")
    place = text.count("\n", 0, text.index(old))
    functions = functions_in(path, text.split("\n"), {}) if path.startswith("src/") else []
    return next((it.name for it in functions if it.head <= place <= it.last), None)


# ---- a copy of a crate


def apply_all(edits, folder):
    """Applies edits to a crate's copy: the first edit of a function to the function, each other to a double of it. The names of
    the functions that have them then, or None for an edit of no function."""
    names, applied = [], {}
    for edit in edits:
        before = applied.setdefault(edit.function, [])
        names.append(double(edit, folder, len(before) + 1) if before else edit.function)
        before.append(edit)
    for first, *_ in applied.values():
        first.apply(folder)
    return names


def double(edit, folder, number):
    """Adds a double with this edit and this number after the edit's function, and its proof beside the function's: the double's
    name. A method of a trait has no double."""
    path = edit.changes[0][0]
    lines = text_of(f"{folder}/{path}").split("\n")
    it = next(it for it in functions_in(path, lines, homes_of(folder)) if it.name == edit.function)
    if it.trait:
        return None
    write(f"{folder}/{path}", "\n".join(with_double(lines, it, number, lambda text: edit.changed(path, text))))
    proof = f"{folder}/proofs/{it.proof}"
    if os.path.isdir(proof):
        shutil.copytree(proof, f"{proof}_{number}")
        module = f"proofs.{it.proof.replace('/', '.')}"
        for file in os.listdir(proof):
            write(f"{proof}_{number}/{file}", text_of(f"{proof}/{file}").replace(f"{module}.", f"{module}_{number}."))
    return f"{it.name}_{number}"


def empty(folder, functions):
    """Takes the bodies of all functions except these out of a crate's copy. A function depends on the contracts of those that it
    calls, never on their bodies; and a proof that does not fit its goal costs least."""
    homes = homes_of(folder)
    for path in sources_of(folder):
        lines, out = without_bodies(path, text_of(f"{folder}/{path}").split("\n"), homes, functions)
        for it in out:
            shutil.rmtree(f"{folder}/proofs/{it.proof}", ignore_errors=True)
            os.makedirs(f"{folder}/proofs/{it.proof}")
            write(f"{folder}/proofs/{it.proof}/Answers.antt", NO_PROOF)
        write(f"{folder}/{path}", "\n".join(lines))


def write(file, text):
    Path(file).write_text(text, encoding="utf-8")


# ---- checks


def cost(made):
    """About what it costs to try the edits of a crate: each reads the contracts of all crates below it."""
    return len(files_below(f"{made.folder}/wrong")) * (1 + len([*made.below()]))


class Crate:
    """A crate whose edits are tried, or one of so many parts of them, over the libraries below it as they are now. `rattle` is the
    prover's command. For a mere change those of wrong/release are left out."""

    def __init__(self, made, rattle, part=0, parts=1, is_release=True):
        self.name, self.folder, self.cost, self.rattle, self.checks = made.name, made.folder, cost(made) / parts, rattle, 0
        self.part, self.parts, self.is_release = part, parts, is_release
        os.makedirs(f"{made.folder}/out", exist_ok=True)
        self.room = tempfile.TemporaryDirectory(prefix="wrong-bodies-", dir=f"{made.folder}/out")
        self.words = made.words(["--jobs", "1"], keeps=False)
        for it in made.below():
            # (links, since `rt ci` replaces the library's folder once it has made it anew)
            shutil.copytree(f"{it.folder}/out/rlib", f"{self.room.name}/{it.name}", copy_function=os.link)
            self.words = [word.replace(f"{it.folder}/out/rlib", f"{self.room.name}/{it.name}") for word in self.words]

    def edits(self):
        """The edits of this part."""
        return edits_of(self.folder, self.is_release)[self.part :: self.parts]

    def check(self, edits):
        """Checks a copy with these edits; of it only the edits' functions, if they are of functions. The exit status, the output, and
        the name of each edit's function."""
        self.checks += 1
        # (scripts/costs.py knows such a check by the name of its folder)
        with tempfile.TemporaryDirectory(prefix="wrong-") as room:
            for part in ("src", "specs", "proofs"):
                if os.path.isdir(f"{self.folder}/{part}"):
                    shutil.copytree(f"{self.folder}/{part}", f"{room}/{part}")
            names = apply_all(edits, room)
            if any(names):
                empty(room, names)
            only = [it for name in filter(None, names) for it in ("--only", name)]
            how = {"stdin": subprocess.DEVNULL, "stdout": subprocess.PIPE, "stderr": subprocess.STDOUT}
            ran = subprocess.run([self.rattle, "check", *self.words, *only], cwd=room, errors="replace", **how)
        return ran.returncode, ran.stdout, names

    def seen_refused(self, edits):
        """Those of these edits of functions that one check shows to be refused by the functions themselves."""
        status, said, names = self.check(edits)
        return [it for it, name in zip(edits, names) if status == 1 and name and refuses(said, name)]

    def is_refused_by_any(self, edit):
        """Whether some function of the crate refuses this edit."""
        status, said, _ = self.check([edit])
        return status == 1 and any(refuses(said, it) for it in re.findall(r"(?m)^fn (\S+): n", said))


# ---- what a check says


def refuses(said, function):
    """Whether a check reports that an answer in this function's proof does not fit its goal, or that a goal is open, and not just
    because an edit renamed the goal, so that its answer is gone."""
    found = re.search(rf"(?m)((?:^(?:note:|help:|  ).*\n)*)^fn ((?:\S+::)?{re.escape(function)}): (?:no proof|not proved)", said)
    if not found:
        return False
    folder = "/".join(found[2].split("::")[1:])
    # (a long message goes on in the next lines, which begin with two spaces)
    errors = re.findall(rf"(?m)^\./proofs/{re.escape(folder)}/(\w+)\.antt\S* error: (.*(?:\n  .*)*)$", said)
    errors = [(file, " ".join(why.split())) for file, why in errors]
    # (without its invariant every goal of a loop is open)
    if any(file == "Invariants" for file, _ in errors):
        return False
    if any(not GONE.search(why) for _, why in errors):
        return True
    gone = {kind_of(it) for _, why in errors for it in re.findall(r"^`([^`]+)`", why)}
    return any(kind_of(it) not in gone for it in re.findall(r"it is not proved that.*\(`([^`]+)`\)", found[1]))


def kind_of(goal):
    """What a goal asks for, whatever path leads to it: a clause by its name, or the goal's first or last word."""
    way, _, clause = goal.rpartition("-clause-")
    return clause if way else next((it for it in ("requires", "init", "preserved") if goal.endswith(it)), goal.partition("-")[0])
