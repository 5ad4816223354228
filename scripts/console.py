"""Runs pages of Markdown as a shell session, and compares what their commands write.

A block of code that names a file after its language is that file. In a block of `console` each line that begins with
`$ ` is a command, and the lines up to the next command are what it writes. All is done in its order in one shell, in a home
folder of the page's own that has this repository as ~/hulqasem, with the tested program as `a429` and as its `scripts/a429`, `campaign`
of extras, and nothing on standard input.

The pages of docs show what a terminal shows: standard output and standard error together, and no status. The pages of
scripts/cases are exact. There a line of standard error begins with `2> `, as the shell names it, and a last line
`[status N]` is the exit status, where it is not 0:

    $ a429 word E13880
    2> bad word
    [status 3]
"""
import os
import re
import subprocess
import sys
import tempfile
from dataclasses import dataclass
from pathlib import Path

SCRIPTS = Path(__file__).resolve().parent
ROOT = SCRIPTS.parent
# The pages that scripts/test-tutorial runs: those with a command. Those that scripts/test-program runs, and scripts/test-extras.
DOCUMENTS = [it for it in sorted([*ROOT.glob("[RCS]*.md"), *ROOT.glob("docs/*.md"), *ROOT.glob("examples/*.md")])
             if "\n```console\n" in it.read_text(encoding="utf-8")]
CASES = sorted((SCRIPTS / "cases").glob("*.md"))
EXTRAS = sorted(ROOT.glob("extras/*/README.md"))


@dataclass(frozen=True)
class Block:
    """A block of code, with the line of its first line, its language and the file that it is, if any."""

    line: int
    language: str
    name: str
    text: str


@dataclass(frozen=True)
class File:
    """A file of a page."""

    name: str
    text: str


@dataclass(frozen=True)
class Command:
    """A command of a page, with its line there and what follows it."""

    line: int
    text: str
    wanted: str


@dataclass(frozen=True)
class Written:
    """What a command writes to standard output and standard error, and its exit status, or None where it is not compared."""

    output: str
    error: str
    status: int

    def shown(self):
        """The lines that say this on a page."""
        error = "".join(f"2> {it}" for it in self.error.splitlines(keepends=True))
        return self.output + error + (f"[status {self.status}]\n" if self.status else "")


def blocks_of(page):
    """The blocks of code of a page."""
    for block in re.finditer(r"^```(.*)\n((?:.*\n)*?)```$", page, re.MULTILINE):
        language, _, name = block[1].partition(" ")
        yield Block(page.count("\n", 0, block.start(2)) + 1, language, name, block[2])


def steps_of(page):
    """The files and commands of a page."""
    for block in blocks_of(page):
        if block.name:
            yield File(block.name, block.text)
        elif block.language == "console":
            for it in re.finditer(r"^\$ (.*)\n((?:(?!\$ ).*\n)*)", block.text, re.MULTILINE):
                yield Command(block.line + block.text.count("\n", 0, it.start()), it[1], it[2])


def wanted_of(command, is_exact):
    """What a command has to write."""
    if not is_exact:
        return Written(command.wanted, "", None)
    lines = command.wanted.splitlines(keepends=True)
    status = re.fullmatch(r"\[status (\d+)\]\n", lines[-1]) if lines else None
    lines = lines[:-1] if status else lines
    output = "".join(it for it in lines if not it.startswith("2> "))
    error = "".join(it.removeprefix("2> ") for it in lines if it.startswith("2> "))
    return Written(output, error, int(status[1]) if status else 0)


def script_of(steps, is_exact):
    """A script that takes these steps in one shell, and keeps in its first argument's folder what each command writes."""
    lines = ["answers=$1", "status=0"]
    for number, it in enumerate(steps):
        if isinstance(it, File):
            lines.append(f"cat >{it.name} <<'END OF FILE'\n{it.text}END OF FILE")
        else:
            error = f'2>"$answers/{number}.error"' if is_exact else "2>&1"
            # (a command can ask for the status of the one before it)
            lines.append(f'(exit $status)\n{{ {it.text}\n}} >"$answers/{number}.output" {error}\nstatus=$?')
            lines.append(f'echo $status >"$answers/{number}.status"')
    return "\n".join(lines) + "\n"


def written_by(number, answers, is_exact):
    """What the command with this number wrote, or None where the shell ended before it did."""

    def text(kind):
        return (answers / f"{number}.{kind}").read_text(encoding="utf-8", errors="backslashreplace")

    if not (answers / f"{number}.status").exists():
        return None
    return Written(text("output"), text("error") if is_exact else "", int(text("status")) if is_exact else None)


def lay_repository(folder, program):
    """Makes a folder that has this repository, with the tested program as scripts/a429."""
    (folder / "scripts").mkdir(parents=True)
    for it in [*ROOT.iterdir(), *SCRIPTS.iterdir()]:
        if it not in (SCRIPTS, SCRIPTS / "a429"):
            (folder / it.relative_to(ROOT)).symlink_to(it)
    (folder / "scripts/a429").symlink_to(program)


def answers_of(steps, program, is_exact):
    """What each command of a page writes, by its place among the steps."""
    with tempfile.TemporaryDirectory(prefix="a429-page.") as room:
        home, answers, script = Path(room, "home"), Path(room, "answers"), Path(room, "script")
        for folder in (home, home / "bin", answers):
            folder.mkdir()
        (home / "bin/a429").symlink_to(program)
        for it in ("campaign", "report"):
            (home / "bin" / it).symlink_to(ROOT / "extras" / it / it)
        lay_repository(home / "hulqasem", program)
        script.write_text(script_of(steps, is_exact))
        env = {**os.environ, "HOME": str(home), "PATH": f"{home}/bin:{os.environ['PATH']}"}
        subprocess.run(["bash", str(script), str(answers)], env=env, cwd=home, stdin=subprocess.DEVNULL)
        return {n: written_by(n, answers, is_exact) for n, it in enumerate(steps) if isinstance(it, Command)}


def run(page, program, is_exact):
    """How many commands of a page write what it says, and how many do not."""
    steps = list(steps_of(page.read_text(encoding="utf-8")))
    answers = answers_of(steps, program, is_exact)
    failed = 0
    for number, got in answers.items():
        command, wanted = steps[number], wanted_of(steps[number], is_exact)
        if got != wanted:
            failed += 1
            shown = got.shown() if got else "(nothing: the shell ended before)\n"
            print(f"FAILED: {page.relative_to(ROOT)}, line {command.line}: {command.text}\nwanted:\n{wanted.shown()}got:\n{shown}")
    return len(answers) - failed, failed if answers else 1


def main(words, pages, is_exact):
    """Runs these pages with the program that the command line names, or scripts/a429. A line for each command that writes something
    else; the last line is 'N passed, M failed'. The exit status."""
    program = os.path.abspath(words[0] if words else SCRIPTS / "a429")
    passed, failed = map(sum, zip(*(run(page, program, is_exact) for page in pages)))
    print(f"{passed} passed, {failed} failed")
    return failed != 0
