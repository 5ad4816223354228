"""What the pages of this repository refer to: their links, the files that they name, and the commands that their blocks show."""
import re
from dataclasses import dataclass
from functools import cache
from pathlib import Path
from urllib.parse import unquote

from console import blocks_of

# A line of a block that is a command, in a block that is not `console`.
COMMAND = re.compile(r"(?:scripts/|\.ci/|\./|a429 [a-z]|campaign [a-z]|rt |cd |export )")
# The line above a block whose commands no test can run, with the reason; and above one that scripts/test-campaign or scripts/test-extras runs.
NOT_RUN = re.compile(r"<!-- not run: .+ -->")
RUN_ON_ENGINES = "<!-- run by scripts/test-campaign -->"
RUN_WITH_TOOLS = "<!-- run by scripts/test-extras -->"
# What looks like a name of code: words joined by underscores, or two or more words that begin with capitals.
NAME = re.compile(r"[a-z]\w*_\w*[a-z0-9]|(?:[A-Z][a-z0-9]+){2,}")


@dataclass(frozen=True)
class Fault:
    """Something on a page that is not as it should be."""

    page: Path
    line: int
    text: str


def commands_of(block):
    """The commands that a block of code shows, each with its line."""
    for number, line in enumerate(block.text.splitlines(), block.line):
        if block.language == "console":
            if line.startswith("$ "):
                yield number, line[2:]
        elif not block.name and block.language in ("", "sh", "bash") and COMMAND.match(line):
            yield number, line.split(" #")[0].rstrip()


def prose_of(text):
    """A page without its blocks, of which the lines are empty."""
    return re.sub(r"^```.*\n(?:.*\n)*?```$", lambda it: "\n" * it[0].count("\n"), text, flags=re.MULTILINE)


def without_code(text):
    """Prose without what stands between backquotes."""
    return re.sub(r"`[^`\n]*`", "", text)


def anchors_of(text):
    """What the headings of a page are called in a link, a second of the same words with -1, and so on."""
    seen = {}
    for heading in re.findall(r"^#+ +(.*?) *$", prose_of(text), re.MULTILINE):
        words = re.sub(r"\[([^\]]*)\]\([^)]*\)", r"\1", heading).lower()
        slug = re.sub(r"[^\w\- ]", "", words).replace(" ", "-")
        count = seen[slug] = seen.get(slug, -1) + 1
        yield f"{slug}-{count}" if count else slug


def links_of(text):
    """The targets of a page's links to files, each with its line."""
    for number, line in enumerate(without_code(prose_of(text)).splitlines(), 1):
        for target in re.findall(r"\]\(([^)\s]+)\)", line):
            if not re.match(r"[a-z]+:", target):
                yield number, unquote(target)


def dead_links(page):
    """The links of a page that lead to no file, or to no heading of it."""
    text = page.read_text(encoding="utf-8")
    for line, target in links_of(text):
        name, _, anchor = target.partition("#")
        file = page.parent / name if name else page
        if not file.exists():
            yield Fault(page, line, f"no such file: {target}")
        elif anchor and anchor not in anchors_of(file.read_text(encoding="utf-8")):
            yield Fault(page, line, f"no such heading: {target}")


def missing_files(page, root):
    """The files of this repository that a page names between backquotes and that are not there."""
    for number, line in enumerate(prose_of(page.read_text(encoding="utf-8")).splitlines(), 1):
        for name in re.findall(r"`(?:\./)?((?:scripts|extras|docs|examples|crates|\.ci)/[\w./-]+)(?=[` ])", line):
            if not (re.search(r"\b[A-Z]{4,}/|\.\.", name) or (root / name).exists()):
                yield Fault(page, number, f"no such file: {name}")


def as_run(command):
    """A command as the pages that are run have it: `scripts/a429` is `a429` there."""
    return re.sub(r"(^|[ (])(?:~/hulqasem/)?scripts/a429 ", r"\1a429 ", command)


def commands_run(pages):
    """The commands of the pages that a test runs."""
    return {as_run(it) for page in pages for block in blocks_of(page.read_text(encoding="utf-8"))
            if block.language == "console" for _, it in commands_of(block)}


def line_above(block, lines):
    """The line of a page before the one that opens a block."""
    return lines[block.line - 3] if block.line > 2 else ""


def blocks_below(mark, text):
    """The texts of a page's blocks that have this line above."""
    lines = text.splitlines()
    return [it.text for it in blocks_of(text) if line_above(it, lines) == mark]


def run_on_engines(text):
    """The texts of a page's blocks that scripts/test-campaign runs."""
    return blocks_below(RUN_ON_ENGINES, text)


def run_with_tools(text):
    """The texts of a page's blocks that scripts/test-extras runs, where their tools are."""
    return blocks_below(RUN_WITH_TOOLS, text)


def commands_never_run(page, pages_run):
    """The commands that a page shows and that no test runs, except in blocks that say why."""
    ran, text = commands_run(pages_run), page.read_text(encoding="utf-8")
    lines = text.splitlines()
    for block in blocks_of(text):
        above = line_above(block, lines)
        is_excused = NOT_RUN.fullmatch(above) or above in (RUN_ON_ENGINES, RUN_WITH_TOOLS)
        if not is_excused and not (block.language == "console" and page in pages_run):
            for line, command in commands_of(block):
                if as_run(command) not in ran:
                    yield Fault(page, line, f"no test runs: {command}")


def shared_files(page):
    """The commands of a page that is run which name a file in /tmp: two runs of the page, side by side, have one such file."""
    for block in blocks_of(page.read_text(encoding="utf-8")):
        for line, command in commands_of(block):
            if block.language == "console" and re.search(r"(?<![\w.~])/tmp/", command):
                yield Fault(page, line, f"another run has this file too: {command}")


def idle_files(page):
    """The files that a page shows and that none of its commands uses. A Snakefile is used by `snakemake`, which does not name it."""
    text = page.read_text(encoding="utf-8")
    blocks = [*blocks_of(text)]
    commands = " ".join(it for block in blocks if block.language == "console" for _, it in commands_of(block))
    commands += " ".join(run_on_engines(text)).replace("snakemake", "Snakefile") + " ".join(run_with_tools(text))
    for block in blocks:
        if block.name and block.name not in commands:
            yield Fault(page, block.line, f"no command uses the file {block.name}")


@cache
def words_of_code(root):
    """The words of the crates' sources, specs and proofs, of the scripts and of the examples, and the names of the crates."""
    places = ("crates/*/src/**/*.rt", "crates/*/specs/**/*.antt", "crates/*/proofs/**/*.antt", "scripts/*", "examples/*")
    files = (it for place in places for it in root.glob(place) if it.is_file())
    texts = (it.read_text(encoding="utf-8", errors="replace") for it in files)
    return {it.name for it in root.glob("crates/*")}.union(*(re.findall(r"\w+", text) for text in texts))


def lost_names(page, root):
    """The names of code that a page has between backquotes and that no source has."""
    for number, line in enumerate(prose_of(page.read_text(encoding="utf-8")).splitlines(), 1):
        for name in re.findall(r"`(?:\w+::)*(\w+)`", line):
            if NAME.fullmatch(name) and name not in words_of_code(root):
                yield Fault(page, number, f"no source has {name}")
