"""The table of commands in the completions for bash, zsh and fish, which is that of README."""

import re
from dataclasses import dataclass
from pathlib import Path

ROOT = Path(__file__).resolve().parent.parent
COMPLETIONS = [ROOT / "scripts" / f"a429.{shell}" for shell in ("bash", "zsh", "fish")]
# Where the table is in a completion: the lines of a text between single quotes.
TABLE = re.compile(r"(?<='\n)[^']*(?=^')", re.MULTILINE)


@dataclass(frozen=True)
class Row:
    """A command, the words after it as README names them, and what it does."""

    command: str
    words: tuple[str, ...]
    summary: str

    def __str__(self) -> str:
        return " ".join([self.command, *self.words]) + f": {self.summary}"


def rows_of(readme: str) -> list[Row]:
    """The rows of README's table. The summary is the text up to its first mark."""
    found = re.findall(r"^\| `a429 ([^`]+)` \| (.+?)[.,:;|]", readme, re.MULTILINE)
    return [Row(*_first_and_rest(words), re.sub("`", "", what).strip()) for words, what in found]


def _first_and_rest(words: str) -> tuple[str, tuple[str, ...]]:
    command, *rest = words.split()
    return command, tuple(rest)


def table_of(completion: str) -> list[str]:
    """The lines of a completion's table."""
    found = TABLE.search(completion)
    return found[0].splitlines() if found else []


def with_table(completion: str, rows: list[Row]) -> str:
    """A completion with this table."""
    return TABLE.sub("".join(f"{row}\n" for row in rows), completion, count=1)
