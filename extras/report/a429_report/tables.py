"""Tables, and what is said where one ends early."""

from __future__ import annotations

from typing import Union

from a429_report.wording import grouped



class Table:
    """A table. Each head is a title and a class: `n` for numbers, `h` for sums. On a narrow screen each row of many cells
    is a card."""

    def __init__(self, name: str, caption: str, *heads: tuple[str, str]) -> None:
        self.name, self.caption, self.heads, self.rows = name, caption, heads, []

    def add(self, *cells: str) -> None:
        """A row; its cells are markup."""
        self.rows.append("".join(f"<td{f' class={kind}' if kind else ''}>{it}" for it, (_, kind) in zip(cells, self.heads)))

    def style(self) -> str:
        """The titles of the cells of a card."""
        if len(self.heads) < 5:
            return ""
        rules = (f'.{self.name} td:nth-child({n})::before{{content:"{title}"}}' for n, (title, _) in enumerate(self.heads, 1) if title)
        return f"@media(max-width:640px){{{''.join(rules)}}}"

    def __str__(self) -> str:
        heads = "".join(f"<th scope=col{f' class={kind}' if kind else ''}>{title}" for title, kind in self.heads)
        caption = f"<caption>{self.caption}</caption>" if self.caption else ""
        cards = "cards " if len(self.heads) > 4 else ""
        return f'<table class="{cards}{self.name}">{caption}<thead><tr>{heads}<tbody>{"".join(f"<tr>{it}" for it in self.rows)}</table>'


def cut_short(count: int, most: int, what: str, command: str) -> str:
    """What is said below a table that has at most so many rows."""
    if count <= most:
        return ""
    return f"<p class=soft>{grouped(most)} of {grouped(count)} {what} are in this table; <code>a429 {command}</code> lists all.</p>"


# A piece of the page: markup, or a table.
Piece = Union[str, Table]
