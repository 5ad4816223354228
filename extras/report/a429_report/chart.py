"""The message sequence chart around an entry."""

from __future__ import annotations

from a429_report.findings import Near, Report
from a429_report.program import Attempt, Word
from a429_report.wording import said_of, shown



def message(words: list[Word]) -> str:
    """What is sent, in the words of the standard."""
    if len(words) > 1:
        return f"{len(words)} data words"
    name, *rest = words[0].what.split()
    if name == "free" and rest[0] == "parity":
        return "damaged word"
    if name in ("sot", "ack"):
        return f"{name.upper()} file {rest[0]} unit {rest[1]}"
    if name == "eot":
        return f"EOT check {rest[3]}{', last unit' if 'final' in rest else ''}"
    return " ".join([name.upper() if name in ("rts", "cts", "nak") else name, *rest])


def note_of(report: Report, words: list[Word], by_last: dict[int, Attempt]) -> str:
    """What is to be said beside a row of the chart."""
    first, verdict, notes = words[0], report.verdict, []
    if verdict.word != "YES" and first.entry == verdict.entry:
        notes.append(f"<b>{verdict.reason}</b>")
    if first.entry == report.stop and first.entry != verdict.entry:
        notes.append("<b>no run records this answer here</b>" if first.bus == "B" else "<b>no run records this word here</b>")
    if first.what.startswith("free parity"):
        notes.append("even parity: nobody takes it")
    attempt = by_last.get(words[-1].entry)
    if attempt and attempt.outcome in ("unanswered", "ungranted", "open", "refused", "again"):
        notes.append(shown(said_of(attempt)))
    notes += [f"<b>file {it.number} has crossed</b>" for it in report.files if it.last == words[-1].entry]
    return "; ".join(notes)


def chart(report: Report, near: Near) -> str:
    """A message sequence chart as a table: each row a word, from the source to the sink or back."""
    rows, by_last = [], {it.last: it for it in report.attempts}
    for words in near.rows():
        first, is_hurt = words[0], words[0].what.startswith("free parity")
        kinds = ["to" if first.bus == "A" else "fro", "hurt" * is_hurt, "pale" * (len(words) > 1), "hot" * (first.entry == near.entry),
                 "bad" * (first.what.startswith("nak") or first.entry == report.stop)]  # fmt: skip
        entries = f"{first.entry}" if len(words) == 1 else f"{first.entry} – {words[-1].entry}"
        way = "to the sink: " if first.bus == "A" else "to the source: "
        rows.append(
            f'<tr class="{" ".join(filter(None, kinds))}"><td class=n>{entries}<td class="n time">{report.seconds(first.time)}'
            f'<td class="hex time">{first.word if len(words) == 1 else ""}'
            f"<td class=msg><span class=said>{way}</span>{shown(message(words))}<i></i><td class=note>{note_of(report, words, by_last)}"
        )
    heads = (
        "<th scope=col class=n>Entry<th scope=col class='n time'>Seconds<th scope=col class=time>Word"
        "<th scope=col class=ends><span>source</span><span>sink</span><th scope=col class=note>What became of it"
    )
    return f"<table class=chart><caption>Messages around entry {near.entry}</caption><thead><tr>{heads}<tbody>{''.join(rows)}</table>"
