"""The page: its sections, and what is around them."""

from __future__ import annotations

import base64
import hashlib
from pathlib import Path
from typing import Iterator, NamedTuple

from a429_report.chart import chart, message
from a429_report.findings import SLICES, Report
from a429_report.pictures import MOST_BARS, slices_table, timeline
from a429_report.tables import Piece, Table, cut_short
from a429_report.wording import KINDS, OUTCOMES, REASONS, block_of, grouped, listed, many, said_of, shown, span, why_of

# Above these numbers of rows a table ends.
MOST_FILES, MOST_ATTEMPTS, MOST_LABELS = 800, 500, 40
STYLE = Path(__file__).with_name("style.css")
# What the colours of a bus say.
LEGEND = {
    "words": "words of the transfer",
    "other": "other words",
    "damaged": "damaged: even parity",
    "stray": "label of the transfer, none of its words",
}


# ---- the verdict


class Head(NamedTuple):
    """The verdict in words: how it looks, its title, and what is to be said of it."""

    tone: str
    title: str
    text: str


def head_of_files(report: Report) -> Head:
    """The verdict where files crossed."""
    count, sent = many(len(report.files), "file"), report.sent
    text = "Every transfer that keeps the rules and records these words delivers exactly the files below: same bytes, same order. "
    if not sent:
        return Head("good", f"{count} crossed", text + "<b>Compare them with what you sent</b>: how many, their numbers, their sums.")
    if sent.is_so():
        return Head("good", f"{count} crossed, as sent", text + "They are the files that were sent: how many, their numbers, their bytes.")
    kinds = (("sent, and did not cross", sent.missing), ("crossed, and not sent", sent.unsent), ("crossed with other bytes", sent.other))
    faults = "; ".join(f"{kind}: {listed(names)}" for kind, names in kinds if names)
    return Head("bad", f"{count} crossed, not as sent", f"{text}<b>They are not the files that were sent.</b> By their numbers, {faults}.")


def head_without_files(report: Report) -> Head:
    """The verdict where a yes has no file."""
    sent = report.sent
    if sent and not sent.wanted:
        return Head("good", "No file crossed, and none was sent", "Nothing recorded breaks a rule.")
    text = (
        "<b>This does not mean that it passed.</b> Nothing recorded breaks a rule, and no file crossed. Most wrong set-ups end here: lines "
        "swapped, a wrong label or a wrong <code>final_bit</code> in the profile, another channel exported. The counts at the end of this "
        "page show most of these."
    )
    return Head("bad", f"No file crossed, of {grouped(sent.wanted)} sent", text) if sent else Head("warn", "No file crossed", text)


def head(report: Report) -> Head:
    verdict = report.verdict
    if verdict.word == "YES":
        return head_of_files(report) if report.files else head_without_files(report)
    if verdict.word == "IMPOSSIBLE":
        text = (
            "No transfer that keeps the rules records this word after those before it. Source, sink or recorder has broken a rule, or the "
            f"profile is wrong. {REASONS.get(verdict.reason, '')}"
        )
        return Head("bad", f"Impossible at entry {verdict.entry}", text)
    text = (
        "No transfer was found that records these words, and no word that contradicts the others. There may be one all the same: this is "
        f"neither a pass nor a failure. Look at entry {verdict.entry}. {REASONS.get(verdict.reason, '')}"
    )
    return Head("warn", "Not explained", text)


def facts(report: Report) -> str:
    """The numbers below the verdict."""
    survey = report.survey
    pairs = {
        "words": grouped(survey.entries),
        "from first to last": span(survey.ended - survey.began),
        "attempts": grouped(len(report.attempts)),
        "refused": grouped(len(report.with_outcome("refused"))),
        "without an answer": grouped(len(report.with_outcome("unanswered", "ungranted"))),
        "damaged words": grouped(survey.damaged()),
    }
    if report.verdict.word == "YES":
        pairs |= {"files crossed": grouped(len(report.files)), "bytes in them": grouped(sum(it.size or 0 for it in report.files))}
    return "<dl class=facts>" + "".join(f"<div><dt>{name}</dt><dd>{value}</dd></div>" for name, value in pairs.items()) + "</dl>"


# ---- the sections


def soft(text: str) -> str:
    return f"<p class=soft>{text}</p>"


def legend(report: Report) -> str:
    """What the colours say that no lane names, and the outcomes that need a word."""
    has_stray = any(kind in ("no form", "other") for _, kind in report.survey.kinds)
    colours = [f"<span><i class={it}></i>{text}</span>" for it, text in LEGEND.items() if it != "stray" or has_stray]
    outcomes = [it for it in ("again", "unanswered", "ungranted", "open") if report.with_outcome(it)]
    return f"<p class=legend>{''.join(colours)}{''.join(f'<span><b>{it}</b>: {OUTCOMES[it]}</span>' for it in outcomes)}</p>"


def mark_of(report: Report) -> tuple[int, str] | None:
    """The time of the entry that the verdict points to, and what it is called in the picture."""
    words = (*report.near.before, *report.near.after) if report.near else ()
    time = next((it.time for it in words if it.entry == report.verdict.entry), None)
    if report.verdict.word == "YES" or time is None:
        return None
    return time, f"entry {report.verdict.entry}: {shown(report.verdict.reason)}"


def whole_section(report: Report) -> Iterator[Piece]:
    survey, attempts, mark = report.survey, many(len(report.attempts), "attempt"), mark_of(report)
    yield "<h2>The whole recording</h2>"
    if not survey.entries:
        yield "<p>The recording has no entries.</p>"
        return
    counts = ", ".join(f"{len(report.with_outcome(it))} {it}" for it in OUTCOMES if report.with_outcome(it)) or "none"
    label = f"{survey.entries} words on two buses, and {attempts} to send a block: {counts}. The table below has the numbers."
    yield timeline(report, report.whole, label, mark)
    yield legend(report)
    if report.stop is not None:
        yield soft(f"The attempts end at entry {report.stop}, the first word that no transfer records after those before it.")
    if len(report.attempts) > MOST_BARS:
        yield soft(f"Of {attempts} the picture shows in which of {SLICES} stretches of time they began, and not each by itself.")
    if len(report.files) > MOST_BARS:
        yield soft(f"Of {many(len(report.files), 'file')} it shows when any was under way.")
    yield "<details><summary>The numbers of this picture</summary>"
    yield slices_table(report, report.whole)
    yield "</details>"
    if report.closer:
        yield "<h3>Closer, where to look first</h3>"
        yield timeline(report, report.closer, "The same for the attempts around the entry of the next section, which has a table.", mark)


def where_it_stops(report: Report) -> Iterator[str]:
    """The entry that the verdict points to."""
    verdict, near = report.verdict, report.near
    is_impossible = verdict.word == "IMPOSSIBLE"
    word = next((it for it in near.before if it.entry == verdict.entry), None) if near else None
    what = f", bus {word.bus}, at {report.seconds(word.time)} s, <code>{shown(message([word]))}</code>" if word else ""
    yield f"<h2>{'Where it stops' if is_impossible else 'Where to look'}</h2>"
    yield f"<p>Entry {verdict.entry}{what}: <b>{shown(verdict.reason)}</b>. {REASONS.get(verdict.reason, '')}</p>"
    if verdict.held:
        yield "".join(f"<p><code>{shown(it)}</code></p>" for it in verdict.held)
    if is_impossible:
        yield soft("<code>a429 trace</code> says what the sink is doing after each word, <code>a429 sink</code> whether it kept the rules.")


def trouble(report: Report, entry: int) -> Iterator[str]:
    """The first attempt of a yes that went wrong, or the first of all."""
    attempt = next((it for it in reversed(report.attempts) if it.first <= entry), None)
    said = f"Entry {entry}, {block_of(attempt)}: {shown(said_of(attempt))}." if attempt else ""
    if attempt and attempt.outcome != "acknowledged":
        yield f"<h2>The first trouble</h2><p>{said}</p>"
    else:
        yield f"<h2>How the first block crossed</h2><p>{said} No block was refused, sent again or left without an answer.</p>"


def chart_section(report: Report) -> Iterator[str]:
    near = report.near
    if near and near.rows():
        yield from where_it_stops(report) if report.verdict.word != "YES" else trouble(report, near.entry)
        yield chart(report, near)


def files_section(report: Report) -> Iterator[Piece]:
    """The files that crossed; or, where there is no yes, those of which start words were recorded."""
    word, is_compared = report.verdict.word, report.sent is not None
    if not report.files:
        return
    yield f"<h2>{'Files that crossed' if word == 'YES' else 'Files under way'}</h2>"
    if word != "YES":
        none = "<b>No file counts as crossed</b>, since no transfer records this recording."
        said = none if word == "IMPOSSIBLE" else "Of files nothing is said."
        yield f"<p>{said} These are the files of which start words were recorded; a unit counts where it was acknowledged.</p>"
    heads = [("File", "n"), ("From, s", "n"), ("To, s", "n"), ("Units", "n"), ("Tries", "n")]
    if word == "YES":
        heads = [heads[0], ("Bytes", "n"), *heads[1:], *[("As sent", "")] * is_compared, ("SHA-256", "h")]
    table = Table("files", "", *heads)
    # (those that are not as sent first, so that none of them is left out of the table)
    for it in sorted(report.files, key=lambda it: it.sent in ("", "as sent"))[:MOST_FILES]:
        cells = [str(it.number), report.seconds(it.began), report.seconds(it.ended), grouped(it.units), grouped(it.tries)]
        if word == "YES":
            sent = [f'<b class={"ok" if it.sent == "as sent" else "ko"}>{it.sent}</b>'] * is_compared
            cells = [cells[0], grouped(it.size or 0), *cells[1:], *sent, it.sha256]
        table.add(*cells)
    yield table
    yield cut_short(len(report.files), MOST_FILES, "files", "units" if word == "YES" else "blocks")


def attempts_section(report: Report, title: str, name: str, *outcomes: str) -> Iterator[Piece]:
    some = report.with_outcome(*outcomes)
    if not some:
        return
    yield f"<h2>{title}</h2>"
    numbers = ("Entry", "At, s", "File", "Unit", "Asked", "Recorded", "Damaged")
    table = Table(name, "", *((it, "n") for it in numbers), ("What became of it", ""))
    for it in some[:MOST_ATTEMPTS]:
        said = why_of(it) if it.outcome == "refused" else said_of(it)
        counts = map(str, (it.asked, it.got, it.damaged))
        table.add(str(it.first), report.seconds(it.began), it.file, it.ldu, *counts, shown(said))
    yield table
    yield cut_short(len(some), MOST_ATTEMPTS, "attempts", "blocks")


def survey_section(report: Report) -> Iterator[Piece]:
    """The counts of `survey`: words by kind, and by label."""
    survey = report.survey
    if not survey.entries:
        return
    kinds = Table("kinds", "Words by what they are to the transfer", ("Word", ""), ("Bus A", "n"), ("Bus B", "n"), ("First entry", "n"))
    for kind, text in KINDS.items():
        some = [survey.kinds.get((bus, kind)) for bus in "AB"]
        if any(some):
            first = min(it.first for it in some if it)
            kinds.add(f"{text} <code>{kind}</code>", *(grouped(it.count) if it else "0" for it in some), str(first))
    labels = Table("labels", "Words by label", ("Label", ""), ("Bus A", "n"), ("Bus B", "n"), ("Even parity", "n"))
    counts = {octal: [survey.labels.get((bus, octal)) for bus in "AB"] for _, octal in survey.labels}
    ranked = sorted(counts, key=lambda it: -sum(one.count for one in counts[it] if one))[:MOST_LABELS]
    for octal in sorted(ranked):
        words = (grouped(it.count) if it else "0" for it in counts[octal])
        even = sum(it.even for it in counts[octal] if it)
        labels.add(f"<code>{octal}</code> {shown(report.names.get(octal, ''))}", *words, grouped(even))
    yield "<h2>What was recorded</h2><div class=two><div>"
    yield kinds
    yield "</div><div>"
    yield labels
    yield cut_short(len(counts), MOST_LABELS, "labels", "survey") + "</div></div>"


def check_section(report: Report) -> Iterator[str]:
    yield "<h2>How to check this page</h2>"
    yield (
        f"<p>The verdict is that of the program <code>{shown(report.version)}</code>, which is built only where each of its functions is "
        "proved to meet its contract. A script draws this page from what the program prints; the script is tested and not proved. To see "
        "the same from the program:</p>"
    )
    yield f"<pre><code>a429 decide PROFILE REC CERT     {shown(report.verdict.line)}\n"
    if report.verdict.word == "YES":
        yield "a429 verify PROFILE REC CERT     the same, of the certificate\n"
    yield "a429 blocks PROFILE REC          the attempts of the picture\n</code></pre>"
    yield "<dl class=sums>" + "".join(f"<dt>SHA-256 of the {name}</dt><dd>{value}</dd>" for name, value in report.sums.items()) + "</dl>"


# ---- the page


def sections(report: Report) -> Iterator[Piece]:
    yield from whole_section(report)
    yield from chart_section(report)
    yield from files_section(report)
    yield from attempts_section(report, "Refused blocks", "refusals", "refused")
    yield from attempts_section(report, "Attempts without an answer", "silences", "unanswered", "ungranted", "open")
    yield from survey_section(report)
    yield from check_section(report)


def page(report: Report) -> str:
    """The page. Its policy lets in this style and nothing else: no script, no picture, no address."""
    found, pieces, name = head(report), list(sections(report)), shown(report.name)
    style = STYLE.read_text(encoding="utf-8") + "".join(it.style() for it in pieces if isinstance(it, Table))
    sum_of_style = base64.b64encode(hashlib.sha256(style.encode()).digest()).decode()
    policy = f"default-src 'none'; style-src 'sha256-{sum_of_style}'; base-uri 'none'; form-action 'none'"
    verdict = f"<h2>{found.title}</h2><p>{found.text}</p><p><code>{shown(report.verdict.line)}</code></p>"
    return (
        f'<!doctype html><html lang=en><head><meta charset=utf-8><meta http-equiv=Content-Security-Policy content="{policy}">'
        '<meta name=viewport content="width=device-width,initial-scale=1"><meta name=color-scheme content="light dark">'
        f"<title>{name}: {found.title}</title><style>{style}</style></head><body>"
        f"<header><p>A recorded file transfer on ARINC 429</p><h1>{name}</h1></header>"
        f'<main><section class="verdict {found.tone}">{verdict}</section>{facts(report)}'
        f"{''.join(map(str, pieces))}</main></body></html>\n"
    )
