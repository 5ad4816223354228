"""The words of the page, and how numbers and text from outside are written."""

from __future__ import annotations

import html

from a429_report.program import Attempt



# What became of an attempt, by its outcome in `blocks`.
OUTCOMES = {
    "acknowledged": "acknowledged",
    "again": "acknowledged again, since it had come before",
    "refused": "refused",
    "unanswered": "no answer to the block",
    "ungranted": "no clear answer to the request",
    "open": "still without an answer where the attempts end",
}
# Why a block is not good, by its reason in `blocks`.
WHY = {
    "": "nothing is wrong with the recorded block: a sink may refuse a good one",
    "no-start": "no start word was recorded",
    "too-few": "data words are missing",
    "half-bytes": "the data words have an odd number of semi-octets, so they carry no bytes",
    "check": "the check word is not the one of the bytes",
    "sequence": "file and unit are not those that may come next",
}
# What the reasons of a verdict say, as markup.
REASONS = {
    "NoForm": "The word has the label of the transfer, and is none of its words: another destination, an unused code, or a word of the "
    "other direction, which <code>a429 side</code> leaves out. Look at the profile first.",
    "NotGranted": "No clear answer allowed this word of a block, or more words came than were asked for.",
    "WrongAnswer": "The sink cannot give this answer here: nobody asked for it, or its numbers are not those of the block.",
    "BadBlock": "The block was recorded whole, and there is no block like it: its data words carry no whole bytes, or its check word is "
    "not the one of its bytes. Look at the section [check] of the profile first.",
    "WrongNumber": "The source cannot have come to the number of this start word.",
    "OtherBlock": "The word contradicts what was recorded of the same block before.",
    "NoRun": "The attempts to send this block differ in a way that no block explains.",
    "NotOneBlock": "The attempts up to the next acknowledgement do not carry one and the same block.",
    "NeverWhole": "No attempt to send this block was recorded whole.",
    "NotReplayed": "Each block is there, but the steps between them do not fit at this entry.",
    "OutOfSteps": "The search was cut short at the attempt that begins with this entry.",
}
# What a word is to the transfer, by its kind in `survey`.
KINDS = {
    "rts": "request to send", "cts": "clear answer", "sot": "start word", "data": "data word", "eot": "end word",
    "ack": "acknowledgement", "nak": "negative answer", "other": "word of the other direction", "no form": "no word of the transfer",
    "free parity": "damaged: even parity", "free label": "another label", "free type": "ignored type", "free code": "ignored code",
}  # fmt: skip


def shown(text: str) -> str:
    """Text from outside for the page: nothing in it is markup, and what does not print is written as an escape."""
    return html.escape("".join(it if it.isprintable() else it.encode("unicode_escape").decode() for it in text))


def grouped(count: int) -> str:
    """A number, with narrow blanks between groups of three digits."""
    return f"{count:,}".replace(",", "\u202f")


def many(count: int, one: str, more: str = "") -> str:
    return f"{grouped(count)} {one if count == 1 else more or one + 's'}"


def span(time: int) -> str:
    """How long something took."""
    if time < 10_000:
        return f"{grouped(time)} µs"
    if time < 10_000_000:
        return f"{time / 1000:.0f} ms"
    if time < 600_000_000:
        return f"{time / 1_000_000:.1f} s"
    hours, minutes = divmod(time // 60_000_000, 60)
    return f"{grouped(hours)} h {minutes} min" if hours else f"{minutes} min"


def listed(names: list[str]) -> str:
    """Some names, and how many more there are."""
    return ", ".join(map(shown, names[:8])) + (f" and {len(names) - 8} more" if len(names) > 8 else "")


def block_of(attempt: Attempt) -> str:
    return f"file {attempt.file}, unit {attempt.ldu}" if attempt.file else "no start word"


def why_of(attempt: Attempt) -> str:
    """Why a block is not good."""
    if attempt.why != "too-few":
        return WHY[attempt.why]
    hurt = f", {attempt.damaged} damaged" if attempt.damaged else ""
    return f"{WHY['too-few']}: {attempt.got} of {attempt.asked} words{hurt}"


def said_of(attempt: Attempt) -> str:
    """What became of an attempt, and why."""
    is_bad = attempt.outcome == "refused" or attempt.why
    return OUTCOMES[attempt.outcome] + (f": {why_of(attempt)}" if is_bad else "")
