"""The verdicts of `a429` as Python values. The standard library, Python 3.10 or later.

    import a429

    match a429.decide("bench.toml", "trial.csv", "trial.cert"):
        case a429.Yes(files):
            print(len(files), "files crossed")
        case a429.Impossible(entry, reason):
            print("impossible at entry", entry, reason)
        case a429.Unexplained(entry, doubt):
            print("no run found, look at entry", entry, doubt)

Each function runs the program once: `a429` on the path, or the one that the environment variable A429 names. `decide`, `verify`, `make`
and `show` call the C library liba429 in its place where that is there, with the same answers. What a function reads may be bytes in place
of the name of a file. A verdict of any kind is a value. What is none, as a recording with a fault or a file that cannot be read, is an
`Error` with the program's exit status. So is a program that is `Missing`, or that has not ended after the `timeout` of the call, in
seconds.
"""

from __future__ import annotations

import csv
import os
import re
import shutil
import signal
import stat
import subprocess
import tempfile
import threading
from contextlib import ExitStack
from dataclasses import dataclass, field
from typing import Callable, Generator, Iterator, Union

from . import _library
from ._library import Answer, Library

PathName = Union[str, "os.PathLike[str]"]
# What is read: a file, or what it would have.
Input = Union[PathName, bytes]
# The library is given no file with more bytes. The text recording of as many entries as `decide` takes has fewer.
SMALL = 1 << 25


# ---- verdicts


@dataclass(frozen=True)
class File:
    """A file that crossed: its number, and how many bytes it has."""

    number: int
    size: int


@dataclass(frozen=True)
class Yes:
    """The recording is one that the protocol can produce, and every run that produces it delivers exactly these files. `certificate` is
    that of `decide` or `check`, where it went to no file; it is left out where two verdicts are compared."""

    files: tuple[File, ...]
    certificate: bytes | None = field(default=None, compare=False, repr=False)

    @property
    def names(self) -> list[str]:
        """The names of these files, in their order, in the folder of `extract`: by their places, which may differ from their numbers."""
        return [f"{place:06}.bin" for place in range(1, len(self.files) + 1)]


@dataclass(frozen=True)
class Impossible:
    """No transfer that keeps the rules records this entry, counted from 0, after those before it."""

    entry: int
    reason: str


@dataclass(frozen=True)
class Unexplained:
    """No run was found; there may be one. The entry is where to look."""

    entry: int
    doubt: str


@dataclass(frozen=True)
class No:
    """The certificate does not explain the recording: its first fault, the line (from 1) and the entry (from 0) where it has them."""

    fault: str
    line: int | None = None
    entry: int | None = None


@dataclass(frozen=True)
class Only:
    """Every run that records these words delivers exactly these files. Whether there is a run, `decide` finds out."""

    files: tuple[File, ...]


@dataclass(frozen=True)
class SinkYes:
    """A sink that keeps the rules can have recorded these words, whatever its source did, and each such sink has exactly these files."""

    files: tuple[File, ...]


@dataclass(frozen=True)
class SinkNo:
    """No sink that keeps the rules gives this answer, counted from 0, after the words before it. `allowed` are those that it could have
    given; `owed_before` is the entry of the last request, where the answer was owed until that came."""

    entry: int
    allowed: tuple[str, ...]
    owed_before: int | None = None


@dataclass(frozen=True)
class Why:
    """The verdict of `decide`, without a certificate, and what the word of an impossible recording is held against (docs/WHY.md): `said` is
    what is said of it, as `end word F0A3F523, before 71A3F523`, and `against` the entry of the earlier word, where there is one."""

    verdict: Verdict
    against: int | None = None
    said: str | None = None


# ---- rows


@dataclass(frozen=True)
class Unit:
    """A link data unit that a certificate loads, as a row of `a429 units` (docs/UNITS.md)."""

    file: int
    ldu: int
    words: int
    bytes: int
    final: bool
    requests: int
    lost: int
    unanswered: int
    unheard: int
    naks: int
    timeouts: int
    first_entry: int | None
    last_entry: int | None
    first_time: int | None
    last_time: int | None
    crossed: bool


@dataclass(frozen=True)
class Attempt:
    """An attempt to send a block, as a row of `a429 blocks` (docs/BLOCKS.md). With the outcome `not-allowed` it is the word at which the
    rows end: the counts are None then."""

    first: int
    last: int
    first_time: int
    last_time: int
    file: int | None
    ldu: int | None
    asked: int | None
    got: int | None
    damaged: int | None
    outcome: str
    why: str | None


@dataclass(frozen=True)
class Open:
    """Units of a file that are acknowledged, from the first to the last, where the file's beginning or end is not there."""

    file: int
    first: int
    last: int


@dataclass(frozen=True)
class Piece:
    """What `history` says of a piece (docs/HISTORY.md). `place` counts pieces from 1; `first` is the entry at which it begins. `files` have
    crossed in every run that ends with this piece. `stopped` is the word that no run records after those before it in the piece."""

    place: int
    entries: int
    first: int
    begun_before: bool
    stopped: Impossible | None
    files: tuple[File, ...]
    open: tuple[Open, ...]

    @property
    def name(self) -> str:
        """The name of this piece in the folder, as a recording."""
        return f"{self.place:06}.csv"

    @property
    def names(self) -> list[str]:
        """The names of its files in the folder, in their order."""
        return [f"{self.place:06}-{number:06}.bin" for number in range(1, len(self.files) + 1)]


@dataclass(frozen=True)
class Form:
    """An entry of a recording, and what its word is to the transfer: `rts 4`, `data 8454C`, `free parity` (docs/SHOW.md)."""

    time: int
    bus: str
    word: int
    what: str


@dataclass(frozen=True)
class Kind:
    """Words of one kind on a bus: how many, and the entry of the first."""

    count: int
    first: int


@dataclass(frozen=True)
class Label:
    """Words of one label on a bus: how many, and how many of these have even parity."""

    count: int
    even: int


@dataclass(frozen=True)
class Bus:
    """What a bus has: how many entries; its words by their kinds, as `rts` or `free parity`, and by their labels, as numbers."""

    entries: int
    kinds: dict[str, Kind]
    labels: dict[int, Label]


@dataclass(frozen=True)
class Survey:
    """What a recording has (docs/SURVEY.md). The times of the first and the last entry are None where there is none."""

    entries: int
    first_time: int | None
    last_time: int | None
    buses: dict[str, Bus]


@dataclass(frozen=True)
class Destination:
    """Words that `side` left out as another destination's: how many, and how many of these are requests."""

    code: int
    requests: int
    words: int


@dataclass(frozen=True)
class Side:
    """What became of the entries of a recording of two directions (docs/SIDE.md). `renamed` counts clear answers, where an answer was
    given."""

    entries: int
    kept: int
    other_direction: int
    no_direction: int
    destinations: tuple[Destination, ...] = ()
    renamed: int | None = None


@dataclass(frozen=True)
class Jump:
    """Where the clock of an export begins again; or was set back, by so many microseconds. The line is counted from 1."""

    entry: int
    line: int
    back: int | None = None


@dataclass(frozen=True)
class Imported:
    """What became of an export (docs/IMPORT.md): where its clock jumps, and each count by the words that the program prints before it,
    as `entries` or `rows passed over`. A line with two numbers is two counts: `times lifted` and `times lifted by at most`, `bit 32 made:
    good` and `bit 32 made: bad`. What is not printed is 0, and is not in `counts`."""

    counts: dict[str, int]
    jumps: tuple[Jump, ...] = ()


@dataclass(frozen=True)
class Traced:
    """An entry that `a429 trace` lists: what its word is, and the sink after it; None where the word is free."""

    entry: int
    time: int
    bus: str
    word: int
    what: str
    sink: str | None


class Trace:
    """What the sink of every run does: an iterator over the entries, as the program writes them, which keeps none of them.

    Whoever stops before the end closes it, or has it in a `with`, so that the program ends."""

    def __init__(self, lines: Generator[str, None, None]) -> None:
        self._lines = lines
        self._verdict: Only | Impossible | None = None

    def __iter__(self) -> Trace:
        return self

    def __next__(self) -> Traced:
        if self._verdict is not None:
            raise StopIteration
        line = next(self._lines)
        if not line.startswith(("ONLY ", "IMPOSSIBLE ")):
            return _traced(line.rstrip("\n"))
        self._verdict = _end_of_trace([line, *self._lines])
        raise StopIteration

    @property
    def verdict(self) -> Only | Impossible:
        """What comes of it. Entries that are not read yet are passed over."""
        for _ in self:
            pass
        if self._verdict is None:
            raise Error(0, "the trace has ended without a verdict")
        return self._verdict

    def close(self) -> None:
        """Ends the program."""
        self._lines.close()

    def __enter__(self) -> Trace:
        return self

    def __exit__(self, *_: object) -> None:
        self.close()


@dataclass(frozen=True)
class Version:
    """The program's version, and the versions of certificates that it reads."""

    program: str
    certificates: tuple[int, ...]


# ---- errors


class Error(Exception):
    """The program returned no verdict. `status` is its exit status: 3 the input is refused, 4 a file or memory failed, 5 wrong usage,
    below 0 the signal that ended it. `line` is what it said, and `output` what it had written before."""

    def __init__(self, status: int, line: str, output: str = "") -> None:
        super().__init__(f"a429: {line} (status {status})")
        self.status = status
        self.line = line
        self.output = output


class Missing(Error):
    """The program cannot be run, or the library that A429_LIBRARY names cannot be used. The status is 127, as a shell has it."""

    def __init__(self, why: str) -> None:
        super().__init__(127, why)


class Timeout(Error):
    """The program had not ended after so many seconds, and was killed."""

    def __init__(self, seconds: float) -> None:
        super().__init__(-signal.SIGKILL, f"no end after {seconds} s")


class Refused(Error):
    """`units` was asked of a certificate that does not explain the recording. `verdict` says why."""

    def __init__(self, verdict: No) -> None:
        super().__init__(2, f"the certificate is refused: {verdict}")
        self.verdict = verdict


# ---- commands

Verdict = Union[Yes, Impossible, Unexplained]
Seconds = Union[float, None]


def decide(profile: Input, recording: Input, certificate: PathName | None = None, *, timeout: Seconds = None) -> Verdict:
    """Finds out whether files crossed. The certificate of a yes goes to the file that `certificate` names, or is in the `Yes`."""
    given = _for_library(profile, recording, timeout=timeout) if certificate is None else None
    if given is None:
        return _judge("decide", profile, recording, certificate, timeout)
    library, contents = given
    return _decided(_checked(library.decide(*contents)))


def why(profile: Input, recording: Input, *, timeout: Seconds = None) -> Why:
    """The verdict of `decide`, and what an impossible word is held against."""
    return _why(_run("why", profile, recording, timeout=timeout))


def check(profile: Input, recording: Input, certificate: PathName | None = None, *, timeout: Seconds = None) -> Verdict:
    """As `decide`, by a fixed rule that anyone can compute, without its search."""
    return _judge("check", profile, recording, certificate, timeout)


def verify(profile: Input, recording: Input, certificate: Input, *, timeout: Seconds = None) -> Yes | No:
    """Holds a certificate against a recording."""
    if (given := _for_library(profile, recording, certificate, timeout=timeout)) is None:
        return _yes_or_no(_run("verify", profile, recording, certificate, timeout=timeout))
    library, contents = given
    answer = library.verify(*contents)
    if answer.status == _library.INPUT and answer.text.startswith(b"recording: ") and _has_program():
        # (the program reads recording and certificate side by side, and may come to a fault of the certificate first)
        return _yes_or_no(_run("verify", profile, recording, certificate, timeout=timeout))
    return _verified(_checked(answer))


def make(profile: Input, *files: Input, timeout: Seconds = None) -> bytes:
    """The recording of a transfer of files in which nothing is lost."""
    if (given := _for_library(profile, *files, timeout=timeout)) is None:
        return _run("make", profile, *files, timeout=timeout).encode()
    library, (text, *contents) = given
    return _checked(library.make(text, contents)).text


def show(profile: Input, recording: Input, *, timeout: Seconds = None) -> list[str]:
    """A line for each entry, by the label table of the profile (docs/SHOW.md)."""
    if (given := _for_library(profile, recording, timeout=timeout)) is None:
        return _run("show", profile, recording, timeout=timeout).split("\n")[:-1]
    library, contents = given
    return _text(_checked(library.show(*contents))).split("\n")[:-1]


def extract(profile: Input, recording: Input, certificate: Input, folder: PathName, *, timeout: Seconds = None) -> Yes | No:
    """As `verify`, and writes the files that crossed into the folder, under the `names` of the yes. After a `No` ignore what is there."""
    return _yes_or_no(_run("extract", profile, recording, certificate, folder, timeout=timeout))


def units(profile: Input, recording: Input, certificate: Input, *, timeout: Seconds = None) -> list[Unit]:
    """The link data units that a certificate loads, in their order. `Refused` where it does not explain the recording."""
    text = _run("units", profile, recording, certificate, timeout=timeout)
    last = text.splitlines()[-1]
    if last.startswith("NO "):
        raise Refused(_no(last))
    return [_unit(row) for row in csv.DictReader(text.splitlines())]


def trace(profile: Input, recording: Input, *, timeout: Seconds = None) -> Trace:
    """What the sink of every run does, entry by entry, up to the first word that no run records. The timeout is for all of it."""
    return Trace(_lines("trace", profile, recording, timeout=timeout))


def blocks(profile: Input, recording: Input, *, timeout: Seconds = None) -> Iterator[Attempt]:
    """The attempts to send a block in a recording of any length, as the program writes them. The timeout is for all of it."""
    return map(_attempt, csv.DictReader(_lines("blocks", profile, recording, timeout=timeout)))


def forms(profile: Input, recording: Input, *, timeout: Seconds = None) -> Iterator[Form]:
    """What each word is to the file transfer, entry by entry, as the program writes them. The timeout is for all of it."""
    return map(_form, _lines("forms", profile, recording, timeout=timeout))


def survey(profile: Input, recording: Input, *, timeout: Seconds = None) -> Survey:
    """What a recording of any length has."""
    return _survey(_run("survey", profile, recording, timeout=timeout))


def sink(profile: Input, recording: Input, *, timeout: Seconds = None) -> SinkYes | SinkNo:
    """Judges the sink of a recording of any length by itself, whatever its source and the line did."""
    return _sink(_run("sink", profile, recording, timeout=timeout))


def history(profile: Input, recording: Input, folder: PathName, *, timeout: Seconds = None) -> list[Piece]:
    """Puts a recording of any length that need not be of one run in pieces, and says of each which files have crossed all the same. The
    folder gets the pieces and the files, under their names."""
    return _pieces(_run("history", profile, recording, folder, timeout=timeout))


def side(
    profile: Input, recording: Input, line: str, out: PathName, answer: int | None = None, *, timeout: Seconds = None
) -> Side:
    """Writes the words of the direction whose files travel on the line, `A` or `B`, into `out`. `answer` is the destination code that the
    sink writes into its clear answers, where it is another one than the profile's."""
    code = [] if answer is None else [f"{answer:02X}"]
    return _side(_run("side", profile, recording, line, out, *code, timeout=timeout))


def import_(map: Input, export: Input, out: PathName, *, timeout: Seconds = None) -> Imported:
    """Makes a recording of what another program exported, and writes it into `out`. The map says what the columns mean."""
    return _imported(_run("import", map, export, out, timeout=timeout))


def version(*, timeout: Seconds = None) -> Version:
    """What the program says of itself."""
    name, certificates = _run("version", timeout=timeout).splitlines()
    return Version(name.split()[1], tuple(int(it) for it in certificates.split()[1:]))


# ---- the library


def _for_library(*inputs: Input, timeout: Seconds) -> tuple[Library, list[bytes]] | None:
    """The library, and what it is given. None where the program is to be run: where there is no library, where an input is no small
    file, and where the call has a timeout, since only a program can be stopped."""
    try:
        library = _library.find() if timeout is None else None
    except OSError as fault:
        raise Missing(f"the library that A429_LIBRARY names cannot be used: {fault}") from fault
    if library is None or not all(map(_is_small, inputs)):
        return None
    return library, [_content(it) for it in inputs]


def _is_small(given: Input) -> bool:
    if isinstance(given, bytes):
        return len(given) <= SMALL
    try:
        about = os.stat(given)
    except OSError:
        # (a fault, and no reason to run the program: see _content)
        return True
    return stat.S_ISREG(about.st_mode) and about.st_size <= SMALL


def _content(given: Input) -> bytes:
    if isinstance(given, bytes):
        return given
    try:
        with open(given, "rb") as file:
            return file.read()
    except OSError as fault:
        raise Error(4, "device") from fault


def _checked(answer: Answer) -> Answer:
    """An answer that is a verdict, a recording or lines; else the `Error` of the program."""
    if answer.status == _library.MEMORY:
        raise Error(answer.status, "memory")
    if answer.status == _library.INPUT:
        raise Error(answer.status, _text(answer))
    return answer


def _text(answer: Answer) -> str:
    return answer.text.decode(errors="backslashreplace")


def _decided(answer: Answer) -> Verdict:
    if answer.status == _library.YES:
        return Yes(_sizes(answer), answer.text)
    if answer.status == _library.IMPOSSIBLE:
        return Impossible(answer.entry, answer.reason)
    return Unexplained(answer.entry, answer.reason)


def _verified(answer: Answer) -> Yes | No:
    if answer.status == _library.YES:
        return Yes(_sizes(answer))
    has_entry = answer.reason in ("word differs", "unfinished")
    return No(answer.reason, answer.line or None, answer.entry if has_entry else None)


def _sizes(answer: Answer) -> tuple[File, ...]:
    return tuple(File(number, size) for number, size in answer.files)


# ---- the program and its lines


def _run(*words: Input, timeout: Seconds) -> str:
    """What the program writes with status 0, 1 or 2; else an `Error`."""
    text: list[str] = []
    try:
        text.extend(_lines(*words, timeout=timeout))
    except Error as error:
        error.output = "".join(text)
        raise
    return "".join(text)


def _lines(*words: Input, timeout: Seconds) -> Generator[str, None, None]:
    """The lines that the program writes, as they come; an `Error` at their end where the status is none of 0, 1 and 2."""
    # (the line of standard error goes to a file: nobody reads it before the end)
    with ExitStack() as room, tempfile.TemporaryFile() as said:
        process = _started([_named(it, room) for it in words], said.fileno())
        is_late = threading.Event()

        def stop() -> None:
            is_late.set()
            _kill(process)

        timer = threading.Timer(timeout or 0, stop)
        timer.daemon = True
        if timeout is not None:
            timer.start()
        try:
            assert process.stdout
            yield from process.stdout
            status = process.wait()
        finally:
            # (here too where nobody reads on)
            timer.cancel()
            with process:
                _kill(process)
        if timeout is not None and is_late.is_set() and status == -signal.SIGKILL:
            raise Timeout(timeout)
        if status not in (0, 1, 2):
            said.seek(0)
            raise Error(status, said.read().decode(errors="backslashreplace").strip())


def _program() -> str:
    return os.environ.get("A429", "a429")


def _has_program() -> bool:
    return shutil.which(_program()) is not None


def _named(word: Input, room: ExitStack) -> str:
    """The word of a command. Bytes go to a file that is there as long as the room is."""
    if isinstance(word, bytes):
        file = room.enter_context(tempfile.NamedTemporaryFile(prefix="a429."))
        file.write(word)
        file.flush()
        return file.name
    name = os.fspath(word)
    # (to the program a word that begins with a hyphen is an option)
    return os.path.join(".", name) if name.startswith("-") else name


def _started(names: list[str], errors: int) -> subprocess.Popen[str]:
    program = _program()
    try:
        return subprocess.Popen(
            [program, *names],
            stdin=subprocess.DEVNULL, stdout=subprocess.PIPE, stderr=errors, start_new_session=True,
            encoding="utf-8", errors="backslashreplace",
        )  # fmt: skip
    except OSError as fault:
        said = f"{program} cannot be run: {fault.strerror}. Install a429, or name the program by the variable A429"
        raise Missing(said) from fault


def _kill(process: subprocess.Popen[str]) -> None:
    """Kills the program, where it has not ended, with whatever it has started."""
    if process.poll() is None:
        os.killpg(process.pid, signal.SIGKILL)


def _judge(command: str, profile: Input, recording: Input, certificate: PathName | None, timeout: Seconds) -> Verdict:
    if certificate is None:
        with tempfile.TemporaryDirectory(prefix="a429.") as room:
            name = os.path.join(room, "cert")
            return _judged(_run(command, profile, recording, name, timeout=timeout), lambda: _content(name))
    return _judged(_run(command, profile, recording, certificate, timeout=timeout), lambda: None)


def _judged(text: str, certificate: Callable[[], bytes | None]) -> Verdict:
    """The verdict that the program prints, with the certificate of a yes."""
    verdict, *rest = text.split(maxsplit=1)
    if verdict == "YES":
        return Yes(_yes(text).files, certificate())
    entry, why = rest[0].splitlines()[0].split()
    return Impossible(int(entry), why) if verdict == "IMPOSSIBLE" else Unexplained(int(entry), why)


def _why(text: str) -> Why:
    """The verdict, and the lines below it."""
    first, *below = text.splitlines()
    if first.startswith("YES "):
        return Why(_yes(text))
    against = next((int(it.split()[1]) for it in below if it.startswith("against ")), None)
    return Why(_judged(first, lambda: None), against, next((it for it in below if not it.startswith("against ")), None))


def _yes_or_no(text: str) -> Yes | No:
    return _yes(text) if text.startswith("YES ") else _no(text)


def _yes(text: str) -> Yes:
    return Yes(_files(text.splitlines()[1:]))


def _files(lines: list[str]) -> tuple[File, ...]:
    """The files of lines `file <number> <bytes>`."""
    return tuple(File(int(number), int(size)) for _, number, size in map(str.split, lines))


def _no(line: str) -> No:
    """The fault of a line such as `NO word differs 4 0`. A number alone is a line, but an entry after `unfinished`."""
    words = line.split()[1:]
    fault = " ".join(it for it in words if not it.isdigit())
    numbers = [int(it) for it in words if it.isdigit()]
    if fault == "unfinished":
        return No(fault, entry=numbers[0])
    return No(fault, *numbers)


def _unit(row: dict[str, str]) -> Unit:
    flags = {name: row.pop(name) == "yes" for name in ("final", "crossed")}
    return Unit(**flags, **{name: int(text) if text else None for name, text in row.items()})  # type: ignore[arg-type]


def _attempt(row: dict[str, str]) -> Attempt:
    outcome, why = row.pop("outcome"), row.pop("why")
    counts = (int(text) if text else None for text in row.values())
    return Attempt(*counts, outcome, why or None)  # type: ignore[arg-type]


def _pieces(text: str) -> list[Piece]:
    """The lines of `history`, without the last, which is the same each time."""
    pieces: list[list[str]] = []
    for line in text.splitlines()[:-1]:
        if line.startswith("part "):
            pieces.append([])
        pieces[-1].append(line)
    return [_piece(it) for it in pieces]


def _piece(lines: list[str]) -> Piece:
    place, entries, first = (int(it) for it in lines[0].split() if it.isdigit())
    words = [it.split() for it in lines[1:]]
    stopped = next((Impossible(int(it[1]), it[2]) for it in words if it[0] == "stopped"), None)
    units = tuple(Open(int(it[1]), int(it[3]), int(it[5])) for it in words if it[0] == "open")
    files = _files([it for it in lines[1:] if it.startswith("file ")])
    return Piece(place, entries, first, ["begun", "before"] in words, stopped, files, units)


def _form(line: str) -> Form:
    time, bus, word, what = line.rstrip("\n").split(" ", 3)
    return Form(int(time), bus, int(word, 16), what)


def _survey(text: str) -> Survey:
    """The lines of a survey: those of no bus begin with a word in small letters."""
    counts = {"entries": 0}
    buses: dict[str, Bus] = {}
    for line in text.splitlines():
        name, _, rest = line.partition(" ")
        if name in ("entries", "from"):
            counts |= {key: int(number) for key, number in re.findall(r"([a-z]+) (\d+)", line)}
        elif rest.isdigit():
            buses[name] = Bus(int(rest), {}, {})
        elif found := re.fullmatch(r"label (\d+) (\d+) even (\d+)", rest):
            buses[name].labels[int(found[1], 8)] = Label(int(found[2]), int(found[3]))
        elif found := re.fullmatch(r"(.+) (\d+) first (\d+)", rest):
            buses[name].kinds[found[1]] = Kind(int(found[2]), int(found[3]))
    return Survey(counts["entries"], counts.get("from"), counts.get("to"), buses)


def _sink(text: str) -> SinkYes | SinkNo:
    lines = text.splitlines()
    if lines[0].startswith("SINK YES "):
        return SinkYes(_files(lines[1:]))
    seen, _, answers = lines[0].partition(" allowed ")
    entry, *owed = (int(it) for it in seen.split() if it.isdigit())
    return SinkNo(entry, () if answers == "nothing" else tuple(answers.split(", ")), *owed)


def _side(text: str) -> Side:
    counts: dict[str, int] = {}
    destinations = []
    for line in text.splitlines():
        if found := re.fullmatch(r"destination (\w+) requests (\d+) words (\d+)", line):
            destinations.append(Destination(int(found[1], 16), int(found[2]), int(found[3])))
        else:
            counts |= dict([_count(line)])
    known = (counts[it] for it in ("entries", "kept", "other direction", "no direction"))
    return Side(*known, tuple(destinations), counts.get("clear answers renamed"))


def _imported(text: str) -> Imported:
    counts: dict[str, int] = {}
    jumps = []
    for line in text.splitlines():
        if found := re.fullmatch(r"(?:wrap|reset) (\d+) line (\d+)(?: by (\d+))?", line):
            jumps.append(Jump(int(found[1]), int(found[2]), int(found[3]) if found[3] else None))
        elif found := re.fullmatch(r"(times lifted|bit 32 made: good) (\d+) (by at most|bad) (\d+)", line):
            second = f"{found[1]} {found[3]}" if found[3] != "bad" else "bit 32 made: bad"
            counts |= {found[1]: int(found[2]), second: int(found[4])}
        else:
            counts |= dict([_count(line)])
    return Imported(counts, tuple(jumps))


def _count(line: str) -> tuple[str, int]:
    """The words of a line, and the number at its end."""
    words, _, number = line.rpartition(" ")
    return words, int(number)


def _end_of_trace(lines: list[str]) -> Only | Impossible:
    """The verdict of the last lines of a trace."""
    if lines[0].startswith("ONLY "):
        return Only(_files([it for it in lines[1:] if it.startswith("file ")]))
    _, entry, reason = lines[0].split()
    return Impossible(int(entry), reason)


def _traced(line: str) -> Traced:
    seen, _, sink = line.partition(" | ")
    entry, time, bus, word, what = seen.split(" ", 4)
    return Traced(int(entry), int(time), bus, int(word, 16), what, sink or None)
