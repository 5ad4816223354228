"""liba429 by ctypes: its four calls over bytes in memory (docs/LIBRARY.md). The functions of the package use it where it is there."""

from __future__ import annotations

import os
from ctypes import CDLL, POINTER, Array, Structure, byref, c_char_p, c_size_t, c_uint8, c_uint32, string_at
from dataclasses import dataclass
from functools import lru_cache

ABI = 1
NAME = f"liba429.so.{ABI}"
YES, IMPOSSIBLE, UNEXPLAINED, INPUT, MEMORY = range(5)
# What the program prints for the reasons of a429.h.
REASONS = {
    0: "",
    1: "NoForm", 2: "NotGranted", 3: "WrongAnswer", 4: "BadBlock", 5: "WrongNumber", 6: "OtherBlock", 7: "NoRun",
    11: "NeverWhole", 12: "NotOneBlock", 13: "NotReplayed", 14: "OutOfSteps",
    21: "version", 22: "line", 23: "not allowed", 24: "state differs", 25: "word differs", 26: "unfinished",
}  # fmt: skip


class _Found(Structure):
    """`a429_found`."""

    _fields_ = [(it, c_size_t) for it in ("entry", "line", "files", "bytes", "text")] + [("reason", c_uint32)]


class _File(Structure):
    """`a429_file`."""

    _fields_ = [("length", c_size_t), ("number", c_uint8)]


SLICE = [c_char_p, c_size_t]
LENGTHS = [POINTER(c_size_t), c_size_t]
FILES = [POINTER(_File), c_size_t, POINTER(c_uint8), c_size_t]
TEXT = [POINTER(c_uint8), c_size_t, POINTER(_Found)]
# What each call is given, and the buffers that it fills.
CALLS = {
    "decide": [*SLICE * 2, *FILES, *TEXT],
    "verify": [*SLICE * 3, *FILES, *TEXT],
    "make": [*SLICE * 2, *LENGTHS, *TEXT],
    "show": [*SLICE * 2, *TEXT],
}


@dataclass(frozen=True)
class Answer:
    """What a call has answered: `files` are pairs of a number and a size, `text` is what LIBRARY.md says of the call."""

    status: int
    entry: int
    line: int
    reason: str
    files: tuple[tuple[int, int], ...]
    text: bytes


class Library:
    """The library of this name. An OSError where it is not there, or where these calls do not fit it."""

    def __init__(self, name: str) -> None:
        self._library = CDLL(name)
        try:
            abi = self._library.a429_abi
        except AttributeError:
            raise OSError(f"{name} is not liba429") from None
        abi.restype = c_uint32
        if abi() != ABI:
            raise OSError(f"{name} has version {abi()} of the interface, and {ABI} is wanted")
        for call, types in CALLS.items():
            function = getattr(self._library, f"a429_{call}")
            function.argtypes, function.restype = types, c_uint8

    def decide(self, profile: bytes, recording: bytes) -> Answer:
        return self._judged("decide", profile, recording)

    def verify(self, profile: bytes, recording: bytes, certificate: bytes) -> Answer:
        return self._judged("verify", profile, recording, certificate)

    def show(self, profile: bytes, recording: bytes) -> Answer:
        return self._texted("show", [*_slice(profile), *_slice(recording)], 4 * len(recording))

    def make(self, profile: bytes, files: list[bytes]) -> Answer:
        lengths = (c_size_t * max(len(files), 1))(*map(len, files))
        content = b"".join(files)
        return self._texted("make", [*_slice(profile), *_slice(content), lengths, len(files)], 16 * len(content))

    def _judged(self, call: str, *given: bytes) -> Answer:
        """An answer with files. It is asked for again where the buffers were too small."""
        slices = [word for it in given for word in _slice(it)]
        found = _Found(files=64, bytes=0, text=4 * len(given[1]))
        while True:
            files, text = (_File * max(found.files, 1))(), _buffer(found.text)
            # (no bytes of files are wanted)
            room = (found.files, found.text)
            status = self._call(call, *slices, files, room[0], _buffer(0), 0, text, room[1], byref(found))
            if found.files <= room[0] and found.text <= room[1]:
                sizes = tuple((it.number, it.length) for it in files[: found.files])
                return _answer(status, found, sizes, text)

    def _texted(self, call: str, given: list[object], size: int) -> Answer:
        """An answer without files. It is asked for again where the text was longer than this size."""
        found = _Found(text=size)
        while True:
            room, text = found.text, _buffer(found.text)
            status = self._call(call, *given, text, room, byref(found))
            if found.text <= room:
                return _answer(status, found, (), text)

    def _call(self, call: str, *words: object) -> int:
        return getattr(self._library, f"a429_{call}")(*words)


def find() -> Library | None:
    """The library that the variable A429_LIBRARY names, or else the one that the system finds; none where the variable is empty, or
    where A429 alone is there: it names the program that is meant. An OSError where a named one cannot be used."""
    named = os.environ.get("A429_LIBRARY")
    if named:
        return _loaded(named)
    if named == "" or "A429" in os.environ:
        return None
    try:
        return _loaded(NAME)
    except OSError:
        return None


_loaded = lru_cache(maxsize=None)(Library)


def _slice(content: bytes) -> tuple[bytes, int]:
    return content, len(content)


def _buffer(size: int) -> Array[c_uint8]:
    """A buffer with so much room. A pointer to it is never null."""
    return (c_uint8 * max(size, 1))()


def _answer(status: int, found: _Found, files: tuple[tuple[int, int], ...], text: Array[c_uint8]) -> Answer:
    return Answer(status, found.entry, found.line, REASONS.get(found.reason, str(found.reason)), files, string_at(text, found.text))
