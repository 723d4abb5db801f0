"""Files and folders: which files there are, their bytes, names that can be printed, and outputs that are whole or not there."""

from __future__ import annotations

import contextlib
import errno
import hashlib
import heapq
import os
import re
import stat
import sys
import tempfile
from collections.abc import Iterable, Iterator
from typing import IO, NamedTuple

LONGEST = 32768  # bytes of a deck; a longer one is refused whatever its bytes are
LONGEST_FILE = 1 << 30  # bytes of any file that is read: a longer one is not
_HELD = 200_000  # names of one folder that are held at a time
_PIECE = 1 << 20  # bytes that are asked for at a time


class Unread(Exception):
    """A file that could not be read, with the reason."""


class Unwritten(Exception):
    """An output that could not be written, with its name and the reason."""


class Found(NamedTuple):
    """A file to be read, or the reason why it can't be. Its name is told as it was given; it is read from the folder, where one is
    named: who reads it may be another process in another folder."""

    name: str
    fault: str = ""
    folder: str = ""


class Contents(NamedTuple):
    """The front of a file, up to one byte more than the longest deck, and the SHA-256 of all of it."""

    data: bytes
    sha256: str


def find(paths: Iterable[str]) -> Iterator[Found]:
    """The files that are named, and every file in the folders that are named, in the order of their names. Nothing is passed
    over in silence: what is no file and no folder is handed on with a fault. `-` is standard input."""
    for path in paths:
        if path != "-" and os.path.isdir(path):
            yield from _within(path)
        else:
            yield Found(path)


def _within(folder: str) -> Iterator[Found]:
    front = folder if folder.endswith("/") else folder + "/"
    try:
        for name, kind in _names(folder):
            if kind == _FILE:
                yield Found(front + name)
            elif kind == _FOLDER:
                yield from _within(front + name)
            else:
                yield _other(front + name)
    except OSError as fault:
        yield Found(folder, reason(fault))


def _other(path: str) -> Found:
    """What is neither a file nor a folder itself: a link is followed to a file."""
    try:
        mode = os.stat(path).st_mode
    except OSError as fault:
        return Found(path, reason(fault))
    if stat.S_ISREG(mode):
        return Found(path)
    return Found(path, "a link to a folder" if stat.S_ISDIR(mode) else "no file")


_FILE, _FOLDER, _OTHER = range(3)


def _kind(entry: os.DirEntry[str]) -> int:
    if entry.is_file(follow_symlinks=False):
        return _FILE
    return _FOLDER if entry.is_dir(follow_symlinks=False) else _OTHER


def _names(folder: str) -> Iterator[tuple[str, int]]:
    """The names in a folder in order, however many: no more than `_HELD` of them are held at a time."""
    last: str | None = None
    while True:
        with os.scandir(folder) as entries:
            later = ((entry.name, _kind(entry)) for entry in entries if last is None or entry.name > last)
            part = heapq.nsmallest(_HELD, later)
        yield from part
        if len(part) < _HELD:
            return
        last = part[-1][0]


def read(found: Found, most: int = LONGEST) -> Contents:
    """The bytes that are judged, one more than `most` at most, with the SHA-256 of the whole; raises `Unread`."""
    if found.fault:
        raise Unread(found.fault)
    try:
        if found.name == "-":
            if sys.stdin is None:
                raise Unread("standard input is closed")
            return contents(sys.stdin.fileno(), most)
        file = os.open(os.path.join(found.folder, found.name), os.O_RDONLY | os.O_CLOEXEC)
        try:
            return contents(file, most)
        finally:
            os.close(file)
    except (OSError, ValueError) as fault:
        raise Unread(reason(fault)) from None


def text_of(found: Found) -> Contents:
    """All of a file that is no deck; raises `Unread`."""
    return read(found, LONGEST_FILE)


def contents(file: int, most: int) -> Contents:
    """What an open file holds. Bytes behind those that are kept are read for the SHA-256 alone; raises `Unread` for a file that is longer
    than any may be, as is a device that never ends."""
    parts, size, digest = [], 0, hashlib.sha256()
    while part := os.read(file, _PIECE if size > most else min(_PIECE, most + 1 - size)):
        if size <= most:
            parts.append(part)
        size += len(part)
        if size > LONGEST_FILE:
            raise Unread(f"longer than {LONGEST_FILE} bytes")
        digest.update(part)
    return Contents(b"".join(parts), digest.hexdigest())


def reason(fault: Exception) -> str:
    """Why, in the system's words and without the name."""
    return (getattr(fault, "strerror", None) or str(fault) or "unknown fault").lower()


def shown(name: str) -> str:
    """A name as it is printed: on one line, never as bytes that a terminal or a reader of lines would take for something else, and
    never as another name is printed. `meant` is its inverse."""
    if name.isprintable() and "\\" not in name:
        return name
    return "".join(letter if letter.isprintable() and letter != "\\" else _escaped(letter) for letter in name)


_SHORT = {"\\": "\\\\", "\n": "\\n", "\r": "\\r", "\t": "\\t"}
_ESCAPE = re.compile(r"\\(?:([\\nrt])|x([0-9a-f]{2})|u([0-9a-f]{4})|U([0-9a-f]{8}))")


def _escaped(letter: str) -> str:
    """`\\x` is a byte: one below 128, or one that is no UTF-8. Other letters have four or eight digits."""
    code = ord(letter)
    if letter in _SHORT:
        return _SHORT[letter]
    if 0xDC80 <= code <= 0xDCFF:
        return f"\\x{code - 0xDC00:02x}"
    return f"\\x{code:02x}" if code < 0x80 else f"\\u{code:04x}" if code < 0x10000 else f"\\U{code:08x}"


def meant(text: str) -> str:
    """The name that is printed so."""
    return _ESCAPE.sub(_letter, text)


def _letter(found: re.Match[str]) -> str:
    short, byte, four, eight = found.groups()
    if short:
        return {"n": "\n", "r": "\r", "t": "\t"}.get(short, short)
    if byte:
        return chr(int(byte, 16) + (0xDC00 if byte >= "80" else 0))
    return chr(min(int(four or eight, 16), sys.maxunicode))


class OverInput(Exception):
    """An output that would stand where an input stands."""


def apart(output: str, inputs: Iterable[str]) -> None:
    """Raises `OverInput` where the output is one of the inputs, by whatever name or link, or stands in a folder that is one."""
    if output == "-":
        return
    for path in inputs:
        if path != "-" and os.path.exists(path):
            if os.path.exists(output) and os.path.samefile(path, output):
                raise OverInput(f"{shown(output)} is an input: the output must be another file")
            if os.path.isdir(path) and _holds(path, output):
                raise OverInput(f"{shown(output)} would stand among the decks of {shown(path)}: write it elsewhere")


def same(one: str, other: str) -> bool:
    """Whether two outputs are one file. A device may be written to twice."""
    if one == "-" or other == "-":
        return one == other
    return os.path.realpath(one) == os.path.realpath(other) and not (os.path.exists(one) and not os.path.isfile(one))


def _holds(folder: str, output: str) -> bool:
    folder, output = os.path.realpath(folder), os.path.realpath(output)
    return os.path.commonpath([folder, output]) == folder


@contextlib.contextmanager
def written(path: str) -> Iterator[IO[bytes]]:
    """A file to write to; raises `Unwritten` with the name that was asked for. `-` is standard output, a link is followed, and what
    stands there and is no regular file (a device, a pipe) is written to. A regular file gets its name when all is written: after a
    fault or an interrupt nothing of it is left, and what stood under the name before stands there still."""
    try:
        with _direct(path) or _beside(os.path.realpath(path)) as file:
            yield file
    except OSError as fault:
        raise Unwritten(f"{shown(path)}: cannot be written: {reason(fault)}") from None


def _direct(path: str) -> IO[bytes] | None:
    """The open file for what can't be replaced: standard output by any name, and whatever is no regular file."""
    if path == "-":
        return _standard_output()
    try:
        there = os.stat(path)
    except FileNotFoundError:
        return None
    with contextlib.suppress(OSError):
        if os.path.samestat(there, os.fstat(1)):
            return _standard_output()
    return None if stat.S_ISREG(there.st_mode) else os.fdopen(os.open(path, os.O_WRONLY | os.O_CLOEXEC), "wb")


def _standard_output() -> IO[bytes]:
    if sys.stdout is None:
        raise OSError(errno.EBADF, "standard output is closed")
    sys.stdout.flush()
    return os.fdopen(os.dup(sys.stdout.fileno()), "wb")


@contextlib.contextmanager
def _beside(path: str) -> Iterator[IO[bytes]]:
    """A file under another name until it is whole."""
    folder, name = os.path.split(path)
    handle, part = tempfile.mkstemp(prefix=f".{name[:80]}.", suffix=".part", dir=folder)
    try:
        with os.fdopen(handle, "wb") as file:
            yield file
            file.flush()
            os.fchmod(file.fileno(), _mode(path))
            os.fsync(file.fileno())
        os.replace(part, path)
    except BaseException:
        with contextlib.suppress(OSError):
            os.unlink(part)
        raise


def _mode(path: str) -> int:
    """The rights of the file that is replaced, or those that a new one gets."""
    try:
        return stat.S_IMODE(os.stat(path).st_mode)
    except OSError:
        mask = os.umask(0)
        os.umask(mask)
        return 0o666 & ~mask
