"""Molecule files: every record of an SDF of any size, and molfiles; plain or `.gz`, each read once, with its SHA-256.

Where a record ends is told by the library alone. What it tells of a record does not depend on what follows the record's `$$$$` line:
so a file is read in pieces, and a record is handed on as soon as the line feed of that line is there.
"""

from __future__ import annotations

import ctypes
import gzip
import hashlib
import io
import os
import sys
import zlib
from collections.abc import Callable, Iterator, Sequence
from typing import NamedTuple

from . import files, native
from .files import Found, Unread
from .native import Refused

SDF, MOLFILE = "sdf", "molfile"
ENDINGS = {".sdf": SDF, ".sd": SDF, ".mol": MOLFILE, ".mdl": MOLFILE}
PACKED = ".gz"
PIECE = 1 << 20  # bytes that are read at a time
LONGEST = 1 << 26  # bytes of one record
_FEED = 10
_DONE = 254  # the reply where only blanks are left


class Piece(NamedTuple):
    """A record of a file: its number, from 1, and its bytes without the `$$$$` line."""

    number: int
    data: bytes


def plain(name: str) -> str:
    """A file's name without the ending that says that it is packed."""
    return name[: -len(PACKED)] if name.lower().endswith(PACKED) else name


def form_of(name: str) -> str | None:
    """What a molecule file is, by its name: an SDF or a molfile; None for any other name. `-` is an SDF."""
    return SDF if name == "-" else ENDINGS.get(os.path.splitext(plain(name))[1].lower())


class Hashed(io.RawIOBase):
    """A file that is open for reading; its bytes are hashed on their way."""

    def __init__(self, found: Found) -> None:
        if found.fault:
            raise Unread(found.fault)
        try:
            if found.name == "-":
                if sys.stdin is None:
                    raise Unread("standard input is closed")
                self._file = io.FileIO(sys.stdin.fileno(), closefd=False)
            else:
                self._file = io.FileIO(os.path.join(found.folder, found.name))
        except (OSError, ValueError) as fault:
            raise Unread(files.reason(fault)) from None
        self._digest = hashlib.sha256()

    def readable(self) -> bool:
        return True

    def readinto(self, room: ctypes.Array[ctypes.c_char] | memoryview | bytearray) -> int:  # type: ignore[override]
        count = self._file.readinto(room) or 0
        self._digest.update(memoryview(room)[:count])
        return count

    def close(self) -> None:
        if not self.closed:
            self._file.close()
        super().close()

    def sha256(self) -> str:
        """The SHA-256 of the file, once it was read to its end."""
        return self._digest.hexdigest()


def unpacked(name: str, file: Hashed) -> io.BufferedIOBase:
    """What a file holds."""
    read = io.BufferedReader(file, PIECE)
    return gzip.GzipFile(fileobj=read) if name.lower().endswith(PACKED) else read


def text(name: str, data: bytes) -> bytes:
    """What a file holds whose bytes are these; raises `Unread`."""
    try:
        return gzip.decompress(data) if name.lower().endswith(PACKED) else data
    except (OSError, EOFError, zlib.error) as fault:
        raise Unread(files.reason(fault)) from None


class Reader:
    """The records of one file, in order; `sha256` is there when they are all read. Raises `Unread`."""

    def __init__(self, found: Found) -> None:
        self.found = found
        self.sha256 = ""

    def __iter__(self) -> Iterator[Piece]:
        with Hashed(self.found) as file:
            try:
                yield from records(unpacked(self.found.name, file).read)
            except (OSError, EOFError, zlib.error) as fault:  # of this file alone: who takes the records raises his own faults elsewhere
                raise Unread(files.reason(fault)) from None
            self.sha256 = file.sha256()


def records(read: Callable[[int], bytes]) -> Iterator[Piece]:
    """The records of what is read, `read` handing over so many bytes or fewer, and none at the end."""
    step, span = native._sdf_record, (ctypes.c_uint64 * 3)()
    text, at, number, ended = b"", 0, 0, False
    while True:
        reply = step(text, len(text), at, span, 3)
        if reply == 0:
            start, length, following = span
            if ended or (start + length < following and text[following - 1] == _FEED):
                number += 1
                yield Piece(number, text[start : start + length])
                at = following
                continue
        if ended:
            if reply % 256 != _DONE:
                raise Refused(reply % 256, reply // 256)
            return
        left = len(text) - at
        if left > LONGEST:
            raise Unread(f"record {number + 1} is longer than {LONGEST} bytes")
        more = read(max(PIECE, left))  # as many again as are looked at a second time
        text, at, ended = text[at:] + more, 0, not more


def title(record: bytes) -> bytes:
    """A record's title line, blanks and tabs off both sides; a mark that UTF-8 stands in the file is no letter of it."""
    return record.partition(b"\n")[0].removeprefix(b"\xef\xbb\xbf").strip(b" \t\r")


def line_of(text: bytes, refusal: Refused) -> str:
    """What helps who looks at a refused text in an editor: the line that the refusal is about, or that the file is a V3000 one."""
    if refusal.number == 1 and b"V3000" in b"".join(text.split(b"\n", 4)[3:4]):
        return " (the file says V3000, and V2000 is read)"
    line = text[: refusal.place].count(b"\n") + 1
    return f" (line {line})" if refusal.number in (21, 22, 25, 26, 27) else ""


def kept(data: bytes, atoms: int, bonds: Sequence[tuple[int, int]]) -> list[int] | None:
    """The numbers that the atoms of a molecule have in its molfile, to be shown to who looks for them there. None where what is read here is
    not the molecule that the library read."""
    lines = data.split(b"\n")
    try:
        every, count = int(lines[3][:3]), int(lines[3][3:6])
        light = [line[31:34].strip() == b"H" for line in lines[4 : 4 + every]]
        pairs = [(int(line[:3]) - 1, int(line[3:6]) - 1) for line in lines[4 + every : 4 + every + count]]
        near: list[list[int]] = [[] for _ in light]
        for first, second in pairs:
            near[first].append(second)
            near[second].append(first)
    except (ValueError, IndexError):
        return None
    left = [atom for atom, ends in enumerate(near) if not (light[atom] and len(ends) == 1 and not light[ends[0]])]
    numbers = {atom: number for number, atom in enumerate(left, 1)}
    same = [(numbers[first], numbers[second]) for first, second in pairs if first in numbers and second in numbers]
    return [atom + 1 for atom in left] if (len(left), same) == (atoms, list(bonds)) else None
