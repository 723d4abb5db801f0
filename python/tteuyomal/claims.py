"""What a program printed: which fields in which columns, and the table that has it. A claim is a field's number and the text that was
printed; nobody here reads a number."""

from __future__ import annotations

import array
import csv
import gzip
import io
import os
import sqlite3
import zlib
from collections.abc import Iterable, Iterator
from typing import NamedTuple

from . import decks, files, sdf, work
from .console import Stop
from .files import Found

SHORT = (*decks.SHORT_NAMES, "Szeged", "Hosoya", "Merrifield-Simmons", "J")  # the fields as they stand in lines; the first is number 1
FIELDS = (*decks.FIELD_NAMES, "Szeged index", "Hosoya index", "Merrifield-Simmons index", "Balaban's J")
DELIMITERS = {".csv": ",", ".tsv": "\t", ".tab": "\t"}
_ROOM = 255  # bytes of a claim's text
_ROWS = 10_000  # rows that are handed to the index at a time
_CUT = " ..(cut)"  # no number ends so


class Asked(NamedTuple):
    """A field that is claimed, by its number from 1, and the column or data item that has its text."""

    field: int
    column: str


def asked(word: str) -> Asked | None:
    """What a word as `W=WPATH` asks for; None where it begins with no field's name."""
    name, sign, column = word.partition("=")
    found = {short.lower(): k for k, short in enumerate(SHORT, 1)}.get(name.lower())
    return Asked(found, column) if sign and found else None


def claim(field: int, text: bytes) -> bytes:
    """A claim's bytes; of blanks none, since nothing was printed. A text that a claim has no room for is cut so that nobody reads it."""
    if not text.strip(b" \t\r\n"):
        return b""
    if len(text) > _ROOM:
        text = text[:80] + _CUT.encode()
    return bytes((field, len(text))) + text


def texts(claims: bytes) -> dict[int, str]:
    """The text of each claim by its field."""
    found, at = {}, 0
    while at < len(claims):
        end = at + 2 + claims[at + 1]
        found[claims[at]] = claims[at + 2 : end].decode("utf-8", "surrogateescape")
        at = end
    return found


class Row(NamedTuple):
    """A row of the table: its number from 0, the line that it begins at, and its claims."""

    number: int
    line: int
    claims: bytes


def is_table(path: str) -> bool:
    """Whether a file is a table, by its name."""
    return os.path.splitext(sdf.plain(path))[1].lower() in DELIMITERS


class Table:
    """The rows of a table by the names that stand in one of its columns. They are kept in a file that ends with this process, so that
    a table of any size takes little memory. Who is asked for a name says which molecule asks: a name stands once on either side."""

    def __init__(self, path: str, fields: Iterable[Asked], column: str | None) -> None:
        self.path = path
        self.sha256 = ""
        self.fields = tuple(fields)
        self._kept = sqlite3.connect("", isolation_level=None)
        self._kept.execute("PRAGMA cache_size = -32768")
        self._kept.execute("PRAGMA journal_mode = OFF")
        self._kept.execute("CREATE TABLE rows (name BLOB PRIMARY KEY, number INTEGER, line INTEGER, claims BLOB) WITHOUT ROWID")
        self._kept.execute("CREATE TABLE others (name BLOB PRIMARY KEY, molecule INTEGER) WITHOUT ROWID")
        self._kept.execute("BEGIN")  # and never an end: it is read here alone
        self._nameless = array.array("Q")  # the lines of rows with no name
        self._molecules = array.array("Q")  # by row: the molecule that it is of, counted from 1; 0 while there is none
        try:
            with sdf.Hashed(Found(path)) as file:
                self._read(sdf.unpacked(path, file), column)
                self.sha256 = file.sha256()
        except (files.Unread, OSError, EOFError, zlib.error) as fault:
            why = fault if isinstance(fault, files.Unread) else files.reason(fault)
            raise Stop(f"{files.shown(path)}: cannot be read: {why}") from None
        except csv.Error as fault:
            raise Stop(f"{files.shown(path)}: no table as it should be: {fault}") from None

    def _read(self, file: io.BufferedIOBase | gzip.GzipFile, column: str | None) -> None:
        words = io.TextIOWrapper(file, "utf-8-sig", "surrogateescape", newline="")  # type: ignore[arg-type]
        rows = csv.reader(words, delimiter=DELIMITERS[os.path.splitext(sdf.plain(self.path))[1].lower()], strict=True)
        head: list[str] = next(rows, [])
        key, *places = [_place(self.path, head, name) for name in (column, *(one.column for one in self.fields))]
        self.column = head[key]
        progress = work.Progress("rows")
        for some in work.batches(self._rows(rows, len(head), key, places), _ROWS):
            self._add(some)
            progress.add(len(some))
        progress.clear()

    def _rows(self, rows: Iterator[list[str]], width: int, key: int, places: list[int]) -> Iterator[tuple[bytes, int, int, bytes]]:
        wanted, end = list(zip((one.field for one in self.fields), places)), 1
        for cells in rows:
            line, end = end + 1, rows.line_num  # type: ignore[attr-defined]
            if not cells:
                continue
            if len(cells) != width:
                raise Stop(f"{files.shown(self.path)}: line {line} has {len(cells)} cells, and the first line has {width}")
            name = cells[key].strip(" \t").encode("utf-8", "surrogateescape")
            if not name:
                self._nameless.append(line)
                continue
            claims = b"".join([claim(field, cells[place].encode("utf-8", "surrogateescape")) for field, place in wanted])
            yield name, len(self._molecules), line, claims
            self._molecules.append(0)

    def _add(self, some: list[tuple[bytes, int, int, bytes]]) -> None:
        before = self._kept.total_changes
        self._kept.executemany("INSERT OR IGNORE INTO rows VALUES (?, ?, ?, ?)", some)
        if self._kept.total_changes - before == len(some):
            return
        for name, number, line, _ in some:
            (first, other) = self._kept.execute("SELECT number, line FROM rows WHERE name = ?", (name,)).fetchone()
            if first != number:
                places = f"line {other} and line {line}"
                raise Stop(f"{files.shown(self.path)}: {_quoted(name)} stands twice in column {files.shown(self.column)}: {places}")

    def look(self, name: bytes, molecule: int) -> tuple[Row | None, int]:
        """The row of a name, and the molecule, counted from 1, that had this name before; 0 where there is none."""
        found = self._kept.execute("SELECT number, line, claims FROM rows WHERE name = ?", (name,)).fetchone()
        if found is not None:
            before = self._molecules[found[0]]
            self._molecules[found[0]] = molecule
            return Row(*found), before
        if not self._kept.execute("INSERT OR IGNORE INTO others VALUES (?, ?)", (name, molecule)).rowcount:
            return None, int(self._kept.execute("SELECT molecule FROM others WHERE name = ?", (name,)).fetchone()[0])
        return None, 0

    def knows(self, name: bytes) -> bool:
        """Whether a row has this name."""
        return self._kept.execute("SELECT 1 FROM rows WHERE name = ?", (name,)).fetchone() is not None

    def left(self) -> Iterator[tuple[str, int]]:
        """The name and the line of each row that no molecule asked for."""
        if self._molecules.count(0):
            for name, number, line in self._kept.execute("SELECT name, number, line FROM rows ORDER BY number"):
                if not self._molecules[number]:
                    yield name.decode("utf-8", "surrogateescape"), line
        yield from (("", line) for line in self._nameless)


def _quoted(name: bytes) -> str:
    return f'"{files.shown(name.decode("utf-8", "surrogateescape"))}"'


def _place(path: str, head: list[str], column: str | None) -> int:
    """Where a column stands; without a name the first."""
    if not head:
        raise Stop(f"{files.shown(path)}: it has no first line with the names of its columns")
    if column is None:
        return 0
    found = [place for place, name in enumerate(head) if name.strip() == column.strip()]
    if len(found) == 1:
        return found[0]
    if found:
        raise Stop(f"{files.shown(path)}: two columns are called {files.shown(column)}: {found[0] + 1} and {found[1] + 1}")
    names = ", ".join(files.shown(name) for name in head[:40])
    raise Stop(f"{files.shown(path)}: no column is called {files.shown(column)}; there are {names}{' ..' if len(head) > 40 else ''}")
