"""The molecules of a run, one after the other: where each stands, what it is called, and what is claimed of it."""

from __future__ import annotations

import ctypes
import os
from collections.abc import Iterable, Iterator

from . import files, native, sdf
from .checking import Item
from .claims import Table
from .console import Stop
from .files import Found
from .judging import NO_MOLECULE, UNREAD
from .notice import relative
from .sdf import MOLFILE, SDF, Piece, Reader

TITLE, FILE, NUMBER = NAMES = ("title", "file", "number")
_UNKNOWN = f"its name ends in none of {' '.join(sdf.ENDINGS)}, nor with {sdf.PACKED} behind it"
_MOST_INPUTS = 100  # SDFs that board and notice name with their SHA-256


class Molecules:
    """Every record of every file, each read once; then, of a table, every row that no molecule asked for."""

    def __init__(self, paths: Iterable[str], folder: str, table: Table | None, by: str | None, id_item: str | None) -> None:
        self.paths = list(paths)
        self.folder = folder
        self.table = table
        self.by = by
        self.id_item = None if id_item is None else id_item.encode("utf-8", "surrogateescape")
        self.inputs: list[tuple[str, str, str]] = []
        self.count = 0
        self._alone = len(self.paths) == 1 and not folder
        self._span = (ctypes.c_uint64 * 2)()

    def __iter__(self) -> Iterator[Item]:
        for found in files.find(self.paths):
            yield from self._file(found)
        if self.table is not None:
            for name, line in self.table.left():
                label = f"{name} (line {line})" if name else f"line {line}"
                why = "" if name else "the row has no name"
                yield Item(name, self.table.path, 0, label, line=line, word=NO_MOLECULE, fault=why)

    def _file(self, found: Found) -> Iterator[Item]:
        form, shown = sdf.form_of(found.name), relative(found.name, self.folder)
        reader = Reader(found if form is not None or found.fault else found._replace(fault=_UNKNOWN))
        try:
            for piece in reader:
                self.count += 1
                yield self._item(found.name, shown, form or SDF, piece)
        except files.Unread as fault:
            yield Item("", found.name, 0, shown, word=UNREAD, fault=str(fault))
        if form == SDF and len(self.inputs) < _MOST_INPUTS:
            self.inputs.append(("molecules", found.name, reader.sha256))

    def _item(self, file: str, shown: str, form: str, piece: Piece) -> Item:
        """A molecule with its name and its claims."""
        number, data = piece
        by = self.by or (TITLE if form == SDF else FILE)
        names = self._names(by, shown, piece)
        name = names[0].decode("utf-8", "surrogateescape")
        claims, line = self._claims(name, names)
        record = number if form == SDF or number > 1 else 0
        return Item(name, file, record, _label(name, shown, number, form, self._alone, by), data, claims, line)

    def _claims(self, name: str, names: list[bytes]) -> tuple[bytes | None, int]:
        """What is claimed of the molecule of a name, and the line; None where the record itself says it."""
        if self.table is None:
            return None, 0
        if not name:
            return b"", 0
        one = names[0] if len(names) == 1 else next((one for one in names if self.table.knows(one)), names[0])
        row, before = self.table.look(one, self.count)
        if before:
            places = f"{self._place(before)} and {self._place(self.count)}"
            raise Stop(f'"{files.shown(name)}" names two molecules, {places}: --by or --id-item names them otherwise')
        return (b"", 0) if row is None else (row.claims, row.line)

    def _names(self, by: str, shown: str, piece: Piece) -> list[bytes]:
        """What a molecule may be called in the table; the first is how it is called here. None is an empty name."""
        if self.id_item is not None:
            start, length = self._value(piece.data)
            return [piece.data[start : start + length].strip(b" \t")]
        if by == TITLE:
            return [sdf.title(piece.data)]
        if by == NUMBER:
            return [str(self.count).encode()]
        name = os.path.basename(shown) if not self.folder else shown
        return [one.encode("utf-8", "surrogateescape") for one in (name, os.path.splitext(sdf.plain(name))[0])]

    def _value(self, record: bytes) -> tuple[int, int]:
        """Where the data item stands that is a molecule's name; of no length where there is none, or two."""
        assert self.id_item is not None
        reply = native._sdf_item(record, len(record), self.id_item, len(self.id_item), self._span, 2)
        return (self._span[0], self._span[1]) if reply == 0 else (0, 0)

    def _place(self, count: int) -> str:
        """Where a molecule stands, by its number among all of them; to say so the files are gone through again."""
        if self._alone and sdf.form_of(self.paths[0]) == SDF:
            return f"record {count}"
        seen = 0
        for found in files.find(self.paths):
            if sdf.form_of(found.name) is not None and found.name != "-":
                for piece in Reader(found):
                    seen += 1
                    if seen == count:
                        shown = files.shown(relative(found.name, self.folder))
                        return f"{shown}, record {piece.number}" if sdf.form_of(found.name) == SDF or piece.number > 1 else shown
        return f"molecule {count}"


def _label(name: str, shown: str, number: int, form: str, alone: bool, by: str) -> str:
    """How a molecule is printed: its name, and where it stands."""
    place = f"record {number}" if form == SDF or number > 1 else ""
    if form == MOLFILE or not alone:
        place = f"{shown}, {place}" if place else shown
    if not name or by in (NUMBER, FILE):
        return place
    return f"{name} ({place})"
