"""A molfile that decks are held against: read once, and cut once, since a deck is most often that cut."""

from __future__ import annotations

import io
from typing import NamedTuple

from . import cutting, files, matching, native, sdf
from .console import Stop
from .files import Found
from .matching import Answer
from .native import Molecule, Refused


class File(NamedTuple):
    """The file's name, the SHA-256 of its bytes, its molecule, and that molecule cut where it can be."""

    name: str
    sha256: str
    molecule: Molecule
    cut: cutting.Cut | None

    def holds(self, deck: bytes) -> Answer:
        """A deck, with a sheet or without one, held against the molecule; raises `Refused`."""
        bare = matching.without_sheet(deck)
        known = self.cut.matching if self.cut is not None and self.cut.deck == bare else ()
        return matching.held(bare, self.molecule, known)


def record(path: str, number: int | None) -> tuple[bytes, str]:
    """The one molecule of a molfile or an SDF, or the record of a number from 1 on, and the SHA-256 of the file."""
    shown = files.shown(path)
    try:
        data, sha256 = files.text_of(Found(path))
        pieces = list(sdf.records(io.BytesIO(sdf.text(path, data)).read))
    except files.Unread as fault:
        raise Stop(f"{shown}: cannot be read: {fault}") from None
    if number is None and len(pieces) > 1:
        raise Stop(f"{shown}: it has {len(pieces)} records: --record says which")
    if number is not None and not 1 <= number <= len(pieces):
        raise Stop(f"{shown}: it has no record {number}: there {'is' if len(pieces) == 1 else 'are'} {len(pieces)}, from 1 on")
    return (pieces[(number or 1) - 1].data if pieces else b""), sha256


def whole(path: str, data: bytes) -> Molecule:
    """The molecule of a molfile."""
    try:
        return native.read_whole(data)
    except Refused as refusal:
        raise Stop(f"{files.shown(path)}: {refusal}{sdf.line_of(data, refusal)}") from None


def read(path: str, number: int | None = None) -> File:
    """The file that decks are held against."""
    data, sha256 = record(path, number)
    molecule = whole(path, data)
    try:
        made = cutting.cut(molecule)
    except cutting.Uncut:
        made = None
    return File(path, sha256, molecule, made)
