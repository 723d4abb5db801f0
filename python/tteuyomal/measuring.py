"""Every index of a molfile, of each record of an SDF or of a neighbour text that the library has."""

from __future__ import annotations

import hashlib
import io
import json
import os
from collections.abc import Callable, Iterable, Iterator
from typing import Any, NamedTuple

from . import files, judging, native, sdf
from .decks import Block, Deck, Placement
from .files import Found, Unread
from .native import NotThere, Refused
from .sdf import MOLFILE, SDF

NEIGHBOURS = "neighbours"
ENDINGS = {**sdf.ENDINGS, ".txt": NEIGHBOURS, ".nb": NEIGHBOURS}
TREES_ONLY = 34

# what is measured besides the five fields: the C function, and how a block answers it. The largest distance is that of a deck of the one
# block: no C function tells it of a lone block.
INDICES: list[tuple[str, Callable[[Block], dict[str, Any]]]] = [
    ("compose_six", lambda block: {"largest": Deck({1: block}, [Placement(1)]).compose(six=True).largest}),
    ("balaban", lambda block: {"J": "{}.{:09d}".format(*divmod(block.balaban(), 10**9))}),
    ("szeged", lambda block: {"Szeged": block.szeged().index}),
    ("count_sets", lambda block: dict(zip(("Hosoya", "Merrifield-Simmons"), block.sets()))),
]


class Unknown(Exception):
    """A file of which nobody said what it is."""


def form_of(name: str, form: str | None) -> str:
    """What a file is: what was said, or what its name ends in. Its bytes are not asked: to guess would hide a refusal."""
    found = form or ENDINGS.get(os.path.splitext(sdf.plain(name))[1].lower())
    if found is None:
        raise Unknown(f"its name ends in none of {' '.join(ENDINGS)}: say --as molfile, --as sdf or --as neighbours")
    return NEIGHBOURS if found == NEIGHBOURS else MOLFILE


def read_block(data: bytes, form: str) -> Block:
    """The block of a molfile or a neighbour text."""
    return Block.from_neighbours(data) if form == NEIGHBOURS else Block.from_molfile(data)


def measured(block: Block) -> dict[str, Any]:
    """The indices by name. One that the library has no function for is left out, and those of trees for other blocks too."""
    sheet = block.measure()
    found: dict[str, Any] = {"atoms": sheet.atoms, "bonds": len(block.bonds), "W": sheet.w, "even": sheet.even}
    found |= {"odd": sheet.odd, "polarity": sheet.polarity}
    for function, answer in INDICES:
        if native.has(function):
            try:
                found |= answer(block)
            except Refused as refusal:
                if refusal.number != TREES_ONLY:
                    raise
    return found


def details(block: Block) -> dict[str, Any]:
    """What belongs to single bonds and atoms."""
    found: dict[str, Any] = {"bonds_listed": [list(bond) for bond in block.bonds]}
    found["vertex_sums"] = [block.vertex(atom).sum for atom in range(1, block.atoms + 1)]
    try:
        denominator, shares = block.contributions()
        found |= {"denominator": denominator, "contributions": shares}
    except Refused as refusal:
        found["contributions_refused"] = judging.told(refusal)
    if native.has("szeged"):
        found["szeged_terms"] = block.szeged().terms
    return found


class Record(NamedTuple):
    """A record of an SDF on its way to be measured."""

    file: str
    number: int
    data: bytes


def texts(paths: Iterable[str], form: str | None) -> Iterator[Found | Record]:
    """The files that are named, and of an SDF its records one after the other, however many."""
    for found in files.find(paths):
        if (form or ENDINGS.get(os.path.splitext(sdf.plain(found.name))[1].lower())) != SDF:
            yield found
            continue
        count = 0
        try:
            for count, data in sdf.Reader(found):
                yield Record(found.name, count, data)
        except Unread as fault:
            yield found._replace(fault=str(fault))
            continue
        if not count:
            yield found._replace(fault="it has no record")


def measure(text: Found | Record, form: str | None, as_json: bool) -> list[tuple[str, bool]]:
    """The line or the object of each molecule of a file, and whether it was measured."""
    if isinstance(text, Record):
        return [_told(judging.about(text.file), text.number, text.data, MOLFILE, as_json, _sha256(text.data))]
    said = judging.about(text.name)
    try:
        kind = form_of(text.name, form)
        data, sha256 = files.text_of(text)
        if kind == NEIGHBOURS:
            return [_told(said, 0, data, kind, as_json, sha256)]
        records = list(sdf.records(io.BytesIO(sdf.text(text.name, data)).read)) or [sdf.Piece(1, b"")]
    except Unread as fault:
        return [(json.dumps(said | {"fault": str(fault)}) if as_json else f"{said['file']}: cannot be read: {fault}", False)]
    except (NotThere, Unknown) as fault:
        return [(json.dumps(said | {"fault": str(fault)}) if as_json else f"{said['file']}: {fault}", False)]
    if len(records) == 1:
        return [_told(said, 0, records[0].data, kind, as_json, sha256)]
    return [_told(said, number, data, kind, as_json, _sha256(data)) for number, data in records]


def _sha256(data: bytes) -> str:
    return hashlib.sha256(data).hexdigest()


def _told(said: dict[str, Any], number: int, data: bytes, kind: str, as_json: bool, sha256: str) -> tuple[str, bool]:
    """The line or the object of one text, or of one record of several, and whether it was measured."""
    name = f"{said['file']}, record {number}" if number else said["file"]
    said = said | {"sha256": sha256} | ({"record": number} if number else {})
    try:
        block = read_block(data, kind)
        indices = measured(block)
    except Refused as refusal:
        line = f"{name}: {refusal}{sdf.line_of(data, refusal)}"
        return (json.dumps(said | {"refusal": judging.told(refusal)}) if as_json else line), False
    except NotThere as fault:
        return (json.dumps(said | {"fault": str(fault)}) if as_json else f"{name}: {fault}"), False
    if as_json:
        listed = sdf.kept(data, block.atoms, block.bonds) if kind == MOLFILE else None
        return json.dumps(said | {"indices": indices} | ({"atoms_listed": listed} if listed else {}) | details(block)), True
    return f"{name}: {' '.join(f'{key} {value}' for key, value in indices.items())}", True
