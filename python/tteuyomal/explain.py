"""A deck in words: its blocks and placements, what is claimed against what is worked out, and a refusal with what it means."""

from __future__ import annotations

import struct
from collections.abc import Iterator

from . import files, judging, libraries, native
from .against import File
from .decks import ASSEMBLY, BLOCK, FIELD_NAMES, LIBRARY, SHEET, SIX, Placement
from .judging import ACCEPTED, REFUSED, Judged
from .matching import ANOTHER, MATCHED, Answer
from .native import Refused

KIND_NAMES = {BLOCK: "a block", ASSEMBLY: "the assembly", SHEET: "a sheet", SIX: "a sheet of six fields", LIBRARY: "a library"}


_FRONT = 200  # bytes by which a text is told from a deck
_LETTERS = frozenset([*b"\t\n\r", *range(32, 127)])


def explained(judged: Judged) -> Iterator[str]:
    """The lines of one deck."""
    yield f"{files.shown(judged.name)}: {judged.size} bytes, SHA-256 {judged.sha256}"
    yield ""
    yield from _records(judged.data)
    yield ""
    if judged.word == REFUSED:
        yield from _refusal(judged)
    else:
        yield from _fields(judged.claimed, judged.worked)
        yield ""
        yield _verdict(judged)


def _verdict(judged: Judged) -> str:
    if judged.word == ACCEPTED:
        return "accepted: every field that is claimed is the one that the library works out from this deck."
    others = [FIELD_NAMES[k] for k in judged.wrong() if k + 1 != judged.field]
    also = f"; wrong too: {', '.join(others)}" if others else ""
    return f"differs {judged.field}: the first wrong field is {FIELD_NAMES[judged.field - 1]}{also}."


def held(data: bytes, file: File) -> Answer | None:
    """A deck held against a molfile, whether or not it has a sheet; None where the library refuses it."""
    try:
        return file.holds(data)
    except (Refused, ValueError):
        return None


def against(answer: Answer | None, file: File) -> Iterator[str]:
    """What came out where a deck was held against a molfile."""
    name, atoms = files.shown(file.name), file.molecule.atoms
    if answer is None:
        yield f"The deck is refused, so it is not held against {name}."
    elif answer.word == MATCHED:
        yield f"matched: the deck's molecule is that of {name}. The library took a matching of all {atoms} atoms that carries bonds to bonds both ways."
    elif answer.word == ANOTHER:
        yield f"another molecule than that of {name}: {answer.why}."
    else:
        yield f"not decided whether the deck's molecule is that of {name}: {answer.why}."


def _fields(claimed: tuple[int, ...], worked: tuple[int, ...]) -> Iterator[str]:
    yield f"{'':<18}{'claimed':>22}{'worked out':>22}"
    for name, claim, number in zip(FIELD_NAMES, claimed, worked):
        yield f"{name:<18}{claim:>22}{number:>22}{'' if claim == number else '   wrong'}"


def _records(data: bytes) -> Iterator[str]:
    """Each record as far as it can be read."""
    at = 0
    while at + 4 <= len(data):
        size, kind = struct.unpack_from("<HH", data, at)
        payload = data[at + 4 : at + 4 + size]
        yield f"byte {at}: {KIND_NAMES.get(kind, f'kind {kind}, which no record has')}, {size} bytes of payload"
        if len(payload) < size:
            yield f"  cut off: the deck ends at byte {len(data)}"
        yield from (f"  {line}" for line in _contents(kind, payload))
        at += 4 + size
    if at < len(data):
        yield f"byte {at}: {len(data) - at} bytes, too few for a record's head"


def _contents(kind: int, payload: bytes) -> Iterator[str]:
    if kind == BLOCK and len(payload) >= 6:
        number, atoms, count = struct.unpack_from("<HHH", payload)
        yield f"block {number}: {atoms} atom{'' if atoms == 1 else 's'}, {count} bond{'' if count == 1 else 's'}"
        pairs = list(zip(payload[6::2], payload[7::2]))
        for row in range(0, len(pairs), 16):
            yield " ".join(f"{first}-{second}" for first, second in pairs[row : row + 16])
    elif kind == ASSEMBLY and len(payload) >= 2:
        count = struct.unpack_from("<H", payload)[0]
        yield f"{count} placement{'' if count == 1 else 's'}"
        whole = payload[2 : 2 + (len(payload) - 2) // 6 * 6]
        for place, numbers in enumerate(struct.iter_unpack("<HHBB", whole), 1):
            yield _placement(place, Placement(*numbers))
    elif kind == LIBRARY:
        yield from _sites(payload)


def _sites(payload: bytes) -> Iterator[str]:
    try:
        core, sites = libraries.sites_of(0, payload)
    except ValueError:
        return
    yield f"the core is block {core}"
    for place, site in enumerate(sites, 1):
        those = ", ".join(f"block {one.block} by its atom {one.atom}" for one in site.candidates)
        yield f"site {place}, atom {site.atom} of the core: {those}"


def _placement(place: int, one: Placement) -> str:
    if one.numbers()[1:] == (0, 0, 0):
        return f"placement {place}: block {one.block}"
    joined = f"its atom {one.atom} bonded to atom {one.parent_atom} of placement {one.parent}"
    return f"placement {place}: block {one.block}, {joined}"


def _refusal(judged: Judged) -> Iterator[str]:
    yield f"refused {judged.number} at {judged.place}: {judged.words}."
    yield from where(judged.data, judged.number, judged.place)
    if judged.number == 7:
        yield from _parts(judged.data, judged.place)
    if judged.number == 11 and judged.place == judged.size:
        yield from _unclaimed(judged.data)
    if judged.data and all(byte in _LETTERS for byte in judged.data[:_FRONT]):
        yield ""
        yield "This file is a text and no deck: `tteuyomal deck` makes a deck of a deck's text, `tteuyomal measure` reads molfiles."
    if judged.note:
        yield from _library(judged.data)


def _parts(data: bytes, place: int) -> Iterator[str]:
    """The parts of the block whose record begins at a place: the atoms that have paths to each other."""
    atoms, count = struct.unpack_from("<HH", data, place + 6)
    bonds = data[place + 10 : place + 10 + 2 * count]
    part = list(range(atoms + 1))
    for first, second in zip(bonds[::2], bonds[1::2]):
        part = [part[first] if one == part[second] else one for one in part]
    parts = [[str(atom) for atom in range(1, atoms + 1) if part[atom] == one] for one in sorted(set(part[1:]), key=part.index)]
    yield f"It is in {len(parts)} parts: atoms {'; '.join(' '.join(one) for one in parts)}."


def _library(data: bytes) -> Iterator[str]:
    """What a library deck is, for who judges it."""
    yield ""
    try:
        count = native.library_count(data)
    except Refused as refusal:
        yield f"This is a library deck, which has no sheet to judge; as a library it is {refusal}."
        return
    sheets = "1 product" if count == 1 else f"{count} products"
    yield f"This is a library deck: a core with candidates for its sites, and no sheet to judge. It has {sheets};"
    yield "`tteuyomal library` lists them with their fields."


def _unclaimed(data: bytes) -> Iterator[str]:
    """What the library works out for a deck that is whole but for its sheet."""
    try:
        worked = judging.worked_out(data, 6)
    except Refused:
        return
    yield ""
    yield "The deck has no sheet, so there is nothing to judge. The library works out:"
    yield from (f"  {name:<18}{number:>22}" for name, number in zip(FIELD_NAMES, worked))


def where(data: bytes, number: int, place: int) -> Iterator[str]:
    """What a place means, and the bytes around it."""
    if number in (8, 9, 10, 20):
        return
    if place >= len(data):
        yield f"Byte {place} is the deck's end."
    else:
        yield f"Byte {place} is {_at(data, place)}."
    yield from _around(data, place)


def _at(data: bytes, place: int) -> str:
    at = 0
    while at + 4 <= len(data):
        size, kind = struct.unpack_from("<HH", data, at)
        if place < at + 4 + size:
            return _inside(data[at + 4 : at + 4 + size], kind, at, place)
        at += 4 + size
    return "where a record should begin" if at == place else f"in the bytes after the last record, which begin at {at}"


def _inside(payload: bytes, kind: int, at: int, place: int) -> str:
    """What stands at a place of the record that begins at byte `at`."""
    if kind not in KIND_NAMES:
        return f"the first byte of a record of kind {kind}" if place == at else f"in a record of kind {kind} that begins at byte {at}"
    name = KIND_NAMES[kind]
    if kind == BLOCK and len(payload) >= 6:
        name = f"block {struct.unpack_from('<H', payload)[0]}"
        bond = (place - at - 10) // 2
        if place >= at + 10 and len(payload) >= 8 + 2 * bond:
            return f"in bond {bond + 1} of {name}, {payload[6 + 2 * bond]}-{payload[7 + 2 * bond]} (the record begins at byte {at})"
    if kind == ASSEMBLY and place >= at + 6 and len(payload) >= 8 + (place - at - 6) // 6 * 6:
        one = (place - at - 6) // 6
        numbers = struct.unpack_from("<HHBB", payload, 2 + 6 * one)
        return f"in {_placement(one + 1, Placement(*numbers))} (the record begins at byte {at})"
    return f"the first byte of the record of {name}" if place == at else f"in the record of {name} that begins at byte {at}"


def _around(data: bytes, place: int) -> Iterator[str]:
    """Sixteen bytes before the place and sixteen from it on; the place is marked."""
    first = max(0, min(place, len(data)) - 16)
    part = data[first : place + 16]
    marks = [f"[{byte:02X}]" if first + k == place else f" {byte:02X} " for k, byte in enumerate(part)]
    if place >= len(data):
        marks.append("[end]")
    yield f"  bytes from {first}: {''.join(marks)}"
