"""Blocks, placements, sheets and decks as values. Each asks the library; nothing is worked out or judged here."""

from __future__ import annotations

import os
import struct
from collections.abc import Iterable, Iterator, Mapping
from dataclasses import dataclass
from typing import Any, NamedTuple, TypeVar

from . import files, native
from .native import Contributions, Fields, Refused, Sets, Szeged, Values, Vertex

Kind = TypeVar("Kind")
BLOCK, ASSEMBLY, SHEET, SIX, LIBRARY = 1, 2, 3, 4, 5  # kinds of records
FIELD_NAMES = native.SHEET_NAMES
SHORT_NAMES = ("atoms", "W", "even", "odd", "polarity", "largest")  # the same, as they stand in lines and texts


@dataclass(frozen=True)
class Block:
    """A molecular graph: so many atoms, numbered from 1, and bonds as pairs of atom numbers.

    A block that the rules refuse can be made; what is asked of it raises `Refused`.
    """

    atoms: int
    bonds: tuple[tuple[int, int], ...]

    def __init__(self, atoms: int, bonds: Iterable[tuple[int, int]] = ()) -> None:
        pairs = tuple((first, second) for _, first, second in native._pairs(bonds))
        object.__setattr__(self, "atoms", atoms)
        object.__setattr__(self, "bonds", pairs)

    @classmethod
    def from_molfile(cls, text: bytes | str) -> Block:
        """The block of a V2000 molfile's text, without its hydrogens (those with one bond, to an atom that is no H)."""
        return cls(*native.read_molfile(_molfile(text)))

    @classmethod
    def from_neighbours(cls, text: bytes | str) -> Block:
        """The block of a neighbour text: the atom count, then for each atom its label, its neighbours and a 0, and a last 0."""
        return cls(*native.read_neighbours(_encoded(text)))

    @classmethod
    def from_rdkit(cls, mol: Any) -> Block:
        """The block of an RDKit molecule, which is that of the molfile that RDKit writes of it: an H with exactly one bond, to an atom
        that is no H, is left out, and the others keep their order. RDKit has no symbols D and T: it says H with an isotope, which is
        an H. A file that has such symbols is read by `from_molfile`."""
        if not hasattr(mol, "GetAtoms"):
            raise TypeError(f"a molecule of RDKit is meant, not {mol!r}")
        atoms = list(mol.GetAtoms())
        kept = [atom.GetIdx() for atom in atoms if not _left_out(atom)]
        numbers = {index: number for number, index in enumerate(kept, 1)}
        ends = ((bond.GetBeginAtomIdx(), bond.GetEndAtomIdx()) for bond in mol.GetBonds())
        return cls(len(kept), ((numbers[a], numbers[b]) for a, b in ends if a in numbers and b in numbers))

    def check(self) -> None:
        """Raises `Refused` unless the block is good."""
        native.check_block(self.atoms, self.bonds)

    def measure(self) -> Sheet:
        """Atom count, W, even part, odd part, polarity."""
        return Sheet(*native.indices(self.atoms, self.bonds))

    def vertex(self, atom: int) -> Vertex:
        """The sums and counts of one atom's distances."""
        return native.vertex(self.atoms, self.bonds, atom)

    def contributions(self) -> Contributions:
        """The common denominator D, and for each bond D times its contribution to W."""
        return native.contributions(self.atoms, self.bonds)

    def values(self, x: float) -> Values:
        """The even and the odd polynomial value at x, above 0 and at most 1."""
        return native.polynomial(self.atoms, self.bonds, x)

    def balaban(self) -> int:
        """Balaban's J in units of 10^-9, each bond's root rounded down."""
        return native.balaban(self.atoms, self.bonds)

    def szeged(self) -> Szeged:
        """The Szeged index, with its terms bond by bond."""
        return native.szeged(self.atoms, self.bonds)

    def sets(self) -> Sets:
        """The Hosoya index and the Merrifield-Simmons index of a tree."""
        return native.count_sets(self.atoms, self.bonds)

    def farthest(self, atom: int) -> int:
        """The largest distance from an atom."""
        return native.farthest(self.atoms, self.bonds, atom)

    def molfile(self) -> bytes:
        """The block as a V2000 molfile of carbons and single bonds."""
        return native.write_molfile(self.atoms, self.bonds)

    def neighbours(self) -> bytes:
        """The block as a neighbour text."""
        return native.write_neighbours(self.atoms, self.bonds)

    def record(self, number: int) -> bytes:
        """The block as a record of a deck, under a number."""
        return native.block_record(number, self.atoms, self.bonds)


@dataclass(frozen=True)
class Placement:
    """A block put in place: its number, and, for all but the first, the earlier placement, that one's atom and the own atom."""

    block: int
    parent: int = 0
    parent_atom: int = 0
    atom: int = 0

    def numbers(self) -> tuple[int, int, int, int]:
        """The four numbers, in the order of the record."""
        return self.block, self.parent, self.parent_atom, self.atom


@dataclass(frozen=True)
class Sheet:
    """The fields that a sheet claims, or that were worked out. With a largest distance it is a sheet of kind 4."""

    atoms: int
    w: int
    even: int
    odd: int
    polarity: int
    largest: int | None = None

    def fields(self) -> tuple[int, ...]:
        """The five or six fields, in order."""
        five = (self.atoms, self.w, self.even, self.odd, self.polarity)
        return five if self.largest is None else five + (self.largest,)

    def record(self) -> bytes:
        """The sheet as a record of a deck."""
        return native.sheet_record(self.fields())

    def __str__(self) -> str:
        return " ".join(f"{word} {number}" for word, number in zip(SHORT_NAMES, self.fields()))


class Verdict(NamedTuple):
    """What the library says of a deck. It is true only where the sheet was accepted."""

    field: int = 0
    refusal: Refused | None = None

    @property
    def word(self) -> str:
        """`accepted`, `differs` or `refused`."""
        return "refused" if self.refusal else "differs" if self.field else "accepted"

    def __bool__(self) -> bool:
        return self.word == "accepted"

    def __repr__(self) -> str:
        return f"<Verdict: {self}>"

    def __str__(self) -> str:
        if self.refusal:
            return f"refused {self.refusal.number} at {self.refusal.place}"
        return f"differs {self.field}" if self.field else "accepted"


@dataclass(frozen=True)
class Deck:
    """Blocks under their numbers, placements, and for a deck to be judged the sheet that somebody claims."""

    blocks: tuple[tuple[int, Block], ...]
    placements: tuple[Placement, ...]
    sheet: Sheet | None = None

    def __init__(
        self,
        blocks: Mapping[int, Block] | Iterable[tuple[int, Block]],
        placements: Iterable[Placement],
        sheet: Sheet | None = None,
    ) -> None:
        object.__setattr__(self, "blocks", numbered(blocks))
        object.__setattr__(self, "placements", tuple(of_kind(one, Placement, "a placement") for one in placements))
        object.__setattr__(self, "sheet", sheet if sheet is None else of_kind(sheet, Sheet, "a sheet"))

    @classmethod
    def from_bytes(cls, data: native.Bytes) -> Deck:
        """The deck that some bytes spell; ValueError where they are not blocks, an assembly and perhaps a sheet."""
        return _parse(native._bytes(data))

    def __bytes__(self) -> bytes:
        records = [block.record(number) for number, block in self.blocks]
        records.append(native.assembly_record(placement.numbers() for placement in self.placements))
        if self.sheet is not None:
            records.append(self.sheet.record())
        return b"".join(records)

    def without_sheet(self) -> Deck:
        """The same blocks and placements."""
        return Deck(self.blocks, self.placements)

    def with_sheet(self, sheet: Sheet | None = None, six: bool = False) -> Deck:
        """The same with a sheet: the one that is given, or the one that the library works out, of six fields if `six`."""
        return Deck(self.blocks, self.placements, self.compose(six) if sheet is None else sheet)

    def judge(self) -> Verdict:
        """The library's verdict on the sheet."""
        return judge(bytes(self))

    def compose(self, six: bool = False) -> Sheet:
        """The fields of the whole molecule, whatever sheet the deck has; with its largest distance if `six`."""
        return compose(bytes(self.without_sheet()), six)

    def distance(self, k: int, i: int, l: int, j: int) -> int:
        """The distance of atom i of placement k and atom j of placement l in the whole molecule."""
        return native.placed_distance(bytes(self.without_sheet()), k, i, l, j)


def numbered(blocks: Mapping[int, Block] | Iterable[tuple[int, Block]]) -> tuple[tuple[int, Block], ...]:
    """Blocks with their numbers, as a deck and a library have them."""
    found = []
    for pair in blocks.items() if isinstance(blocks, Mapping) else blocks:
        try:
            number, block = pair
        except (TypeError, ValueError):
            raise TypeError(f"a block stands with its number, as (1, block), not {pair!r}") from None
        found.append((number, of_kind(block, Block, "a block")))
    return tuple(found)


def of_kind(value: Any, kind: type[Kind], what: str) -> Kind:
    if not isinstance(value, kind):
        raise TypeError(f"{what} is meant, a {kind.__name__}, not {value!r}")
    return value


def judge(deck: Deck | native.Bytes) -> Verdict:
    """The library's verdict on a deck with a sheet. A refusal is a verdict too: nothing is raised for it."""
    try:
        return Verdict(native.judge(_deck_bytes(deck)))
    except Refused as refusal:
        return Verdict(refusal=refusal)


def judge_file(path: str | os.PathLike[str]) -> Verdict:
    """The library's verdict on the deck in a file. A file that can't be read is an OSError, never a verdict."""
    with open(os.fspath(path), "rb") as file:  # a number would be an open file's
        return judge(file.read(files.LONGEST + 1))  # one byte more than the longest deck is refused as any longer file is


def judge_many(decks: Iterable[Deck | native.Bytes]) -> list[Verdict]:
    """The verdicts on many decks."""
    return [verdict_of(reply) for reply in native.judge_many(map(_deck_bytes, decks))]


_ACCEPTED = Verdict()


def verdict_of(reply: int) -> Verdict:
    """The verdict that a reply of the C function `tteuyomal_judge` says."""
    if reply == 0:
        return _ACCEPTED
    what, where = reply % 256, reply // 256
    return Verdict(where) if what == 255 else Verdict(refusal=Refused(what, where))


def compose(deck: Deck | native.Bytes, six: bool = False) -> Sheet:
    """The five fields of the molecule of a deck without a sheet, or six of them; raises `Refused`."""
    return Sheet(*(native.compose_six if six else native.compose)(_deck_bytes(deck)))


def measure(block: Block) -> Sheet:
    """The five fields of a block; raises `Refused`."""
    return of_kind(block, Block, "a block").measure()


def contributions(block: Block) -> Contributions:
    """The common denominator, and each bond's share of W over it; raises `Refused`."""
    return of_kind(block, Block, "a block").contributions()


def values(block: Block, x: float) -> Values:
    """The even and the odd polynomial value at x; raises `Refused`."""
    return of_kind(block, Block, "a block").values(x)


def records(data: bytes) -> Iterator[tuple[int, int, bytes]]:
    """The place, kind and payload of each record; ValueError, when it is come to, for one that is cut off."""
    at = 0
    while at < len(data):
        if at + 4 > len(data):
            raise ValueError(f"the record at byte {at} is cut off")
        size, kind = struct.unpack_from("<HH", data, at)
        if at + 4 + size > len(data):
            raise ValueError(f"the record at byte {at} is cut off")
        yield at, kind, data[at + 4 : at + 4 + size]
        at += 4 + size


def claimed(data: bytes) -> tuple[int, tuple[int, ...]]:
    """Where the last record, a sheet, stands in a deck that the library does not refuse, and the fields that it claims."""
    at = 0
    while (end := at + 4 + data[at] + 256 * data[at + 1]) < len(data):
        at = end
    return at, struct.unpack_from("<4xIQQQQ" if data[at + 2] == SHEET else "<4xIQQQQI", data, at)


def _parse(data: bytes) -> Deck:
    blocks: list[tuple[int, Block]] = []
    placements: tuple[Placement, ...] | None = None
    sheet: Sheet | None = None
    for at, kind, payload in records(data):
        if kind == BLOCK and placements is None:
            blocks.append(_block(at, payload))
        elif kind == ASSEMBLY and placements is None:
            placements = _placements(at, payload)
        elif kind in (SHEET, SIX) and placements is not None and sheet is None:
            sheet = _sheet(at, kind, payload)
        else:
            raise ValueError(f"the record at byte {at} has kind {kind}, which may not stand there")
    if placements is None:
        raise ValueError("there is no assembly")
    return Deck(blocks, placements, sheet)


def _block(at: int, payload: bytes) -> tuple[int, Block]:
    if len(payload) < 6:
        raise ValueError(f"the block at byte {at} has no room for its counts")
    number, atoms, count = struct.unpack_from("<HHH", payload)
    if len(payload) != 6 + 2 * count:
        raise ValueError(f"the block at byte {at} has {len(payload)} bytes, which are not those of {count} bonds")
    return number, Block(atoms, zip(payload[6::2], payload[7::2]))


def _placements(at: int, payload: bytes) -> tuple[Placement, ...]:
    count = struct.unpack_from("<H", payload)[0] if len(payload) >= 2 else 0
    if len(payload) != 2 + 6 * count:
        raise ValueError(f"the assembly at byte {at} has {len(payload)} bytes, which are not those of {count} placements")
    return tuple(Placement(*one) for one in struct.iter_unpack("<HHBB", payload[2:]))


def _sheet(at: int, kind: int, payload: bytes) -> Sheet:
    form = {(SHEET, 36): "<IQQQQ", (SIX, 40): "<IQQQQI"}.get((kind, len(payload)))
    if form is None:
        raise ValueError(f"the record at byte {at} is no sheet")
    return Sheet(*struct.unpack(form, payload))


def _deck_bytes(deck: Deck | native.Bytes) -> native.Bytes:
    return bytes(deck) if isinstance(deck, Deck) else deck


def _encoded(text: bytes | str) -> bytes:
    if isinstance(text, os.PathLike):
        raise TypeError(f"a text is meant, not the name of a file: open {os.fspath(text)!r} and read it")
    return text.encode("utf-8", "surrogateescape") if isinstance(text, str) else text


def _molfile(text: bytes | str) -> bytes:
    """The text of a molfile, and not its name."""
    if isinstance(text, str) and text and "\n" not in text:
        raise ValueError(f"the text of a molfile is meant, and it has several lines; to read the file of this name, open it: {text[:200]!r}")
    return _encoded(text)


def _left_out(atom: Any) -> bool:
    """Whether an RDKit atom is a hydrogen that a block leaves out."""
    return bool(atom.GetSymbol() == "H" and atom.GetDegree() == 1 and atom.GetNeighbors()[0].GetSymbol() != "H")


__all__ = [
    "Block", "Contributions", "Deck", "FIELD_NAMES", "Fields", "Placement", "Refused", "SHORT_NAMES", "Sets", "Sheet", "Szeged",
    "Values", "Verdict", "Vertex", "claimed", "compose", "contributions", "judge", "judge_file", "judge_many", "measure", "records", "values",
    "verdict_of",
]  # fmt: skip
