"""A molecule of any size as a deck: cut at bonds that no ring holds, into few pieces, those that are alike being one block.

What is cut here need not be right: whoever uses it holds the deck against the molecule by the library (`native.matched`).
"""

from __future__ import annotations

from collections.abc import Iterator
from typing import NamedTuple

from . import decks, matching, native, sdf
from .decks import Deck
from .matching import MATCHED, Answer
from .native import Molecule, Refused

MOST_ATOMS, MOST_BLOCKS, MOST_PLACEMENTS = 64, 16, 32
_SHOWN = 12  # atoms that are named
_WORK = 40_000  # atoms that are looked at to tell whether two pieces are alike


class Uncut(ValueError):
    """Why a molecule is not cut, in words, and the first of the atoms that it is about."""

    def __init__(self, words: str, atoms: tuple[int, ...] = ()) -> None:
        super().__init__(words, atoms)
        self.words = words
        self.atoms = atoms

    def __str__(self) -> str:
        return self.words + (f": atoms {' '.join(map(str, self.atoms))} .., hydrogens left out" if self.atoms else "")

    def told(self, data: bytes, molecule: Molecule) -> str:
        """The same with the numbers that the atoms have in their molfile."""
        listed = sdf.kept(data, *molecule) if self.atoms else None
        return f"{self.words}: atoms {' '.join(str(listed[atom - 1]) for atom in self.atoms)} .. of the file" if listed else str(self)


class NotMatched(Exception):
    """A deck that was cut and that the library does not take for the molecule: nothing is made of it."""


class Cut(NamedTuple):
    """A deck without a sheet, its placements and blocks, and for each atom of the molecule its placement and its atom there."""

    deck: bytes
    placements: int
    blocks: int
    matching: tuple[tuple[int, int], ...]


def words(placements: int) -> str:
    """What is said of a molecule that was cut, and that the library found to be the deck's."""
    return f"cut into {placements} placement{'' if placements == 1 else 's'}, matched"


def cut_molfile(text: bytes | str) -> Deck:
    """The deck of a V2000 molfile's text, of up to 999 atoms without its hydrogens: cut at bonds that no ring holds, and held against the
    molecule by the library. Raises `Refused`, or `Uncut` with the reason."""
    return Deck.from_bytes(matched(native.read_whole(decks._molfile(text))).deck)


def hold(deck: Deck | native.Bytes, text: bytes | str) -> Answer:
    """Whether the molecule of a deck, with a sheet or without one, is that of a molfile's text but for the numbering of its atoms: true only
    where the library took a matching, and its word is then `matched`; else `another molecule` or `not decided`, and why. Raises `Refused`."""
    molecule = native.read_whole(decks._molfile(text))
    data = native._bytes(decks._deck_bytes(deck))
    try:
        bare = matching.without_sheet(data)
    except ValueError:
        bare = data  # the library says what is wrong
    return matching.held(bare, molecule)


def matched(molecule: Molecule) -> Cut:
    """The molecule as a deck that the library says is the same molecule; raises `Uncut` or `NotMatched`."""
    made = cut(molecule)
    try:
        said = native.matched(made.deck, molecule.atoms, molecule.bonds, made.matching)
    except Refused as refusal:
        raise NotMatched(f"the deck that was cut is {refusal}") from None
    if not said:
        raise NotMatched(f"the deck that was cut is another molecule, by the library, at {said.place}")
    return made


def cut(molecule: Molecule) -> Cut:
    """The molecule as a deck; raises `Uncut`."""
    graph = _Graph(molecule)
    if molecule.atoms <= MOST_ATOMS:
        return _deck(graph, [0] * molecule.atoms, _Kinds(graph))
    least = fewest = 0
    for cap in range(MOST_ATOMS, graph.largest - 1, -1):
        for root in graph.ends if cap < MOST_ATOMS else graph.ends[:1]:
            piece_of = graph.pieces(cap, root)
            count = max(piece_of) + 1
            if cap == MOST_ATOMS:
                least = count  # no cut has fewer
            if least > MOST_PLACEMENTS:
                raise Uncut(f"it needs {least} pieces of at most {MOST_ATOMS} atoms, and a deck has {MOST_PLACEMENTS} placements")
            if count <= MOST_PLACEMENTS:
                kinds = _Kinds(graph)
                made = _deck(graph, piece_of, kinds)
                if made.blocks <= MOST_BLOCKS:
                    return made
                fewest = min(fewest or made.blocks, made.blocks)
    raise Uncut(f"no cut was found with fewer than {fewest} different pieces, and a deck has {MOST_BLOCKS} blocks")


class _Graph:
    """A molecule, its bonds that no ring holds, and the parts that hold together without them: single atoms and ring systems. Atoms and
    parts are counted from 0."""

    def __init__(self, molecule: Molecule) -> None:
        self.bonds = [(first - 1, second - 1) for first, second in molecule.bonds]
        self.near = matching.neighbours(*molecule)
        parts = list(_parts(self.near))
        if len(parts) > 1:
            sizes = ", ".join(str(size) for size in sorted(map(len, parts), reverse=True)[:_SHOWN])
            raise Uncut(f"it is in {len(parts)} parts, of {sizes} atoms{' ..' if len(parts) > _SHOWN else ''}")
        self.bridges = _bridges(self.near)
        within = [[end for end in ends if (atom, end) not in self.bridges] for atom, ends in enumerate(self.near)]
        self.parts = list(_parts(within))
        rings = max(self.parts, key=len)
        self.largest = len(rings)
        if self.largest > MOST_ATOMS:
            raise Uncut(f"a ring system of {self.largest} atoms is more than a block's {MOST_ATOMS}", tuple(atom + 1 for atom in rings[:_SHOWN]))
        self.part_of = [0] * molecule.atoms
        for number, part in enumerate(self.parts):
            for atom in part:
                self.part_of[atom] = number
        self.beside: list[list[int]] = [[] for _ in self.parts]
        for atom, end in self.bridges:
            self.beside[self.part_of[atom]].append(self.part_of[end])
        leaves = [number for number, others in enumerate(self.beside) if len(others) < 2]
        self.ends = [0, *(leaf for leaf in leaves[:2] if leaf)]  # from where it is cut

    def pieces(self, cap: int, root: int) -> list[int]:
        """The piece of each atom, counted from 0, where no piece has more atoms than `cap`: from the farthest parts inwards, each takes
        what hangs on it, the smallest first, as long as there is room. No cut at these bonds has fewer pieces."""
        order, above = [root], {root: -1}
        for part in order:
            for other in self.beside[part]:
                if other != above[part]:
                    above[other] = part
                    order.append(other)
        size = [len(part) for part in self.parts]
        joined = [True] * len(self.parts)  # with the part above
        for part in reversed(order):
            below = sorted((other for other in self.beside[part] if other != above[part]), key=lambda other: (size[other], other))
            for other in below:
                joined[other] = size[part] + size[other] <= cap
                size[part] += size[other] if joined[other] else 0
        joined[root] = False
        piece: dict[int, int] = {}
        for part in order:
            piece[part] = piece[above[part]] if joined[part] else len(set(piece.values()))
        return [piece[part] for part in self.part_of]


class _Kinds:
    """The different pieces: each with its atoms and their neighbours, counted from 0 in the piece."""

    def __init__(self, graph: _Graph) -> None:
        self.graph = graph
        self.kinds: list[tuple[tuple[int, ...], list[int], list[list[int]]]] = []

    def add(self, atoms: list[int]) -> tuple[int, list[int]]:
        """The kind of a piece of these atoms, from 0, and each atom's number in it."""
        inside = {atom: number for number, atom in enumerate(atoms)}
        near = [[inside[end] for end in self.graph.near[atom] if end in inside] for atom in atoms]
        mark = _mark(near)
        for kind, (other_mark, _, other) in enumerate(self.kinds):
            if mark == other_mark:
                word, partners = matching.isomorphism(near, other, _WORK)
                if word == MATCHED:
                    return kind, partners
        self.kinds.append((mark, atoms, near))
        return len(self.kinds) - 1, list(range(len(atoms)))


def _mark(near: list[list[int]]) -> tuple[int, ...]:
    """A mark that pieces that are alike share."""
    marks = [len(ends) for ends in near]
    for _ in range(6):
        marks = [hash((mark, *sorted([marks[end] for end in ends]))) for mark, ends in zip(marks, near)]
    return tuple(sorted(marks))


def _deck(graph: _Graph, piece_of: list[int], kinds: _Kinds) -> Cut:
    """The deck of some pieces, from the largest outwards."""
    pieces: list[list[int]] = [[] for _ in range(max(piece_of) + 1)]
    for atom, piece in enumerate(piece_of):
        pieces[piece].append(atom)
    joins: dict[int, list[tuple[int, int]]] = {piece: [] for piece in range(len(pieces))}
    for atom, end in graph.bonds:
        if piece_of[atom] != piece_of[end]:
            joins[piece_of[atom]].append((atom, end))
            joins[piece_of[end]].append((end, atom))
    first = max(range(len(pieces)), key=lambda piece: (len(pieces[piece]), -pieces[piece][0]))
    order, place = [first], {first: 1}
    matching: list[tuple[int, int]] = [(0, 0)] * len(piece_of)
    rows: list[tuple[int, int, int, int]] = []
    up: dict[int, tuple[int, int]] = {}
    for piece in order:
        kind, numbers = kinds.add(pieces[piece])
        for atom, number in zip(pieces[piece], numbers):
            matching[atom] = place[piece], number + 1
        own, parent = up.get(piece, (-1, -1))
        rows.append((kind + 1, *(matching[parent] if own >= 0 else (0, 0)), matching[own][1] if own >= 0 else 0))
        for atom, end in joins[piece]:
            other = piece_of[end]
            if other not in place:
                place[other], up[other] = len(place) + 1, (end, atom)
                order.append(other)
    records = [_record(graph, number, atoms) for number, (_, atoms, _) in enumerate(kinds.kinds, 1)]
    return Cut(b"".join(records) + native.assembly_record(rows), len(rows), len(records), tuple(matching))


def _record(graph: _Graph, number: int, atoms: list[int]) -> bytes:
    """A piece as a block's record; its bonds are in the order of the molecule's."""
    inside = {atom: place for place, atom in enumerate(atoms, 1)}
    return native.block_record(number, len(atoms), [(inside[a], inside[b]) for a, b in graph.bonds if a in inside and b in inside])


def _parts(near: list[list[int]]) -> Iterator[list[int]]:
    """The atoms that hold together, part by part."""
    seen = [False] * len(near)
    for start in range(len(near)):
        if not seen[start]:
            seen[start], part = True, [start]
            for atom in part:
                for end in near[atom]:
                    if not seen[end]:
                        seen[end] = True
                        part.append(end)
            yield sorted(part)


def _bridges(near: list[list[int]]) -> set[tuple[int, int]]:
    """The bonds that no ring holds, either way round: those over which no other way leads back."""
    found: set[tuple[int, int]] = set()
    count, seen, least = 1, [0] * len(near), [0] * len(near)
    seen[0] = least[0] = 1
    ways = [(0, -1, iter(near[0]))]
    while ways:
        atom, above, ends = ways[-1]
        end = next(ends, None)
        if end is None:
            ways.pop()
            if above >= 0:
                least[above] = min(least[above], least[atom])
                if least[atom] > seen[above]:
                    found |= {(above, atom), (atom, above)}
        elif not seen[end]:
            count += 1
            seen[end] = least[end] = count
            ways.append((end, atom, iter(near[end])))
        elif end != above:
            least[atom] = min(least[atom], seen[end])
    return found
