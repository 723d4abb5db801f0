"""Whether two molecules differ only in how their atoms are numbered: a matching is looked for, and the library says whether it is one.

Colours are refined over both molecules at once: two atoms keep one colour as long as they have neighbours of the same colours. Where the
colours of the two molecules are not the same in number, they are two. Where each colour is left at one atom of each, that is the matching.
Else two atoms of one colour are set apart and it goes on, with a bound on the work. Nothing found here is a verdict: a matching is handed to
the library, and without one the answer is "not decided", unless the counts or the first colours show that the molecules are two.
"""

from __future__ import annotations

from collections.abc import Iterator, Sequence
from typing import NamedTuple

from . import decks, native
from .native import Matched, Molecule, Pairs

MATCHED, ANOTHER, UNDECIDED = "matched", "another molecule", "not decided"
MOST_WORK = 3_000_000  # atoms whose neighbours are looked at


class Answer(NamedTuple):
    """What came out: one of the three words, why, and the matching that the library took. It is true only where it is matched."""

    word: str
    why: str = ""
    matching: tuple[tuple[int, int], ...] = ()

    def __bool__(self) -> bool:
        return self.word == MATCHED


class Spent(Exception):
    """The work has come to its bound."""


class Colours:
    """The colours of the atoms of two molecules of the same size; the second one's are counted behind the first one's."""

    def __init__(self, near: list[list[int]], colour: list[int], size: dict[int, int], next_colour: int, work: list[int]) -> None:
        self.near = near
        self.half = len(near) // 2
        self.colour = colour
        self.size = size  # of each colour, over both
        self.next = next_colour
        self.work = work  # what is left, for all that are made of one another

    @classmethod
    def of(cls, one: list[list[int]], other: list[list[int]], work: int) -> Colours:
        """All atoms of one colour; `one` and `other` list each atom's neighbours, from 0."""
        half = len(one)
        near = [*one, *([end + half for end in ends] for ends in other)]
        return cls(near, [0] * len(near), {0: len(near)}, 1, [work])

    def apart(self, one: int, other: int) -> Colours:
        """The same with a colour for these two alone."""
        made = Colours(self.near, self.colour.copy(), self.size.copy(), self.next + 1, self.work)
        made.size[self.colour[one]] -= 2
        made.size[self.next] = 2
        made.colour[one] = made.colour[other] = self.next
        return made

    def refine(self, touched: set[int]) -> bool:
        """Refines from these atoms on. Whether both molecules have as many atoms of each colour."""
        while touched:
            self.work[0] -= len(touched)
            if self.work[0] < 0:
                raise Spent
            changed: list[int] = []
            for old, parts in self._parts(touched).items():
                if any(2 * sum(atom < self.half for atom in part) != len(part) for part in parts):
                    return False
                if sum(map(len, parts)) == self.size[old]:
                    parts.remove(max(parts, key=len))  # it keeps the colour: nobody has to look at it again
                for part in parts:
                    self.size[old] -= len(part)
                    self.size[self.next] = len(part)
                    for atom in part:
                        self.colour[atom] = self.next
                    self.next += 1
                    changed += part
            touched = {end for atom in changed for end in self.near[atom]}
        return True

    def _parts(self, touched: set[int]) -> dict[int, list[list[int]]]:
        """These atoms by their colour, and those of one colour by the colours beside them."""
        found: dict[int, dict[tuple[int, ...], list[int]]] = {}
        colour = self.colour
        for atom in touched:
            beside = tuple(sorted([colour[end] for end in self.near[atom]]))
            found.setdefault(colour[atom], {}).setdefault(beside, []).append(atom)
        return {old: list(parts.values()) for old, parts in found.items()}

    def shared(self) -> tuple[int, list[int]] | None:
        """An atom of the first molecule whose colour others have too, as few as can be, and those of the second that have it."""
        several = [(size, colour) for colour, size in self.size.items() if size > 2]
        if not several:
            return None
        chosen = min(several)[1]
        those = [atom for atom, colour in enumerate(self.colour) if colour == chosen]
        return those[0], [atom for atom in those if atom >= self.half]

    def partners(self) -> list[int]:
        """Where each colour has one atom of each molecule: the second one's atom for each of the first, from 0."""
        place = {colour: atom - self.half for atom, colour in enumerate(self.colour) if atom >= self.half}
        return [place[colour] for colour in self.colour[: self.half]]


def isomorphism(one: list[list[int]], other: list[list[int]], work: int = MOST_WORK) -> tuple[str, list[int]]:
    """Whether two graphs of as many atoms each are one: a matching of their atoms, from 0; or that the first colours show that they are
    two; or that it is not decided."""
    first = Colours.of(one, other, work)
    try:
        if not first.refine(set(range(len(first.near)))):
            return ANOTHER, []
        found = _search(first)
    except Spent:
        found = None
    return (MATCHED, found.partners()) if found is not None else (UNDECIDED, [])


def _search(first: Colours) -> Colours | None:
    """Colours that are a matching; None where every way was gone."""
    ways: list[Iterator[Colours]] = [iter([first])]
    while ways:
        now = next(ways[-1], None)
        if now is None:
            ways.pop()
            continue
        shared = now.shared()
        if shared is None:
            return now
        ways.append(_ways(now, *shared))
    return None


def _ways(now: Colours, atom: int, partners: list[int]) -> Iterator[Colours]:
    """An atom set apart with each that may be its partner, where the colours still fit."""
    for partner in partners:
        made = now.apart(atom, partner)
        if made.refine({*now.near[atom], *now.near[partner]}):
            yield made


def neighbours(atoms: int, bonds: Pairs) -> list[list[int]]:
    """Each atom's neighbours, both from 0."""
    near: list[list[int]] = [[] for _ in range(atoms)]
    for first, second in bonds:
        near[first - 1].append(second - 1)
        near[second - 1].append(first - 1)
    return near


def placed(deck: bytes) -> list[tuple[int, int]]:
    """Placement and atom of each atom of the molecule of a deck without a sheet, as it is written out."""
    read = decks.Deck.from_bytes(deck)
    atoms = {number: block.atoms for number, block in read.blocks}
    return [(place, atom) for place, one in enumerate(read.placements, 1) for atom in range(1, atoms[one.block] + 1)]


def without_sheet(data: bytes) -> bytes:
    """A deck without the sheet that ends it, where one does."""
    found = list(decks.records(data))
    return data[: found[-1][0]] if found and found[-1][1] in (decks.SHEET, decks.SIX) else data


def held(deck: bytes, molecule: Molecule, known: Sequence[tuple[int, int]] = (), work: int = MOST_WORK) -> Answer:
    """A deck without a sheet, held against a molecule; `known` is a matching to be tried first. Raises `Refused` where the library refuses
    the deck."""
    if known and native.matched(deck, molecule.atoms, molecule.bonds, known):
        return Answer(MATCHED, "", tuple(known))
    own = native.written_out(deck)
    if own.atoms != molecule.atoms:
        return Answer(ANOTHER, f"the deck has {_many(own.atoms, 'atom')}, the file {molecule.atoms}")
    if len(own.bonds) != len(molecule.bonds):
        return Answer(ANOTHER, f"the deck has {_many(len(own.bonds), 'bond')}, the file {len(molecule.bonds)}")
    word, partners = isomorphism(neighbours(*molecule), neighbours(*own), work)
    if word == ANOTHER:
        return Answer(ANOTHER, "their atoms have other neighbours")
    if word == UNDECIDED:
        return Answer(UNDECIDED, "no matching was found, and none is ruled out")
    where = placed(deck)
    matching = tuple(where[partner] for partner in partners)
    said: Matched = native.matched(deck, molecule.atoms, molecule.bonds, matching)
    return Answer(MATCHED, "", matching) if said else Answer(UNDECIDED, f"the library does not take the matching that was found, at {said.place}")


def _many(count: int, what: str) -> str:
    return f"{count} {what}{'' if count == 1 else 's'}"
