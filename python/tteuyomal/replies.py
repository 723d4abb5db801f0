"""What the functions of `native` hand back, by name."""

from __future__ import annotations

from typing import NamedTuple


class Fields(NamedTuple):
    """The five fields of a block or of a deck's molecule."""

    atoms: int
    w: int
    even: int
    odd: int
    polarity: int


class Six(NamedTuple):
    """The five fields and the largest distance."""

    atoms: int
    w: int
    even: int
    odd: int
    polarity: int
    largest: int


class Vertex(NamedTuple):
    """An atom's sum of distances, its even and odd part, the atoms at even and odd distance, at distance 1 and at 2."""

    sum: int
    even: int
    odd: int
    even_count: int
    odd_count: int
    ones: int
    twos: int


class Contributions(NamedTuple):
    """The common denominator D, and for each bond D times its contribution to W."""

    denominator: int
    shares: list[int]


class Values(NamedTuple):
    """The even and the odd polynomial value."""

    even: float
    odd: float


class Szeged(NamedTuple):
    """The Szeged index, and its terms bond by bond."""

    index: int  # type: ignore[assignment]  # it hides the index of a tuple
    terms: list[int]


class Sets(NamedTuple):
    """How many sets of bonds share no atom (Hosoya), and of atoms have no bond (Merrifield and Simmons)."""

    bonds: int
    atoms: int


class Record(NamedTuple):
    """A record of an SDF: its first byte, how many it has, and where the next one begins."""

    start: int
    length: int
    next: int


class Span(NamedTuple):
    """A part of a text: its first byte, and how many it has."""

    start: int
    length: int


class ReadBlock(NamedTuple):
    """A block that was read from a text: the atom count, and pairs of atom numbers."""

    atoms: int
    bonds: list[tuple[int, int]]


class Molecule(NamedTuple):
    """A molecule of any size: the atom count, and pairs of atom numbers."""

    atoms: int
    bonds: list[tuple[int, int]]


class Matched(NamedTuple):
    """Whether a matching of atoms makes a deck's molecule and another one the same. It is true only then; else `place` says what fails
    first: 0 for another number of atoms, 1 to n for an atom, then the bonds of the molecule, then those of the deck's, written out."""

    place: int | None = None

    def __bool__(self) -> bool:
        return self.place is None


class Ranked(NamedTuple):
    """A product among the best: its value, the tag of its deck, and its position there."""

    value: int
    tag: int
    position: int
