"""A library deck as a value: a core with sites, and candidates for each. Its products' sheets come from the proved library; what is
read here (which candidate stands at which site) is read to be shown."""

from __future__ import annotations

import math
import operator
import struct
from collections.abc import Iterable, Iterator, Mapping
from dataclasses import dataclass
from typing import NamedTuple

from . import decks, native
from .decks import BLOCK, LIBRARY, Block, Deck, Placement, Sheet

BATCH = 256  # products that are asked for at a time


class Candidate(NamedTuple):
    """What may be joined at a site: a block's number, and the atom by which it is joined. Told as 2@1: block 2 by its atom 1."""

    block: int
    atom: int

    def __str__(self) -> str:
        return f"{self.block}@{self.atom}"


class NoProduct(IndexError, ValueError):
    """A position before the first product or past the last, where the rules say that a library is done."""


class Site(NamedTuple):
    """An atom of the core, and what may be joined to it."""

    atom: int
    candidates: tuple[Candidate, ...]


class Product(NamedTuple):
    """A product of a library: its position, the candidate at each site, and its sheet's five or six fields."""

    position: int
    choice: tuple[Candidate, ...]
    fields: tuple[int, ...]

    def line(self) -> str:
        """The product on a line."""
        return f"{self.position}: {' '.join(map(str, self.choice))} {Sheet(*self.fields)}"

    def row(self) -> str:
        """The product as a row under `columns`."""
        return ",".join(map(str, (self.position, *(number for one in self.choice for number in one), *self.fields)))


def columns(sites: int, six: bool) -> str:
    """The names over the rows of products."""
    chosen = [f"{what}_{place}" for place in range(1, sites + 1) for what in ("block", "atom")]
    return ",".join(["position", *chosen, *decks.SHORT_NAMES[: 6 if six else 5]])


@dataclass(frozen=True)
class Library:
    """Blocks under their numbers, the core's number, and its sites. One that the rules refuse can be made; what is asked of it raises
    `Refused`."""

    blocks: tuple[tuple[int, Block], ...]
    core: int
    sites: tuple[Site, ...]

    def __init__(
        self,
        blocks: Mapping[int, Block] | Iterable[tuple[int, Block]],
        core: int,
        sites: Iterable[tuple[int, Iterable[tuple[int, int]]]],
    ) -> None:
        object.__setattr__(self, "blocks", decks.numbered(blocks))
        object.__setattr__(self, "core", core)
        object.__setattr__(self, "sites", tuple(Site(atom, tuple(Candidate(*one) for one in those)) for atom, those in sites))

    @classmethod
    def from_bytes(cls, data: native.Bytes) -> Library:
        """The library that some bytes spell; ValueError where they are not blocks and one library's record."""
        blocks: list[tuple[int, Block]] = []
        found: tuple[int, list[Site]] | None = None
        for at, kind, payload in decks.records(native._bytes(data)):
            if found is not None or kind not in (BLOCK, LIBRARY):
                raise ValueError(f"the record at byte {at} has kind {kind}, which may not stand there")
            if kind == BLOCK:
                blocks.append(decks._block(at, payload))
            else:
                found = sites_of(at, payload)
        if found is None:
            raise ValueError("there is no library's record")
        return cls(blocks, *found)

    def __bytes__(self) -> bytes:
        return b"".join(block.record(number) for number, block in self.blocks) + native.library_record(self.core, self.sites)

    def count(self) -> int:
        """How many products there are; raises `Refused`."""
        return native.library_count(bytes(self))

    def choice(self, position: int) -> tuple[Candidate, ...]:
        """The candidate at each site of the product at a position, the last site turning fastest; raises `NoProduct` past the last."""
        count = math.prod(len(site.candidates) for site in self.sites)
        if not 0 <= operator.index(position) < count:
            raise NoProduct(f"no product at position {position}: there are {count}, from 0 on")
        chosen = []
        for site in reversed(self.sites):
            position, digit = divmod(position, len(site.candidates))
            chosen.append(site.candidates[digit])
        return tuple(reversed(chosen))

    def assembly(self, position: int) -> Deck:
        """The product at a position written out as a deck: the core, and the choice at each site joined to it."""
        joined = [Placement(one.block, 1, site.atom, one.atom) for site, one in zip(self.sites, self.choice(position))]
        return Deck(self.blocks, [Placement(self.core), *joined])

    def products(self, first: int = 0, count: int | None = None, six: bool = False) -> Iterator[Product]:
        """The products from a position on, all or so many, in order; raises `Refused` before the first."""
        for batch in self.batches(first, count, six):
            yield from batch

    def batches(self, first: int = 0, count: int | None = None, six: bool = False) -> Iterator[list[Product]]:
        """The same in lists of at most `BATCH`."""
        data, position = bytes(self), first
        while count is None or position < first + count:
            room = BATCH if count is None else min(BATCH, first + count - position)
            told = native.library_run(data, position, 4 if six else 3, room)
            if told is None:
                return
            sheets, following = told
            yield [Product(place, self.choice(place), decks.claimed(one)[1]) for place, one in enumerate(sheets, position)]
            position = following


class Piece(NamedTuple):
    """Some products of a library: which library it is, from 0, the first position, and how many."""

    library: int
    first: int
    count: int  # type: ignore[assignment]  # it hides the count of a tuple


def pieces(counts: Iterable[int], size: int) -> Iterator[list[Piece]]:
    """The products of libraries that have so many each, in lists of `size` products, the last perhaps shorter: each product stands
    in exactly one, and the lists one after the other are all products in order. These are the shards of many machines."""
    part: list[Piece] = []
    room = size
    for place, count in enumerate(counts):
        first = 0
        while first < count:
            taken = min(room, count - first)
            part.append(Piece(place, first, taken))
            first, room = first + taken, room - taken
            if not room:
                yield part
                part, room = [], size
    if part:
        yield part


def sites_of(at: int, payload: bytes) -> tuple[int, list[Site]]:
    """The core and the sites of the library's record at byte `at`; ValueError where its length is not that of its counts."""
    try:
        core, count = struct.unpack_from("<HH", payload)
        place, sites = 4, []
        for _ in range(count):
            atom, many = struct.unpack_from("<BB", payload, place)
            those = [Candidate(*struct.unpack_from("<HB", payload, place + 2 + 3 * one)) for one in range(many)]
            sites.append(Site(atom, tuple(those)))
            place += 2 + 3 * many
    except struct.error:
        raise ValueError(f"the library at byte {at} has too few bytes for its counts") from None
    if place != len(payload):
        raise ValueError(f"the library at byte {at} has bytes left over")
    return core, sites


__all__ = ["Candidate", "Library", "NoProduct", "Piece", "Product", "Site", "columns", "pieces", "sites_of"]
