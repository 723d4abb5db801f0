"""One table of sixteen blocks, eight for each of two queues. What a queue is told depends only on its own calls.

    table = Table()
    table.day.add(1, Block(6, [(1, 2), (2, 3), (3, 4), (4, 5), (5, 6), (6, 1)]))
    table.day.look(1)                   # atoms 6 W 27 even 12 odd 15 polarity 3 largest 3
    table.night.look(1)                 # Refused 30: the night queue has numbers of its own
    table.day.compose([Placement(1), Placement(1, parent=1, parent_atom=1, atom=1)])
"""

from __future__ import annotations

from collections.abc import Iterable

from . import decks, native
from .decks import Block, Placement, Sheet


class Queue:
    """The calls of one queue. Each may raise `Refused`; a refusal changes nothing."""

    def __init__(self, table: bytearray, which: int) -> None:
        self._table = table
        self._which = which

    def add(self, number: int, block: Block) -> None:
        """Adds a block under a number of this queue: 14 for number 0, 29 for one that it holds, 28 where it holds eight."""
        block = decks.of_kind(block, Block, "a block")
        native.queue_add(self._table, self._which, number, block.atoms, block.bonds)

    def look(self, number: int) -> Sheet:
        """The six fields of the block under a number; 30 where it holds none."""
        return Sheet(*native.queue_look(self._table, self._which, number))

    def drop(self, number: int) -> None:
        """Drops the block under a number, 30 where it holds none; the place is used again."""
        native.queue_drop(self._table, self._which, number)

    def compose(self, placements: Iterable[Placement], six: bool = False) -> Sheet:
        """The fields of the whole molecule of placements of this queue's blocks, with its largest distance if `six`; 16 for a
        number that it does not hold."""
        record = native.assembly_record(decks.of_kind(one, Placement, "a placement").numbers() for one in placements)
        sheet = native.queue_compose(self._table, self._which, record, decks.SIX if six else decks.SHEET)
        return Sheet(*decks.claimed(sheet)[1])


class Table:
    """A table with a day queue and a night queue. `bytes(table)` is all of it: keep that, and make the table of it again."""

    def __init__(self) -> None:
        self._bytes = bytearray(native.TABLE_BYTES)
        self.day = Queue(self._bytes, native.DAY)
        self.night = Queue(self._bytes, native.NIGHT)
        self.empty()

    @classmethod
    def from_bytes(cls, kept: native.Bytes) -> Table:
        """The table of bytes that were kept; ValueError where they are not as many as a table has."""
        data = native._bytes(kept, "a table")
        if len(data) != native.TABLE_BYTES:
            raise ValueError(f"a table has {native.TABLE_BYTES} bytes, not {len(data)}")
        table = cls()
        table._bytes[:] = data
        return table

    def __bytes__(self) -> bytes:
        return bytes(self._bytes)

    def empty(self) -> None:
        """Makes the table empty, for both queues."""
        native.queue_empty(self._bytes)


__all__ = ["Queue", "Table"]
