"""Two queues at one table: what each is told, its refusals in order, and the table's size as everybody has it."""

import random
import re
import unittest

from common import FORTY, RIGHT, RIGHT_SIX, RING, text

from tteuyomal import Block, Deck, Placement, Refused, Sheet, Table, native

RING_OF_6, ONE_ATOM = Block(6, RING), Block(1)
ASSEMBLY = FORTY[22:]
TWO = [Placement(1), Placement(1, parent=1, parent_atom=1, atom=1)]


class Tables(unittest.TestCase):
    def refuses(self, number, place, function, *arguments):
        with self.assertRaises(Refused) as caught:
            function(*arguments)
        self.assertEqual((caught.exception.number, caught.exception.place), (number, place))

    def test_a_queue_has_its_own_numbers(self):
        table = Table()
        table.day.add(1, RING_OF_6)
        self.assertEqual(table.day.look(1), Sheet(6, 27, 12, 15, 3, 3))
        self.refuses(30, 0, table.night.look, 1)
        table.night.add(1, ONE_ATOM)
        self.assertEqual(table.night.look(1), Sheet(1, 0, 0, 0, 0, 0))
        self.assertEqual(table.day.compose(TWO), Sheet(12, 198, 96, 102, 14))
        self.assertEqual(table.day.compose(TWO, six=True), Sheet(12, 198, 96, 102, 14, 7))
        self.assertEqual(table.night.compose(TWO), Deck({1: ONE_ATOM}, TWO).compose())
        table.day.drop(1)
        self.refuses(30, 0, table.day.look, 1)
        self.refuses(16, 6, table.day.compose, TWO)
        self.assertEqual(table.night.look(1).atoms, 1)

    def test_eight_places(self):
        table = Table()
        for number in range(1, 9):
            table.day.add(number, RING_OF_6)
        self.refuses(28, 0, table.day.add, 9, RING_OF_6)
        self.refuses(29, 0, table.day.add, 8, RING_OF_6)
        self.refuses(14, 0, table.day.add, 0, RING_OF_6)
        self.refuses(3, 1, table.day.add, 0, Block(2, [(1, 3)]))
        table.night.add(9, RING_OF_6)
        table.day.drop(3)
        self.refuses(30, 0, table.day.drop, 3)
        table.day.add(65535, ONE_ATOM)
        self.assertEqual(table.day.look(65535).atoms, 1)
        self.refuses(28, 0, table.day.add, 3, RING_OF_6)
        table.empty()
        for queue in (table.day, table.night):
            self.refuses(30, 0, queue.look, 9)

    def test_a_refusal_changes_nothing(self):
        table = Table()
        table.day.add(1, RING_OF_6)
        kept = bytes(table)
        for call in (
            lambda: table.day.add(1, ONE_ATOM),
            lambda: table.day.add(0, ONE_ATOM),
            lambda: table.day.add(2, Block(2)),
            lambda: table.night.drop(1),
            lambda: table.night.look(1),
            lambda: table.night.compose(TWO),
            lambda: table.day.compose([]),
        ):
            self.assertRaises(Refused, call)
            self.assertEqual(bytes(table), kept)
        self.assertEqual((table.day.look(1).w, table.day.compose(TWO).w, bytes(table)), (27, 198, kept))

    def test_kept(self):
        table = Table()
        table.night.add(7, RING_OF_6)
        again = Table.from_bytes(bytes(table))
        self.assertEqual(again.night.look(7).fields(), (6, 27, 12, 15, 3, 3))
        again.night.drop(7)
        self.assertEqual(table.night.look(7).w, 27)
        self.assertRaises(ValueError, Table.from_bytes, bytes(table)[:-1])
        self.assertRaises(TypeError, native.queue_empty, bytes(native.TABLE_BYTES))

    def test_numbers(self):
        table = Table()
        for number in (-1, 65536):
            for call in (table.day.look, table.day.drop, lambda x: table.day.add(x, ONE_ATOM)):
                self.assertRaises(ValueError, call, number)
        self.refuses(1, 0, table.day.add, 1, Block(2**64))

    def test_records(self):
        """Composing takes one record, as if it began at byte 0."""
        table = bytearray(native.TABLE_BYTES)
        native.queue_add(table, native.DAY, 1, 6, RING)
        self.assertEqual(native.queue_compose(table, native.DAY, ASSEMBLY), RIGHT)
        self.assertEqual(native.queue_compose(table, native.DAY, ASSEMBLY, 4), RIGHT_SIX)
        for record, number, place in (
            (b"", 11, 0),
            (ASSEMBLY[:-1], 11, 0),
            (ASSEMBLY + b"\0", 11, 18),
            (FORTY, 12, 0),
            (b"\x0d" + ASSEMBLY[1:-1], 13, 0),
            (b"\x02\0\x02\0\0\0", 15, 0),
            (ASSEMBLY[:6] + b"\x02" + ASSEMBLY[7:], 16, 6),
            (ASSEMBLY[:8] + b"\x01" + ASSEMBLY[9:], 17, 6),
            (ASSEMBLY[:14] + b"\0" + ASSEMBLY[15:], 23, 12),
            (ASSEMBLY[:14] + b"\x02" + ASSEMBLY[15:], 24, 12),
            (ASSEMBLY[:17] + b"\x07", 18, 12),
            (bytes(32769), 20, 0),
        ):
            with self.subTest((number, place)):
                self.refuses(number, place, native.queue_compose, table, native.DAY, record)

        self.refuses(16, 6, native.queue_compose, table, native.NIGHT, ASSEMBLY)

    def test_a_queue_depends_on_its_own_calls(self):
        """Calls of both queues in turn, each told what a table of its own tells."""
        choice = random.Random(11)
        blocks = [RING_OF_6, ONE_ATOM, Block(3, [(1, 2), (2, 3)]), Block(2)]
        both, alone = Table(), (Table(), Table())
        for _ in range(400):
            which, number = choice.randrange(2), choice.randrange(12)
            block, call = choice.choice(blocks), choice.choice(("add", "add", "look", "drop", "compose"))
            arguments = {"add": (number, block), "compose": ([Placement(number), Placement(number, 1, 1, 1)],)}.get(call, (number,))
            told = [self.told(getattr((table.day, table.night)[which], call), arguments) for table in (both, alone[which])]
            self.assertEqual(told[0], told[1])

    def told(self, function, arguments):
        try:
            return function(*arguments)
        except Refused as refusal:
            return refusal

    def test_the_size(self):
        """The library, the header, Python and the second opinion have one."""
        size = native.TABLE_BYTES
        self.assertEqual(int(re.search(r"#define TTEUYOMAL_TABLE_BYTES (\d+)", text("include", "tteuyomal.h")).group(1)), size)
        self.assertIn(f"pub const TABLE: usize = {size:_};", text("compare", "src", "queues.rs"))
        native.queue_empty(bytearray(size))
        self.refuses(9, 0, native.queue_empty, bytearray(size - 1))
        longer = bytearray(b"\xff" * (size + 3))
        native.queue_empty(longer)
        self.assertEqual(longer, bytes(size) + b"\xff" * 3)
        for short in (bytearray(), bytearray(size - 1)):
            self.refuses(9, 0, native.queue_add, short, native.DAY, 0, 0, b"\x01")
            self.refuses(9, 0, native.queue_look, short, native.NIGHT, 0)
            self.refuses(9, 0, native.queue_drop, short, native.NIGHT, 0)
            self.refuses(9, 0, native.queue_compose, short, native.DAY, bytes(32769))
