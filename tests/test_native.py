"""The functions of tteuyomal.native: answers, refusals, and numbers of every size."""

import pickle
import unittest

from common import FORTY, JUDGED, LIBRARY, RIGHT, RIGHT_SIX, RING

from tteuyomal import native
from tteuyomal.native import Refused


class Refusals(unittest.TestCase):
    def refuses(self, number, place, function, *arguments):
        with self.assertRaises(Refused) as caught:
            function(*arguments)
        self.assertEqual((caught.exception.number, caught.exception.place), (number, place))

    def test_numbers_outside_64_bits(self):
        for atoms in (65, 2**32 + 6, 2**63, 2**64, 2**64 + 6, 10**40):
            with self.subTest(atoms):
                self.refuses(1, 0, native.check_block, atoms, RING)
                self.refuses(1, 0, native.indices, atoms, RING)
                self.refuses(1, 0, native.contributions, atoms, RING)
                self.refuses(1, 0, native.polynomial, atoms, RING, 0.5)
        for atom in (0, 7, 2**64, 2**64 + 1):
            with self.subTest(atom):
                self.refuses(18, 0, native.vertex, 6, RING, atom)
                self.refuses(18, 0, native.farthest, 6, RING, atom)
                for asked in ((atom, 1, 1, 1), (1, atom, 1, 1), (1, 1, atom, 1), (1, 1, 1, atom)):
                    self.refuses(18, 0, native.placed_distance, FORTY, *asked)

    def test_atom_numbers_above_a_byte(self):
        for end in (7, 255, 256, 257, 2**64 + 1):
            with self.subTest(end):
                self.refuses(3, 2, native.check_block, 6, [(1, 2), (end, 3)])
                self.refuses(3, 2, native.indices, 6, [(1, 2), (3, end)])
        self.refuses(4, 1, native.check_block, 6, [(2, 2), (256, 257)])

    def test_negative_numbers(self):
        for call in (
            lambda: native.check_block(-1, RING),
            lambda: native.indices(-(2**64) + 6, RING),
            lambda: native.indices(6, [(1, -1)]),
            lambda: native.vertex(6, RING, -1),
            lambda: native.farthest(6, RING, -1),
            lambda: native.placed_distance(FORTY, 1, -1, 1, 1),
        ):
            with self.assertRaisesRegex(ValueError, "negative"):
                call()

    def test_a_bond_that_is_no_pair(self):
        for bond in [(1,), (1, 2, 3), (), 5, None]:
            with self.subTest(bond), self.assertRaisesRegex(ValueError, "bond 2 is no pair"):
                native.check_block(6, [(1, 2), bond])
            with self.subTest(bond), self.assertRaisesRegex(ValueError, "bond 2 is no pair"):
                native.block_record(1, 6, [(1, 2), bond])

    def test_what_is_no_number(self):
        for call in (
            lambda: native.check_block(6.0, RING),
            lambda: native.check_block("6", RING),
            lambda: native.check_block(6, [("1", 2)]),
            lambda: native.check_block(6, [(1, 2.0)]),
            lambda: native.polynomial(6, RING, "0.5"),
            lambda: native.polynomial(6, RING, 1j),
        ):
            self.assertRaises(TypeError, call)

    def test_records_have_room_for_so_much(self):
        for call in (
            lambda: native.block_record(65536, 6, RING),
            lambda: native.block_record(-1, 6, RING),
            lambda: native.block_record(1, 65536, RING),
            lambda: native.block_record(1, 6, [(1, 256)]),
            lambda: native.block_record(1, 6, [(1, 2)] * 40000),
            lambda: native.assembly_record([(1, 0, 0, 256)]),
            lambda: native.assembly_record([(65536, 0, 0, 0)]),
            lambda: native.assembly_record([(1, 0, 0)]),
            lambda: native.assembly_record([(1, 0, 0, 0)] * 20000),
        ):
            self.assertRaises(ValueError, call)

    def test_x(self):
        for x in (0, -0.0, -1, 1.5, float("nan"), float("inf"), 10**400, -(10**400)):
            with self.subTest(x):
                self.refuses(10, 0, native.polynomial, 6, RING, x)
        self.assertEqual(native.polynomial(6, RING, 1), (6.0, 9.0))

    def test_a_deck_is_bytes(self):
        for deck in (40, 0, None, "accepted", [256], 4.0):
            with self.subTest(deck):
                self.assertRaises(ValueError if deck == [256] else TypeError, native.judge, deck)
        whole = FORTY + RIGHT
        for deck in (whole, bytearray(whole), memoryview(whole), list(whole), iter(whole)):
            self.assertEqual(native.judge(deck), 0)
        self.assertRaises(TypeError, native.judge, memoryview(whole).cast("Q"))

    def test_pickled(self):
        again = pickle.loads(pickle.dumps(Refused(5, 30)))
        self.assertEqual((again.number, again.place, str(again)), (5, 30, str(Refused(5, 30))))
        self.assertIn("listed before", str(again))
        self.assertIn("no words", str(Refused(253, 0)))


class Answers(unittest.TestCase):
    def test_verdicts(self):
        for deck, line in JUDGED:
            with self.subTest(line):
                try:
                    field = native.judge(deck)
                    said = f"differs {field}" if field else "accepted"
                except Refused as refusal:
                    said = f"refused {refusal.number} at {refusal.place}"
                self.assertEqual(said, line)

    def test_generators(self):
        ring = lambda: ((a, a % 6 + 1) for a in range(1, 7))
        places = (one for one in [(1, 0, 0, 0), (1, 1, 1, 1)])
        self.assertEqual(native.block_record(1, 6, ring()) + native.assembly_record(places), FORTY)
        self.assertIsNone(native.check_block(6, ring()))
        self.assertEqual(native.indices(6, ring()), (6, 27, 12, 15, 3))
        self.assertEqual(native.contributions(6, ring()), (2, [9] * 6))
        self.assertEqual(native.vertex(6, ring(), 1), (9, 4, 5, 3, 3, 2, 2))
        self.assertEqual(native.farthest(6, ring(), 1), 3)

    def test_bond_bytes(self):
        self.assertEqual(native.indices(6, FORTY[10:22]), (6, 27, 12, 15, 3))
        with self.assertRaises(Refused) as caught:
            native.contributions(6, FORTY[10:21])
        self.assertEqual((caught.exception.number, caught.exception.place), (2, 0))

    def test_one_atom(self):
        self.assertEqual(native.indices(1, []), (1, 0, 0, 0, 0))
        self.assertEqual(native.contributions(1, iter(())), (1, []))

    def test_balaban(self):
        self.assertEqual(native.balaban(6, RING), 1_999_999_998)
        self.assertEqual(native.balaban(4, [(1, 2), (2, 3), (3, 4)]), 1_974_744_870)
        self.assertEqual(native.balaban(1, []), 0)
        with self.assertRaises(Refused) as caught:
            native.balaban(7, RING)
        self.assertEqual((caught.exception.number, caught.exception.place), (7, 0))

    def test_szeged(self):
        self.assertEqual(native.szeged(7, RING + [(1, 7)]), (78, [12] * 6 + [6]))
        self.assertEqual(native.szeged(4, [(1, 2), (2, 3), (3, 4)]), (10, [3, 4, 3]))
        self.assertEqual(native.szeged(1, []), (0, []))
        with self.assertRaises(Refused) as caught:
            native.szeged(7, RING)
        self.assertEqual((caught.exception.number, caught.exception.place), (7, 0))

    def test_sets(self):
        self.assertEqual(native.count_sets(1, []), (1, 2))
        self.assertEqual(native.count_sets(4, [(1, 2), (2, 3), (3, 4)]), (5, 8))
        with self.assertRaises(Refused) as caught:
            native.count_sets(6, RING)
        self.assertEqual((caught.exception.number, caught.exception.place), (34, 0))

    def test_decks(self):
        self.assertEqual(native.compose(FORTY), (12, 198, 96, 102, 14))
        self.assertEqual(native.write_sheet(FORTY), RIGHT)
        self.assertEqual(native.compose_six(FORTY), (12, 198, 96, 102, 14, 7))
        self.assertEqual(native.write_six(FORTY), RIGHT_SIX)
        for ask in (native.compose_six, native.write_six):
            with self.assertRaises(Refused) as caught:
                ask(FORTY + RIGHT_SIX)
            self.assertEqual((caught.exception.number, caught.exception.place), (11, 40))
        self.assertEqual(native.placed_distance(FORTY, 1, 4, 2, 4), 7)


class Molfiles(unittest.TestCase):
    def test_written_reads_back(self):
        text = native.write_molfile(6, RING)
        self.assertEqual(len(text), 50 + 70 * 6 + 22 * 6)
        self.assertEqual(native.read_molfile(text), (6, list(RING)))

    def test_hydrogens_are_left_out(self):
        atom = " " * 31
        lines = ["", "", "", "  3  2", atom + "H", atom + "C", atom + "  C", "  1  2", "  3  2", "M  END"]
        self.assertEqual(native.read_molfile("\r\n".join(lines).encode()), (2, [(2, 1)]))

    def test_refusals(self):
        for text, number, place in ((b"", 25, 0), (b"\n\n\n +1  0\n", 26, 3), (b"\n\n\n  0  1\n  1  1\n", 27, 10)):
            with self.subTest(text), self.assertRaises(Refused) as caught:
                native.read_molfile(text)
            self.assertEqual((caught.exception.number, caught.exception.place), (number, place))


class Libraries(unittest.TestCase):
    """A ring of six and one atom; the atom or another ring at atom 1, the atom at atom 4."""

    RING6 = bytes.fromhex("12000100 0100060006000102020303040405050606 01".replace(" ", ""))
    ONE = bytes.fromhex("06000100020001000000")
    TWO = bytes.fromhex("1100050001000200010202000101000104010200 01".replace(" ", ""))
    DECK = RING6 + ONE + TWO

    def fields(self, sheet):
        return [int.from_bytes(sheet[at : at + width], "little") for at, width in ((4, 4), (8, 8), (16, 8), (24, 8), (32, 8))]

    def test_products(self):
        self.assertEqual(native.library_count(self.DECK), 2)
        first, following = native.library_step(self.DECK, 0)
        second, last = native.library_step(self.DECK, following)
        self.assertEqual((following, last), (1, 2))
        self.assertEqual(self.fields(first), [8, 62, 28, 34, 7])
        self.assertEqual(self.fields(second), [13, 252, 124, 128, 16])
        self.assertIsNone(native.library_step(self.DECK, 2))
        self.assertIsNone(native.library_step(self.DECK, 2**63))

    def test_kinds(self):
        """A kind that no sheet has is refused, and not cut to one that some sheet has."""
        table = bytearray(native.TABLE_BYTES)
        for kind in (0, 2, 5, -1, 2**64 + 3, 2**64 + 4, 2**32 + 4):
            for call in (lambda: native.library_step(self.DECK, 0, kind), lambda: native.library_run(self.DECK, 0, kind), lambda: native.queue_compose(table, 0, b"", kind)):
                with self.subTest(kind), self.assertRaisesRegex(ValueError, "kind 3 or 4"):
                    call()
        self.assertRaises(TypeError, native.library_step, self.DECK, 0, "4")

    def test_as_many_as_are_asked_for(self):
        """Any number of sheets can be asked for; a library has 4,096 products at most."""
        whole = native.library_run(LIBRARY, 0, 3, 2)
        for sheets in (4096, 4097, 2**64, 10**30):
            self.assertEqual(native.library_run(LIBRARY, 0, 3, sheets), whole)
        self.assertRaises(ValueError, native.library_run, LIBRARY, 0, 3, -1)
        self.assertRaises(Refused, native.library_run, LIBRARY, 0, 3, 0)

    def test_run_is_the_steps(self):
        for kind in (3, 4):
            steps = [native.library_step(self.DECK, position, kind)[0] for position in (0, 1)]
            self.assertEqual(native.library_run(self.DECK, 0, kind), (steps, 2))
            self.assertEqual(native.library_run(self.DECK, 0, kind, 1), (steps[:1], 1))
            self.assertEqual(list(native.library_products(self.DECK, kind)), steps)
        self.assertIsNone(native.library_run(self.DECK, 2))

    def test_the_assembly_written_out(self):
        def deck(*placements):
            return self.RING6 + self.ONE + native.assembly_record(placements)

        for position, block in ((0, 2), (1, 1)):
            written = deck((1, 0, 0, 0), (block, 1, 1, 1), (2, 1, 4, 1))
            self.assertEqual(native.library_step(self.DECK, position)[0], native.write_sheet(written))
            self.assertEqual(native.library_step(self.DECK, position, 4)[0], native.write_six(written))

    def test_refusals(self):
        for at, byte, number in ((38, 0, 31), (38, 5, 31), (36, 9, 16), (41, 0, 32), (41, 9, 32), (40, 7, 18), (48, 1, 33), (42, 9, 16), (44, 2, 18)):
            with self.subTest((at, byte)), self.assertRaises(Refused) as caught:
                native.library_count(self.DECK[:at] + bytes([byte]) + self.DECK[at + 1 :])
            self.assertEqual((caught.exception.number, caught.exception.place), (number, 32))
        for function in (native.compose, native.judge):
            with self.assertRaises(Refused) as caught:
                function(self.DECK)
            self.assertEqual((caught.exception.number, caught.exception.place), (12, 32))


class Claims(unittest.TestCase):
    PATH = 4, [(1, 2), (2, 3), (3, 4)]

    def refuses(self, number, place, function, *arguments):
        with self.assertRaises(Refused) as caught:
            function(*arguments)
        self.assertEqual((caught.exception.number, caught.exception.place), (number, place))

    def test_decks(self):
        right = native.compose_six(FORTY)
        all_six = list(enumerate(map(str, right), 1))
        self.assertEqual(native.judge_claims(FORTY, all_six), 0)
        self.assertEqual(native.judge_claims(FORTY, native.claim_bytes(all_six)), 0)
        for k in range(1, 7):
            self.assertEqual(native.judge_claims(FORTY, [(field, f" {n + (field == k)}.0\t") for field, n in enumerate(right, 1)]), k)
        self.assertEqual(native.judge_claims(FORTY, [(2, str(right.w)), (2, "0"), (1, "0")]), 2)

    def test_blocks(self):
        ten = list(enumerate(("4", "10", "4", "6", "1", "3", "10", "5", "8", "1.9747448"), 1))
        self.assertEqual(native.judge_block(*self.PATH, ten), 0)
        self.assertEqual(len(native.CLAIM_NAMES), len(ten))
        self.assertEqual([native.judge_block(*self.PATH, [(10, j)]) for j in ("1.97", "1.98", "1.99", "2", "1.974744868")], [0, 0, 1, 0, 1])

    def test_refusals(self):
        self.refuses(36, 0, native.judge_claims, FORTY, [])
        self.refuses(36, 0, native.judge_block, 6, RING, b"")
        self.refuses(35, 2, native.judge_claims, FORTY, [(2, "0"), (7, "0")])
        self.refuses(35, 1, native.judge_block, 6, RING, [(11, "0")])
        self.refuses(35, 1, native.judge_block, 6, RING, b"\x02\x02" b"1")
        for text in ("", "nan", "1e2", "-1", "31.0000004", ".5", "7\n", str(2**64), "\u0663"):
            self.refuses(37, 2, native.judge_block, 6, RING, [(2, "0"), (1, text)])
        self.refuses(34, 0, native.judge_block, 6, RING, [(2, "0"), (8, "18")])
        self.refuses(7, 0, native.judge_block, 2, [], [])
        self.refuses(20, 0, native.judge_claims, bytes(32769), [])

    def test_what_no_claim_has_room_for(self):
        for claim in ((256, "1"), (2, "1" * 256), (-1, "1")):
            with self.assertRaises(ValueError):
                native.claim_bytes([claim])


class Sdf(unittest.TestCase):
    FRONT = b"\n\n\n  0  0\n"

    def test_records(self):
        text = b"ab\n$$$$\r\nc $$$$\nd\n \t\r\n"
        self.assertEqual(native.sdf_record(text), (0, 3, 9))
        self.assertEqual(native.sdf_record(text, 9), (9, len(text) - 9, len(text)))
        for done in (text[:0], b" \t\r\n"):
            self.assertIsNone(native.sdf_record(done))
        self.assertIsNone(native.sdf_record(text, 2**70))

    def test_items(self):
        record = self.FRONT + b"> <A>\nM  END\n>  <A> (1)\r\n12.5\r\n\r\n> <C>\n1\n> <C>\n2\n> <E>\n><F>\n"
        self.assertEqual(native.sdf_item(record, "A"), (35, 4))
        self.assertEqual(native.sdf_item(record, b"E").length, 0)
        for name, number, place in (("", 38, 0), ("a", 38, 0), ("C", 39, record.rindex(b"> <C>"))):
            with self.assertRaises(Refused) as caught:
                native.sdf_item(record, name)
            self.assertEqual((caught.exception.number, caught.exception.place), (number, place))

    def test_a_title_that_forges_an_item(self):
        with self.assertRaises(Refused) as caught:
            native.sdf_item(b"M  END\n> <W>\n999\n  0  0\nM  END\n", "W")
        self.assertEqual(caught.exception.number, 38)
