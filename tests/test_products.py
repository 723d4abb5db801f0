"""Library decks by the command and as values: lists, rankings, pieces, texts, refusals; products against their assemblies."""

import csv
import io
import os
import random
import subprocess
import unittest
from unittest import mock

from common import FORTY, LIBRARY, RIGHT
from test_command import Room
from test_libraries import some_deck

from tteuyomal import Block, Library, NoProduct, Refused, Site, command, decktext, explain, judging, native
from tteuyomal.libraries import Piece, pieces

LINES = "0: 2@1 2@1 atoms 8 W 62 even 28 odd 34 polarity 7\n1: 1@1 2@1 atoms 13 W 252 even 124 odd 128 polarity 16\n"
SIX = "0: 2@1 2@1 atoms 8 W 62 even 28 odd 34 polarity 7 largest 5\n1: 1@1 2@1 atoms 13 W 252 even 124 odd 128 polarity 16 largest 8\n"
CSV = "position,block_1,atom_1,block_2,atom_2,atoms,W,even,odd,polarity\n0,2,1,2,1,8,62,28,34,7\n1,1,1,2,1,13,252,124,128,16\n"


def path(atoms):
    return Block(atoms, [(k, k + 1) for k in range(1, atoms)])


def large():
    """A ring of 6 with four sites of eight candidates, of 4,096 products: paths of 1 to 8 atoms, by an end or from within."""
    blocks = {1: Block(6, [(k, k % 6 + 1) for k in range(1, 7)])} | {k + 1: path(k) for k in range(1, 9)}
    ends = [(k + 1, 1) for k in range(1, 9)]
    within = [(k + 1, (k + 1) // 2) for k in range(1, 9)]
    return Library(blocks, 1, [(1, ends), (2, within), (4, ends[::-1]), (5, within)])


class Listing(Room):
    def setUp(self):
        super().setUp()
        self.deck = self.put("two", LIBRARY)
        self.output = os.path.join(self.room, "out")

    def rows(self, *words):
        """The rows of the large library's table as numbers by name."""
        status, said = self.run_command("library", self.put("large", bytes(large())), "--csv", "--six", *words)
        self.assertEqual((status, self.fault), (0, ""))
        return [{key: int(number) for key, number in row.items()} for row in csv.DictReader(io.StringIO(said))]

    def same(self, told, expected):
        """Long lists are held against each other without a picture of the difference, which takes minutes."""
        self.assertEqual(len(told), len(expected))
        self.assertIsNone(next(((k, pair) for k, pair in enumerate(zip(told, expected)) if pair[0] != pair[1]), None))

    def test_lines(self):
        self.assertEqual(self.run_command("library", self.deck), (0, LINES))
        self.assertEqual(self.run_command("library", self.deck, "--six"), (0, SIX))
        self.assertEqual(self.run_command("library", self.deck, "--csv"), (0, CSV))
        one = self.process("library", "-", stdin=subprocess.PIPE, stdout=subprocess.PIPE)
        self.assertEqual((one.communicate(LIBRARY)[0].decode(), one.returncode), (LINES, 0))

    def test_each_choice_once(self):
        rows = self.rows()
        self.same([row["position"] for row in rows], list(range(4096)))
        chosen = {tuple(row[f"{what}_{k}"] for k in (1, 2, 3, 4) for what in ("block", "atom")) for row in rows}
        self.assertEqual(len(chosen), 4096)
        self.assertEqual([(row["block_3"], row["block_4"]) for row in rows[6:10]], [(9, 8), (9, 9), (8, 2), (8, 3)], "the last site turns fastest")

    def test_ranking(self):
        rows = self.rows()
        for field in ("atoms", "W", "even", "odd", "polarity", "largest"):
            ranked = sorted(rows, key=lambda row: (row[field], row["position"]))
            downward = sorted(rows, key=lambda row: (-row[field], row["position"]))
            self.same(self.rows("--sort", field), ranked)
            self.same(self.rows("--sort", field.lower(), "--top", "37"), ranked[:37])
            self.same(self.rows("--sort", field, "--reverse", "--top", "300"), downward[:300])
            self.assertNotEqual(ranked[:37], rows[:37])
        self.same(self.rows("--top", "300"), rows[:300])
        self.same(self.rows("--top", "5000"), rows)
        self.assertEqual(self.rows("--sort", "W", "--from", "100", "--count", "7", "--top", "3"), sorted(rows[100:107], key=lambda row: row["W"])[:3])

    def test_pieces_are_the_whole(self):
        whole = self.run_command("library", self.put("large", bytes(large())))[1]
        for size in (1500, 256, 1024):
            parts = []
            for first in range(0, 4096, size):
                status, said = self.run_command("library", f"{self.decks}/large", "--from", str(first), "--count", str(size))
                self.assertEqual((status, said.count("\n")), (0, min(size, 4096 - first)))
                parts.append(said)
            self.same("".join(parts).splitlines(), whole.splitlines())
        self.assertEqual(self.run_command("library", self.deck, "--from", "1"), (0, LINES.splitlines(True)[1]))

    def test_no_product(self):
        for first in ("2", "3", str(2**64), str(2**70)):
            self.assertEqual(self.run_command("library", self.deck, "--from", first, "-o", self.output), (2, ""))
            self.assertIn("there are 2", self.fault)
        self.assertFalse(os.path.exists(self.output))

    def test_refusals(self):
        for place, byte, number in ((38, 5, 31), (41, 9, 32), (48, 1, 33), (36, 9, 16), (44, 2, 18), (32, 16, 13)):
            bad = self.put("bad", LIBRARY[:place] + bytes([byte]) + LIBRARY[place + 1 :] if number != 13 else LIBRARY[:32] + b"\x03\0\5\0\1\0\2")
            self.assertEqual(self.run_command("library", bad, "-o", self.output), (2, ""))
            self.assertEqual(self.fault, f"tteuyomal: {bad}: refused {number} at 32: {native.WORDS[number]}\n")
        for data, number, place in ((FORTY, 12, 22), (FORTY + RIGHT, 12, 22), (b"", 11, 0), (bytes(40000), 20, 0), (LIBRARY + b"\0", 11, 53)):
            self.assertEqual(self.run_command("library", self.put("bad", data)), (2, ""))
            self.assertIn(f"refused {number} at {place}: ", self.fault)
        self.run_command("library", self.put("bad", FORTY))
        self.assertIn("`tteuyomal sheet`", self.fault)
        self.assertEqual(self.run_command("library", os.path.join(self.room, "missing")), (2, ""))
        self.assertIn("cannot be read: no such file", self.fault)
        self.assertFalse(os.path.exists(self.output))

    def test_usage(self):
        for words in (["--sort", "J"], ["--sort", "largest"], ["--reverse"], ["--top", "0"], ["--count", "0"], ["--from", "-1"], ["--from", "x"]):
            self.assertEqual(self.run_command("library", self.deck, *words), (2, ""))
        self.assertEqual(self.run_command("library")[0], 2)

    def test_to_a_file(self):
        for words, text in ((["--csv"], CSV), (["--six"], SIX), ([], LINES)):
            self.assertEqual(self.run_command("library", self.deck, "-o", self.output, *words), (0, ""))
            self.assertEqual(self.read(self.output).decode(), text)
        os.link(self.deck, os.path.join(self.room, "hard"))
        os.symlink(self.deck, os.path.join(self.room, "soft"))
        for same in (self.deck, os.path.join(self.room, "hard"), os.path.join(self.room, "soft"), os.path.join(self.decks, "..", "decks", "two")):
            self.assertEqual(self.run_command("library", self.deck, "-o", same), (2, ""))
            self.assertIn("is an input", self.fault)
            self.assertEqual(self.read(self.deck), LIBRARY)
        self.assertEqual(self.run_command("library", self.deck, "-o", os.path.join(self.room, "no", "where"))[0], 2)

    def test_whole_or_not_there(self):
        self.put("out", b"before", self.room)
        run = native.library_run

        def stopped(deck, position, *more):
            if position >= 512:
                raise KeyboardInterrupt
            return run(deck, position, *more)

        with mock.patch.object(native, "library_run", stopped):
            self.assertEqual(self.run_command("library", self.put("large", bytes(large())), "-o", self.output), (command.INTERRUPTED, ""))
        self.assertEqual((self.read(self.output), sorted(os.listdir(self.room))), (b"before", ["decks", "out"]))
        with open("/dev/full", "wb") as full:
            one = self.process("library", self.deck, stdout=full, stderr=subprocess.PIPE)
            self.assertIn(b"No space left", one.communicate()[1])
        self.assertEqual(one.returncode, 2)

    def test_in_batches(self):
        """No call asks for more than a batch, and none is made past what was asked for."""
        run, rooms = native.library_run, []

        def counted(deck, position, kind, room):
            rooms.append((position, room))
            return run(deck, position, kind, room)

        with mock.patch.object(native, "library_run", counted):
            self.rows("--from", "10", "--count", "600")
        self.assertEqual(rooms, [(10, 256), (266, 256), (522, 88)])


class Positions(Room):
    def test_past_the_end(self):
        """Where the rules say that a library is done there is no choice, and none is invented."""
        deck = Library.from_bytes(LIBRARY)
        self.assertEqual([deck.choice(k) for k in (0, 1)], [((2, 1), (2, 1)), ((1, 1), (2, 1))])
        for position in (2, 3, 2**64, -1):
            for ask in (deck.choice, deck.assembly):
                with self.subTest(position), self.assertRaisesRegex(NoProduct, f"no product at position {position}: there are 2"):
                    ask(position)
        self.assertRaises(NoProduct, Library(deck.blocks, 1, [(1, [])]).choice, 0)


class Words(Room):
    def test_explained(self):
        status, said = self.run_command("explain", self.put("a", LIBRARY))
        self.assertEqual(status, 2)
        for words in ("the core is block 1", "site 1, atom 1 of the core: block 2 by its atom 1, block 1 by its atom 1", "refused 12 at 32",
                      "This is a library deck", "It has 2 products", "`tteuyomal library`"):  # fmt: skip
            self.assertIn(words, said)
        said = self.run_command("explain", self.put("a", LIBRARY[:38] + b"\x05" + LIBRARY[39:]))[1]
        self.assertIn("as a library it is refused 31 at 32", said)
        self.assertNotIn("library deck", self.run_command("explain", self.put("a", FORTY[:24] + b"\x09" + FORTY[25:]))[1])

    def test_any_bytes(self):
        chance = random.Random(4)
        for _ in range(300):
            data = bytearray(some_deck(chance)[2])
            for _ in range(chance.randrange(1, 4)):
                data[chance.randrange(len(data))] = chance.randrange(256)
            data = bytes(data[: len(data) - chance.choice([0, 0, 1, 3])])
            judged = judging.judge_bytes("deck", data, "")
            said = "\n".join(explain.explained(judged))
            self.assertIn(judged.verdict(), said)
            self.assertEqual("This is a library deck" in said, judged.note != "")
            status, _ = self.run_command("library", self.put("a", data))
            self.assertEqual(status, 0 if self.fault == "" else 2)

    def test_on_the_board(self):
        self.put("a", LIBRARY)
        board = os.path.join(self.room, "board.html")
        self.assertEqual(self.run_command("board", self.decks, "-o", board)[0], 2)
        text = self.read(board).decode()
        self.assertIn(f"refused 12: {native.WORDS[12]}", text)
        self.assertIn("at 32 (a library deck has no sheet to judge", text)

    def test_texts(self):
        chance = random.Random(3)
        for _ in range(300):
            data = bytes(some_deck(chance)[2])
            text = decktext.shown(data)
            self.assertEqual(decktext.made(text), data)
            self.assertIn("[library]", text)
            broken = bytearray(data)
            broken[chance.randrange(len(data))] = chance.randrange(256)
            self.assertEqual(decktext.made(decktext.shown(bytes(broken))), bytes(broken))
        self.assertEqual(decktext.made("[library]\ncore = 7\n"), bytes(Library({}, 7, [])))
        made = os.path.join(self.room, "made")
        text = self.put("a.toml", self.run_command("show", self.put("a", LIBRARY))[1].encode())
        self.assertEqual(self.run_command("deck", text, "-o", made), (0, ""))
        self.assertEqual(self.read(made), LIBRARY)

    def test_texts_that_are_no_library(self):
        for text in (
            "[[site]]\natom = 1\ncandidates = []\n", "library = 1\n", "[library]\n", "[library]\ncore = 1\nsites = 2\n", "[library]\ncore = 70000\n",
            "[library]\ncore = 1\n[[placement]]\nblock = 1\n", "[library]\ncore = 1\n[[site]]\ncandidates = []\n", "[library]\ncore = 1\n[[site]]\natom = 1\n",
            "[library]\ncore = 1\n[[site]]\natom = 1\ncandidates = ['2-1']\n", "[library]\ncore = 1\n[[site]]\natom = 1\ncandidates = [2]\n",
            "[library]\ncore = 1\n[[site]]\natom = 1\ncandidates = ['2@300']\n", "[library]\ncore = 1\n[[site]]\natom = 300\ncandidates = []\n",
        ):  # fmt: skip
            with self.subTest(text):
                self.assertRaises(decktext.BadText, decktext.made, text)


class Values(unittest.TestCase):
    def test_bytes(self):
        two = Library.from_bytes(LIBRARY)
        self.assertEqual((two.core, two.sites), (1, (Site(1, ((2, 1), (1, 1))), Site(4, ((2, 1),)))))
        self.assertEqual((bytes(two), two.count()), (LIBRARY, 2))
        for data in (b"", FORTY, LIBRARY[:32], LIBRARY[:-1], LIBRARY + FORTY, LIBRARY[:32] + b"\x03\0\5\0\1\0\2", LIBRARY[:32] + b"\x05\0\5\0\1\0\0\0\0"):
            self.assertRaises(ValueError, Library.from_bytes, data)
        with self.assertRaises(Refused) as caught:
            next(Library(two.blocks, 9, two.sites).products())
        self.assertEqual(caught.exception, Refused(16, 32))

    def test_products_are_their_assemblies(self):
        """What is told of a position, against the deck of one molecule that is put together of it."""
        chance = random.Random(7)
        tried = 0
        while tried < 60:
            data = bytes(some_deck(chance)[2])
            try:
                native.library_count(data)
            except Refused:
                continue
            tried += 1
            deck = Library.from_bytes(data)
            products = list(deck.products(six=True))
            self.assertEqual(len(products), deck.count())
            for one in chance.sample(products, min(8, len(products))):
                self.assertEqual(one.fields, deck.assembly(one.position).compose(six=True).fields())
            self.assertEqual([one.fields for one in deck.products()], [one.fields[:5] for one in products])

    def test_pieces(self):
        self.assertEqual(list(pieces([2, 5, 0, 3], 4)), [[Piece(0, 0, 2), Piece(1, 0, 2)], [Piece(1, 2, 3), Piece(3, 0, 1)], [Piece(3, 1, 2)]])
        self.assertEqual((list(pieces([], 4)), list(pieces([0, 0], 4))), ([], []))
        chance = random.Random(9)
        for _ in range(200):
            counts = [chance.randrange(12) for _ in range(chance.randrange(6))]
            size = chance.randrange(1, 20)
            parts = list(pieces(counts, size))
            told = [(one.library, place) for part in parts for one in part for place in range(one.first, one.first + one.count)]
            self.assertEqual(told, [(k, place) for k, count in enumerate(counts) for place in range(count)])
            self.assertTrue(all(sum(one.count for one in part) == size for part in parts[:-1]))


if __name__ == "__main__":
    unittest.main()
