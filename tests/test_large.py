"""Molecules of every size: read, cut at bonds that no ring holds, held against decks; nothing is matched but by the library, and nothing is
green that was not checked."""

import csv
import io
import json
import os
import random
import unittest
from collections import Counter
from unittest import mock

from common import FORTY, RIGHT, RING
from test_check import molfile, record
from test_command import Room

from tteuyomal import Uncut, cut_molfile, cutting, hold, matching, native
from tteuyomal.decks import Block, Deck, Placement
from tteuyomal.matching import ANOTHER, MATCHED, UNDECIDED
from tteuyomal.native import Matched, Molecule, Refused

RINGS = [*RING, *((a + 6, b + 6) for a, b in RING), (1, 7)]
OWN = [(1 + k // 6, 1 + k % 6) for k in range(12)]
K33 = Molecule(6, [(a, b) for a in (1, 2, 3) for b in (4, 5, 6)])
PRISM = Molecule(6, [(1, 2), (2, 3), (3, 1), (4, 5), (5, 6), (6, 4), (1, 4), (2, 5), (3, 6)])


def path(atoms):
    return Molecule(atoms, [(k, k + 1) for k in range(1, atoms)])


def ring(atoms, before=0):
    return [(before + k, before + k % atoms + 1) for k in range(1, atoms + 1)]


def chained(sizes):
    """Rings of these sizes, each bonded to the next."""
    bonds, before = [], 0
    for place, size in enumerate(sizes):
        bonds += ring(size, before) + ([(before + size, before + size + 1)] if place + 1 < len(sizes) else [])
        before += size
    return Molecule(before, bonds)


def hung(centre, leaf, count):
    """A ring with rings of another size, one on each of its first atoms."""
    bonds = ring(centre)
    for k in range(count):
        bonds += [*ring(leaf, centre + leaf * k), (k + 1, centre + leaf * k + 1)]
    return Molecule(centre + leaf * count, bonds)


def renumbered(molecule, seed):
    """The same molecule, its atoms numbered anew, its bonds in another order."""
    chance = random.Random(seed)
    names = list(range(1, molecule.atoms + 1))
    chance.shuffle(names)
    bonds = [(names[a - 1], names[b - 1])[:: chance.choice((1, -1))] for a, b in molecule.bonds]
    chance.shuffle(bonds)
    return Molecule(molecule.atoms, bonds)


def drawn(molecule, title="large"):
    """Its molfile."""
    return molfile(title, "C" * molecule.atoms, molecule.bonds).encode()


def tree(seed, atoms):
    """A random tree, no atom of more than four bonds."""
    chance, bonds, room = random.Random(seed), [], [1]
    for atom in range(2, atoms + 1):
        bonds.append((room.pop(chance.randrange(len(room))), atom))
        room += [atom] * 3
    return Molecule(atoms, bonds)


def searched(molecule):
    """The six fields by a plain search from every atom."""
    near, pairs = matching.neighbours(*molecule), Counter()
    for start in range(molecule.atoms):
        far, queue = {start: 0}, [start]
        for atom in queue:
            for end in near[atom]:
                if end not in far:
                    far[end] = far[atom] + 1
                    queue.append(end)
        pairs.update(distance for atom, distance in far.items() if atom > start)
    even, odd = (sum(k * count for k, count in pairs.items() if k % 2 == rest) for rest in (0, 1))
    return molecule.atoms, even + odd, even, odd, pairs[3], max(pairs, default=0)


class Native(unittest.TestCase):
    def refuses(self, number, place, function, *arguments):
        with self.assertRaises(Refused) as caught:
            function(*arguments)
        self.assertEqual((caught.exception.number, caught.exception.place), (number, place))

    def test_read_whole(self):
        large = path(999)
        self.assertEqual(native.read_whole(drawn(large)), large)
        with_hydrogens = molfile("", "CH" * 70, [(2 * k + 1, 2 * k + 2) for k in range(70)] + [(2 * k + 1, 2 * k + 3) for k in range(69)])
        self.assertEqual(native.read_whole(with_hydrogens.encode()), path(70))
        self.assertEqual(native.read_whole(drawn(Molecule(3, []))), Molecule(3, []), "in parts")
        self.assertEqual(native.read_whole(drawn(Molecule(1, []))), Molecule(1, []))
        self.refuses(25, 0, native.read_whole, b"")
        self.refuses(1, 0, native.read_whole, drawn(Molecule(0, [])))
        self.refuses(4, 2, native.read_whole, drawn(Molecule(70, [(1, 2), (70, 70)])))
        self.refuses(5, 2, native.read_whole, drawn(Molecule(70, [(1, 70), (70, 1)])))
        self.refuses(6, 7, native.read_whole, drawn(Molecule(70, [(k, 70) for k in range(1, 9)])))

    def test_written_out(self):
        self.assertEqual(native.written_out(FORTY), Molecule(12, RINGS))
        self.refuses(11, 40, native.written_out, FORTY + RIGHT)
        self.refuses(11, 0, native.written_out, b"")
        chain = Deck({7: Block(64, path(64).bonds)}, []).blocks
        rows = [(7, 0, 0, 0), *((7, k, 64, 1) for k in range(1, 32))]
        deck = chain[0][1].record(7) + native.assembly_record(rows)
        self.assertEqual(sorted(native.written_out(deck).bonds), path(2048).bonds)

    def test_matched(self):
        ask = lambda atoms, bonds, pairs: native.matched(FORTY, atoms, bonds, pairs)
        self.assertEqual(ask(12, RINGS, OWN), Matched())
        self.assertIs(bool(ask(12, RINGS, OWN)), True)
        self.assertTrue(ask(12, RINGS[::-1], OWN[6:] + OWN[:6]), "the two rings in each other's place")
        self.assertEqual(ask(11, RINGS, OWN), Matched(0))
        self.assertIs(bool(ask(11, RINGS, OWN)), False)
        for pairs, place in (
            ([(3, 1), *OWN[1:]], 1), ([*OWN[:11], (2, 7)], 12), ([*OWN[:11], (2, 2**20)], 12), ([OWN[0], *OWN[:11]], 2), ([(0, 0)] * 12, 1),
            ([OWN[1], OWN[0], *OWN[2:]], 12 + 2),
        ):  # fmt: skip
            self.assertEqual(ask(12, RINGS, pairs), Matched(place))
        for bonds, place in (([*RINGS, (2, 5)], 26), ([*RINGS, (1, 13)], 26), ([*RINGS, (0, 1)], 26), ([*RINGS, (1, 2**40)], 26), (RINGS[1:], 25), (RINGS[:-1], 37), ([], 13)):
            self.assertEqual(ask(12, bonds, OWN), Matched(place))
        self.refuses(9, 0, native.matched, FORTY, 12, RINGS, OWN[:11])
        self.refuses(9, 0, native.matched, FORTY, 2**64 - 1, RINGS, OWN)
        self.refuses(9, 0, native.matched, FORTY, 2**80, RINGS, OWN)
        self.refuses(11, 22, native.matched, FORTY[:-1], 12, RINGS, OWN)

    def test_what_is_no_number(self):
        for call in (
            lambda: native.matched(FORTY, -1, RINGS, OWN),
            lambda: native.matched(FORTY, 12, [(1, -2)], OWN),
            lambda: native.matched(FORTY, 12, RINGS, [(1, 2, 3)] * 12),
            lambda: native.matched(FORTY, 12, [1], OWN),
        ):
            self.assertRaises(ValueError, call)
        self.assertRaises(TypeError, lambda: native.matched(FORTY, 12.0, RINGS, OWN))
        self.assertRaises(TypeError, lambda: native.matched(FORTY, 12, RINGS, [("1", 1)] * 12))
        self.assertRaises(TypeError, lambda: native.read_whole(12))


class Cutting(unittest.TestCase):
    def cut(self, molecule):
        """Cut and matched, with pieces and counts that a deck may have."""
        made = cutting.matched(molecule)
        read = Deck.from_bytes(made.deck)
        self.assertEqual((len(read.placements), len(read.blocks)), (made.placements, made.blocks))
        self.assertLessEqual(made.placements, 32)
        self.assertEqual(read.compose().atoms, molecule.atoms)
        return made

    def uncut(self, molecule, words):
        with self.assertRaisesRegex(cutting.Uncut, words):
            cutting.cut(molecule)

    def test_small(self):
        for molecule in (Molecule(1, []), path(2), path(64), Molecule(64, ring(64)), K33):
            self.assertEqual(self.cut(molecule)[1:3], (1, 1))

    def test_few_pieces(self):
        for atoms in (65, 128, 129, 640, 999):
            self.assertEqual(self.cut(path(atoms)).placements, -(-atoms // 64))
        self.assertEqual(self.cut(chained([33] * 30))[1:3], (30, 1), "pieces that are alike are one block")
        self.assertEqual(self.cut(chained([32] * 30)).placements, 15)
        self.assertEqual(self.cut(hung(62, 3, 31))[1:3], (32, 2))

    def test_repeated_units(self):
        """Units that 64 is no multiple of: smaller pieces are taken where the largest are too many different ones."""
        sizes = [3, 4, 5, 6, 7, 8, 9] * 22
        self.assertLessEqual(self.cut(chained(sizes)).blocks, 16)

    def test_fields(self):
        """The deck's fields are those of the molecule, by a plain search."""
        for molecule in (path(1), path(130), chained([5, 6, 7] * 9), hung(62, 3, 20), renumbered(tree(9, 250), 1), renumbered(chained([33] * 8), 2)):
            self.assertEqual(native.compose_six(self.cut(molecule).deck), searched(molecule))

    def test_renumbered(self):
        for seed in range(12):
            molecule = tree(seed, 65 + 70 * seed)
            try:
                made = self.cut(molecule)
            except cutting.Uncut as why:
                self.assertIn("different pieces", str(why))
                continue
            other = renumbered(molecule, seed)
            self.cut(other)
            self.assertEqual(matching.held(made.deck, other).word, MATCHED)

    def test_not_cut(self):
        self.uncut(Molecule(65, ring(65)), "^a ring system of 65 atoms is more than a block's 64: atoms 1 2 3 4 5 6 7 8 9 10 11 12 .., hydrogens left out$")
        self.uncut(Molecule(70, [*ring(66), (66, 67), (67, 68), (68, 69), (69, 70)]), "^a ring system of 66 atoms")
        self.uncut(Molecule(100, path(99).bonds), "^it is in 2 parts, of 99, 1 atoms$")
        self.uncut(Molecule(70, []), r"^it is in 70 parts, of 1, .* atoms \.\.$")
        self.uncut(hung(62, 3, 32), "^it needs 33 pieces of at most 64 atoms, and a deck has 32 placements$")
        self.uncut(chained(range(40, 57)), "^no cut was found with fewer than 17 different pieces, and a deck has 16 blocks$")

    def test_never_unmatched(self):
        """A cut that the library does not take is none."""
        with mock.patch("tteuyomal.native.matched", return_value=Matched(3)), self.assertRaisesRegex(cutting.NotMatched, "at 3"):
            cutting.matched(path(70))
        with mock.patch("tteuyomal.native.matched", side_effect=Refused(13, 0)), self.assertRaisesRegex(cutting.NotMatched, "refused 13"):
            cutting.matched(path(70))


class Matching(unittest.TestCase):
    def held(self, one, other, **more):
        return matching.held(cutting.cut(one).deck, other, **more)

    def test_the_same(self):
        for molecule in (path(1), path(2), path(300), K33, PRISM, chained([6] * 40), hung(60, 3, 30), tree(5, 200), Molecule(12, RINGS)):
            for seed in range(3):
                answer = self.held(molecule, renumbered(molecule, seed))
                self.assertEqual(answer.word, MATCHED)
                self.assertEqual(len(set(answer.matching)), molecule.atoms)

    def test_another(self):
        for one, other, words in (
            (path(70), path(71), "the deck has 70 atoms, the file 71"),
            (path(1), path(70), "the deck has 1 atom, the file 70"),
            (path(70), Molecule(70, path(70).bonds[1:]), "the deck has 69 bonds, the file 68"),
            (path(70), Molecule(70, [*path(69).bonds, (68, 70)]), "their atoms have other neighbours"),
            (chained([6, 6, 6]), chained([6, 5, 7]), "their atoms have other neighbours"),
        ):
            self.assertEqual(self.held(one, other), (ANOTHER, words, ()))

    def test_not_decided(self):
        """Two molecules that colours do not tell apart, and work that comes to its bound: neither is said to be the same, or another."""
        self.assertEqual(self.held(K33, PRISM).word, UNDECIDED)
        self.assertEqual(self.held(path(300), renumbered(path(300), 1), work=1000).word, UNDECIDED)
        with mock.patch("tteuyomal.native.matched", return_value=Matched(3)):
            self.assertEqual(self.held(path(70), path(70)).word, UNDECIDED)

    def test_damaged(self):
        """Whatever is done to a matching, it is taken only where it carries bonds to bonds both ways."""
        chance, refused = random.Random(7), 0
        molecule = renumbered(chained([6, 5, 7, 3] * 12), 3)
        made = cutting.matched(molecule)
        where = dict(zip(made.matching, range(1, molecule.atoms + 1)))
        own = native.written_out(made.deck)
        names = [where[one] for one in matching.placed(made.deck)]
        for _ in range(300):
            pairs = list(made.matching)
            a, b = chance.sample(range(molecule.atoms), 2)
            pairs[a], pairs[b] = chance.choice(((pairs[b], pairs[a]), (pairs[b], pairs[b]), ((pairs[a][0], 65), pairs[b]), ((0, 1), pairs[b])))
            now = {pair: atom for atom, pair in enumerate(pairs, 1)}
            carried = {frozenset(now.get(made.matching[names[end - 1] - 1], 0) for end in bond) for bond in own.bonds}
            right = len(now) == molecule.atoms and carried == {frozenset(bond) for bond in molecule.bonds}
            self.assertEqual(bool(native.matched(made.deck, molecule.atoms, molecule.bonds, pairs)), right)
            refused += not right
        self.assertGreater(refused, 250)


class Decks(unittest.TestCase):
    """The same from Python."""

    def test_deck(self):
        deck = cut_molfile(drawn(path(200)))
        self.assertEqual((len(deck.placements), len(deck.blocks), deck.compose().w), (4, 2, 1333300))
        self.assertEqual(cut_molfile(drawn(path(3)).decode()).placements, (Placement(1),))
        answer = hold(deck.with_sheet(), drawn(renumbered(path(200), 1)))
        self.assertTrue(answer)
        self.assertEqual((answer.word, len(answer.matching)), (MATCHED, 200))
        self.assertFalse(hold(bytes(deck), drawn(path(199))))
        self.assertEqual(hold(cut_molfile(drawn(K33)), drawn(PRISM)).word, UNDECIDED)
        self.assertFalse(hold(cut_molfile(drawn(K33)), drawn(PRISM)))

    def test_what_is_raised(self):
        deck = cut_molfile(drawn(path(3)))
        self.assertRaises(Uncut, cut_molfile, drawn(Molecule(65, ring(65))))
        self.assertRaises(Refused, cut_molfile, b"")
        self.assertRaises(ValueError, cut_molfile, "large.mol")
        self.assertRaises(ValueError, hold, deck, "large.mol")
        self.assertRaises(Refused, hold, deck, b"")
        self.assertRaises(Refused, hold, bytes(deck)[:-1], drawn(path(3)))
        self.assertRaises(Refused, hold, Deck({1: Block(65)}, [Placement(1)]), drawn(path(3)))


class Command(Room):
    def mol(self, molecule, name="big.mol"):
        return self.put(name, drawn(molecule), self.room)

    def deck(self, molecule, sheet=True, name="big.deck"):
        """A deck cut by the command, with its own sheet."""
        path = os.path.join(self.room, name)
        self.assertEqual(self.run_command("deck", self.mol(molecule, name + ".mol"), "-o", path)[0], 0)
        data = self.read(path)
        return self.put(name, data + native.write_sheet(data), self.room) if sheet else path

    # ---- deck ----

    def test_deck(self):
        out = os.path.join(self.room, "big.deck")
        for molecule, words in ((path(200), "200 atoms, cut into 4 placements, matched; 2 blocks"), (path(3), "3 atoms, cut into 1 placement, matched; 1 block")):
            name = self.mol(molecule)
            self.assertEqual(self.run_command("deck", name, "-o", out), (0, ""))
            self.assertEqual(self.fault, f"{name}: {words}\n")
            self.assertEqual(native.compose(self.read(out)).w, sum(k * (molecule.atoms - k) for k in range(molecule.atoms)))

    def test_deck_of_a_record(self):
        name = self.put("a.sdf", (record("a", "C", []) + record("b", "C" * 70, path(70).bonds)).encode(), self.room)
        out = os.path.join(self.room, "b.deck")
        self.assertEqual(self.run_command("deck", name, "-o", out)[0], 2)
        self.assertIn("it has 2 records: --record says which", self.fault)
        self.assertEqual(self.run_command("deck", name, "-o", out, "--record", "3")[0], 2)
        self.assertIn("it has no record 3: there are 2, from 1 on", self.fault)
        self.assertFalse(os.path.exists(out))
        self.assertEqual(self.run_command("deck", name, "-o", out, "--record", "2")[0], 0)
        self.assertEqual(native.compose(self.read(out)).atoms, 70)

    def test_deck_not_cut(self):
        """In words, with the numbers that the atoms have in the file."""
        out = os.path.join(self.room, "big.deck")
        hydrogens = molfile("", "CH" * 66, [*((2 * a - 1, 2 * b - 1) for a, b in ring(66)), *((2 * k + 1, 2 * k + 2) for k in range(66))])
        self.assertEqual(self.run_command("deck", self.put("h.mol", hydrogens.encode(), self.room), "-o", out)[0], 2)
        self.assertIn("a ring system of 66 atoms is more than a block's 64: atoms 1 3 5 7 9 11 13 15 17 19 21 23 .. of the file", self.fault)
        for data, words in (
            (drawn(Molecule(65, ring(65))), "it can't be cut: a ring system of 65 atoms"), (drawn(Molecule(70, [])), "it can't be cut: it is in 70 parts"),
            (drawn(Molecule(70, [(1, 1)])), "refused 4 at 1"), (b"", "refused 25 at 0"), (drawn(path(70)).replace(b" 70 69", b" 70 6x"), "(line 4)"),
        ):  # fmt: skip
            name = self.put("a.mol", data, self.room)
            self.assertEqual(self.run_command("deck", name, "-o", out)[0], 2)
            self.assertIn(words, self.fault)
            self.assertFalse(os.path.exists(out))
        with mock.patch("tteuyomal.native.matched", return_value=Matched(0)):
            self.assertEqual(self.run_command("deck", self.mol(path(70)), "-o", out)[0], 2)
        self.assertIn("it is not written", self.fault)
        self.assertFalse(os.path.exists(out))
        name = self.mol(path(70))
        self.assertEqual(self.run_command("deck", name, "-o", name)[0], 2, "an output that is the input")

    # ---- check ----

    def check(self, text, table, *words):
        sdf, printed = self.put("a.sdf", text.encode(), self.room), self.put("a.csv", table.encode(), self.room)
        status, said = self.run_command("check", sdf, printed, *words)
        return status, said.splitlines()

    def test_check(self):
        text = record("long", "C" * 200, path(200).bonds) + record("short", "C" * 6, RING)
        status, lines = self.check(text, "name,W,P\nlong,1333300,197\nshort,27,3\n", "W=W", "polarity=P")
        self.assertEqual(lines, ["long (record 1): accepted W polarity; cut into 4 placements, matched", "short (record 2): accepted W polarity"])
        self.assertEqual(status, 0)
        status, lines = self.check(text, "name,W,P\nlong,1333301,197\nshort,27,3\n", "W=W", "polarity=P")
        self.assertEqual(lines[0], "long (record 1): differs W: 1333301 printed, 1333300; accepted polarity; cut into 4 placements, matched")
        self.assertEqual(status, 1)
        status, lines = self.check(text, "name,W,P\nlong,1333300,\nshort,27,3\n", "W=W", "polarity=P")
        self.assertEqual((status, lines[0]), (2, "long (record 1): no claim of polarity; accepted W; cut into 4 placements, matched"))
        six = ["atoms=a", "W=b", "even=c", "odd=d", "polarity=e", "largest=f"]
        row = ",".join(map(str, native.compose_six(cutting.cut(path(200)).deck)))
        status, lines = self.check(text[: text.index("short")], f"name,a,b,c,d,e,f\nlong,{row}\n", *six)
        self.assertEqual(lines[0], "long (record 1): accepted atoms W even odd polarity largest; cut into 4 placements, matched")

    def test_check_fields_of_blocks(self):
        """What only a block can claim is refused and never green; the other fields are told all the same."""
        text = record("long", "C" * 70, path(70).bonds)
        for column, name in (("Szeged", "Szeged"), ("J", "J"), ("Hosoya", "Hosoya"), ("Merrifield-Simmons", "Merrifield-Simmons")):
            status, lines = self.check(text, "name,W,X\nlong,57155,1\n", "W=W", f"{column}=X")
            self.assertEqual(status, 2)
            self.assertTrue(lines[0].startswith("long (record 1): refused 35 at 2: "), lines)
            self.assertTrue(lines[0].endswith(f"({name}: judged of up to 64 atoms alone); cut into 2 placements, matched"), lines)
        sdf, table = os.path.join(self.room, "a.sdf"), os.path.join(self.room, "a.csv")
        said = json.loads(self.run_command("check", "--json", sdf, table, "W=W", "J=X")[1])
        self.assertEqual((said["verdict"], said["fields"], said["cut"]), ("refused", {"W": "accepted", "J": "refused"}, "cut into 2 placements, matched"))

    def test_check_not_cut(self):
        bonds = ring(65)
        for molecule, words in (
            (Molecule(65, bonds), "refused 1 at 0: the atom count is 0 or above 64 (a ring system of 65 atoms is more than a block's 64: atoms 1 2"),
            (Molecule(66, path(65).bonds), "refused 1 at 0: the atom count is 0 or above 64 (it is in 2 parts, of 65, 1 atoms)"),
            (Molecule(70, [*path(70).bonds, (2, 1)]), "refused 5 at 70: the bond was listed before, either way round"),
        ):
            text = record("x", "C" * molecule.atoms, molecule.bonds)
            status, lines = self.check(text, "name,W\nx,1\n", "W=W")
            self.assertEqual((status, lines[0][: len(words) + 14]), (2, f"x (record 1): {words}"))
        with mock.patch("tteuyomal.native.matched", return_value=Matched(5)):
            status, lines = self.check(record("x", "C" * 70, path(70).bonds), "name,W\nx,57155\n", "W=W")
        self.assertEqual(status, 2, "a deck that is not matched is not judged")
        self.assertIn("(the deck that was cut is another molecule, by the library, at 5)", lines[0])

    def test_check_outputs(self):
        text = record("long", "C" * 70, path(70).bonds, [("W", 57155)])
        sdf = self.put("a.sdf", text.encode(), self.room)
        rows = list(csv.DictReader(io.StringIO(self.run_command("check", "--csv", sdf, "W=W")[1])))
        self.assertEqual(rows[0]["words"], "accepted W; cut into 2 placements, matched")
        self.assertEqual((rows[0]["W printed"], rows[0]["W"], rows[0]["W verdict"]), ("57155", "57155", "accepted"))
        page = os.path.join(self.room, "b.html")
        self.assertEqual(self.run_command("check", sdf, "W=W", "--board", page)[0], 0)
        self.assertIn(b"Cut into 2 placements, matched.", self.read(page))
        self.assertEqual(self.run_command("check", "--json", sdf, "W=W", "-j", "2")[0], 0)

    def test_check_with_an_older_library(self):
        """A library that reads no large molecule refuses it, as it did."""
        sdf = self.put("a.sdf", record("long", "C" * 70, path(70).bonds, [("W", 57155)]).encode(), self.room)
        with mock.patch("tteuyomal.native.has", return_value=False):
            status, said = self.run_command("check", sdf, "W=W", "-j", "1")
        self.assertEqual((status, said), (2, "long (record 1): refused 1 at 0: the atom count is 0 or above 64\n"))

    # ---- against ----

    def test_against(self):
        molecule = hung(60, 3, 5)
        deck = self.deck(molecule)
        for other, line, status in (
            (renumbered(molecule, 1), "accepted; matched {}", 0), (path(75), "another molecule: the deck has 80 bonds, the file 74", 1),
            (path(70), "another molecule: the deck has 75 atoms, the file 70", 1),
            (Molecule(75, [*ring(60), *(bond for k in range(5) for bond in ring(3, 60 + 3 * k)), *((k, 58 + 3 * k) for k in (1, 2, 3, 4)), (9, 73)]),
             "another molecule: their atoms have other neighbours", 1),
        ):  # fmt: skip
            name = self.mol(other)
            self.assertEqual(self.run_command("judge", deck, "--against", name), (status, f"{deck}: {line.format(name)}\n"))
            said = json.loads(self.run_command("judge", "--json", deck, "--against", name)[1])
            self.assertEqual(said["verdict"], line.split(":")[0].split(";")[0])
            self.assertEqual(said["against"]["answer"], "matched" if status == 0 else "another molecule")
            status_told, said = self.run_command("explain", deck, "--against", name)
            self.assertEqual(status_told, status)
            self.assertTrue(said.splitlines()[-1].startswith("matched: " if status == 0 else f"another molecule than that of {name}: "))

    def test_against_not_decided(self):
        deck = self.deck(K33)
        name = self.mol(PRISM)
        status, said = self.run_command("judge", deck, "--against", name)
        self.assertEqual((status, said), (2, f"{deck}: not decided: no matching was found, and none is ruled out\n"))
        self.assertIn("1 deck: 1 not decided", self.fault)
        status, said = self.run_command("explain", deck, "--against", name)
        self.assertEqual((status, said.splitlines()[-1][:11]), (2, "not decided"))

    def test_against_a_sheet_that_differs(self):
        bare = self.deck(path(70), sheet=False)
        data = self.read(bare)
        wrong = self.put("wrong.deck", data + native.sheet_record((70, 1, 2, 3, 4)), self.room)
        self.assertEqual(self.run_command("judge", wrong, "--against", self.mol(path(70)))[0], 1)
        status, said = self.run_command("judge", wrong, "--against", self.mol(path(71)))
        self.assertEqual((status, said), (1, f"{wrong}: another molecule: the deck has 70 atoms, the file 71; differs 2\n"))
        status, said = self.run_command("explain", bare, "--against", self.mol(path(70)))
        self.assertEqual(status, 2, "a deck without a sheet is refused, matched or not")
        self.assertTrue(said.splitlines()[-1].startswith("matched: "))
        broken = self.put("broken.deck", data[:-1], self.room)
        status, said = self.run_command("explain", broken, "--against", self.mol(path(70)))
        self.assertEqual((status, said.splitlines()[-1][:19]), (2, "The deck is refused"))
        self.assertEqual(self.run_command("judge", broken, "--against", self.mol(path(70)))[0], 2)

    def test_against_is_used_rightly(self):
        deck, name = self.deck(path(70)), self.mol(path(70))
        for words, fault in (
            (["--against", name, "--board", "b.html"], "--against goes with lines and objects alone"), (["--record", "1"], "--record goes with --against"),
            (["--against", os.path.join(self.room, "none.mol")], "no such file"), (["--against", deck], "refused 2"),
            (["--against", name, "--json", name], "is an input"),
        ):  # fmt: skip
            self.assertEqual(self.run_command("judge", deck, *words)[0], 2)
            self.assertIn(fault, self.fault)
        self.assertEqual(self.run_command("judge", deck, "--against", name, "--json", os.path.join(self.room, "o.json"))[0], 0)
        with mock.patch("tteuyomal.native.matched", return_value=Matched(5)):
            self.assertEqual(self.run_command("judge", deck, "--against", name, "-j", "1")[0], 2, "without the library's yes it is not matched")


if __name__ == "__main__":
    unittest.main()
