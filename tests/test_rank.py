"""Libraries of any size ranked by the command: against all products sorted, whatever the number of processes, with one killed, interrupted
and taken up again; candidates of every kind, and what is refused."""

import csv
import io
import itertools
import json
import math
import os
import random
import signal
import unittest
from unittest import mock

from test_command import Room

from tteuyomal import Block, candidates, native, ranking
from tteuyomal.console import Stop
from tteuyomal.native import Ranked

SDF = unittest.skipUnless(native.has("sdf_record"), "this library reads no records of an SDF")


def molfile(symbols, bonds, title="", more=()):
    """A V2000 molfile of these symbols and bonds."""
    lines = [title, "", "", f"{len(symbols):3d}{len(bonds):3d}  0  0  0  0  0  0  0  0999 V2000"]
    lines += [f"    0.0000    0.0000    0.0000 {symbol:<3} 0  0" for symbol in symbols]
    lines += [f"{a:3d}{b:3d}  1  0" for a, b in bonds]
    return "".join(f"{line}\n" for line in [*lines, *more, "M  END"]).encode()


def tree(chance, atoms):
    """The bonds of a random tree with few bonds at an atom."""
    return [(max(1, atom - chance.randint(1, 3)), atom) for atom in range(2, atoms + 1)]


def text(core, *sites):
    return "[core]\n" + core + "".join(f"\n[[site]]\n{where}\ncandidates = [{', '.join(those)}]\n" for where, those in sites)


def block(name, atoms, bonds, join):
    told = ", ".join(f'"{a}-{b}"' for a, b in bonds)
    return f'{{ name = "{name}", atoms = {atoms}, bonds = [{told}], join = {join} }}'


RING = 'atoms = 6\nbonds = ["1-2", "2-3", "3-4", "4-5", "5-6", "6-1"]\n'


def some(chance, name, count, least=1, most=9):
    """Candidates, as the text has them and as they are."""
    found = []
    for number in range(count):
        atoms = chance.randint(least, most)
        found.append((f"{name}{number}", atoms, tree(chance, atoms), chance.randint(1, atoms)))
    return found


class Ranking(Room):
    """Three sites of 17, 3 and 11 candidates, 561 products, more than a deck has."""

    def setUp(self):
        super().setUp()
        chance = random.Random(38)
        self.lists = [some(chance, "a", 17), some(chance, "b", 3), some(chance, "c", 11)]
        sites = [(f"atom = {atom}", [block(*one) for one in those]) for atom, those in zip((1, 2, 4), self.lists)]
        self.library = self.put("library.toml", text(RING, *sites).encode())

    def plan(self, by="W", top=50, greatest=False):
        field = ("atoms", "W", "even", "odd", "polarity", "largest").index(by) + 1
        library = candidates.made(self.read(self.library).decode(), self.decks, False)
        return ranking.cut(library, field, top, greatest)

    def rows(self, *words):
        status, said = self.run_command("rank", self.library, *words)
        self.assertEqual(status, 0, self.fault)
        return list(csv.DictReader(io.StringIO(said)))

    def whole(self):
        """Every product, in order of its number: its number, names and six fields, from one molecule with all its atoms and bonds."""
        found = []
        for number, those in enumerate(itertools.product(*self.lists)):
            bonds, atoms = [(k, k % 6 + 1) for k in range(1, 7)], 6
            for at, (_, count, own, join) in zip((1, 2, 4), those):
                bonds += [(a + atoms, b + atoms) for a, b in own] + [(at, atoms + join)]
                atoms += count
            found.append((number, [one[0] for one in those], plain(atoms, bonds)))
        return found

    def test_all_products_sorted(self):
        everything = self.whole()
        size = ranking.sizes([17, 3, 11])
        self.assertTrue(sum(size) <= 15 and max(size) <= 8)

        def came(names):
            """The order of coming: the pieces of the lists, then the places in them."""
            digits = [int(name[1:]) for name in names]
            return [digit // one for digit, one in zip(digits, size)], [digit % one for digit, one in zip(digits, size)]

        for place, by in enumerate(("atoms", "W", "even", "odd", "polarity", "largest")):
            for greatest in (False, True):
                sign = -1 if greatest else 1
                right = sorted(everything, key=lambda one: (sign * one[2][place], came(one[1])))[:50]
                found = self.rows("--by", by, "--top", "50", "-j", "1", "--check", "20", *(["--greatest"] if greatest else []))
                told = [
                    (int(row["product"]), [row["site_1"], row["site_2"], row["site_3"]], tuple(int(row[name]) for name in ("atoms", "W", "even", "odd", "polarity", "largest")))
                    for row in found
                ]
                self.assertEqual(told, right)
                self.assertEqual([(int(row["place"]), int(row["value"])) for row in found], [(k, one[2][place]) for k, one in enumerate(right, 1)])

    def test_all_are_held(self):
        found = self.rows("--top", "1000", "-j", "1")
        self.assertEqual(sorted(int(row["product"]) for row in found), list(range(17 * 3 * 11)))

    def test_one_list_for_any_processes(self):
        plan = self.plan().plan
        alone = [plan.rank(ranking.Shard(0, plan.decks))]
        self.assertEqual(alone[0].products, plan.products)
        for jobs, size in ((1, 1), (2, 1), (3, 2), (2, 5)):
            self.assertEqual(ranking.run(plan, jobs, size=size).best, alone[0].best)

    def test_a_process_is_killed(self):
        cut = self.plan()
        right = ranking.run(cut.plan, 1)
        marker = os.path.join(self.room, "killed")
        whole = ranking.Plan.rank

        def once(plan, shard):
            if shard.first == 3 and not os.path.exists(marker):
                open(marker, "x").close()
                os.kill(os.getpid(), signal.SIGKILL)
            return whole(plan, shard)

        with mock.patch.object(ranking.Plan, "rank", once):
            self.assertEqual(ranking.run(cut.plan, 2, size=1), right)
        self.assertTrue(os.path.exists(marker))

    def test_interrupted_and_taken_up(self):
        right = self.rows("--top", "50", "-j", "1")
        keep = os.path.join(self.room, "state")
        done = []
        whole = ranking.Plan.rank

        def until(plan, shard):
            if len(done) == 5:
                raise KeyboardInterrupt
            done.append(shard)
            return whole(plan, shard)

        def again(plan, shard):
            self.assertNotIn(shard, done)
            return whole(plan, shard)

        with mock.patch.object(ranking, "SHARD", 1):
            words = ["rank", self.library, "--top", "50", "-j", "1", "--resume", keep]
            with mock.patch.object(ranking.Plan, "rank", until):
                self.assertEqual(self.run_command(*words), (130, ""))
            self.assertEqual(json.loads(self.read(keep))["following"], 5)
            with mock.patch.object(ranking.Plan, "rank", again):
                self.assertEqual(self.rows("--top", "50", "-j", "1", "--resume", keep), right)
        status, _ = self.run_command("rank", self.library, "--top", "49", "-j", "1", "--resume", keep)
        self.assertEqual(status, 2)
        self.assertIn("the state of another ranking", self.fault)
        self.put("broken", b"{}", self.room)
        status, _ = self.run_command("rank", self.library, "--resume", os.path.join(self.room, "broken"))
        self.assertEqual(status, 2)
        self.assertIn("no state of a ranking", self.fault)

    def test_counted(self):
        plan = self.plan().plan
        whole = ranking.Plan.rank
        with mock.patch.object(ranking.Plan, "rank", lambda plan, shard: whole(plan, shard)._replace(products=1)):
            with self.assertRaisesRegex(Stop, "of 561 products were ranked"):
                ranking.run(plan, 1)
        with mock.patch.object(ranking.Plan, "shard", lambda plan, size, first: iter([ranking.Shard(0, 1), ranking.Shard(2, 1)])):
            with self.assertRaisesRegex(Stop, "nothing stands"):
                ranking.run(plan, 1)

    def test_checked(self):
        cut = self.plan(top=5)
        best = ranking.run(cut.plan, 1).best
        self.assertEqual(ranking.checked(cut, best, 561), 561)
        for wrong in (best[:-1] + [best[-1]._replace(value=best[-1].value + 1)], best[1:] + [Ranked(10**6, 0, 0)]):
            with self.assertRaises(Stop):
                ranking.checked(cut, wrong, 561)

    def test_numbers_are_one_to_one(self):
        cut = self.plan()
        places = set()
        for number in range(cut.plan.products):
            choice = cut.chosen(number)
            self.assertEqual(cut.number(choice), number)
            tag, position = cut.place(choice)
            places.add((tag, position))
            self.assertEqual(cut.choice(Ranked(0, tag, position)), choice)
        self.assertEqual(len(places), 561)
        self.assertEqual(sum(native.library_count(cut.plan.deck(tag)) for tag in range(cut.plan.decks)), 561)

    def test_one_product(self):
        row = self.rows("--top", "1")[0]
        deck = os.path.join(self.room, "one.deck")
        self.assertEqual(self.run_command("rank", self.library, "--product", row["product"], "-o", deck), (0, ""))
        self.assertEqual(self.fault, f"product {row['product']}: {row['site_1']}, {row['site_2']}, {row['site_3']}\n")
        self.assertEqual(native.compose_six(self.read(deck)), tuple(int(row[key]) for key in ("atoms", "W", "even", "odd", "polarity", "largest")))
        self.assertEqual(self.run_command("rank", self.library, "--product", "561", "-o", deck)[0], 2)
        self.assertIn("no product 561: there are 561, from 0 on", self.fault)
        self.assertEqual(self.run_command("rank", self.library, "--product", "0")[0], 2)

    def test_over_an_input(self):
        self.assertEqual(self.run_command("rank", self.library, "-o", self.library)[0], 2)
        self.assertEqual(self.run_command("rank", self.library, "--resume", self.library)[0], 2)

    def test_sizes(self):
        self.assertEqual(ranking.sizes([1000, 1000, 1000]), [5, 5, 5])
        self.assertEqual(math.prod(ranking.sizes([1000] * 4)), 192)
        self.assertEqual(ranking.sizes([3]), [3])
        self.assertEqual(ranking.sizes([9]), [5])
        for counts in ([1, 1], [8, 8], [100, 1, 7], [2, 3, 4, 5]):
            size = ranking.sizes(counts)
            self.assertTrue(sum(size) <= 15 and all(1 <= one <= min(8, count) for one, count in zip(size, counts)))


def plain(atoms, bonds):
    """The six fields of a molecule by a plain search from every atom."""
    beside = {atom: [] for atom in range(1, atoms + 1)}
    for a, b in bonds:
        beside[a].append(b)
        beside[b].append(a)
    counts = {}
    for start in beside:
        seen, level, distance = {start}, [start], 0
        while level:
            counts[distance] = counts.get(distance, 0) + len(level)
            level = sorted({other for atom in level for other in beside[atom]} - seen)
            seen |= set(level)
            distance += 1
    half = {distance: count // 2 for distance, count in counts.items() if distance}
    total = [sum(d * count for d, count in half.items() if d % 2 in kinds) for kinds in ((0, 1), (0,), (1,))]
    return (atoms, *total, half.get(3, 0), max(counts))


class Reading(Room):
    """Candidates as chemists have them."""

    def made(self, candidate, core=RING, where="atom = 1", skip=False):
        return candidates.made(text(core, (where, candidate)), self.decks, skip)

    def one(self, *candidate, **more):
        library = self.made(list(candidate), **more)
        self.assertEqual(len(library.sites[0].candidates), 1)
        return library.sites[0].candidates[0]

    def refused(self, words, *candidate, **more):
        with self.assertRaisesRegex(candidates.BadLibrary, words):
            self.made(list(candidate), **more)

    def test_dummies(self):
        for symbol in ("*", "R#", "R", "R1", "R12"):
            self.put("one.mol", molfile(["C", symbol, "H", "N", "H"], [(1, 2), (1, 3), (4, 1), (4, 5)]))
            self.assertEqual(self.one('"one.mol"'), ("one.mol", Block(2, [(2, 1)]), 1))
        self.put("end.mol", molfile(["*", "H", "O", "C"], [(3, 2), (3, 4), (4, 1)]))
        self.assertEqual(self.one('{ molfile = "end.mol" }'), ("end.mol", Block(2, [(1, 2)]), 2))

    def test_numbers(self):
        self.put("one.mol", molfile(["H", "C", "H", "O"], [(1, 2), (2, 3), (2, 4)]))
        self.assertEqual(self.one('{ molfile = "one.mol", join = 4 }'), ("one.mol", Block(2, [(1, 2)]), 2))
        self.refused("a hydrogen that is left out", '{ molfile = "one.mol", join = 1 }')
        self.refused("is atom 5, and the file has 4", '{ molfile = "one.mol", join = 5 }')
        self.refused("no dummy atoms", '"one.mol"')
        self.put("two.mol", molfile(["*", "C", "R1"], [(1, 2), (2, 3)]))
        self.refused("it has 2 dummy atoms", '"two.mol"')
        self.refused("is a dummy, and `join` names another atom", '{ molfile = "two.mol", join = 2 }')
        self.put("ring.mol", molfile(["*", "C", "C"], [(1, 2), (2, 3), (1, 3)]))
        self.refused("has 2 bonds to atoms that are kept", '"ring.mol"')
        self.put("lone.mol", molfile(["*", "H"], [(1, 2)]))
        self.refused("has 0 bonds to atoms that are kept", '"lone.mol"')

    def test_refused(self):
        self.put("salt.mol", molfile(["C", "Cl", "*"], [(1, 3)]))
        self.refused("site 1: salt.mol: refused 7 at 0: some pair of atoms has no path", '"salt.mol"')
        self.put("full.mol", molfile(["S", *"FFFFFF"], [(1, k) for k in range(2, 8)]))
        self.refused("full.mol: refused 19", '{ molfile = "full.mol", join = 1 }')
        self.refused("cannot be read|no such file", '"none.mol"')
        self.put("cut.mol", b"one line\n")
        self.refused("cut.mol: refused 25", '"cut.mol"')
        found = self.made(['"salt.mol"', '{ molfile = "full.mol", join = 2 }', '"cut.mol"'], skip=True)
        self.assertEqual([one.name for one in found.sites[0].candidates], ["full.mol"])
        self.assertEqual([(one.site, one.name) for one in found.left], [(1, "salt.mol"), (1, "cut.mol")])
        with self.assertRaisesRegex(candidates.BadLibrary, "site 1 has no candidate"):
            self.made(['"salt.mol"'], skip=True)
        library = self.put("library.toml", text(RING, ("atom = 1", ['"salt.mol"', '{ name = "methyl", atoms = 1, join = 1 }'])).encode())
        self.assertEqual(self.run_command("rank", library), (2, ""))
        self.assertIn("salt.mol: refused 7", self.fault)
        status, said = self.run_command("rank", library, "--skip-refused", "-j", "1")
        self.assertEqual((status, said.splitlines()[1:]), (0, ["1,42,0,methyl,7,42,20,22,5,4"]))
        self.assertIn("site 1, left out: salt.mol: refused 7 at 0", self.fault)

    def test_folder(self):
        self.put("acids/b.mol", molfile(["C", "*"], [(1, 2)]))
        self.put("acids/a.mol", molfile(["C", "C", "*"], [(1, 2), (2, 3)]))
        found = self.made(['"acids/"']).sites[0].candidates
        self.assertEqual([(one.name, one.block.atoms, one.atom) for one in found], [("acids/a.mol", 2, 2), ("acids/b.mol", 1, 1)])
        self.put("acids/readme", b"")
        self.refused("acids/readme: its name ends in none of", '"acids"')
        self.assertEqual([one.name for one in self.made(['{ folder = "acids" }'], skip=True).left], ["acids/readme"])

    @SDF
    def test_sdf(self):
        parts = [molfile(["C", "*"], [(1, 2)], "methyl"), molfile(["C", "C", "*"], [(1, 2), (2, 3)]), molfile(["N", "*"], [(1, 2)], "same"), molfile(["O", "*"], [(1, 2)], "same")]
        self.put("all.sdf", b"$$$$\n".join(parts))
        found = self.made(['"all.sdf"']).sites[0].candidates
        self.assertEqual([one.name for one in found], ["methyl", "all.sdf:2", "same (all.sdf:3)", "same (all.sdf:4)"])
        chosen = self.made(['{ sdf = "all.sdf", records = [2, "methyl"] }']).sites[0].candidates
        self.assertEqual([one.name for one in chosen], ["all.sdf:2", "methyl"])
        self.refused("has no record 5", '{ sdf = "all.sdf", records = [5] }')
        self.refused("has 2 records 'same'", '{ sdf = "all.sdf", records = ["same"] }')
        item = molfile(["H", "C", "C", "N"], [(1, 2), (2, 3), (3, 4)]) + b"> <ATTACH>\n3\n\n"
        self.put("items.sdf", item + b"$$$$\n" + item.replace(b"\n3\n", b"\nthree\n") + b"$$$$\n")
        self.assertEqual(self.one('{ sdf = "items.sdf", records = [1], join = "ATTACH" }'), ("items.sdf:1", Block(3, [(1, 2), (2, 3)]), 2))
        self.refused("is no atom's number", '{ sdf = "items.sdf", join = "ATTACH" }')
        self.refused("refused 38", '{ sdf = "items.sdf", join = "OTHER" }')

    def test_core(self):
        marked = molfile(["C", "R#", "C", "R#", "H"], [(1, 2), (1, 3), (3, 4), (3, 5)], more=["M  RGP  2   2   1   4   2"])
        self.put("core.mol", marked)
        methyl = [block("methyl", 1, [], 1)]
        library = candidates.made(text('molfile = "core.mol"\n', ('mark = "R2"', methyl), ('mark = "R1"', methyl)), self.decks, False)
        self.assertEqual((library.core, [site.atom for site in library.sites]), (Block(2, [(1, 2)]), [2, 1]))
        core = 'molfile = "core.mol"\n'
        self.refused("the dummy R2, which no site names", *methyl, core=core, where='mark = "R1"')
        self.put("plain.mol", molfile(["H", "C", "C"], [(1, 2), (2, 3)]))
        core = 'molfile = "plain.mol"\n'
        self.assertEqual(self.made(methyl, core=core, where="atom = 3").sites[0].atom, 2)
        self.refused("a hydrogen that is left out", *methyl, core=core, where="atom = 1")
        self.refused("the core has no dummy atom R1", *methyl, core=core, where='mark = "R1"')
        with self.assertRaisesRegex(candidates.BadLibrary, "its atom is that of an earlier site"):
            candidates.made(text(RING, ("atom = 1", methyl), ("atom = 1", methyl)), self.decks, False)

    def test_bad_texts(self):
        methyl = block("methyl", 1, [], 1)
        for words, wrong in (
            ("no core", "[[site]]\natom = 1\n"),
            ("not one to four sites", "[core]\n" + RING),
            ("which is none of", text(RING, ("atom = 1", [methyl])) + "color = 3\n"),
            ("has not one of `atom` and `mark`", text(RING, ("", [methyl]))),
            ("has no list `candidates`", text(RING, ("atom = 1", []))),
            ("is no name of a file and no table", text(RING, ("atom = 1", ["3"]))),
            ("has not one of molfile, sdf, folder and atoms", text(RING, ("atom = 1", ["{ join = 1 }"]))),
            ("has `records` and is no SDF", text(RING, ("atom = 1", ['{ molfile = "a.mol", records = [1] }']))),
            ("is no folder", text(RING, ("atom = 1", ['{ folder = "none" }']))),
            ("no whole number `join`", text(RING, ("atom = 1", ["{ atoms = 1 }"]))),
            ("`bonds` is no list of pairs", text(RING, ("atom = 1", ['{ atoms = 2, bonds = ["1"], join = 1 }']))),
            ("refused 3", text(RING, ("atom = 1", ['{ atoms = 2, bonds = ["1-9"], join = 1 }']))),
            ("is atom 9, and the core has 6", text(RING, ("atom = 9", [methyl]))),
            ("refused 7", text("atoms = 2\n", ("atom = 1", [methyl]))),
            ("Invalid|Expected", "[core"),
        ):
            with self.subTest(words), self.assertRaisesRegex(candidates.BadLibrary, words):
                candidates.made(wrong, self.decks, False)


if __name__ == "__main__":
    unittest.main()
