"""`tteuyomal check`: a line for every molecule and every row, verdicts that are the library's, names that stand once, files in pieces, and
nothing green that was not claimed."""

import csv
import gzip
import hashlib
import io
import json
import os
import random
import shlex
import subprocess
import unittest
import xml.etree.ElementTree as xml
from unittest import mock

from common import ROOT, text
from test_command import Room

from tteuyomal import checking, claims, decktext, guesses, native, sdf
from tteuyomal.decks import Block, Deck, Placement

RING = [(1, 2), (2, 3), (3, 4), (4, 5), (5, 6), (6, 1)]
BUTANE = [(1, 2), (2, 3), (3, 4)]


def molfile(title, symbols, bonds, more=(), kind=1):
    """A molfile as programs write it."""
    lines = [title, "  test", "", f"{len(symbols):3d}{len(bonds):3d}  0  0  0  0  0  0  0  0999 V2000"]
    lines += [f"    0.0000    0.0000    0.0000 {symbol:<3} 0  0  0  0  0  0  0  0  0  0  0  0" for symbol in symbols]
    lines += [f"{a:3d}{b:3d}{kind:3d}  0  0  0  0" for a, b in bonds]
    return "\n".join([*lines, *more, "M  END", ""])


def record(title, symbols, bonds, items=(), more=(), kind=1):
    """A record of an SDF with its data items."""
    data = "".join(f">  <{name}>\n{value}\n\n" for name, value in items)
    return molfile(title, symbols, bonds, more, kind) + data + "$$$$\n"


BENZENE = record("benzene", "C" * 6, RING)
WITH_HYDROGENS = record("all of benzene", "C" * 6 + "H" * 6, RING + [(k, k + 6) for k in range(1, 7)])
SALT = record("salt", ["Na", "Cl"], [])


class Checking(Room):
    def check(self, text, *words, table=None, name="a.sdf"):
        """The exit status and the lines; the SDF and the table are written first."""
        self.sdf = self.put(name, text if isinstance(text, bytes) else text.encode(), self.room)
        paths = [self.sdf]
        if table is not None:
            self.table = self.put("printed.csv", table.encode(), self.room)
            paths.append(self.table)
        status, said = self.run_command("check", *paths, *words)
        return status, said.splitlines()

    # ---- lines ----

    def test_lines(self):
        text = BENZENE + record("butane", "C" * 4, BUTANE) + SALT + record("ethane", "CC", [(1, 2)]) + record("methane", "C", []) + WITH_HYDROGENS
        table = "name,WPATH,WPOL\nbenzene,27,3\nbutane, 10.000 ,2\nsalt,999999999,0\nethane,nan,0\nlost,1,2\nall of benzene,174,21\n"
        status, lines = self.check(text, "W=WPATH", "polarity=WPOL", table=table)
        self.assertEqual(
            lines,
            [
                "benzene (record 1): accepted W polarity",
                "butane (record 2): differs polarity: 2 printed, 1; accepted W",
                "salt (record 3): refused 7 at 0: some pair of atoms has no path",
                'ethane (record 4): not read: "nan" as W; accepted polarity',
                "methane (record 5): no claim",
                "all of benzene (record 6): differs W: 174 printed, 27, polarity: 21 printed, 3",
                "lost (line 6): no molecule",
            ],
        )
        self.assertEqual(status, 2)

    def test_statuses(self):
        for rows, status in (
            ("benzene,27", 0), ("benzene,28", 1), ("benzene,nan", 2), ("benzene,", 2), ("benzene,  ", 2), ("other,27", 2), ("", 2),
            ("benzene,27\nother,27", 2), ("benzene,28\nother,27", 2), ("benzene,-27", 2), ("benzene,2.7e1", 2), ("benzene,27.", 0),
            ("benzene,27.5", 2), ("benzene,0027", 0), ('benzene,"27\n"', 2), ("benzene,+27", 2), (f"benzene,{'0' * 254}27", 2), (f"benzene,{'0' * 253}27", 0),
        ):  # fmt: skip
            with self.subTest(rows):
                self.assertEqual(self.check(BENZENE, "W=W", table=f"name,W\n{rows}\n")[0], status)
        self.assertEqual(self.check("", "W=W", table="name,W\n")[0], 2, "there was no molecule")
        self.assertEqual(self.check("", "W=W")[0], 2)
        self.assertEqual(self.check(BENZENE, "W=W")[0], 2, "it has no such data item")

    def test_what_was_asked_for_and_not_printed(self):
        """A cell that is empty is nothing printed: whatever else is right, that is not green."""
        status, lines = self.check(BENZENE, "W=W", "polarity=P", table="name,W,P\nbenzene,27,\n")
        self.assertEqual((status, lines), (2, ["benzene (record 1): no claim of polarity; accepted W"]))
        status, lines = self.check(BENZENE, "W=W", "polarity=P", table="name,W,P\nbenzene,28,\n")
        self.assertEqual((status, lines), (2, ["benzene (record 1): no claim of polarity; differs W: 28 printed, 27"]))

    def test_data_items(self):
        text = record("a", "C" * 6, RING, [("W", "27"), ("P", "3")]) + record("b", "C" * 6, RING, [("P", "4"), ("W", "27")])
        text += record("c", "C" * 6, RING, [("W", "27"), ("P", "3"), ("W", "28")]) + record("d", "C" * 6, RING)
        text += record("e", "C" * 6, RING, more=[">  <W>", "27"])
        status, lines = self.check(text, "W=W", "polarity=P")
        self.assertEqual(lines[:2], ["a (record 1): accepted W polarity", "b (record 2): differs polarity: 4 printed, 3; accepted W"])
        self.assertTrue(lines[2].startswith("c (record 3): refused 39 at "), lines[2])
        self.assertEqual(lines[3:], ["d (record 4): no claim", "e (record 5): no claim"])
        self.assertEqual(status, 2)
        self.assertEqual(self.check(record("", "C" * 6, RING, [("W", 27)]), "W=W"), (0, ["record 1: accepted W"]))

    def test_every_field(self):
        block = Block(4, BUTANE)
        right = dict(zip(claims.SHORT, (*block.measure().fields(), 3, block.szeged().index, *block.sets(), "1.975")))
        head, row = ",".join(right), ",".join(str(value) for value in right.values())
        words = [f"{name.upper()}={name}" for name in right]
        text, names = record("butane", "C" * 4, BUTANE), " ".join(right)
        self.assertEqual(self.check(text, *words, table=f"id,{head}\nbutane,{row}\n"), (0, [f"butane (record 1): accepted {names}"]))
        for name in right:
            wrong = ",".join("7.5" if name == "J" == key else "777" if key == name else str(value) for key, value in right.items())
            status, (line,) = self.check(text, *words, table=f"id,{head}\nbutane,{wrong}\n")
            self.assertTrue(status == 1 and line.startswith(f"butane (record 1): differs {name}: 7"), line)
        _, (line,) = self.check(text, "J=J", table="id,J\nbutane,2.732\n")
        self.assertEqual(line, "butane (record 1): differs J: 2.732 printed, 1.974744870 to 1.974744880")
        status, (line,) = self.check(BENZENE, "W=W", "Hosoya=Z", table="id,W,Z\nbenzene,27,18\n")
        self.assertEqual((status, line[:35]), (2, "benzene (record 1): refused 34 at 0"))

    def test_refused_in_words(self):
        large = record("large", "C" * 65, [(k, k % 65 + 1) for k in range(1, 66)])
        v3000 = "new\n\n\n  0  0  0     0  0            999 V3000\nM  V30 BEGIN CTAB\nM  END\n$$$$\n"
        broken = BENZENE.replace("  6  6  0", "  6  x  0")
        status, lines = self.check(large + v3000 + broken, "W=W")
        self.assertEqual(status, 2)
        self.assertTrue(lines[0].startswith("large (record 1): refused 1 at 0: the atom count is 0 or above 64 (a ring system of 65 atoms "), lines[0])
        self.assertEqual(lines[1], f"new (record 2): refused 1 at 0: {native.WORDS[1]} (the file says V3000, and V2000 is read)")
        self.assertTrue(lines[2].startswith("benzene (record 3): refused 26 at ") and lines[2].endswith("(line 4)"), lines[2])

    # ---- names ----

    def test_a_name_that_stands_twice(self):
        two = BENZENE + record("other", "C", []) + BENZENE
        self.assertEqual(self.check(two, "W=W", table="name,W\nbenzene,27\n")[0], 2)
        self.assertIn('"benzene" names two molecules, record 1 and record 3: ', self.fault)
        self.assertEqual(self.check(two, "W=W", table="name,W\nother,0\n")[0], 2, "whether or not a row has it")
        self.assertIn("record 1 and record 3", self.fault)
        for rows in ("benzene,27\nx,1\nbenzene,27\n", 'benzene,27\n"x\ny",1\n benzene ,28\n'):
            self.assertEqual(self.check(BENZENE, "W=W", table=f"name,W\n{rows}")[0], 2)
            self.assertIn('"benzene" stands twice in column name: line 2 and line ' + ("4" if "x\ny" not in rows else "5"), self.fault)
        self.assertEqual(self.check(two, "W=W", "--by", "number", table="number,W\n1,27\n2,0\n3,27\n")[0], 0)
        other, both = self.put("b.sdf", BENZENE.encode(), self.room), self.put("n.csv", b"n,W\n1,27\n2,0\n3,27\n4,27\n", self.room)
        self.assertEqual(self.run_command("check", self.sdf, other, both, "W=W", "--by", "number")[0], 0, "the number is that among all")
        text = "".join(record("same", "C" * 6, RING, [("ID", f"x{k}")]) for k in range(3))
        self.assertEqual(self.check(text, "W=W", "--id-item", "ID", table="W,ID\n27,x2\n27,x0\n27,x1\n", )[0], 2, "the first column has the names")
        self.assertEqual(self.check(text, "W=W", "--id-item", "ID", "--id", "ID", table="W,ID\n27,x2\n27,x0\n27,x1\n")[0], 0)

    def test_no_name(self):
        status, lines = self.check(record("  ", "C" * 6, RING) * 2, "W=W", table="name,W\n,27\n")
        self.assertEqual((status, lines), (2, ["record 1: no claim", "record 2: no claim", "line 2: no molecule: the row has no name"]))

    def test_molfiles_and_folders(self):
        for name, bonds in (("ring", RING), ("path", [(k, k + 1) for k in range(1, 6)])):
            self.put(f"m/{name}.mol", molfile("the same title", "C" * 6, bonds).encode(), self.room)
        folder = os.path.join(self.room, "m")
        table = self.put("t.tsv", b"file\tW\nring\t27\npath.mol\t35\n", self.room)
        for paths in ([folder], [os.path.join(folder, "path.mol"), os.path.join(folder, "ring.mol")]):
            status, said = self.run_command("check", *paths, table, "W=W")
            self.assertEqual((status, [line.rsplit("/", 1)[-1] for line in said.splitlines()]), (0, ["path.mol: accepted W", "ring.mol: accepted W"]))
        self.put("m/notes.txt", b"", self.room)
        self.put("m/sub/ring.mol", molfile("", "C" * 6, RING).encode(), self.room)
        status, said = self.run_command("check", folder, table, "W=W")
        self.assertEqual(status, 2)
        self.assertEqual(said.splitlines()[0].partition(": ")[2].partition(": ")[0], "cannot be read")
        self.assertEqual(said.splitlines()[3], "sub/ring.mol: no claim")
        self.put("m/ring.sdf", BENZENE.encode(), self.room)
        self.assertEqual(self.run_command("check", folder, table, "W=W", "--by", "file")[0], 2)
        self.assertIn('names two molecules, ring.mol and ring.sdf, record 1: ', self.fault)
        self.put("two.mol", (molfile("", "C" * 6, RING) + "$$$$\n" + BENZENE).encode(), self.room)
        self.assertEqual(self.run_command("check", os.path.join(self.room, "two.mol"), "W=W")[1].count("\n"), 2, "no record is passed over")

    def test_words_that_mean_nothing(self):
        for words, said in (
            ([], "nothing is claimed"), (["W=a", "w=b"], "W is claimed twice"), (["X=a"], "no field has this name"),
            (["W=nothing"], "no column is called nothing; there are name, W"), (["W=W", "--id", "x"], "no column is called x"),
        ):  # fmt: skip
            status, lines = self.check(BENZENE, *words, table="name,W\nbenzene,27\n")
            self.assertEqual(status, 2)
            self.assertIn(said, self.fault + "\n".join(lines))
        self.assertEqual(self.run_command("check", "W=W")[0], 2)
        self.assertEqual(self.check(BENZENE, "W=W", table="name,W,W\nbenzene,27,27\n")[0], 2)
        self.assertIn("two columns are called W: 2 and 3", self.fault)
        self.assertEqual(self.check(BENZENE, "W=W", table="name,W\nbenzene,27,5\n")[0], 2)
        self.assertIn("line 2 has 3 cells, and the first line has 2", self.fault)
        self.assertEqual(self.check(BENZENE, "W=W", table='name,W\nbenzene,"2"7\n')[0], 2)
        self.assertEqual(self.check(BENZENE, "W=W", table="")[0], 2)
        status, lines = self.check(BENZENE, "-q", "W=W", "--id", "name", table="\ufeffname,W\nbenzene,27\n")
        self.assertEqual((status, lines), (0, []), "a mark at the front is no letter, and words may stand behind options")

    # ---- files in pieces ----

    def test_pieces(self):
        """However a file is handed over, piece by piece, its records are those of the whole."""
        rng = random.Random(3)
        parts = [BENZENE, "\n\n$$$$\n", SALT.replace("\n", "\r\n"), "$$$$ and more\n", "   \n", "no end", "\n $$$$\n", "$$$", "$\n$$$$\r\n", "$$$$"]
        for _ in range(200):
            text = "".join(rng.choice(parts) for _ in range(rng.randrange(7))).encode()
            whole, at = [], 0
            while (found := native.sdf_record(text, at)) is not None:
                whole.append(text[found.start : found.start + found.length])
                at = found.next
            for size in (1, 2, 7, 50, 1 << 20):
                source = io.BytesIO(text)
                with mock.patch.object(sdf, "PIECE", size):
                    pieces = list(sdf.records(lambda count: source.read(min(count, size))))
                self.assertEqual([piece.data for piece in pieces], whole)
                self.assertEqual([piece.number for piece in pieces], list(range(1, len(whole) + 1)))

    def test_packed(self):
        text = (BENZENE + SALT).encode()
        expected = self.check(text, "W=W", table="name,W\nbenzene,27\nsalt,1\n")
        for packed in (gzip.compress(text), gzip.compress(BENZENE.encode()) + gzip.compress(SALT.encode())):
            self.assertEqual(self.check(packed, "W=W", table="name,W\nbenzene,27\nsalt,1\n", name="a.sdf.gz"), expected)
            status, lines = self.check(packed[:-9], "W=W", table="name,W\nbenzene,27\nsalt,1\n", name="a.sdf.gz")
            self.assertEqual(status, 2)
            self.assertIn("cannot be read", "\n".join(lines))
        self.assertIn("cannot be read", self.check(b"no gzip", "W=W", name="a.sdf.gz")[1][0])

    def test_a_record_without_end(self):
        with mock.patch.object(sdf, "LONGEST", 3000), mock.patch.object(sdf, "PIECE", 1000):
            status, lines = self.check(BENZENE + "x\n" * 5000, "W=W")
        self.assertEqual((status, lines[1].partition(": ")[2]), (2, "cannot be read: record 2 is longer than 3000 bytes"))

    def test_standard_input(self):
        with self.process("check", "-", "W=W", stdin=subprocess.PIPE, stdout=subprocess.PIPE, stderr=subprocess.DEVNULL) as run:
            said = run.communicate(record("a", "C" * 6, RING, [("W", 27)]).encode())[0]
        self.assertEqual((run.returncode, said), (0, b"a (record 1): accepted W\n"))

    # ---- one run ----

    def test_files_of_one_run(self):
        text = BENZENE + WITH_HYDROGENS + SALT + record("none", "C", [])
        table = "name,W\nbenzene,27\nall of benzene,174\nsalt,1\nlost,2\n"
        paths = {form: os.path.join(self.room, f"out.{form}") for form in ("json", "csv", "junit", "board", "notice")}
        asked = [word for form, path in paths.items() for word in (f"--{form}", path)]
        status, lines = self.check(text, "W=W", *asked, "--program", "CDK 2.8", "--expect", "4", table=table)
        self.assertEqual((status, len(lines)), (2, 5))
        made = {form: self.read(path).decode() for form, path in paths.items()}
        for form in ("board", "notice"):
            for path in (self.sdf, self.table):
                self.assertIn(hashlib.sha256(self.read(path)).hexdigest(), made[form])
                self.assertIn(os.path.basename(path), made[form])
            self.assertIn("CDK 2.8", made[form])
        objects = [json.loads(line) for line in made["json"].splitlines()]
        self.assertEqual([one["verdict"] for one in objects], ["accepted", "differs", "refused", "no claim", "no molecule"])
        self.assertEqual((objects[1]["claimed"], objects[1]["worked_out"], objects[1]["fields"]), ({"W": "174"}, {"W": 27}, {"W": "differs"}))
        self.assertEqual(objects[1]["guesses"], [guesses.HYDROGENS])
        self.assertEqual((objects[0]["record"], objects[0]["line"], objects[4]["line"]), (1, 2, 5))
        rows = list(csv.DictReader(io.StringIO(made["csv"])))
        self.assertEqual([row["verdict"] for row in rows], [one["verdict"] for one in objects])
        self.assertEqual((rows[1]["W printed"], rows[1]["W"], rows[1]["W verdict"]), ("174", "27", "differs"))
        suite = xml.fromstring(made["junit"].encode()).find("testsuite")
        self.assertEqual([suite.get(key) for key in ("tests", "failures", "errors")], ["5", "1", "3"])
        self.assertIn("Not accepted: 4 of 5 ", made["notice"])
        self.assertIn("3 of 4 molecules not accepted; 1 row of the table with no molecule", made["board"])
        numbers = {one["run"] for one in objects} | {row["run"] for row in rows}
        self.assertEqual(len(numbers), 1)
        for form in ("board", "notice", "junit"):
            self.assertIn(next(iter(numbers)), made[form])
        self.assertEqual(self.run_command("verify", paths["notice"], self.room)[0], 2)
        self.assertIn("a notice of molecules", self.fault)

    def test_a_program_that_is_a_file(self):
        program, notice = self.put("program.jar", b"code", self.room), os.path.join(self.room, "n.txt")
        self.check(BENZENE, "W=W", "--program", program, "--notice", notice, table="name,W\nbenzene,27\n")
        self.assertIn(f"Program: {program}, SHA-256 {hashlib.sha256(b'code').hexdigest()}\n", self.read(notice).decode())

    def test_a_long_table(self):
        """Rows are taken in parts: a name that stands twice is found in one part and over two."""
        rows = [f"m{k},0\n" for k in range(7)]
        text = "".join(record(f"m{k}", "C", []) for k in reversed(range(7)))
        with mock.patch.object(claims, "_ROWS", 2):
            self.assertEqual(self.check(text, "W=W", table="name,W\n" + "".join(rows))[0], 0)
            for first, second in ((0, 1), (0, 2), (1, 5), (5, 7)):
                self.assertEqual(self.check(text, "W=W", table="".join(["name,W\n", *rows[:second], rows[first], *rows[second:]]))[0], 2)
                self.assertIn(f'"m{first}" stands twice in column name: line {first + 2} and line {second + 2}', self.fault)
            status, lines = self.check(record("m3", "C", []), "W=W", table="name,W\n" + "".join(rows))
        self.assertEqual((status, lines), (2, ["m3 (record 1): accepted W", *(f"m{k} (line {k + 2}): no molecule" for k in (0, 1, 2, 4, 5, 6))]))

    def test_green_only_if_all_is(self):
        table, paths = "name,W\nbenzene,27\n", [os.path.join(self.room, name) for name in ("b.html", "n.txt")]
        for text, more, green in ((BENZENE, "", True), (BENZENE, "lost,1\n", False), (BENZENE + SALT, "", False), ("", "", False)):
            self.check(text, "W=W", "--board", paths[0], "--notice", paths[1], table=table + more)
            board, notice = (self.read(path).decode() for path in paths)
            self.assertEqual('<h1 class="accepted"' in board, green)
            self.assertEqual("checked and accepted" in notice, green)
        status, _ = self.check(BENZENE, "W=W", "--board", paths[0], "--expect", "2", table=table)
        self.assertEqual((status, '<h1 class="accepted"' in self.read(paths[0]).decode()), (2, False))
        self.assertIn("expected 2 molecules, found 1", self.fault)
        self.check(BENZENE + BENZENE, "W=W", "--board", paths[0], table=table)
        self.assertIn("The run failed", self.read(paths[0]).decode())

    def test_an_output_over_an_input(self):
        status, _ = self.check(BENZENE, "W=W", "--csv", os.path.join(self.room, "printed.csv"), table="name,W\nbenzene,27\n")
        self.assertEqual((status, self.read(self.table)), (2, b"name,W\nbenzene,27\n"))

    def test_many_processes(self):
        text = "".join(record(f"m{k}", "C" * 6, RING) for k in range(1500))
        table = "name,W\n" + "".join(f"m{k},{27 + (k % 5 == 0)}\n" for k in reversed(range(1500)))
        one, two = (self.check(text, "W=W", "-j", jobs, table=table) for jobs in ("1", "3"))
        self.assertEqual(one, two)
        self.assertEqual((one[0], sum("differs" in line for line in one[1])), (1, 300))

    def test_the_table_at_the_end(self):
        text = WITH_HYDROGENS + record("small", "C" * 4, BUTANE) + SALT
        self.check(text, "W=W", "polarity=P", table="name,W,P\nall of benzene,174,3\nsmall,20,1\nsalt,1,1\n")
        for words in (
            "accepted  differs  refused", "W                0        2        1", "polarity         2        0        1",
            "W differs: small (record 2), 4 atoms: 20 printed, 10", f"{guesses.HYDROGENS}: W 1; as all of benzene (record 1)", f"{guesses.TWICE}: W 1; as small (record 2)", "no part of any verdict",
        ):  # fmt: skip
            self.assertIn(words, self.fault)


class Readme(Room):
    def test_line(self):
        """The line of docs/COMMAND.md, in examples/desk."""
        line = next(line for line in text("docs", "COMMAND.md").splitlines() if line.startswith("    tteuyomal check molecules.sdf printed.csv"))
        here, notice = os.getcwd(), os.path.join(self.room, "notice.txt")
        self.addCleanup(os.chdir, here)
        os.chdir(os.path.join(ROOT, "examples", "desk"))
        status, said = self.run_command(*shlex.split(line.replace("--board board.html ", ""))[1:-1], notice)
        self.assertEqual((status, said.count("accepted W polarity\n"), said.count("\n")), (0, 4, 4))
        self.assertIn("Program: CDK 2.8\n", self.read(notice).decode())


class Guessing(unittest.TestCase):
    """Guesses at the cause; each is made where it fits."""

    def guess(self, text, printed):
        block = native.read_molfile(text.encode())
        judge = checking.Judge([claims.Asked(field, "") for field in printed], False, False, 1)
        said = b"".join(claims.claim(field, str(value).encode()) for field, value in printed.items())
        checked = judge.check(checking.Item("x", "", 1, "x", text.encode(), said))
        self.assertEqual((checked.word, checked.atoms), ("differs", block.atoms))
        return {guess for _, guess in checked.guessed}

    def test_each(self):
        ethane = molfile("", "CCH", [(1, 2), (2, 3)], ["M  ISO  1   3   2"])
        for text, printed, guess in (
            (WITH_HYDROGENS, {1: 12}, guesses.HYDROGENS), (WITH_HYDROGENS, {2: 174}, guesses.HYDROGENS), (ethane, {2: 4}, guesses.ISOTOPES),
            (molfile("", "CCD", [(1, 2), (2, 3)]), {1: 2}, guesses.HEAVY), (molfile("", "C" * 6, RING, kind=4), {2: 5}, guesses.TYPE_4),
            (molfile("", "C" * 6, RING, ["A    1", "Me"]), {2: 5}, guesses.ALIASES), (molfile("", "CC", [(1, 2)], kind=2), {2: "0.5"}, None),
            (molfile("", "C" * 3, [(1, 2), (2, 3)], kind=2), {2: 2}, guesses.ORDERS), (BENZENE, {2: 54}, guesses.TWICE), (BENZENE, {5: 6}, guesses.TWICE),
            (BENZENE, {2: 39}, guesses.PART), (BENZENE, {2: 42}, guesses.PART), (BENZENE, {3: 15, 4: 12}, guesses.EXCHANGED), (BENZENE, {3: 6}, guesses.HALF),
            (BENZENE, {6: 4}, guesses.ONE_MORE),
        ):  # fmt: skip
            with self.subTest(printed=printed, guess=guess):
                if guess is not None:
                    self.assertIn(guess, self.guess(text, printed))
        self.assertEqual(self.guess(BENZENE, {2: 31}), set())


class Records(Room):
    """Every record of an SDF in `measure` and in deck texts."""

    def test_measure(self):
        path = self.put("a.sdf", (BENZENE + SALT + WITH_HYDROGENS).encode())
        status, said = self.run_command("measure", path)
        lines = said.splitlines()
        self.assertEqual(status, 2)
        for line, front in zip(lines, ("record 1: atoms 6 bonds 6 W 27", "record 2: refused 7 at 0", "record 3: atoms 6 bonds 6 W 27"), strict=True):
            self.assertTrue(line.startswith(f"{path}, {front}"), line)
        packed = self.put("b.sd.gz", gzip.compress(BENZENE.encode()))
        (said,) = [json.loads(line) for line in self.run_command("measure", "--json", packed)[1].splitlines()]
        self.assertEqual((said["record"], said["indices"]["W"]), (1, 27))
        self.assertEqual(said["sha256"], hashlib.sha256(BENZENE.removesuffix("$$$$\n").encode()).hexdigest())
        self.assertIn("it has no record", self.run_command("measure", self.put("c.sdf", b"\n"))[1])
        v3000 = self.put("d.mol", b"\n\n\n  0  0  0     0  0            999 V3000\nM  END\n")
        self.assertIn("V3000", self.run_command("measure", v3000)[1])

    def test_deck(self):
        self.put("a.sdf", (BENZENE + SALT).encode())
        self.put("b.sdf.gz", gzip.compress(BENZENE.encode()))
        text = "[[block]]\nnumber = 1\n{}\n[[placement]]\nblock = 1\n"
        right = bytes(Deck({1: Block(6, RING)}, [Placement(1)]))
        for words in ('sdf = "a.sdf"\nrecord = 1', 'sdf = "b.sdf.gz"\nrecord = 1', 'molfile = "b.sdf.gz"'):
            self.assertEqual(decktext.made(text.format(words), self.decks), right)
        for words, said in (
            ('sdf = "a.sdf"', "no whole number `record`"), ('sdf = "a.sdf"\nrecord = 3', "it has no record 3: there are 2, from 1 on"),
            ('sdf = "a.sdf"\nrecord = 2', "refused 7 at 0"), ('sdf = "a.sdf"\nrecord = 0', "no record 0"), ('molfile = "a.sdf"', "more than one record"),
            ('record = 1\natoms = 1', "`record`, which goes with `sdf`"), ('sdf = "x.sdf"\nrecord = 1', "cannot be read"),
        ):  # fmt: skip
            with self.assertRaises(decktext.BadText) as raised:
                decktext.made(text.format(words), self.decks)
            self.assertIn(said, str(raised.exception))


if __name__ == "__main__":
    unittest.main()
