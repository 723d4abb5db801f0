"""The command: exit statuses, lines, objects, texts, and outputs that are whole or not there."""

import contextlib
import hashlib
import io
import json
import os
import random
import shutil
import signal
import stat
import struct
import subprocess
import sys
import tempfile
import time
import unittest
from unittest import mock

from common import FORTY, JUDGED, LIBRARY, PYTHON, RIGHT, RIGHT_SIX, ROOT, sheet, sheet_of_six

from tteuyomal import command, decktext, files, judging, native
from tteuyomal.decks import Block, Deck, Placement, Sheet

GOOD, WRONG = FORTY + RIGHT, FORTY + sheet(12, 198, 97, 101, 14)
REFUSED = FORTY[:13] + b"\x02" + FORTY[14:] + RIGHT
PROGRAM = os.path.join(ROOT, "target", "bin", "judge")


class Room(unittest.TestCase):
    """A folder of its own for each test, and the command run in this process."""

    def setUp(self):
        room = tempfile.TemporaryDirectory()
        self.addCleanup(room.cleanup)
        self.room = room.name
        self.decks = self.folder("decks")

    def folder(self, name):
        path = os.path.join(self.room, name)
        os.makedirs(path, exist_ok=True)
        return path

    def put(self, name, data, folder=None):
        path = os.path.join(folder or self.decks, name)
        os.makedirs(os.path.dirname(path), exist_ok=True)
        with open(path, "wb") as file:
            file.write(data)
        return path

    def run_command(self, *words):
        """The exit status and what was printed."""
        out, fault = io.TextIOWrapper(io.BytesIO(), "utf-8"), io.StringIO()
        with contextlib.redirect_stdout(out), contextlib.redirect_stderr(fault):
            try:
                status = command.main(list(words))
            except SystemExit as end:
                status = end.code
        out.flush()
        self.fault = fault.getvalue()
        return status, out.buffer.getvalue().decode()

    def process(self, *words, **more):
        environment = os.environ | {"PYTHONPATH": PYTHON}
        return subprocess.Popen([sys.executable, "-m", "tteuyomal", *words], env=environment, **more)

    def read(self, path):
        with open(path, "rb") as file:
            return file.read()


class Judging(Room):
    def test_statuses(self):
        good, wrong, refused = self.put("a", GOOD), self.put("b", WRONG), self.put("c", REFUSED)
        missing = os.path.join(self.decks, "missing")
        for paths, status in (
            ([good], 0),
            ([good, good], 0),
            ([wrong], 1),
            ([good, wrong, good], 1),
            ([refused], 2),
            ([wrong, refused], 2),
            ([refused, wrong], 2),
            ([good, missing], 2),
            ([missing], 2),
            ([], 2),
            ([self.folder("empty")], 2),
            ([good, self.folder("empty")], 0),
            ([self.decks], 2),
        ):
            with self.subTest(paths):
                self.assertEqual(self.run_command("judge", *paths)[0], status)
                self.assertEqual(self.run_command("judge", "--json", *paths)[0], status)

    def test_lines(self):
        lines = []
        for place, (data, line) in enumerate(JUDGED):
            lines.append(f"{self.put(f'{place:02d}', data)}: {line}\n")
        self.assertEqual(self.run_command("judge", self.decks), (2, "".join(lines)))
        if os.path.exists(PROGRAM):
            names = [line.rsplit(": ", 1)[0] for line in lines] + [os.path.join(self.room, "missing"), self.folder("x")]
            said = subprocess.run([PROGRAM, *names], capture_output=True, text=True).stdout
            missing = f"{names[-2]}: cannot be read\n"
            self.assertEqual(self.run_command("judge", *names[:-2])[1] + missing, "".join(said.splitlines(True)[:-1]))

    def test_objects(self):
        for name, data in (("a", GOOD), ("b", WRONG), ("c", REFUSED), ("d", bytes(40000))):
            self.put(name, data)
        os.symlink("nowhere", os.path.join(self.decks, "e"))
        status, said = self.run_command("judge", "--json", self.decks)
        accepted, differs, refused, long, unread = map(json.loads, said.splitlines())
        right = {"atoms": 12, "W": 198, "even": 96, "odd": 102, "polarity": 14}
        self.assertEqual(status, 2)
        self.assertEqual((accepted["verdict"], accepted["claimed"], accepted["worked_out"]), ("accepted", right, right))
        self.assertEqual(accepted["sha256"], hashlib.sha256(GOOD).hexdigest())
        self.assertEqual((differs["verdict"], differs["field"]), ("differs", 3))
        self.assertEqual((differs["claimed"], differs["worked_out"]), (right | {"even": 97, "odd": 101}, right))
        refusal = {"number": 4, "place": 12 if REFUSAL_AT_BOND else 0, "words": native.WORDS[4]}
        self.assertEqual((refused["verdict"], refused["refusal"]), ("refused", refusal))
        self.assertEqual((long["refusal"]["number"], long["sha256"]), (20, hashlib.sha256(bytes(40000)).hexdigest()))
        self.assertEqual((unread["verdict"], unread["sha256"]), ("cannot be read", None))
        self.assertEqual(unread["fault"], "no such file or directory")

    def test_names(self):
        for name in (b"two\nlines: accepted", b"no \xff utf-8", b"<script>", b"back\\slash", "żółć".encode()):
            self.put(os.fsdecode(name), GOOD)
        status, said = self.run_command("judge", self.decks)
        self.assertEqual(status, 0)
        names = sorted(line[len(self.decks) + 1 : -len(": accepted")] for line in said.splitlines())
        self.assertEqual(names, sorted(["<script>", "back\\\\slash", "no \\xff utf-8", "two\\nlines: accepted", "żółć"]))
        objects = [json.loads(line) for line in self.run_command("judge", "--json", self.decks)[1].splitlines()]
        exact = {bytes.fromhex(one["file_bytes"]).rsplit(b"/", 1)[1] for one in objects if "file_bytes" in one}
        self.assertEqual(exact, {b"two\nlines: accepted", b"no \xff utf-8"})

    def test_no_two_names_are_alike(self):
        names = [b"lit\\n", b"lit\n", b"\\x85", b"\x85", "\x85".encode(), b"\\", b"\\\\", b"\x1b", b"\\x1b", b"\xc2", "Â".encode(), b"tab\t", b"tab\\t"]
        for name in names:
            self.put(os.fsdecode(name), GOOD)
        said = self.run_command("judge", self.decks)[1].splitlines()
        self.assertEqual(len(set(said)), len(names))
        self.assertEqual({files.meant(line[len(self.decks) + 1 : -len(": accepted")]) for line in said}, {os.fsdecode(name) for name in names})

    def test_nothing_is_passed_over(self):
        self.put(".hidden", GOOD)
        self.put("sub/deck", GOOD)
        os.mkfifo(os.path.join(self.decks, "pipe"))
        os.symlink(self.decks, os.path.join(self.decks, "round"))
        os.symlink(self.put("real", GOOD, self.room), os.path.join(self.decks, "link"))
        status, said = self.run_command("judge", self.decks)
        verdicts = {line[len(self.decks) + 1 :] for line in said.splitlines()}
        expected = {".hidden: accepted", "sub/deck: accepted", "link: accepted", "pipe: cannot be read: no file"}
        expected.add("round: cannot be read: a link to a folder")
        self.assertEqual((status, verdicts), (2, expected))

    def test_many(self):
        kinds = [GOOD, WRONG, REFUSED, b""]
        for number in range(1300):
            self.put(f"{number % 3}/{number:05d}", kinds[number * 7 % 11 % 4])
        one = self.run_command("judge", "-j", "1", self.decks)
        self.assertEqual(len(one[1].splitlines()), 1300)
        self.assertEqual(self.run_command("judge", "-j", "2", self.decks), one)
        with mock.patch.object(files, "_HELD", 7):
            self.assertEqual(self.run_command("judge", "-j", "1", self.decks), one)
        names = [line.rsplit(": ", 1)[0] for line in one[1].splitlines()]
        self.assertEqual(names, sorted(names))

    def test_output_that_fails(self):
        deck = self.put("a", GOOD)
        for words in (["judge", deck], ["judge", "--json", deck], ["explain", deck], ["show", deck], ["sheet", self.put("b", FORTY)]):
            with self.subTest(words), open("/dev/full", "wb") as full:
                one = self.process(*words, stdout=full, stderr=subprocess.PIPE)
                self.assertIn(b"No space left", one.communicate()[1])
                self.assertEqual(one.returncode, 2)
        gone = self.process("judge", deck, stdout=subprocess.PIPE, stderr=subprocess.PIPE)
        gone.stdout.close()
        self.assertEqual((gone.stderr.read(), gone.wait()), (b"", 2))
        gone.stderr.close()
        closed = subprocess.run(["bash", "-c", f'exec "{sys.executable}" -m tteuyomal judge "{deck}" >&-'],
                                env=os.environ | {"PYTHONPATH": PYTHON}, stderr=subprocess.PIPE)  # fmt: skip
        self.assertEqual(closed.returncode, 2)

    def test_a_fault_is_never_a_verdict(self):
        deck = self.put("a", GOOD)
        with mock.patch.object(judging, "judge_file", side_effect=RuntimeError("a fault")):
            self.assertEqual(self.run_command("judge", deck), (2, ""))
        with mock.patch.dict(os.environ, {"TTEUYOMAL_SO": os.path.join(self.room, "nowhere.so")}):
            one = self.process("judge", deck, stdout=subprocess.PIPE, stderr=subprocess.PIPE)
            out, fault = one.communicate()
        self.assertEqual((one.returncode, out), (2, b""))
        self.assertIn(b"`make`", fault)

    def test_standard_input(self):
        one = self.process("judge", "-", stdin=subprocess.PIPE, stdout=subprocess.PIPE)
        self.assertEqual((one.communicate(GOOD)[0], one.returncode), (b"-: accepted\n", 0))

    def test_dask_that_is_not_there(self):
        with mock.patch.dict(sys.modules, {"distributed": None}):
            status, said = self.run_command("judge", "--dask", "tcp://127.0.0.1:1", self.put("a", GOOD))
        self.assertEqual((status, said), (2, ""))
        self.assertIn("python3-distributed", self.fault)

    def test_usage(self):
        for words in ([], ["judge", "--no-such"], ["nothing"], ["judge", "-j", "0", self.decks], ["board", self.decks]):
            self.assertEqual(self.run_command(*words)[0], 2)
        self.assertEqual(self.run_command("--version")[0], 0)


class Explaining(Room):
    def test_statuses(self):
        for data, status in ((GOOD, 0), (WRONG, 1), (REFUSED, 2), (FORTY, 2), (b"", 2), (bytes(5), 2), (bytes(40000), 2)):
            self.assertEqual(self.run_command("explain", self.put("a", data))[0], status)
        self.assertEqual(self.run_command("explain", os.path.join(self.decks, "missing"))[0], 2)

    def test_words(self):
        said = self.run_command("explain", self.put("a", WRONG))[1]
        for words in ("block 1: 6 atoms, 6 bonds", "1-2 2-3 3-4 4-5 5-6 6-1", "its atom 1 bonded to atom 1 of placement 1",
                      "differs 3: the first wrong field is even part; wrong too: odd part."):  # fmt: skip
            self.assertIn(words, said)
        said = self.run_command("explain", self.put("a", REFUSED))[1]
        self.assertIn(f"refused 4 at {12 if REFUSAL_AT_BOND else 0}: {native.WORDS[4]}.", said)
        self.assertIn("block 1", said)
        nobody = bytearray(GOOD)
        nobody[34] = 9  # placement 2 asks for block 9
        said = self.run_command("explain", self.put("a", nobody))[1]
        self.assertIn("Byte 34 is in placement 2: block 9", said)
        self.assertIn("[09]", said)
        self.assertIn("nothing to judge", self.run_command("explain", self.put("a", FORTY))[1])

    def test_parts(self):
        """A block in parts is told which atoms have paths to each other."""
        for atoms, bonds, words in (
            (6, "", "It is in 6 parts: atoms 1; 2; 3; 4; 5; 6."),
            (5, "0103 0305", "It is in 3 parts: atoms 1 3 5; 2; 4."),
            (64, "".join(f"{k:02x}{k + 2:02x}" for k in range(1, 63)), f"It is in 2 parts: atoms {' '.join(map(str, range(1, 64, 2)))}; {' '.join(map(str, range(2, 65, 2)))}."),
        ):  # fmt: skip
            ends = bytes.fromhex(bonds)
            deck = struct.pack("<HHHHH", 6 + len(ends), 1, 1, atoms, len(ends) // 2) + ends + FORTY[22:26] + b"\1\0" + FORTY[28:34]
            deck = deck.replace(b"\x0e\0\2\0", b"\x08\0\2\0") + RIGHT
            status, said = self.run_command("explain", self.put("a", deck))
            self.assertEqual((status, said.splitlines()[-1]), (2, words))

    def test_a_text_is_no_deck(self):
        said = self.run_command("explain", self.put("a", decktext.shown(GOOD).encode()))[1]
        self.assertIn("Byte 0 is the first byte of a record of kind ", said)
        self.assertNotIn("record of a record", said)
        self.assertIn("This file is a text and no deck", said)
        self.assertNotIn("is a text", self.run_command("explain", self.put("a", REFUSED))[1])

    def test_any_bytes(self):
        chance = random.Random(5)
        for _ in range(300):
            data = bytearray(GOOD[: chance.randrange(len(GOOD) + 1)])
            for _ in range(chance.randrange(4)):
                if data:
                    data[chance.randrange(len(data))] = chance.randrange(256)
            judged = judging.judge_bytes("deck", bytes(data), "")
            self.assertIn(judged.verdict().split()[0], "\n".join(__import__("tteuyomal.explain").explain.explained(judged)))


class Sheets(Room):
    def test_fields(self):
        deck = self.put("a", FORTY)
        line = f"{deck}: atoms 12 W 198 even 96 odd 102 polarity 14\n"
        self.assertEqual(self.run_command("sheet", deck), (0, line))
        self.assertEqual(self.run_command("sheet", deck, self.put("b", GOOD)), (2, line + f"{self.decks}/b: refused 11 at 40\n"))
        self.assertEqual(self.run_command("sheet")[0], 2)
        said = json.loads(self.run_command("sheet", "--json", deck)[1])
        self.assertEqual(said["worked_out"], {"atoms": 12, "W": 198, "even": 96, "odd": 102, "polarity": 14})

    def test_six_fields(self):
        deck, other = self.put("a", FORTY), os.path.join(self.room, "b")
        self.assertEqual(self.run_command("sheet", "--six", deck), (0, f"{deck}: atoms 12 W 198 even 96 odd 102 polarity 14 largest 7\n"))
        said = json.loads(self.run_command("sheet", "--six", "--json", deck)[1])
        self.assertEqual(said["worked_out"]["largest"], 7)
        self.assertEqual(self.run_command("sheet", "--six", deck, "--append", other), (0, ""))
        self.assertEqual(self.read(other), FORTY + RIGHT_SIX)
        said = json.loads(self.run_command("judge", "--json", other)[1].splitlines()[0])
        self.assertEqual((said["verdict"], said["claimed"], said["worked_out"]["largest"]), ("accepted", said["worked_out"], 7))

    def test_append(self):
        deck, other = self.put("a", FORTY), os.path.join(self.room, "b")
        self.assertEqual(self.run_command("sheet", deck, "--append", other), (0, ""))
        self.assertEqual(self.fault, f"tteuyomal: {other} has the library's own sheet: to judge it accepts it, and checks no program\n")
        self.assertIn("checks no program", " ".join(self.run_command("sheet", "--help")[1].split()))
        self.assertEqual((self.read(other), self.read(deck)), (GOOD, FORTY))
        os.link(deck, os.path.join(self.room, "hard"))
        os.symlink(deck, os.path.join(self.room, "soft"))
        for same in (deck, os.path.join(self.room, "hard"), os.path.join(self.room, "soft"), os.path.join(self.decks, "..", "decks", "a")):
            self.assertEqual(self.run_command("sheet", deck, "--append", same)[0], 2)
            self.assertEqual(self.read(deck), FORTY)
        bad = self.put("bad", FORTY[:-1])
        self.assertEqual(self.run_command("sheet", bad, "--append", other)[0], 2)
        self.assertEqual(self.read(other), GOOD, "a refusal leaves what was there")
        self.assertEqual(self.run_command("sheet", deck, "--append", os.path.join(self.room, "no", "where"))[0], 2)
        self.assertEqual([name for name in os.listdir(self.room) if "part" in name], [])


class Measuring(Room):
    NAPHTHALENE = Block(10, [(k, k + 1) for k in range(1, 10)] + [(10, 1), (1, 6)])

    def test_molfile(self):
        file = self.put("a.mol", self.NAPHTHALENE.molfile())
        status, said = self.run_command("measure", file)
        self.assertEqual(status, 0)
        self.assertTrue(said.startswith(f"{file}: atoms 10 bonds 11 W 109 even 52 odd 57 polarity 12 "), said)
        for words in ("largest 5", "J 1.925367726", "Szeged 243"):
            self.assertIn(words, said)
        self.assertNotIn("Hosoya", said, "the block is no tree")
        tree = self.put("b.mol", Block(4, [(1, 2), (2, 3), (3, 4)]).molfile())
        self.assertIn("Hosoya 5 Merrifield-Simmons 8", self.run_command("measure", tree)[1])

    def test_objects(self):
        said = json.loads(self.run_command("measure", "--json", self.put("a.mol", self.NAPHTHALENE.molfile()))[1])
        self.assertEqual((said["denominator"], sum(said["contributions"])), (6, 6 * 109))
        self.assertEqual((sum(said["vertex_sums"]), sum(said["szeged_terms"])), (2 * 109, 243))
        self.assertEqual((said["indices"]["W"], len(said["bonds_listed"]), said["atoms_listed"]), (109, 11, list(range(1, 11))))

    def test_numbers_of_atoms(self):
        """A block's atoms with the numbers that they have in the file, whichever hydrogens are left out."""
        chance = random.Random(6)
        for _ in range(200):
            symbols = [chance.choice(["C", "H", "H", "D", "O"]) for _ in range(chance.randrange(1, 9))]
            pairs = [(k, chance.randrange(1, k)) for k in range(2, len(symbols) + 1)]
            text = f"\n\n\n{len(symbols):3}{len(pairs):3}\n" + "".join(f"{'':31}{one}\n" for one in symbols)
            text += "".join(f"{first:3}{second:3}\n" for first, second in pairs) + "M  END\n"
            said = json.loads(self.run_command("measure", "--json", "--as", "molfile", self.put("a", text.encode()))[1])
            ends = {k: [sum(pair) - k for pair in pairs if k in pair] for k in range(1, len(symbols) + 1)}
            kept = [k for k, symbol in enumerate(symbols, 1) if not (symbol == "H" and len(ends[k]) == 1 and symbols[ends[k][0] - 1] != "H")]
            if "indices" in said:
                self.assertEqual(said["atoms_listed"], kept)
                self.assertEqual(len(kept), said["indices"]["atoms"])

    def test_refusals(self):
        good, bad = self.put("a.mol", self.NAPHTHALENE.molfile()), self.put("b.mol", b"no molfile")
        status, said = self.run_command("measure", good, bad, os.path.join(self.decks, "missing.mol"))
        self.assertEqual((status, [": refused 25 at " in line for line in said.splitlines()]), (2, [False, True, False]))
        self.assertIn("cannot be read: no such file", said)
        self.assertEqual(json.loads(self.run_command("measure", "--json", bad)[1])["refusal"]["number"], 25)
        self.assertEqual(self.run_command("measure")[0], 2)

    @unittest.skipUnless(native.has("read_neighbours"), "the library reads no neighbour texts yet")
    def test_neighbours(self):
        file = self.put("a.txt", b"2\n1 2 0\n0\n")
        for words in ([], ["--as", "neighbours"]):
            self.assertTrue(self.run_command("measure", *words, file)[1].startswith(f"{file}: atoms 2 bonds 1 W 1 "))

    def test_never_guessed(self):
        """The name's ending says what a file is, or --as does: 21 is told of a neighbour text, 25 of an empty molfile."""
        for name, data, words in (
            ("a.txt", b"2 1 2 0 0 x", "refused 21 at 10: "), ("b.nb", b"2 1 2 0 0\x1a", "refused 21 at 9: "),
            ("c.txt", b"\xef\xbb\xbf2 1 2 0 0", "refused 21 at 0: "), ("d.mol", b"", "refused 25 at 0: "),
            ("e.txt", b"", "refused 22 at 0: "), ("f.MOL", b"2 1 2 0 0", "refused 25 at 9: "), ("g", b"2 1 2 0 0", "its name ends in none of"),
        ):  # fmt: skip
            status, said = self.run_command("measure", self.put(name, data))
            self.assertEqual(status, 2)
            self.assertIn(f"{name}: {words}", said)
        self.assertEqual(self.run_command("measure", "--as", "neighbours", os.path.join(self.decks, "g"))[0], 0)
        one = self.process("measure", "-", stdin=subprocess.PIPE, stdout=subprocess.PIPE, stderr=subprocess.DEVNULL)
        self.assertIn(b"say --as", one.communicate(b"2 1 2 0 0")[0])
        self.assertEqual(one.returncode, 2)

    def test_a_line_for_who_edits(self):
        text = b"\n\n\n  2  1  0\n" + 2 * (b" " * 31 + b"C\n") + b"  1  x\nM  END\n"
        self.assertIn("molfile isn't blanks, then at least one digit (line 7)", self.run_command("measure", self.put("a.mol", text))[1])
        text = b"\n\n\n  0  0  0     0  0            999 V3000\nM  V30 BEGIN CTAB\nM  END\n"
        self.assertIn("(the file says V3000, and V2000 is read)", self.run_command("measure", self.put("a.mol", text))[1])

    @unittest.skipUnless(native.has("read_neighbours"), "the library reads no neighbour texts yet")
    def test_neighbour_texts_of_blocks(self):
        block = Block.from_neighbours(self.NAPHTHALENE.neighbours())
        self.assertEqual((Block.from_neighbours(block.neighbours()), block.measure()), (block, self.NAPHTHALENE.measure()))
        self.assertEqual(native.read_neighbours(native.write_neighbours(3, [(1, 2), (2, 3)])), (3, [(1, 2), (2, 3)]))
        self.put("naphthalene.nb", block.neighbours())
        text = "[[block]]\nnumber = 1\nneighbours = 'naphthalene.nb'\n[[placement]]\nblock = 1\n"
        self.assertEqual(decktext.made(text, self.decks), bytes(Deck({1: block}, [Placement(1)])))

    def test_decks_of_molfiles(self):
        self.put("ring.mol", Block(6, [(1, 2), (2, 3), (3, 4), (4, 5), (5, 6), (6, 1)]).molfile())
        text = "[[block]]\nnumber = 1\nmolfile = 'ring.mol'\n[[placement]]\nblock = 1\n"
        text += "[[placement]]\nblock = 1\nparent = 1\nparent_atom = 1\natom = 1\n"
        made = os.path.join(self.room, "made")
        self.assertEqual(self.run_command("deck", self.put("a.toml", text.encode()), "-o", made), (0, ""))
        self.assertEqual(self.read(made), FORTY)
        missing = self.put("b.toml", text.replace("ring", "nowhere").encode())
        self.assertEqual(self.run_command("deck", missing, "-o", made)[0], 2)


class Making(Room):
    """`deck` and decks that the library refuses."""

    def made(self, text, *words):
        output = os.path.join(self.room, "out")
        status, _ = self.run_command("deck", self.put("d.toml", text.encode()), "-o", output, *words)
        data = self.read(output) if os.path.exists(output) else None
        if data is not None:
            os.unlink(output)
        return status, data

    def test_refused(self):
        apart = "[[block]]\nnumber = 1\natoms = 6\n[[placement]]\nblock = 1\n"
        for text, words in (("", "refused 12 at 0"), (apart, "refused 7 at 0: some pair of atoms has no path"), ("bytes = '00'", "refused 11 at 0")):
            self.assertEqual(self.made(text), (2, None))
            self.assertIn(words, self.fault)
            self.assertIn("not written", self.fault)
            status, data = self.made(text, "--refused-too")
            self.assertEqual((status, data), (2, decktext.made(text)))
        self.assertEqual(self.made(decktext.shown(GOOD)), (0, GOOD))
        self.assertEqual(self.made(decktext.shown(WRONG)), (0, WRONG), "a wrong claim is a claim")
        self.assertEqual(self.made(decktext.shown(LIBRARY)), (0, LIBRARY))
        self.assertEqual(self.made(decktext.shown(LIBRARY[:-1]))[0], 2)

    def test_a_refused_molfile_is_named(self):
        self.put("good.mol", Block(1).molfile())
        self.put("bad.mol", b"\n\n\n  x  0\n")
        text = "[[block]]\nnumber = 1\nmolfile = 'good.mol'\n[[block]]\nnumber = 2\nmolfile = 'bad.mol'\n"
        self.assertEqual(self.made(text), (2, None))
        self.assertIn("block 2 of the text: molfile bad.mol: refused 26 at 3: ", self.fault)
        self.assertIn("(line 4)", self.fault)

    def test_texts_that_nobody_means(self):
        bond = "[[block]]\nnumber = 1\natoms = 10\nbonds = ['{}']\n"
        for text in (
            "[[block]]\nnumber = 1\nmolfile = 'a\\u0000b'\n".replace("'", '"'), "x = " + "[" * 20_000, "[[block]]\nnumber = " + "9" * 5_000,
            "[[block]]\nnumber = 1\natoms = 0x" + "f" * 5_000, bond.format("1_0-2"), bond.format("1-٢"), bond.format("+1-2"), bond.format("1 -2"),
            "[[block]]\nnumber = 1\nneighbours = '2 1 2 0 0'\n",
        ):  # fmt: skip
            with self.subTest(text[:60]):
                self.assertEqual(self.made(text), (2, None))
                self.assertTrue(self.fault.startswith("tteuyomal: ") and self.fault.count("\n") == 1, self.fault)


class Texts(Room):
    def random_deck(self, chance):
        blocks = [(chance.randrange(70000) % 65536, Block(chance.randrange(70), [(chance.randrange(256), chance.randrange(256))
                  for _ in range(chance.randrange(9))])) for _ in range(chance.randrange(4))]  # fmt: skip
        placements = [Placement(chance.randrange(9), chance.randrange(3), chance.randrange(3), chance.randrange(3)) for _ in range(chance.randrange(5))]
        claims = [None, Sheet(*(chance.randrange(2**32) for _ in range(5))), Sheet(*(chance.randrange(2**32) for _ in range(6)))]
        return bytes(Deck(blocks, placements, chance.choice(claims)))

    def test_inverse(self):
        chance = random.Random(11)
        for turn in range(1500):
            data = bytearray(self.random_deck(chance) if turn % 2 else GOOD)
            if turn % 3 == 0 and data:
                data[chance.randrange(len(data))] = chance.randrange(256)
            data = bytes(data[: len(data) - (chance.randrange(5) if turn % 5 == 0 else 0)])
            text = decktext.shown(data)
            self.assertEqual(decktext.made(text), data)
            self.assertEqual(decktext.shown(decktext.made(text)), text)
        for data in (b"", bytes(3), RIGHT, FORTY + RIGHT + RIGHT):
            self.assertEqual(decktext.made(decktext.shown(data)), data)
            self.assertIn("bytes = ", decktext.shown(data))
        self.assertNotIn("bytes = ", decktext.shown(GOOD))

    def test_by_command(self):
        deck = self.put("a", GOOD)
        status, text = self.run_command("show", deck)
        self.assertEqual(status, 0)
        made = os.path.join(self.room, "made")
        self.assertEqual(self.run_command("deck", self.put("a.toml", text.encode()), "-o", made), (0, ""))
        self.assertEqual(self.read(made), GOOD)
        self.assertEqual(self.run_command("show", made), (0, text))
        self.assertEqual(self.run_command("show", os.path.join(self.room, "missing"))[0], 2)

    def test_never_over_its_text(self):
        text = self.put("a.toml", decktext.shown(GOOD).encode())
        self.assertEqual(self.run_command("deck", text, "-o", text)[0], 2)
        self.assertEqual(self.read(text).decode(), decktext.shown(GOOD))
        mol = self.put("x.mol", b"molecule")
        text = self.put("b.toml", b'[[block]]\nnumber = 1\nmolfile = "x.mol"\n')
        self.assertEqual(self.run_command("deck", text, "-o", mol)[0], 2)
        self.assertEqual(self.read(mol), b"molecule")

    def test_texts_that_are_no_deck(self):
        for text in (
            "block = 1", "[[block]]\n", "[[block]]\nnumber = 1\n", "[[block]]\nnumber = 1\natoms = 2\nbonds = ['1+2']\n", "[block",
            "[[block]]\nnumber = 70000\natoms = 2\n", "[[block]]\nnumber = true\natoms = 2\n", "[[placement]]\nparent = 1\n", "x = 1\n",
            "[[placement]]\nblock = 1\natom = 300\n", "[sheet]\natoms = 1\n", "sheet = 3\n", "bytes = 'xyz'\n", "bytes = 3\n",
            "bytes = '00'\n[[block]]\n", "[[block]]\nnumber = 1\natoms = 2\nbonds = ['1-300']\n", "[[block]]\nnumber = 1\nmolfile = 3\n",
            "[[block]]\nnumber = 1\natoms = 1\nmolfile = 'x'\n", "[[block]]\nnumber = 1\natoms = 2\nbonds = 7\n",
        ):  # fmt: skip
            with self.subTest(text):
                self.assertRaises(decktext.BadText, decktext.made, text)
                output = os.path.join(self.room, "out")
                self.assertEqual(self.run_command("deck", self.put("t.toml", text.encode()), "-o", output)[0], 2)
                self.assertFalse(os.path.exists(output))


class Notices(Room):
    def notice(self, status):
        output = os.path.join(self.room, "notice.txt")
        self.assertEqual(self.run_command("notice", self.decks, "-o", output)[0], status)
        return self.read(output).decode()

    def test_sentence(self):
        self.assertIn("No deck was judged.", self.notice(2))
        self.put("a", GOOD)
        self.put("sub/b", GOOD)
        text = self.notice(0)
        self.assertIn("All 2 decks were checked and accepted", text)
        self.assertTrue(text.endswith(f"\naccepted:\n{hashlib.sha256(GOOD).hexdigest()}  a\n{hashlib.sha256(GOOD).hexdigest()}  sub/b\n"))
        self.assertIn(f"Tteuyomal {native.version()}\n", text)
        for data, status in ((WRONG, 1), (REFUSED, 2)):
            self.put("c", data)
            self.assertNotIn("checked and accepted", self.notice(status))
        self.put("d\nAll 9 decks were checked and accepted", REFUSED)
        self.assertNotIn("\nAll", self.notice(2))

    def test_again(self):
        for name, data in (("a", GOOD), ("b", WRONG), ("c", b"")):
            self.put(name, data)
        alike = lambda text: [line for line in text.splitlines() if not line.startswith(("Date: ", "Run: "))]
        first, second = self.notice(2), self.notice(2)
        self.assertEqual(alike(first), alike(second))
        self.assertNotEqual(first, second, "two runs are two notices")
        self.assertEqual(len(alike(first)) + 2, len(first.splitlines()))


class Boards(Room):
    def board(self, status, *words):
        output = os.path.join(self.room, "board.html")
        self.assertEqual(self.run_command("board", self.decks, "-o", output, *words)[0], status)
        return self.read(output).decode()

    def test_lights(self):
        self.put("a", GOOD)
        text = self.board(0)
        self.assertIn("The one deck is accepted", text)
        self.put("b", WRONG)
        self.put("c<script>", REFUSED)
        text = self.board(2)
        self.assertIn("2 of 3 decks not accepted", text)
        order = [text.index(f'<details class="deck {kind}"') for kind in ("refused", "differs", "accepted")]
        self.assertEqual(order, sorted(order))
        self.assertIn("c&lt;script&gt;", text)
        self.assertNotIn("c<script>", text)
        self.assertEqual(text.count("<script"), 1)
        self.assertNotIn("http://", text.replace("http://www.w3.org/", ""))
        self.assertNotIn("https://", text)
        self.assertEqual(text.count('class="wrong"'), 2)

    def test_sheets_of_both_kinds(self):
        """Five fields or six, as the sheet has: on the board, in words, as objects and in the notice."""
        wrong = FORTY + sheet_of_six(12, 198, 96, 102, 14, 6)
        self.put("a", GOOD)
        self.put("b", FORTY + RIGHT_SIX)
        self.assertIn("All 2 decks are accepted", self.board(0))
        deck = self.put("c", wrong)
        text = self.board(1)
        self.assertEqual([text.count(f'<th scope="row">{name}</th>') for name in ("polarity", "largest distance")], [3, 2])
        self.assertIn('<th scope="row">largest distance</th><td class="wrong">6</td><td>7</td><td>−1</td></tr>', text)
        self.assertIn("differs: largest distance", text)
        status, said = self.run_command("explain", deck)
        self.assertEqual((status, said.splitlines()[-1]), (1, "differs 6: the first wrong field is largest distance."))
        self.assertIn("wrong", next(line for line in said.splitlines() if line.startswith("largest distance")))
        said = json.loads(self.run_command("judge", "--json", deck)[1])
        self.assertEqual((said["field"], said["claimed"]["largest"], said["worked_out"]["largest"]), (6, 6, 7))
        output = os.path.join(self.room, "notice.txt")
        self.assertEqual(self.run_command("notice", self.decks, "-o", output)[0], 1)
        self.assertIn(f"\ndiffers 6:\n{hashlib.sha256(wrong).hexdigest()}  c\n", self.read(output).decode())
        self.assertIn("largest distance  ", self.run_command("explain", self.put("d", FORTY))[1])

    def test_an_empty_folder_is_no_green_board(self):
        text = self.board(2)
        self.assertIn("Nothing was judged", text)
        self.assertNotIn('<h1 class="accepted"', text)

    def test_not_among_its_decks(self):
        self.put("a", GOOD)
        for name in ("board.html", "a", "sub/../board.html"):
            self.folder("decks/sub")
            self.assertEqual(self.run_command("board", self.decks, "-o", os.path.join(self.decks, name))[0], 2)
        self.assertEqual(sorted(os.listdir(self.decks)), ["a", "sub"])
        self.assertEqual(self.run_command("board", os.path.join(self.decks, "a"), "-o", os.path.join(self.room, "b"))[0], 2)

    def wait_for_library(self, one):
        """Until a process has loaded the library: an interpreter that is interrupted before that has no say in its status."""
        for _ in range(6000):
            if one.poll() is not None:
                return
            with open(f"/proc/{one.pid}/maps") as maps:
                if "libtteuyomal" in maps.read():
                    return
            time.sleep(0.01)

    def test_an_interrupt_leaves_no_half_file(self):
        for number in range(3000):
            self.put(f"{number:05d}", GOOD)
        for sign, status in ((signal.SIGINT, 130), (signal.SIGTERM, 143)):
            output = self.put("old.html", b"yesterday", self.room)
            one = self.process("board", self.decks, "-o", output, stderr=subprocess.DEVNULL)
            self.wait_for_library(one)
            one.send_signal(sign)
            self.assertIn(one.wait(60), (status, -sign, 0))
            left = self.read(output)
            self.assertTrue(left == b"yesterday" or left.endswith(b"</html>\n"), "half a board")
            self.assertEqual(sorted(os.listdir(self.room)), ["decks", "old.html"])


class Outputs(Room):
    def test_whole_or_not_there(self):
        path = self.put("a", b"before")
        for fault in (ValueError, KeyboardInterrupt, SystemExit):
            with self.assertRaises(fault), files.written(path) as file:
                file.write(b"half")
                raise fault
            self.assertEqual((self.read(path), os.listdir(self.decks)), (b"before", ["a"]))
        os.chmod(path, 0o640)
        with files.written(path) as file:
            file.write(b"after")
        self.assertEqual((self.read(path), os.stat(path).st_mode & 0o777), (b"after", 0o640))

    def notice(self, output, **more):
        """A process that writes a notice, and what it printed."""
        self.put("a", GOOD)
        one = self.process("notice", self.decks, "-o", output, stdout=subprocess.PIPE, stderr=subprocess.PIPE, **more)
        said, self.fault = one.communicate(timeout=60)
        self.status = one.returncode
        return said

    def test_a_link_is_followed(self):
        real = self.put("real", b"before", self.room)
        os.symlink("real", os.path.join(self.room, "latest"))
        os.symlink("new", os.path.join(self.room, "dangling"))
        for link, target in (("latest", real), ("dangling", os.path.join(self.room, "new"))):
            self.notice(os.path.join(self.room, link))
            self.assertEqual(self.status, 0)
            self.assertTrue(os.path.islink(os.path.join(self.room, link)))
            self.assertTrue(self.read(target).startswith(b"Notice of judged decks"))
        os.symlink(os.path.join(self.decks, "a"), os.path.join(self.room, "input"))
        self.notice(os.path.join(self.room, "input"))
        self.assertEqual((self.status, self.read(os.path.join(self.decks, "a"))), (2, GOOD))

    def test_a_pipe_is_written_to(self):
        pipe = os.path.join(self.room, "pipe")
        os.mkfifo(pipe)
        with subprocess.Popen(["cat", pipe], stdout=subprocess.PIPE) as reader:
            self.notice(pipe)
            self.assertTrue(reader.communicate(timeout=60)[0].startswith(b"Notice of judged decks"))
        self.assertEqual((self.status, stat.S_ISFIFO(os.stat(pipe).st_mode)), (0, True))

    def test_a_device_is_written_to(self):
        device = os.path.join(self.room, "null")
        try:
            os.mknod(device, 0o666 | stat.S_IFCHR, os.makedev(1, 3))
            with open(device, "wb"):
                pass
        except OSError:
            self.skipTest("no rights to make a device")
        self.notice(device)
        self.assertEqual((self.status, stat.S_ISCHR(os.stat(device).st_mode)), (0, True))

    def test_standard_output(self):
        for output in ("-", "/dev/stdout"):
            self.assertTrue(self.notice(output).startswith(b"Notice of judged decks"))
            self.assertEqual(self.status, 0)
        here = os.path.join(self.room, "here")
        with open(here, "wb") as file:
            one = self.process("notice", self.decks, "-o", "/dev/stdout", stdout=file, stderr=subprocess.DEVNULL)
            self.assertEqual(one.wait(), 0)
            os.write(file.fileno(), b"the end")
        self.assertTrue(self.read(here).startswith(b"Notice") and self.read(here).endswith(b"the end"))
        self.assertFalse(os.path.exists("-"))

    def test_faults_name_what_was_asked_for(self):
        for output, why in ((os.path.join(self.room, "no", "where"), "no such file or directory"), (self.room, "is a directory")):
            self.notice(output)
            self.assertEqual((self.status, self.fault.decode()), (2, f"tteuyomal: {output}: cannot be written: {why}\n"))
        self.notice("/dev/full")
        self.assertEqual((self.status, self.fault), (2, b"tteuyomal: /dev/full: cannot be written: no space left on device\n"))
        self.assertEqual(os.listdir(self.room), ["decks"])


class Lengths(Room):
    def test_whatever_its_length(self):
        """The front is kept, the SHA-256 is of everything, and nothing is read without end."""
        chance = random.Random(3)
        with mock.patch.object(files, "LONGEST_FILE", 3_000), mock.patch.object(files, "_PIECE", 700):
            for size in (0, 1, 699, 700, 701, 1_000, 1_001, 1_002, 1_400, 2_999, 3_000, 3_001, 9_000):
                data = chance.randbytes(size)
                found = files.Found(self.put("a", data))
                for most in (1_000, 3_000):
                    if size > 3_000:
                        self.assertRaisesRegex(files.Unread, "longer than 3000 bytes", files.read, found, most)
                    else:
                        self.assertEqual(files.read(found, most), (data[: most + 1], hashlib.sha256(data).hexdigest()))
            self.assertRaises(files.Unread, files.read, files.Found("/dev/zero"))
            self.assertEqual(self.run_command("judge", "/dev/zero"), (2, "/dev/zero: cannot be read: longer than 3000 bytes\n"))
            for words in (["measure", "--as", "molfile", "/dev/zero"], ["deck", "/dev/zero", "-o", "-"], ["verify", "/dev/zero", self.decks],
                          ["judge", self.decks, "--manifest", "/dev/zero"], ["explain", "/dev/zero"], ["show", "/dev/zero"]):  # fmt: skip
                status, said = self.run_command(*words)
                self.assertEqual((status, "longer than 3000 bytes" in said + self.fault), (2, True), words)


class Streams(Room):
    """Standard streams that are closed, and whatever fails before the command begins."""

    def shell(self, words, environment=None):
        run = f'exec "{sys.executable}" -m tteuyomal {words}'
        return subprocess.run(["bash", "-c", run], capture_output=True, env=os.environ | {"PYTHONPATH": PYTHON} | (environment or {}))

    def test_closed(self):
        deck = self.put("a", GOOD)
        one = self.shell(f"judge {deck} 2>&-")
        self.assertEqual((one.returncode, one.stdout.decode()), (0, f"{deck}: accepted\n"))
        one = self.shell("judge - <&-")
        self.assertEqual((one.returncode, one.stdout), (2, b"-: cannot be read: standard input is closed\n"))
        self.assertNotIn(b"Traceback", one.stderr)
        self.assertEqual(self.shell("judge --no-such 2>&-").returncode, 2)
        self.assertEqual(self.shell("judge - --json <&- 2>&-").returncode, 2)
        for words in ("--version", "--help", "judge --help"):
            self.assertEqual(self.shell(f"{words} >/dev/full").returncode, 2)

    def test_what_fails_before_the_command(self):
        deck = self.put("a", GOOD)
        package = os.path.join(self.room, "python")
        shutil.copytree(PYTHON, package, ignore=shutil.ignore_patterns("__pycache__"))
        for module in ("decks.py", "native.py", "command.py", "commands/judge.py", "public.py"):
            path = os.path.join(package, "tteuyomal", module)
            kept = self.read(path)
            for broken in (b"import no_such_module\n", b"def\n"):
                with open(path, "wb") as file:
                    file.write(broken)
                one = self.shell(f"judge {deck}", {"PYTHONPATH": package})
                self.assertEqual((one.returncode, one.stdout), (2, b""), module)
            with open(path, "wb") as file:
                file.write(kept)
        self.assertEqual(self.shell(f"judge {deck}", {"PYTHONPATH": package}).returncode, 0)
        for words in (f"judge {deck}", "--version", f"board {self.decks} -o {self.room}/b"):
            one = self.shell(words, {"TTEUYOMAL_SO": "/no/where.so"})
            self.assertEqual((one.returncode, one.stdout), (2, b""))
            self.assertIn(b"the library can't be loaded", one.stderr)
        self.assertIn("The run failed", self.read(os.path.join(self.room, "b")).decode())


REFUSAL_AT_BOND = judging.judge_bytes("", REFUSED, "").place != 0  # the place of 3 to 6 in a deck

if __name__ == "__main__":
    unittest.main()
