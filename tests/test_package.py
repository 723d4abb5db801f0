"""The package: blocks, decks, sheets and verdicts as values; and what `pip install` and `make install` put in place."""

import os
import pathlib
import pickle
import re
import shutil
import subprocess
import sys
import tempfile
import unittest
from unittest import mock

from common import FORTY, HEADER, JUDGED, PYTHON, RIGHT, RING, ROOT, sheet, text

import tteuyomal
from tteuyomal import Block, Deck, NotThere, Placement, Refused, Sheet, Verdict, drawing, native

RING_OF_6 = Block(6, RING)
TWO_RINGS = Deck({1: RING_OF_6}, [Placement(1), Placement(1, parent=1, parent_atom=1, atom=1)])


class Values(unittest.TestCase):
    def test_deck_is_its_bytes(self):
        self.assertEqual(bytes(TWO_RINGS), FORTY)
        self.assertEqual(Deck.from_bytes(FORTY), TWO_RINGS)
        whole = TWO_RINGS.with_sheet()
        self.assertEqual(bytes(whole), FORTY + RIGHT)
        self.assertEqual(Deck.from_bytes(FORTY + RIGHT), whole)
        self.assertEqual(whole.without_sheet(), TWO_RINGS)

    def test_sheets(self):
        self.assertEqual(TWO_RINGS.compose(), Sheet(12, 198, 96, 102, 14))
        self.assertEqual(Sheet(12, 198, 96, 102, 14).record(), RIGHT)
        six = Sheet(12, 198, 96, 102, 14, 7).record()
        self.assertEqual((len(six), six[:4], six[-4:]), (44, bytes([40, 0, 4, 0]), bytes([7, 0, 0, 0])))
        self.assertEqual(TWO_RINGS.compose(six=True), Sheet(12, 198, 96, 102, 14, 7))
        self.assertEqual(bytes(TWO_RINGS.with_sheet(six=True)), FORTY + six)
        self.assertEqual(str(TWO_RINGS.compose()), "atoms 12 W 198 even 96 odd 102 polarity 14")
        for wrong in (Sheet(2**32, 0, 0, 0, 0), Sheet(1, 2**64, 0, 0, 0), Sheet(1, -1, 0, 0, 0)):
            self.assertRaises(ValueError, wrong.record)

    def test_verdicts(self):
        for data, line in JUDGED:
            with self.subTest(line):
                verdict = tteuyomal.judge(data)
                self.assertEqual(str(verdict), line)
                self.assertEqual(bool(verdict), line == "accepted")
                self.assertEqual(tteuyomal.judge_many([data]), [verdict])
        self.assertEqual(tteuyomal.judge(TWO_RINGS.with_sheet()), Verdict())
        many = [TWO_RINGS.with_sheet(), FORTY, bytearray(FORTY + RIGHT), list(FORTY + RIGHT)]
        self.assertEqual([str(one) for one in tteuyomal.judge_many(many)], ["accepted", "refused 11 at 40", "accepted", "accepted"])
        for wrong in (["a"], [None], [3]):
            self.assertRaises(TypeError, tteuyomal.judge_many, wrong)
        self.assertEqual(repr(tteuyomal.judge(FORTY)), "<Verdict: refused 11 at 40>")
        self.assertEqual(tteuyomal.judge(TWO_RINGS).refusal, Refused(11, 40))
        self.assertEqual(pickle.loads(pickle.dumps(tteuyomal.judge(FORTY))), tteuyomal.judge(FORTY))

    def test_files(self):
        with tempfile.TemporaryDirectory() as room:
            for data, line in [*JUDGED, (bytes(10**6), "refused 20 at 0")]:
                path = pathlib.Path(room, "deck")
                path.write_bytes(data)
                self.assertEqual((str(tteuyomal.judge_file(path)), str(tteuyomal.judge_file(str(path)))), (line, line))
            self.assertRaises(OSError, tteuyomal.judge_file, room)
            self.assertRaises(OSError, tteuyomal.judge_file, os.path.join(room, "none"))

    def test_in_notebooks(self):
        for value, words in (
            (RING_OF_6, ["<td>W</td><td>27</td>"]),
            (Block(2), ["<p>refused 7 at 0: some pair of atoms has no path</p>"]),
            (Block(-1), ["not from 0 to 65535"]),
            (Sheet(1, 2, 3, 4, 5), ["<td>polarity</td><td>5</td>"]),
            (TWO_RINGS, ["<th>field</th><th>worked out</th>", "<td>W</td><td>198</td>"]),
            (TWO_RINGS.with_sheet(Sheet(12, 197, 96, 102, 14, 7)), ["<td>W</td><td>197</td><td>198</td>", "distance</td><td>7</td><td>7</td>", "<p>differs 2: W</p>"]),
            (TWO_RINGS.with_sheet().judge(), ["<p>accepted</p>"]),
            (TWO_RINGS.judge(), ["<p>refused 11 at 40: "]),
            (Deck({1: Block(2)}, [Placement(1)], Sheet(1, 2, 3, 4, 5)), ["<p>refused 7 at 0"]),
        ):
            with self.subTest(value):
                for part in words:
                    self.assertIn(part, value._repr_html_())
        drawn = TWO_RINGS._repr_html_()
        self.assertEqual("<svg " in drawn, drawing.there())

    def test_bytes_that_are_no_deck(self):
        for data in (b"", FORTY[:-1], FORTY[22:] * 2, RIGHT, FORTY + RIGHT + RIGHT, bytes(3), FORTY[:22]):
            self.assertRaises(ValueError, Deck.from_bytes, data)
        self.assertEqual(Deck.from_bytes(FORTY + sheet(1, 2, 3, 4, 5)).sheet, Sheet(1, 2, 3, 4, 5))

    def test_blocks(self):
        self.assertEqual(RING_OF_6.measure(), Sheet(6, 27, 12, 15, 3))
        self.assertEqual(tteuyomal.measure(RING_OF_6), RING_OF_6.measure())
        self.assertEqual(tteuyomal.contributions(RING_OF_6), (2, [9] * 6))
        self.assertEqual(tteuyomal.values(RING_OF_6, 1), (6.0, 9.0))
        self.assertEqual(RING_OF_6.vertex(1).sum, 9)
        self.assertEqual(TWO_RINGS.distance(1, 4, 2, 4), 7)
        self.assertEqual(Block(6, iter(RING)), RING_OF_6)
        self.assertRaises(ValueError, Block, 6, [(1, 2, 3)])
        self.assertRaises(Refused, Block(2).measure)
        RING_OF_6.check()

    def test_texts(self):
        self.assertEqual(Block.from_molfile(RING_OF_6.molfile()), RING_OF_6)
        self.assertEqual(Block.from_molfile(RING_OF_6.molfile().decode()), RING_OF_6)
        self.assertRaises(Refused, Block.from_molfile, "")
        with self.assertRaisesRegex(ValueError, "the text of a molfile is meant.*'benzene.mol'"):
            Block.from_molfile("benzene.mol")
        for make in (Block.from_molfile, Block.from_neighbours):
            with self.assertRaisesRegex(TypeError, "a text is meant"):
                make(pathlib.Path("benzene.mol"))

    def test_indices(self):
        self.assertEqual(RING_OF_6.balaban(), 1_999_999_998)
        self.assertEqual(RING_OF_6.szeged(), (54, [9] * 6))
        self.assertEqual([Block(4, [(1, 2), (2, 3), (3, 4)]).farthest(atom) for atom in (1, 2)], [3, 2])
        self.assertEqual(Block(4, [(1, 2), (2, 3), (3, 4)]).sets(), (5, 8))

    def test_one_version(self):
        """The library, the package, its project file, the Rust crate and the Makefile have the same, and the list of changes has it."""
        line = r'^version = "(.*)"$'
        places = {"python/pyproject.toml": line, "rust/Cargo.toml": line, "rust/Cargo.lock": line, "Makefile": r"^VERSION := (.*)$"}
        written = {path: re.search(pattern, text(*path.split("/")), re.M).group(1) for path, pattern in places.items()}
        written["python/tteuyomal/__init__.py"] = tteuyomal.__version__
        self.assertEqual(written, dict.fromkeys(written, native.version()))
        self.assertIn(f"\n## {native.version()}\n", text("CHANGELOG.md"))

    def test_a_function_that_the_library_has_not(self):
        with self.assertRaisesRegex(NotThere, "tteuyomal_no_such"):
            native._function("no_such", [])()
        self.assertFalse(native.has("no_such"))


class Code(unittest.TestCase):
    """Which code judges: what made.txt beside the shared object says, if it speaks of that one."""

    def said_of(self, note):
        with tempfile.TemporaryDirectory() as folder:
            shutil.copy(native.SHARED_OBJECT, folder)
            with open(os.path.join(folder, "made.txt"), "w", encoding="ascii") as file:
                file.write(note)
            there = os.environ | {"PYTHONPATH": PYTHON, "TTEUYOMAL_SO": os.path.join(folder, os.path.basename(native.SHARED_OBJECT))}
            run = subprocess.run([sys.executable, "-m", "tteuyomal", "--version"], capture_output=True, text=True, env=there)
        self.assertEqual((run.returncode, run.stderr), (0, ""))
        return run.stdout

    def test_note(self):
        note = f"code {'ab' * 32}\nmachine x86_64\nproved by the gate\nobject {native.SHA256}\n"
        self.assertIn(f", code {'ab' * 32} for x86_64, proved by the gate\n", self.said_of(note))

    def test_note_of_another_object(self):
        for note in ("", "code\n", f"code {'ab' * 32}\nmachine x86_64\nproved here\nobject {'cd' * 32}\n"):
            self.assertIn("code unknown", self.said_of(note))


class Rdkit(unittest.TestCase):
    def test_block_from_rdkit(self):
        try:
            from rdkit import Chem
        except ImportError:
            self.skipTest("RDKit is not there (Debian: python3-rdkit, for /usr/bin/python3)")
        for smiles, fields in (("c1ccccc1", (6, 27, 12, 15, 3)), ("C", (1, 0, 0, 0, 0)), ("Cc1ccccc1", (7, 42, 20, 22, 5))):
            for mol in (Chem.MolFromSmiles(smiles), Chem.AddHs(Chem.MolFromSmiles(smiles))):
                self.assertEqual(Block.from_rdkit(mol).measure().fields(), fields)
        self.assertEqual(Block.from_rdkit(Chem.MolFromSmiles("[H][H]")), Block(2, [(1, 2)]))
        for smiles in ("[2H]C", "[2H]C([3H])O", "[2H][2H]", "[H]C", "[2H]", "C[H]C"):
            mol = Chem.MolFromSmiles(smiles, sanitize=False)
            mol.UpdatePropertyCache(strict=False)
            self.assertEqual(Block.from_rdkit(mol), Block.from_molfile(Chem.MolToMolBlock(mol, kekulize=False)), smiles)
        self.assertEqual(Block.from_rdkit(Chem.MolFromSmiles("[2H]C", sanitize=False)).atoms, 1)

    def test_deuterium(self):
        """One rule for all doors: the symbol H is an H, whatever its isotope; D and T are none."""
        two = Block(2, [(1, 2)])
        for symbol, block in (("D", two), ("T", two), ("C", two), ("H", Block(1)), ("He", two), ("h", two)):
            for isotope in (b"", b"M  ISO  1   1   2\n"):
                text = two.molfile().replace(b" C  ", f" {symbol:<3}".encode(), 1).replace(b"M  END", isotope + b"M  END")
                self.assertEqual(Block.from_molfile(text), block, (symbol, isotope))
        for isotope in (0, 2, 3):  # as RDKit says it: it writes all three as H into a molfile
            self.assertEqual(Block.from_rdkit(StandIn([("H", isotope), ("C", 0)], [(0, 1)])), Block(1))
            self.assertEqual(Block.from_rdkit(StandIn([("H", isotope), ("H", 2)], [(0, 1)])), two)


class StandIn:
    """A molecule with the few calls of RDKit's that are used, for machines without it."""

    def __init__(self, atoms, bonds):
        self.atoms, self.bonds = atoms, bonds

    def atom(self, index):
        symbol, isotope = self.atoms[index]
        ends = [other for bond in self.bonds if index in bond for other in bond if other != index]
        said = {"GetIdx": index, "GetSymbol": symbol, "GetIsotope": isotope, "GetDegree": len(ends), "GetAtomicNum": {"H": 1, "C": 6}[symbol]}
        return mock.Mock(GetNeighbors=lambda: [self.atom(other) for other in ends], **{name: lambda value=value: value for name, value in said.items()})

    def GetAtoms(self):
        return [self.atom(index) for index in range(len(self.atoms))]

    def GetBonds(self):
        return [mock.Mock(GetBeginAtomIdx=lambda a=a: a, GetEndAtomIdx=lambda b=b: b) for a, b in self.bonds]


class Installed(unittest.TestCase):
    def setUp(self):
        folder = tempfile.TemporaryDirectory()
        self.addCleanup(folder.cleanup)
        self.folder = folder.name

    def runs(self, *command, **more):
        run = subprocess.run(command, capture_output=True, text=True, **more)
        self.assertEqual(run.returncode, 0, run.stdout + run.stderr)
        return run.stdout

    def test_make_install(self):
        shared = os.path.join(ROOT, "target", "staticlib", "libtteuyomal.so")
        if not os.path.exists(shared):
            self.skipTest("no shared object")
        self.runs("make", "-s", "-o", "target/staticlib/libtteuyomal.so", "install", f"PREFIX={self.folder}", cwd=ROOT)
        found = sorted(os.path.relpath(os.path.join(place, one), self.folder) for place, _, all in os.walk(self.folder) for one in all)
        self.assertEqual(
            found,
            [
                "include/tteuyomal.h",
                "lib/libtteuyomal.a",
                "lib/libtteuyomal.so",
                f"lib/libtteuyomal.so.{native.version().split('.')[0]}",
                "lib/pkgconfig/tteuyomal.pc",
                "share/bash-completion/completions/tteuyomal",
                "share/man/man1/tteuyomal.1",
                "share/man/man3/tteuyomal.3",
                "share/zsh/site-functions/_tteuyomal",
            ],
        )
        flags = ["-I" + os.path.dirname(HEADER), "-L" + os.path.join(self.folder, "lib"), "-ltteuyomal"]
        if shutil.which("pkg-config"):
            asked = self.runs("pkg-config", "--cflags", "--libs", "tteuyomal", env=os.environ | {"PKG_CONFIG_PATH": self.folder + "/lib/pkgconfig"})
            self.assertEqual(asked.split(), [f"-I{self.folder}/include", f"-L{self.folder}/lib", "-ltteuyomal"])
            flags = asked.split()
        program = os.path.join(self.folder, "judge")
        self.runs("gcc", os.path.join(ROOT, "examples", "c", "judge.c"), *flags, "-o", program)
        run = subprocess.run([program], input=FORTY + RIGHT, capture_output=True, env={"LD_LIBRARY_PATH": self.folder + "/lib"})
        self.assertEqual((run.returncode, run.stdout), (0, b"accepted\n"))

    def test_pip_install(self):
        """With no index to ask: the builder needs nothing but Python and pip."""
        if subprocess.run([sys.executable, "-m", "pip", "--version"], capture_output=True).returncode != 0:
            self.skipTest("no pip")
        quiet = os.environ | {"PIP_NO_INDEX": "1", "PIP_DISABLE_PIP_VERSION_CHECK": "1"}
        self.runs(sys.executable, "-m", "pip", "install", "--quiet", "--target", self.folder, PYTHON, env=quiet)
        there = os.environ | {"PYTHONPATH": self.folder}
        code = "import tteuyomal; print(tteuyomal.__file__, tteuyomal.measure(tteuyomal.Block(2, [(1, 2)])))"
        where, said = self.runs(sys.executable, "-c", code, env=there, cwd=self.folder).split(maxsplit=1)
        self.assertTrue(where.startswith(self.folder), where)
        self.assertEqual(said, "atoms 2 W 1 even 0 odd 1 polarity 0\n")
        self.assertIn("library", self.runs(os.path.join(self.folder, "bin", "tteuyomal"), "--version", env=there))
