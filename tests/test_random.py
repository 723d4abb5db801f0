"""Random values through every public function of the package and of `tteuyomal.native`: an answer or a typed error, and no answer that is
another block's or another deck's. What is right is worked out here by plain searching."""

import array
import contextlib
import fractions
import inspect
import itertools
import operator
import os
import pathlib
import random
import tempfile
import unittest
from collections import deque
from unittest import mock

from common import FORTY, LIBRARY, RIGHT, RIGHT_SIX, RING

import tteuyomal
from tteuyomal import Block, Candidate, Deck, Library, NotThere, Placement, Queue, Refused, Sheet, Site, Table, Verdict, decktext, files, native, notice

TYPED = (Refused, NotThere, ValueError, TypeError)
TURNS = int(os.environ.get("TTEUYOMAL_TURNS", 150))  # values for each function

GREAT = (255, 256, 65_535, 65_536, 2**31, 2**32 - 1, 2**32, 2**63, 2**64 - 1, 2**64, 2**64 + 4, 10**30)


class Index:
    """A whole number that is no int."""

    def __init__(self, number):
        self.number = number

    def __index__(self):
        return self.number


def anything(chance):
    """Values that nobody means."""
    return chance.choice([
        None, True, False, 0, -1, 1, -(2**70), 1.5, float("nan"), float("inf"), -0.0, "", "1", "é\udcff", "\0", b"", b"\1\2", bytearray(b"\1\2\3"),
        memoryview(b"\1\2"), memoryview(array.array("H", [1, 2])), [], [()], [(1,)], [(1, 2, 3)], [("1", "2")], [[1, 2]], [1, 2], (), {}, {1: 2}, {1, 2},
        range(3), iter([1, 2]), object(), Index(2), Index(-1), fractions.Fraction(1, 2), 2j, Block(2, [(1, 2)]), pathlib.Path("x"), Ellipsis, int, len,
        Placement(1), Sheet(1, 0, 0, 0, 0), [(1, 2), None], "1-2", [b"\1\2"], chance.choice(GREAT),
    ])  # fmt: skip


def number(chance):
    return chance.choice([chance.randrange(9), chance.randrange(9), chance.randrange(70), chance.choice(GREAT), -chance.randrange(3), Index(chance.randrange(9))])


def bonds(chance, atoms=None):
    """Bonds of a connected block, mostly, some of them damaged."""
    atoms = atoms or chance.randrange(1, 12)
    made = [(chance.randrange(1, k), k) for k in range(2, atoms + 1)]
    made += [tuple(chance.sample(range(1, atoms + 1), 2)) for _ in range(chance.randrange(3)) if atoms > 1]
    if chance.randrange(4) == 0 and made:
        made[chance.randrange(len(made))] = chance.choice([(0, 1), (1, 1), (1, 99), (1, 2**64), (-1, 2), (1, None), (1.0, 2), "12", (1,), ("1", 2), (Index(1), Index(2)), (True, 2)])
    return made


def block(chance):
    atoms = chance.randrange(1, 12)
    return Block(atoms + (chance.randrange(8) == 0), bonds(chance, atoms))


def deck_bytes(chance):
    """A deck that stands in the pages, or one made here, perhaps cut or with a byte changed."""
    data = chance.choice([FORTY, FORTY + RIGHT, FORTY + RIGHT_SIX, LIBRARY, lambda: bytes(deck(chance))])
    with contextlib.suppress(*TYPED):
        data = bytearray(data() if callable(data) else data)
        if chance.randrange(3) == 0 and data:
            data[chance.randrange(len(data))] = chance.randrange(256)
        data = bytes(data[: chance.randrange(len(data) + 1)] if chance.randrange(6) == 0 else data)
        return chance.choice([data, data, bytearray(data), memoryview(data), list(data), iter(data)])
    return b""


def placement(chance, place):
    if place == 0:
        return Placement(1)
    return Placement(chance.randrange(1, 3), chance.randrange(1, place + 1), chance.randrange(1, 4), chance.randrange(1, 3))


def deck(chance):
    placements = [placement(chance, place) for place in range(chance.randrange(1, 5))]
    blocks = [(1, Block(6, RING)), (2, block(chance))]
    sheet = chance.choice([None, Sheet(*(chance.randrange(300) for _ in range(5))), Sheet(*(number(chance) for _ in range(chance.choice((5, 6)))))])
    return Deck(chance.choice([blocks, dict(blocks)]), placements, sheet)


def library(chance):
    sites = [(k + 1, [(chance.randrange(1, 3), 1) for _ in range(chance.randrange(1, 4))]) for k in range(chance.randrange(1, 4))]
    if chance.randrange(5) == 0:
        sites = chance.choice([[], [(1, [])], [(1, [(9, 9)])], [(1, [(1, 1)]), (1, [(1, 1)])], [(300, [(1, 1)])], [(1, [(1, 1, 1)])], [(None, [(1, 1)])]])
    return Library({1: Block(6, RING), 2: Block(1)}, chance.choice([1, 1, 1, 2, number(chance)]), sites)


def text(chance):
    made = block(chance)
    with contextlib.suppress(*TYPED):
        data = bytearray(chance.choice([made.molfile, made.neighbours])())
        if chance.randrange(2) and data:
            data[chance.randrange(len(data))] = chance.randrange(256)
        return chance.choice([bytes(data), data.decode("latin-1"), bytes(data)])
    return chance.choice(["", b"", "ring.mol", pathlib.Path("ring.mol")])


def table(chance):
    if chance.randrange(2):
        held = Table()
        for one in (held.day, held.night):
            one.add(1, Block(6, RING))
        return bytearray(bytes(held))
    return bytearray(chance.choice([native.TABLE_BYTES, native.TABLE_BYTES, native.TABLE_BYTES - 1, 0]))


def sheet(chance):
    return Sheet(*(number(chance) for _ in range(chance.choice((5, 6)))))


ITEM = Block(2, [(1, 2)]).molfile() + b"> <W>\n1\n\n$$$$\n"
# what a parameter gets, by its name; whatever else gets numbers and values that nobody means
MADE = {
    "bonds": bonds, "deck": deck_bytes, "decks": lambda chance: [chance.choice([deck_bytes, deck])(chance) for _ in range(3)], "data": deck_bytes, "text": text, "table": table,
    "block": block, "placements": lambda chance: chance.choice([[(1, 0, 0, 0), tuple(number(chance) for _ in range(4))], [Placement(1), placement(chance, 1)]])[: chance.randrange(3)],
    "claims": lambda chance: [(chance.choice([1, 2, 3, number(chance)]), chance.choice(["6", "27", "12.0", "", "x", "9" * 300, 6])) for _ in range(chance.randrange(4))],
    "sheet": sheet,
    "fields": lambda chance: [number(chance) for _ in range(chance.choice((4, 5, 6)))], "record": lambda chance: chance.choice([FORTY[22:], b"\nM  END\n> <W>\n27\n\n$$$$\n", ITEM]), "x": lambda chance: chance.choice([0.5, 1, 0, -1, 2, float("nan"), fractions.Fraction(1, 3)]),
    "six": lambda chance: chance.choice([True, False]), "kind": lambda chance: chance.choice([3, 4, 3, 4, 5, 2**64 + 4]), "sheets": lambda chance: chance.choice([0, 1, 3, 300]),
    "sites": lambda chance: library(chance).sites, "blocks": lambda chance: {1: block(chance)}, "path": lambda chance: chance.choice(["nowhere", "\0", pathlib.Path("/"), __file__]),
    **dict.fromkeys("kilj", lambda chance: chance.choice([1, 1, 2, number(chance)])), "kept": lambda chance: chance.choice([bytes(native.TABLE_BYTES), bytes(3)]), "mol": anything, "name": lambda chance: chance.choice(["judge", "no such", "", "W"]), "queue": lambda chance: chance.choice([0, 1, number(chance)]), "number": lambda chance: chance.choice([1, number(chance)]),
    "atom": lambda chance: chance.choice([1, number(chance)]), "matching": lambda chance: [(chance.randrange(1, 3), chance.randrange(1, 7)) for _ in range(chance.choice((12, 12, 2)))],
}  # fmt: skip


def given(chance, parameter):
    """A value for a parameter: mostly of its kind."""
    if chance.randrange(8) == 0:
        return anything(chance)
    return MADE.get(parameter.name, number)(chance)


def called(chance, function):
    """Calls a function with random values; answers what it was given and what it told. A list is taken of whatever comes one by one."""
    parameters = [one for one in inspect.signature(function).parameters.values() if one.kind != one.VAR_KEYWORD]
    values = {one.name: given(chance, one) for one in parameters if one.default is one.empty or chance.randrange(2)}
    if {"atoms", "bonds"} <= set(values) and chance.randrange(2):
        values |= {"atoms": (size := chance.randrange(1, 12)), "bonds": bonds(chance, size)}
    values = list(values.values())
    told = function(*values)
    return values, list(itertools.islice(told, 5000)) if inspect.isgenerator(told) else told


def public():
    """The public functions, and what makes an object to call methods of."""
    for name in tteuyomal.__all__:
        one = getattr(tteuyomal, name)
        if not inspect.isclass(one):
            yield name, one
    for name, one in inspect.getmembers(native, inspect.isfunction):
        if not name.startswith("_") and one.__module__ == native.__name__:
            yield f"native.{name}", one


def queue(chance):
    """A queue that holds a ring under 1."""
    made = chance.choice([Table().day, Table().night])
    made.add(1, Block(6, RING))
    return made


OBJECTS = {Block: block, Deck: deck, Library: library, Table: lambda chance: Table(), Sheet: sheet, Placement: lambda chance: placement(chance, 1)}
OBJECTS |= {Queue: queue, Verdict: lambda chance: Verdict(), Candidate: lambda chance: Candidate(1, 1), Site: lambda chance: Site(1, (Candidate(1, 1),))}


def methods(kind):
    """The public methods that a class of ours says itself."""
    for name, one in inspect.getmembers(kind):
        ours = name in vars(kind) and not name.startswith("_")
        if ours and (inspect.isfunction(one) or inspect.ismethod(one)):
            yield name, isinstance(vars(kind)[name], classmethod)


class Typed(unittest.TestCase):
    def tried(self, name, call, typed=TYPED):
        """Calls again and again; says how often there was an answer."""
        chance, answers = random.Random(name), 0
        for turn in range(TURNS):
            try:
                call(chance)
                answers += 1
            except typed:
                pass
            except Exception as fault:
                raise AssertionError(f"{name}, turn {turn}: {type(fault).__name__}: {fault}") from fault
        return answers

    def test_functions(self):
        of_files = {"judge_file"}  # a file that can't be read is an OSError
        silent = {
            name for name, one in public() if not self.tried(name, lambda chance: called(chance, one), (*TYPED, OSError) if name in of_files else TYPED)
        }
        there = {name for name in silent if name.startswith("native.") and not native.has(name[7:])}
        self.assertEqual(silent - there - {"native.version"}, set(), "each is answered at least once")

    def test_methods(self):
        kinds = [one for name in tteuyomal.__all__ if inspect.isclass(one := getattr(tteuyomal, name)) and not issubclass(one, Exception)]
        for kind in kinds:
            if kind not in OBJECTS:
                continue  # a tuple of numbers that answers hold
            for name, of_class in methods(kind):
                label = f"{kind.__name__}.{name}"
                answers = self.tried(label, lambda chance: called(chance, getattr(kind if of_class else OBJECTS[kind](chance), name)))
                self.assertTrue(answers or name == "from_rdkit", f"{label} is never answered")

    def test_made(self):
        """Values made of values that nobody means: to make one, to print it and to ask it anything is an answer or a typed error."""
        for kind in (Block, Deck, Library, Placement, Sheet):
            count = len(inspect.signature(kind).parameters)

            def make(chance):
                made = kind(*(anything(chance) for _ in range(count)))
                for name, of_class in methods(kind):
                    if not of_class and not inspect.signature(getattr(made, name)).parameters:
                        with contextlib.suppress(*TYPED):
                            getattr(made, name)()
                for show in (repr, str, bytes):
                    with contextlib.suppress(*TYPED):
                        show(made)

            self.tried(f"made {kind.__name__}", make)

    def test_texts(self):
        """Deck texts, notices and names of any letters."""
        letters = ["[[block]]\n", "number = 1\n", "atoms = ", "6\n", "bonds = [", '"1-2"', ", ", "]\n", "[[placement]]\n", "block = 1\n", "[sheet]\n", "W = ", "1", "\0", "é", "=", '"', "[", "\n"]
        page = "Notice of judged decks\n\nLibrary's SHA-256: ab\nDecks: 1\n\naccepted:\n" + "a" * 64 + "  x\n"

        def of_text(chance):
            written = "".join(chance.choice(letters) for _ in range(chance.randrange(20)))
            data = decktext.made(written, os.path.join("no", "where"))
            self.assertEqual(decktext.made(decktext.shown(data)), data)

        def of_notice(chance):
            at = chance.randrange(len(page))
            notice.read(page[:at] + chance.choice(["", "\\", "\n", "é", "9" * 5000, "accepted:\n", page[at:][::-1]]) + page[at + chance.randrange(3) :])

        def of_name(chance):
            name = "".join(chance.choice("\\nrtx0u\n\t\r\x1b\x85\u202e\udcff\udc80Ā\U000e0001 a") for _ in range(chance.randrange(8)))
            self.assertEqual(files.meant(files.shown(name)), name)
            self.assertTrue(files.shown(name).isprintable() and "\n" not in files.shown(name))
            files.meant(name)

        for call in (of_text, of_notice, of_name):
            self.tried(call.__name__, lambda chance: [call(chance) for _ in range(10)])


def plain(atoms, pairs):
    """The five fields of a graph by plain searching from every atom, and its largest distance; None where the rules refuse it."""
    if not 1 <= atoms <= 64 or len(pairs) > 192 or any(not 1 <= end <= atoms for pair in pairs for end in pair):
        return None
    near = {atom: [] for atom in range(1, atoms + 1)}
    for first, second in pairs:
        if first == second or second in near[first] or len(near[first]) == 6 or len(near[second]) == 6:
            return None
        near[first].append(second)
        near[second].append(first)
    return searched(near)


def searched(near):
    far = []
    for start in near:
        found, turn = {start: 0}, deque([start])
        while turn:
            for other in near[here := turn.popleft()]:
                if other not in found:
                    found[other] = found[here] + 1
                    turn.append(other)
        if len(found) < len(near):
            return None
        far += [distance for atom, distance in found.items() if atom > start]
    return len(near), sum(far), sum(d for d in far if d % 2 == 0), sum(d for d in far if d % 2), far.count(3), max(far, default=0)


def written_out(made):
    """The neighbours of every atom of a deck's molecule; None where a block or a join is refused."""
    blocks = {number: (part.atoms, [(operator.index(a), operator.index(b)) for a, b in part.bonds]) for number, part in made.blocks}
    if any(plain(*part) is None for part in blocks.values()):
        return None
    starts, near = [], {}
    for place, one in enumerate(made.placements):
        atoms, pairs = blocks[one.block]
        start = len(near)
        near |= {start + atom: [start + b if a == atom else start + a for a, b in pairs if atom in (a, b)] for atom in range(1, atoms + 1)}
        if place:
            if not 1 <= one.parent <= place or not 1 <= one.parent_atom <= starts[one.parent - 1][1] or not 1 <= one.atom <= atoms:
                return None
            ends = starts[one.parent - 1][0] + one.parent_atom, start + one.atom
            if max(len(near[end]) for end in ends) == 6:
                return None
            near[ends[0]].append(ends[1])
            near[ends[1]].append(ends[0])
        starts.append((start, atoms))
    return near


class Right(unittest.TestCase):
    """No answer is another block's or another deck's."""

    def test_blocks(self):
        chance, answered = random.Random(7), 0
        for _ in range(4 * TURNS):
            atoms, pairs = number(chance), bonds(chance)
            try:
                told = native.indices(atoms, pairs)
            except TYPED:
                told = None
            try:
                whole = [(int(a.__index__()), int(b.__index__())) for a, b in pairs]
                right = plain(int(atoms.__index__()), whole)
            except (AttributeError, TypeError, ValueError):
                right = None
            self.assertEqual(told, right[:5] if right else None, (atoms, pairs))
            if right:
                answered += 1
                one = Block(atoms, pairs)
                self.assertEqual(one.measure().fields(), right[:5])
                self.assertEqual(max(one.farthest(atom) for atom in range(1, right[0] + 1)), right[5])
                self.assertEqual(sum(one.vertex(atom).sum for atom in range(1, right[0] + 1)), 2 * right[1])
                self.assertEqual(Block.from_molfile(one.molfile()).measure(), one.measure())
                self.assertEqual(Block.from_neighbours(one.neighbours()).measure(), one.measure())
        self.assertGreater(answered, TURNS // 15)

    def test_decks(self):
        chance, answered = random.Random(8), 0
        for _ in range(4 * TURNS):
            try:
                made = deck(chance)
                near = written_out(made)
            except TYPED:
                continue
            right = searched(near) if near else None
            try:
                told = made.compose(six=True).fields()
            except TYPED:
                told = None
            self.assertEqual(told, right, made)
            if right is not None:
                answered += 1
                self.assertTrue(made.with_sheet(Sheet(*right)).judge())
                wrong = list(right)
                wrong[chance.randrange(6)] += 1
                self.assertEqual(made.with_sheet(Sheet(*wrong)).judge().word, "differs")
        self.assertGreater(answered, TURNS)

    def test_many_at_once(self):
        """`judge_many` and `judge_file` say of each what `judge` says of it alone."""
        chance = random.Random(9)
        with tempfile.TemporaryDirectory() as room:
            for _ in range(TURNS // 5):
                some = [bytes(deck_bytes(chance)) for _ in range(chance.randrange(6))]
                alone = [tteuyomal.judge(one) for one in some]
                self.assertEqual(tteuyomal.judge_many(some), alone)
                for data, verdict in zip(some, alone):
                    with open(os.path.join(room, "deck"), "wb") as file:
                        file.write(data)
                    self.assertEqual(tteuyomal.judge_file(file.name), verdict)

    def test_products(self):
        chance, answered = random.Random(10), 0
        for _ in range(TURNS // 5):
            try:
                made = library(chance)
                count = made.count()
            except TYPED:
                continue
            for position in (0, count - 1, count, -1, 2**64):
                if 0 <= position < count:
                    answered += 1
                    (product,) = made.products(position, 1, six=True)
                    self.assertEqual(product.fields, made.assembly(position).compose(six=True).fields())
                else:
                    for ask in (made.choice, made.assembly):
                        self.assertRaises(tteuyomal.NoProduct, ask, position)
        self.assertGreater(answered, TURNS // 10)


if __name__ == "__main__":
    unittest.main()
