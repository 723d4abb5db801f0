"""Libraries against a second reading, written from docs/RULES.md: random decks, good and damaged; each product as the whole molecule with every atom and bond."""

import random
import unittest
from collections import deque

from common import FORTY  # noqa: F401  (the path to the package)

from tteuyomal import native
from tteuyomal.native import Refused

LIMIT = 6


def little(data, at):
    return int.from_bytes(data[at : at + 2], "little")


def distances(atoms, bonds, start):
    near = {atom: [] for atom in range(1, atoms + 1)}
    for one, two in bonds:
        near[one].append(two)
        near[two].append(one)
    found, waiting = {start: 0}, deque([start])
    while waiting:
        atom = waiting.popleft()
        for other in near[atom]:
            if other not in found:
                found[other] = found[atom] + 1
                waiting.append(other)
    return found


def six(atoms, bonds):
    pairs = [d for atom in range(1, atoms + 1) for other, d in distances(atoms, bonds, atom).items() if other > atom]
    even, odd = sum(d for d in pairs if d % 2 == 0), sum(d for d in pairs if d % 2 == 1)
    return [atoms, even + odd, even, odd, pairs.count(3), max(pairs, default=0)]


def read(deck, blocks, at):
    """The refusal of a library record behind good blocks, or its core and sites."""
    def degree(number, atom):
        return sum((one == atom) + (two == atom) for one, two in blocks[number][1])

    if len(deck) - at < 4 or len(deck) - at < 4 + little(deck, at):
        return 11, at
    if little(deck, at + 2) != 5:
        return 12, at
    xs = deck[at + 4 : at + 4 + little(deck, at)]
    if len(xs) < 4:
        return 13, at
    core, count, p, sites = little(xs, 0), little(xs, 2), 4, []
    if not 1 <= count <= 4:
        return 31, at
    if core not in blocks:
        return 16, at
    for _ in range(count):
        if len(xs) < p + 2:
            return 13, at
        atom, many = xs[p], xs[p + 1]
        if not 1 <= many <= 8:
            return 32, at
        if not 1 <= atom <= blocks[core][0]:
            return 18, at
        if atom in [site[0] for site in sites]:
            return 33, at
        p += 2
        candidates = []
        for _ in range(many):
            if len(xs) < p + 3:
                return 13, at
            number, own = little(xs, p), xs[p + 2]
            if number not in blocks:
                return 16, at
            if not 1 <= own <= blocks[number][0]:
                return 18, at
            if degree(core, atom) >= LIMIT or degree(number, own) >= LIMIT:
                return 19, at
            candidates.append((number, own))
            p += 3
        sites.append((atom, candidates))
    if p < len(xs):
        return 13, at
    if len(deck) > at + 4 + len(xs):
        return 11, at + 4 + len(xs)
    return core, sites


def product(blocks, core, sites, position):
    digits = []
    for _, candidates in reversed(sites):
        digits.insert(0, position % len(candidates))
        position //= len(candidates)
    atoms, bonds = blocks[core][0], list(blocks[core][1])
    for (atom, candidates), digit in zip(sites, digits):
        number, own = candidates[digit]
        bonds += [(one + atoms, two + atoms) for one, two in blocks[number][1]] + [(atom, own + atoms)]
        atoms += blocks[number][0]
    return six(atoms, bonds)


def some_block(rng):
    atoms = rng.choice([1, 2, 3, 5, 8])
    bonds = [(rng.randint(max(1, atom - 3), atom - 1), atom) for atom in range(2, atoms + 1)]
    if atoms > 4 and (1, atoms) not in bonds and rng.random() < 0.5:
        bonds.append((1, atoms))
    return atoms, bonds


def some_deck(rng):
    blocks = {number: some_block(rng) for number in range(1, rng.randint(2, 5))}
    if rng.random() < 0.3:
        blocks[9] = (LIMIT + 1, [(1, atom) for atom in range(2, LIMIT + 2)])
    front = b"".join(native.block_record(number, atoms, bonds) for number, (atoms, bonds) in blocks.items())
    core = rng.choice(list(blocks))
    places = rng.sample(range(1, blocks[core][0] + 1), rng.randint(1, min(4, blocks[core][0])))
    xs = core.to_bytes(2, "little") + len(places).to_bytes(2, "little")
    for atom in places:
        many = rng.randint(1, 4)
        xs += bytes([atom, many])
        for _ in range(many):
            number = rng.choice(list(blocks))
            xs += number.to_bytes(2, "little") + bytes([rng.randint(1, blocks[number][0])])
    return blocks, len(front), bytearray(front + len(xs).to_bytes(2, "little") + b"\x05\x00" + xs)


def damage(rng, deck, at):
    kind = rng.randrange(4)
    if kind == 0:
        deck[rng.randrange(at + 4, len(deck))] = rng.choice([0, 1, 2, 5, 9, 255])
    elif kind == 1:
        deck.append(0)
    elif kind == 2:
        del deck[-rng.randint(1, 4) :]
    else:
        less = rng.randint(1, 4)
        del deck[-less:]
        deck[at : at + 2] = (len(deck) - at - 4).to_bytes(2, "little")


class Libraries(unittest.TestCase):
    def test_second_reading(self):
        rng, seen = random.Random(12), set()
        for _ in range(400):
            blocks, at, deck = some_deck(rng)
            if rng.random() < 0.5:
                damage(rng, deck, at)
            deck, answer = bytes(deck), read(deck, blocks, at)
            if isinstance(answer[1], int):
                seen.add(answer[0])
                for call in (native.library_count, lambda d: native.library_step(d, 0), lambda d: native.library_run(d, 2**60, 4)):
                    with self.assertRaises(Refused) as caught:
                        call(deck)
                    self.assertEqual((caught.exception.number, caught.exception.place), answer)
                continue
            core, sites = answer
            count = 1
            for _, candidates in sites:
                count *= len(candidates)
            self.assertEqual(native.library_count(deck), count)
            sheets, following = native.library_run(deck, 0, 4)
            self.assertEqual((len(sheets), following), (count, count))
            for position in sorted({0, count - 1, rng.randrange(count)}):
                sheet = sheets[position]
                told = [int.from_bytes(sheet[a : a + w], "little") for a, w in ((4, 4), (8, 8), (16, 8), (24, 8), (32, 8), (40, 4))]
                self.assertEqual(told, product(blocks, core, sites, position))
                self.assertEqual(native.library_step(deck, position, 4), (sheet, position + 1))
            self.assertIsNone(native.library_step(deck, count))
        self.assertLessEqual({11, 13, 16, 18, 19, 31, 32, 33}, seen)


if __name__ == "__main__":
    unittest.main()
