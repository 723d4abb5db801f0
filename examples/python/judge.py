"""Builds a deck of a ring of 6 with a ring of 3 on it, has its sheet written, and has it judged, right and wrong.

From the root of the repository, after `make`:
    PYTHONPATH=python python3 examples/python/judge.py
"""

from dataclasses import replace

from tteuyomal import Block, Deck, Placement, judge

ring_of_6 = Block(6, [(1, 2), (2, 3), (3, 4), (4, 5), (5, 6), (6, 1)])
ring_of_3 = Block(3, [(1, 2), (2, 3), (3, 1)])
deck = Deck({1: ring_of_6, 2: ring_of_3}, [Placement(1), Placement(2, parent=1, parent_atom=1, atom=1)])

sheet = deck.compose()
print("worked out:", sheet)
print("from atom 4 of the ring of 6 to atom 2 of the ring of 3:", deck.distance(1, 4, 2, 2))
print("with its own sheet:", judge(deck.with_sheet(sheet)))
print("with a wrong W:", judge(deck.with_sheet(replace(sheet, w=sheet.w + 1))))
print("without a sheet:", judge(deck))
if not judge(deck):
    print("a verdict is true only where the sheet was accepted")

denominator, shares = ring_of_6.contributions()
print("each bond of the ring of 6 gives", [f"{share}/{denominator}" for share in shares])
