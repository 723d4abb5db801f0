"""A drawing of a deck's molecule, where RDKit is there. It is a picture only: no number comes from it."""

from __future__ import annotations

import functools
from typing import Any, NamedTuple

from .decks import Deck

LARGEST = 200  # atoms that a drawing shows
BOND = 20  # how long a bond is drawn, before the drawing is fitted into its place


class Graph(NamedTuple):
    """Every atom and bond of a molecule, atoms numbered from 0: the bonds within placements, and the joins between them."""

    atoms: int
    bonds: list[tuple[int, int]]
    joins: list[tuple[int, int]]


@functools.cache
def _rdkit() -> Any:
    """What draws; nothing where RDKit isn't there. It is asked for by the first drawing, since to load it takes a while."""
    try:
        from rdkit import Chem
        from rdkit.Chem import rdDepictor
    except ImportError:
        return None
    return Chem, rdDepictor


def there() -> bool:
    """Whether molecules can be drawn here."""
    return _rdkit() is not None


def svg(data: bytes) -> str:
    """The molecule of a deck as SVG, with words for who can't see it; nothing where RDKit isn't there, the bytes are no deck or the
    molecule is too large for a small picture."""
    if not data or not there():
        return ""
    try:
        graph = written_out(Deck.from_bytes(data))
        return _drawn(graph) if graph.atoms <= LARGEST else ""
    except (ValueError, KeyError, IndexError, RuntimeError):
        return ""


def written_out(deck: Deck) -> Graph:
    """The atoms and bonds of a deck's molecule, placement by placement."""
    blocks = dict(deck.blocks)
    starts: list[int] = []
    graph = Graph(0, [], [])
    for placement in deck.placements:
        block, atoms = blocks[placement.block], graph.atoms
        graph.bonds.extend((atoms + first - 1, atoms + second - 1) for first, second in block.bonds)
        if starts:
            graph.joins.append((starts[placement.parent - 1] + placement.parent_atom - 1, atoms + placement.atom - 1))
        starts.append(atoms)
        graph = graph._replace(atoms=atoms + block.atoms)
    return graph


def _drawn(graph: Graph) -> str:
    places = _places(graph)
    left, top = (min(place[k] for place in places) - BOND // 2 for k in (0, 1))
    wide, high = (max(place[k] for place in places) + BOND // 2 - least for k, least in ((0, left), (1, top)))
    words = f"The molecule: {_count(graph.atoms, 'atom')}, {_count(len(graph.bonds) + len(graph.joins), 'bond')}"
    if graph.joins:
        words += f", {len(graph.joins)} of them between placements"
    paths = "".join(
        f'<path class="{kind}" d="{"".join(_line(places, bond) for bond in bonds)}"/>'
        for kind, bonds in (("bonds", graph.bonds), ("joins", graph.joins))
        if bonds
    )
    if graph.atoms == 1:
        paths = f'<circle cx="{places[0][0]}" cy="{places[0][1]}" r="3"/>'
    return f'<svg viewBox="{left} {top} {wide} {high}" role="img" aria-label="{words}"><title>{words}</title>{paths}</svg>'


def _count(count: int, what: str) -> str:
    return f"{count} {what}" if count == 1 else f"{count} {what}s"


def _line(places: list[tuple[int, int]], bond: tuple[int, int]) -> str:
    (x, y), (u, v) = (places[end] for end in bond)
    return f"M{x} {y}L{u} {v}"


def _places(graph: Graph) -> list[tuple[int, int]]:
    """Where RDKit puts the atoms; every atom is a carbon to it, and every bond a single one."""
    chem, depictor = _rdkit()
    mol = chem.RWMol()
    for _ in range(graph.atoms):
        atom = chem.Atom(6)
        atom.SetNoImplicit(True)
        mol.AddAtom(atom)
    for first, second in graph.bonds + graph.joins:
        mol.AddBond(first, second, chem.BondType.SINGLE)
    mol.UpdatePropertyCache(strict=False)
    depictor.Compute2DCoords(mol)
    points = mol.GetConformer().GetPositions()
    return [(round(x * BOND / 1.5), round(-y * BOND / 1.5)) for x, y, _ in points]
