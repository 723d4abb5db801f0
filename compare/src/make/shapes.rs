//! Named shapes of blocks: their bonds as pairs of atom numbers from 1.

use super::plan::{BlockPlan, DeckPlan, PlacementPlan};

/// A block with number 1.
pub fn block(atoms: usize, bonds: Vec<(u8, u8)>) -> BlockPlan {
    BlockPlan { number: 1, atoms: atoms as u16, bonds }
}

pub fn path(atoms: u8) -> BlockPlan {
    block(atoms as usize, (1..atoms).map(|i| (i, i + 1)).collect())
}

pub fn ring(atoms: u8) -> BlockPlan {
    let mut ring = path(atoms);
    ring.bonds.push((atoms, 1));
    ring
}

/// Atom 1 in the middle.
pub fn star(atoms: u8) -> BlockPlan {
    block(atoms as usize, (2..=atoms).map(|i| (1, i)).collect())
}

/// Squares in a row, each sharing the corner opposite to the last shared one: 3 atoms a square, and 1.
pub fn squares(count: u8) -> BlockPlan {
    let mut bonds = Vec::new();
    for square in 0..count {
        let corner = 3 * square + 1;
        bonds.extend([(corner, corner + 1), (corner, corner + 2), (corner + 1, corner + 3), (corner + 2, corner + 3)]);
    }
    block(3 * count as usize + 1, bonds)
}

/// Two rows of atoms with a rung at each: fused squares.
pub fn ladder(rungs: u8) -> BlockPlan {
    let mut bonds = vec![(1, 2)];
    for rung in 1..rungs {
        let left = 2 * rung + 1;
        bonds.extend([(left - 2, left), (left - 1, left + 1), (left, left + 1)]);
    }
    block(2 * rungs as usize, bonds)
}

/// A grid of rows and columns.
pub fn grid(rows: u8, columns: u8) -> BlockPlan {
    let mut bonds = Vec::new();
    for row in 0..rows {
        for column in 0..columns {
            let atom = row * columns + column + 1;
            if column + 1 < columns {
                bonds.push((atom, atom + 1));
            }
            if row + 1 < rows {
                bonds.push((atom, atom + columns));
            }
        }
    }
    block(rows as usize * columns as usize, bonds)
}

/// A ring in which each atom is bonded to the next and the one after: four bonds an atom, from 5 atoms on.
pub fn double_ring(atoms: u8) -> BlockPlan {
    let bonds = (0..atoms).flat_map(|i| [(i + 1, (i + 1) % atoms + 1), (i + 1, (i + 2) % atoms + 1)]);
    block(atoms as usize, bonds.collect())
}

/// A ring in which each atom is bonded to the next three: six bonds an atom, from 7 atoms on.
pub fn triple_ring(atoms: u8) -> BlockPlan {
    let bonds = (0..atoms).flat_map(|i| (1..=3).map(move |step| (i + 1, (i + step) % atoms + 1)));
    block(atoms as usize, bonds.collect())
}

/// The corners of a cube of so many dimensions, bonded along its edges: as many bonds an atom.
pub fn cube(dimensions: u8) -> BlockPlan {
    let corners = 1u8 << dimensions;
    let edges = |corner: u8| (0..dimensions).map(move |side| (corner, corner | 1 << side)).filter(|(u, v)| u != v);
    let bonds = (0..corners).flat_map(edges).map(|(u, v)| (u + 1, v + 1));
    block(corners as usize, bonds.collect())
}

/// Pairs of atoms in a row, each bonded to both of the next pair: the path counts double at every pair.
pub fn doubling(pairs: u8) -> BlockPlan {
    let mut bonds = Vec::new();
    for pair in 1..pairs {
        let left = 2 * pair + 1;
        bonds.extend([(left - 2, left), (left - 2, left + 1), (left - 1, left), (left - 1, left + 1)]);
    }
    block(2 * pairs as usize, bonds)
}

/// Three atoms in a row of threes, each bonded to all of the next three: the path counts treble at every step.
pub fn tripling(threes: u8) -> BlockPlan {
    let mut bonds = Vec::new();
    for first in (1..threes).map(|three| 3 * three + 1) {
        bonds.extend((first - 3..first).flat_map(|u| (first..first + 3).map(move |v| (u, v))));
    }
    block(3 * threes as usize, bonds)
}

/// Bundles of so many paths of two bonds, each bundle's end bonded to the front of the next: the path counts multiply.
pub fn bundles(sizes: &[u8]) -> BlockPlan {
    let mut bonds = Vec::new();
    let mut last = 0;
    for size in sizes {
        let (front, end) = (last + 1, last + size + 2);
        if last > 0 {
            bonds.push((last, front));
        }
        bonds.extend((front + 1..end).flat_map(|middle| [(front, middle), (middle, end)]));
        last = end;
    }
    block(last as usize, bonds)
}

/// A deck of one block in one placement.
pub fn alone(block: BlockPlan) -> DeckPlan {
    let number = block.number;
    DeckPlan { blocks: vec![block], placements: vec![PlacementPlan::first(number)], sheet: None }
}

/// Copies of one block in a row: each next copy's atom `own` is joined to the last one's atom `at`.
pub fn chained(block: BlockPlan, copies: usize, at: u8, own: u8) -> DeckPlan {
    let mut deck = alone(block);
    for parent in 1..copies {
        deck.placements.push(PlacementPlan::joined(deck.blocks[0].number, parent as u16, at, own));
    }
    deck
}

/// 32 paths of 64 atoms end to end: the largest molecule, a path of 2,048 atoms.
pub fn longest_path() -> DeckPlan {
    chained(path(64), 32, 64, 1)
}
