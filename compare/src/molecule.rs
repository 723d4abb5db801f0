//! The molecule of a deck, with every atom and every bond written out.

use crate::deck::{Deck, Placement};
use crate::graph::{Graph, Indices};

/// Placement 1's atoms come first, then placement 2's, and so on.
pub fn write_out(deck: &Deck) -> Graph {
    let mut molecule = Graph { atoms: 0, bonds: Vec::new() };
    for placement in &deck.placements {
        let before = molecule.atoms;
        let block = &deck.blocks[placement.block];
        molecule.atoms += block.atoms;
        for &(u, v) in &block.bonds {
            molecule.bonds.push((before + u, before + v));
        }
        if placement.parent > 0 {
            let at_parent = atoms_before(deck, placement.parent) + placement.parent_atom;
            molecule.bonds.push((at_parent, before + placement.own_atom));
        }
    }
    molecule
}

/// How many atoms stand in front of those of this placement (from 1).
fn atoms_before(deck: &Deck, placed: usize) -> usize {
    let atoms = |placement: &Placement| deck.blocks[placement.block].atoms;
    deck.placements[..placed - 1].iter().map(atoms).sum()
}

/// The number in the whole molecule of an atom of a placement, where there are such.
pub fn placed_atom(deck: &Deck, placed: usize, atom: usize) -> Option<usize> {
    if placed == 0 || placed > deck.placements.len() {
        return None;
    }
    let block = &deck.blocks[deck.placements[placed - 1].block];
    if atom == 0 || atom > block.atoms {
        return None;
    }
    Some(atoms_before(deck, placed) + atom)
}

/// Works the indices of molecules, and remembers the last so that another question about it costs no second search.
#[derive(Default)]
pub struct Measurer {
    last: Option<(Graph, Indices)>,
}

impl Measurer {
    pub fn indices(&mut self, molecule: Graph) -> Indices {
        if let Some((known, indices)) = &self.last {
            if *known == molecule {
                return *indices;
            }
        }
        let indices = molecule.indices();
        self.last = Some((molecule, indices));
        indices
    }
}
