//! One molecule listed in several ways: its atoms numbered anew, its bonds in another order and turned round, and cut into blocks at other bonds.

use super::blocks::scramble;
use super::plan::{BlockPlan, DeckPlan, PlacementPlan};
use super::random::Random;
use crate::deck::{MOST_BLOCKS, MOST_PLACEMENTS};
use crate::graph::{search, Graph};

/// The most atoms of a block.
const MOST_ATOMS: usize = 64;

/// A deck, and the number that each atom of the molecule has in the deck's molecule written out; entry 0 belongs to no atom.
pub struct Relisted {
    pub deck: DeckPlan,
    pub names: Vec<usize>,
}

/// A block listed in another way, and the new number of each atom.
pub fn relist(random: &mut Random, block: &BlockPlan) -> (BlockPlan, Vec<u8>) {
    let mut other = block.clone();
    let names = scramble(random, &mut other);
    (other, names)
}

/// The bonds that alone hold their two parts together: where a molecule can be cut.
fn bridges(molecule: &Graph) -> Vec<(usize, usize)> {
    let is_bridge = |&(u, v): &(usize, usize)| search(&without(molecule, &[(u, v)]).neighbours(), u)[v].is_none();
    molecule.bonds.iter().copied().filter(is_bridge).collect()
}

fn without(molecule: &Graph, cut: &[(usize, usize)]) -> Graph {
    let bonds = molecule.bonds.iter().copied().filter(|bond| !cut.contains(bond)).collect();
    Graph { atoms: molecule.atoms, bonds }
}

/// The piece of each atom, numbered from 0, and the atoms of each piece.
fn pieces(parted: &Graph) -> (Vec<usize>, Vec<Vec<usize>>) {
    let neighbours = parted.neighbours();
    let (mut piece_of, mut pieces) = (vec![usize::MAX; parted.atoms + 1], Vec::new());
    for atom in 1..=parted.atoms {
        if piece_of[atom] == usize::MAX {
            let reached = search(&neighbours, atom);
            let piece: Vec<usize> = (1..=parted.atoms).filter(|&other| reached[other].is_some()).collect();
            piece.iter().for_each(|&other| piece_of[other] = pieces.len());
            pieces.push(piece);
        }
    }
    (piece_of, pieces)
}

/// Some bridges to cut at: enough that no piece is too large, and up to `more` besides.
fn cuts(random: &mut Random, molecule: &Graph, more: usize) -> Option<Vec<(usize, usize)>> {
    let mut left = bridges(molecule);
    random.shuffle(&mut left);
    let mut cut: Vec<(usize, usize)> = left.split_off(left.len() - more.min(left.len()));
    loop {
        let (piece_of, pieces) = pieces(&without(molecule, &cut));
        let Some(large) = pieces.iter().position(|piece| piece.len() > MOST_ATOMS) else {
            return Some(cut);
        };
        let inside = left.iter().position(|&(u, _)| piece_of[u] == large)?;
        cut.push(left.swap_remove(inside));
    }
}

/// The molecule as a deck, cut somewhere, each piece numbered anew, the placements from some piece outwards. None where the pieces are too many.
pub fn listed(random: &mut Random, molecule: &Graph) -> Option<Relisted> {
    let more = random.below(8);
    let cut = cuts(random, molecule, more)?;
    let parted = without(molecule, &cut);
    let (piece_of, pieces) = pieces(&parted);
    if pieces.len() > MOST_PLACEMENTS {
        return None;
    }
    let (mut deck, mut local) =
        (DeckPlan { blocks: Vec::new(), placements: Vec::new(), sheet: None }, vec![0; molecule.atoms + 1]);
    let mut numbers = Vec::new();
    for piece in &pieces {
        numbers.push(block_number(&mut deck, piece_block(random, &parted, piece, &mut local)));
    }
    if deck.blocks.len() > MOST_BLOCKS {
        return None;
    }
    random.shuffle(&mut deck.blocks);
    let (order, joins) = outwards(random, pieces.len(), &cut, &piece_of);
    for (at, &piece) in order.iter().enumerate() {
        deck.placements.push(match joins[at] {
            None => PlacementPlan::first(numbers[piece]),
            Some((parent, site, own)) => {
                PlacementPlan::joined(numbers[piece], parent as u16 + 1, local[site], local[own])
            }
        });
    }
    let mut names = vec![0; molecule.atoms + 1];
    let mut before = 0;
    for &piece in &order {
        pieces[piece].iter().for_each(|&atom| names[atom] = before + local[atom] as usize);
        before += pieces[piece].len();
    }
    Some(Relisted { deck, names })
}

/// A piece as a block of its own: its atoms numbered anew, which `local` is told.
fn piece_block(random: &mut Random, parted: &Graph, piece: &[usize], local: &mut [u8]) -> BlockPlan {
    piece.iter().enumerate().for_each(|(at, &atom)| local[atom] = at as u8 + 1);
    let own = parted.bonds.iter().filter(|(u, _)| piece.contains(u));
    let plain =
        BlockPlan { number: 0, atoms: piece.len() as u16, bonds: own.map(|&(u, v)| (local[u], local[v])).collect() };
    let (block, names) = relist(random, &plain);
    piece.iter().enumerate().for_each(|(at, &atom)| local[atom] = names[at]);
    block
}

/// The number of a block in a deck: that of one listed alike, or a new one.
fn block_number(deck: &mut DeckPlan, mut block: BlockPlan) -> u16 {
    let alike = deck.blocks.iter().find(|other| other.atoms == block.atoms && other.bonds == block.bonds);
    if let Some(other) = alike {
        return other.number;
    }
    block.number = deck.blocks.len() as u16 + 1;
    deck.blocks.push(block);
    deck.blocks.len() as u16
}

/// A join: the index of the parent's placement, and the two atoms.
type Join = (usize, usize, usize);

/// The pieces in some order, each but the first joined to an earlier one by a bond that was cut.
fn outwards(
    random: &mut Random,
    count: usize,
    cut: &[(usize, usize)],
    piece_of: &[usize],
) -> (Vec<usize>, Vec<Option<Join>>) {
    let (mut order, mut joins) = (vec![random.below(count)], vec![None]);
    while order.len() < count {
        let place = |atom: usize| order.iter().position(|&piece| piece == piece_of[atom]);
        let both = cut.iter().flat_map(|&(u, v)| [(u, v), (v, u)]);
        let open: Vec<Join> =
            both.filter_map(|(u, v)| Some((place(u)?, u, v))).filter(|&(_, _, v)| place(v).is_none()).collect();
        let join = *random.pick(&open);
        order.push(piece_of[join.2]);
        joins.push(Some(join));
    }
    (order, joins)
}

#[cfg(test)]
mod tests {
    use super::*;
    use crate::deck::{read_deck, Form};
    use crate::make::decks::random_deck;
    use crate::molecule::write_out;

    /// Sorted, each bond from its smaller end.
    fn sorted(bonds: impl Iterator<Item = (usize, usize)>) -> Vec<(usize, usize)> {
        let mut all: Vec<(usize, usize)> = bonds.map(|(u, v)| (u.min(v), u.max(v))).collect();
        all.sort_unstable();
        all
    }

    /// A deck that is listed is good, its molecule has the bonds that the names say, and the names are each used once.
    #[test]
    fn names_carry_bonds() {
        let mut cut_differently = 0;
        for seed in 0..200 {
            let random = &mut Random::new(seed);
            let molecule = write_out(&read_deck(&random_deck(random).bytes(), Form::Composed).expect("a good deck"));
            let (Some(one), Some(two)) = (listed(random, &molecule), listed(random, &molecule)) else {
                continue;
            };
            cut_differently += (one.deck.placements.len() != two.deck.placements.len()) as usize;
            for relisted in [&one, &two] {
                let written = write_out(&read_deck(&relisted.deck.bytes(), Form::Composed).expect("a good deck"));
                let mut names = relisted.names[1..].to_vec();
                let carried = molecule.bonds.iter().map(|&(u, v)| (relisted.names[u], relisted.names[v]));
                assert_eq!(sorted(written.bonds.into_iter()), sorted(carried));
                names.sort_unstable();
                assert_eq!(names, (1..=molecule.atoms).collect::<Vec<usize>>());
            }
        }
        assert!(cut_differently > 20);
    }
}
