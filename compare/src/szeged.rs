//! The Szeged index: for each bond the atoms nearer to one end times the atoms nearer to the other.

use crate::block::read_block;
use crate::graph::{search, Graph};
use crate::refusal::{refuse, Refusal};

/// The term of each bond, in list order: two searches a bond, and every atom asked which end it is nearer to.
pub fn terms(graph: &Graph) -> Vec<u64> {
    let neighbours = graph.neighbours();
    let term = |&(u, v): &(usize, usize)| {
        let (from_u, from_v) = (search(&neighbours, u), search(&neighbours, v));
        let nearer = |one: &[Option<usize>], other: &[Option<usize>]| {
            (1..=graph.atoms).filter(|&atom| one[atom] < other[atom]).count() as u64
        };
        nearer(&from_u, &from_v) * nearer(&from_v, &from_u)
    };
    graph.bonds.iter().map(term).collect()
}

/// The index and its terms: the block's refusals, then 9 for either output.
pub fn answer(atoms: usize, bonds: &[u8], room: usize, index_room: usize) -> Result<(u64, Vec<u64>), Refusal> {
    let block = read_block(atoms, bonds)?;
    if room < block.bonds.len() || index_room < 1 {
        return refuse(9, 0);
    }
    let terms = terms(&block);
    Ok((terms.iter().sum(), terms))
}

#[cfg(test)]
mod tests {
    use super::*;
    use crate::documents::NAPHTHALENE;
    use crate::make::blocks::with_more_bonds;
    use crate::make::random::Random;
    use crate::make::shapes::{block, path, ring, star};

    fn told(block: &crate::make::plan::BlockPlan) -> (u64, Vec<u64>) {
        answer(block.atoms as usize, &block.bond_bytes(), block.bonds.len(), 1).expect("a good block")
    }

    /// Methylcyclohexane, naphthalene, rings, and one atom.
    #[test]
    fn numbers() {
        let ring_with_atom = block(7, vec![(1, 2), (2, 3), (3, 4), (4, 5), (5, 6), (6, 1), (1, 7)]);
        assert_eq!(told(&ring_with_atom), (78, vec![12, 12, 12, 12, 12, 12, 6]));
        assert_eq!(told(&NAPHTHALENE.block()).0, 243);
        assert_eq!(told(&ring(5)), (20, vec![4; 5]));
        assert_eq!(told(&ring(6)), (54, vec![9; 6]));
        assert_eq!(told(&path(1)), (0, vec![]));
    }

    /// For trees it is W, and a term is the product of the two parts that the bond joins.
    #[test]
    fn trees() {
        let mut trees = vec![path(2), path(4), path(64), star(4), star(5)];
        trees.extend((0..100).map(|seed| with_more_bonds(&mut Random::new(seed), 2 + seed as usize % 63, 0)));
        for tree in trees {
            let (index, terms) = told(&tree);
            let graph = read_block(tree.atoms as usize, &tree.bond_bytes()).expect("a good block");
            assert_eq!(index, graph.indices().w);
            for (k, term) in terms.into_iter().enumerate() {
                let mut parted = graph.clone();
                let (u, _) = parted.bonds.remove(k);
                let part = search(&parted.neighbours(), u).iter().flatten().count() as u64;
                assert_eq!(term, part * (graph.atoms as u64 - part));
            }
        }
    }

    #[test]
    fn refusals() {
        let bonds = ring(6).bond_bytes();
        assert_eq!(answer(6, &bonds, 5, 1), refuse(9, 0));
        assert_eq!(answer(6, &bonds, 6, 0), refuse(9, 0));
        assert_eq!(answer(7, &bonds, 0, 0), refuse(7, 0));
    }
}
