//! The sets of bonds that share no atom and the sets of atoms no two of which are bonded, the empty set counted in each.
//!
//! Up to 16 atoms every set is looked at. Beyond, the part that is left is taken apart at the atom that leaves the
//! smallest pieces: the sets without that atom, and those with it (with each of its bonds).

use crate::block::read_block;
use crate::graph::Graph;
use crate::make::plan::BlockPlan;
use crate::make::shapes::{block, path, star};
use crate::refusal::{refuse, Refusal};

const FEW: usize = 16;

/// Both numbers of a block that is a tree: the block's refusals, then 34, then 9.
pub fn count_sets(atoms: usize, bonds: &[u8], room: usize) -> Result<[u64; 2], Refusal> {
    let tree = read_block(atoms, bonds)?;
    if tree.bonds.len() + 1 != tree.atoms {
        return refuse(34, 0);
    }
    if room < 2 {
        return refuse(9, 0);
    }
    Ok(if tree.atoms <= FEW { [bond_sets(&tree), atom_sets(&tree)] } else { taken_apart(&tree) })
}

/// Trees whose two numbers are known.
pub fn known() -> Vec<(&'static str, BlockPlan, [u64; 2])> {
    let branched = block(6, vec![(1, 2), (2, 3), (3, 4), (4, 5), (2, 6)]);
    vec![
        ("one atom", path(1), [1, 2]),
        ("path of 2", path(2), [2, 3]),
        ("path of 4", path(4), [5, 8]),
        ("path of 4, listed another way", block(4, vec![(4, 1), (2, 3), (1, 3)]), [5, 8]),
        ("star of 5", star(5), [5, 17]),
        ("path of 5 with a branch", branched, [11, 23]),
        // Fibonacci numbers: the 65th and the 66th
        ("path of 64", path(64), [17_167_680_177_565, 27_777_890_035_288]),
    ]
}

/// By every set of bonds.
fn bond_sets(tree: &Graph) -> u64 {
    let apart = |set: u32| {
        let mut used = 0u64;
        tree.bonds.iter().enumerate().filter(|(k, _)| set >> k & 1 == 1).all(|(_, &(u, v))| {
            let ends = 1 << u | 1 << v;
            let free = used & ends == 0;
            used |= ends;
            free
        })
    };
    (0..1 << tree.bonds.len()).filter(|&set| apart(set)).count() as u64
}

/// By every set of atoms.
fn atom_sets(tree: &Graph) -> u64 {
    let apart = |set: u32| tree.bonds.iter().all(|&(u, v)| set >> (u - 1) & set >> (v - 1) & 1 == 0);
    (0..1 << tree.atoms).filter(|&set| apart(set)).count() as u64
}

/// By pieces, each a set of atoms in one number.
fn taken_apart(tree: &Graph) -> [u64; 2] {
    let mut near = [0u64; 64];
    for &(u, v) in &tree.bonds {
        near[u - 1] |= 1 << (v - 1);
        near[v - 1] |= 1 << (u - 1);
    }
    let all = u64::MAX >> (64 - tree.atoms);
    [bonds_within(&near, all), atoms_within(&near, all)]
}

/// The members of a set.
fn members(set: u64) -> impl Iterator<Item = usize> {
    (0..64).filter(move |v| set >> v & 1 == 1)
}

/// The connected pieces of a set of atoms.
fn pieces(near: &[u64; 64], mut set: u64) -> Vec<u64> {
    let mut found = Vec::new();
    while set != 0 {
        let (mut piece, mut next) = (0, set & set.wrapping_neg());
        while next != 0 {
            piece |= next;
            next = members(next).fold(0, |around, v| around | near[v]) & set & !piece;
        }
        set &= !piece;
        found.push(piece);
    }
    found
}

/// The atom of a piece without which the largest piece is smallest.
fn middle(near: &[u64; 64], piece: u64) -> usize {
    let largest = |&v: &usize| pieces(near, piece & !(1 << v)).iter().map(|part| part.count_ones()).max();
    members(piece).min_by_key(largest).expect("a piece has an atom")
}

fn atoms_within(near: &[u64; 64], set: u64) -> u64 {
    let within = |&piece: &u64| {
        let v = middle(near, piece);
        let others = piece & !(1 << v);
        atoms_within(near, others) + atoms_within(near, others & !near[v])
    };
    pieces(near, set).iter().map(within).product()
}

fn bonds_within(near: &[u64; 64], set: u64) -> u64 {
    let within = |&piece: &u64| {
        let v = middle(near, piece);
        let others = piece & !(1 << v);
        let bonded = members(near[v] & others).map(|u| bonds_within(near, others & !(1 << u)));
        bonds_within(near, others) + bonded.sum::<u64>()
    };
    pieces(near, set).iter().map(within).product()
}

#[cfg(test)]
mod tests {
    use super::*;
    use crate::make::blocks::random_block;
    use crate::make::random::Random;
    use crate::make::shapes::ring;

    #[test]
    fn known_trees() {
        for (name, tree, numbers) in known() {
            assert_eq!(count_sets(tree.atoms as usize, &tree.bond_bytes(), 2), Ok(numbers), "{name}");
        }
    }

    #[test]
    fn both_ways_agree() {
        let mut random = Random::new(13);
        for _ in 0..400 {
            let plan = random_block(&mut random, 12);
            let graph = read_block(plan.atoms as usize, &plan.bond_bytes()).expect("a good block");
            if graph.bonds.len() < 16 {
                assert_eq!(taken_apart(&graph), [bond_sets(&graph), atom_sets(&graph)]);
            }
        }
    }

    #[test]
    fn refusals_in_their_order() {
        let six = ring(6).bond_bytes();
        assert_eq!(count_sets(7, &six, 0), refuse(7, 0));
        assert_eq!(count_sets(6, &six, 0), refuse(34, 0));
        assert_eq!(count_sets(6, &six[..10], 1), refuse(9, 0));
    }
}
