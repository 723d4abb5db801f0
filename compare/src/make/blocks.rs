//! Random good blocks: trees, rings, fused rings, dense ones, and shapes with many shortest paths.

use super::plan::BlockPlan;
use super::random::Random;
use super::shapes;
use crate::block::MOST_DEGREE;

/// A random good block of at most `most` atoms, its atoms numbered and its bonds listed in random order.
pub fn random_block(random: &mut Random, most: usize) -> BlockPlan {
    let atoms = random_size(random, most);
    let mut block = match random.below(13) {
        0 | 1 => tree(random, atoms),
        2 => shapes::path(atoms as u8),
        3 | 4 if atoms >= 3 => shapes::ring(atoms as u8),
        5 | 6 if atoms >= 3 => fused_rings(random, atoms),
        7 if atoms >= 5 => shapes::double_ring(atoms as u8),
        8 if atoms >= 4 => many_paths(random, atoms),
        10 if atoms >= 7 => shapes::triple_ring(atoms as u8),
        3..=9 => {
            let extra = random.below(atoms);
            with_more_bonds(random, atoms, extra)
        }
        _ => with_more_bonds(random, atoms, MOST_DEGREE * atoms),
    };
    scramble(random, &mut block);
    block
}

/// A good block whose D is often near its limit, or above it.
pub fn block_of_many_paths(random: &mut Random) -> BlockPlan {
    let atoms = random.between(30, 64);
    let mut block = many_paths(random, atoms);
    scramble(random, &mut block);
    block
}

/// Small sizes come often, all sizes come.
fn random_size(random: &mut Random, most: usize) -> usize {
    match random.below(4) {
        0 => random.between(1, most.min(5)),
        1 | 2 => random.between(1, most.min(16)),
        _ => random.between(1, most),
    }
}

/// The atoms that can take another bond. (A damaged block may list ends that are no atoms.)
pub fn free_atoms(block: &BlockPlan) -> Vec<u8> {
    let mut degrees = [0; 256];
    for &(u, v) in &block.bonds {
        degrees[u as usize] += 1;
        degrees[v as usize] += 1;
    }
    (1..=block.atoms.min(64) as u8).filter(|&atom| degrees[atom as usize] < MOST_DEGREE).collect()
}

/// Each atom hangs on an earlier one that has room.
fn tree(random: &mut Random, atoms: usize) -> BlockPlan {
    let mut tree = shapes::path(1);
    for atom in 2..=atoms as u8 {
        let parent = *random.pick(&free_atoms(&tree));
        tree.atoms += 1;
        tree.bonds.push((parent, atom));
    }
    tree
}

/// A ring, then rings that share a bond with what is there, as long as atoms are left.
fn fused_rings(random: &mut Random, atoms: usize) -> BlockPlan {
    let mut block = shapes::ring(random.between(3, atoms.min(8)) as u8);
    while (block.atoms as usize) < atoms {
        let left = atoms - block.atoms as usize;
        let free = free_atoms(&block);
        let open = |&&(u, v): &&(u8, u8)| free.contains(&u) && free.contains(&v);
        let shared: Vec<(u8, u8)> = block.bonds.iter().filter(open).copied().collect();
        if shared.is_empty() {
            break;
        }
        let (from, to) = *random.pick(&shared);
        let mut last = from;
        for _ in 0..random.between(1, left.min(4)) {
            block.atoms += 1;
            block.bonds.push((last, block.atoms as u8));
            last = block.atoms as u8;
        }
        block.bonds.push((last, to));
    }
    block
}

/// A tree and up to `extra` further bonds wherever two atoms have room.
pub fn with_more_bonds(random: &mut Random, atoms: usize, extra: usize) -> BlockPlan {
    let mut block = tree(random, atoms);
    for _ in 0..extra {
        let free = free_atoms(&block);
        if free.len() < 2 {
            break;
        }
        let (u, v) = (*random.pick(&free), *random.pick(&free));
        if u != v && !block.bonds.contains(&(u, v)) && !block.bonds.contains(&(v, u)) {
            block.bonds.push((u, v));
        }
    }
    block
}

/// Shapes whose path counts grow, so that D grows, past its limit too.
fn many_paths(random: &mut Random, atoms: usize) -> BlockPlan {
    match random.below(5) {
        0 => shapes::squares((atoms as u8 - 1) / 3),
        1 => shapes::ladder(atoms as u8 / 2),
        2 => shapes::doubling(atoms as u8 / 2),
        3 if atoms >= 6 => shapes::tripling(atoms as u8 / 3),
        _ => {
            let rows = random.between(2, 8.min(atoms / 2));
            shapes::grid(rows as u8, (atoms / rows) as u8)
        }
    }
}

/// Numbers the atoms anew, turns bonds round and lists them in another order. Says the new number of each atom.
pub fn scramble(random: &mut Random, block: &mut BlockPlan) -> Vec<u8> {
    let mut names: Vec<u8> = (1..=block.atoms as u8).collect();
    random.shuffle(&mut names);
    for bond in &mut block.bonds {
        let (u, v) = (names[bond.0 as usize - 1], names[bond.1 as usize - 1]);
        *bond = if random.once_in(2) { (u, v) } else { (v, u) };
    }
    random.shuffle(&mut block.bonds);
    names
}
