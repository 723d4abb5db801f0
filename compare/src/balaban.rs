//! Balaban's J in whole numbers, by another method than the library's: roots of 128-bit numbers, digit by digit.

use crate::block::read_block;
use crate::graph::Graph;
use crate::refusal::{refuse, Refusal};

/// 10^18.
const BOUND: u128 = 1_000_000_000_000_000_000;

/// The largest t with t * t * p at most the bound, its binary digits from the highest down.
fn largest(bound: u128, p: u128) -> u128 {
    let mut t = 0;
    for digit in (0..50).rev() {
        let more = t + (1 << digit);
        if more * more * p <= bound {
            t = more;
        }
    }
    t
}

/// The reckoning with K squared times 10^18.
pub fn reckoned(graph: &Graph, k: u128) -> u128 {
    let sums: Vec<u128> = (0..=graph.atoms).map(|a| if a == 0 { 0 } else { graph.vertex(a).sum as u128 }).collect();
    let m = graph.bonds.len() as u128;
    let total: u128 = graph.bonds.iter().map(|&(u, v)| largest(k * k * BOUND, sums[u] * sums[v])).sum();
    m * total / (m + 2 - graph.atoms as u128)
}

/// J times 10^9: the block's refusals, then 9.
pub fn answer(atoms: usize, bonds: &[u8], room: usize) -> Result<u64, Refusal> {
    let block = read_block(atoms, bonds)?;
    if room < 1 {
        return refuse(9, 0);
    }
    Ok(reckoned(&block, 1) as u64)
}

#[cfg(test)]
mod tests {
    use super::*;
    use crate::documents::NAPHTHALENE;
    use crate::make::blocks::random_block;
    use crate::make::random::Random;
    use crate::make::shapes::{path, ring};

    #[test]
    fn numbers() {
        for (block, j) in [
            (path(1), 0),
            (path(2), 1_000_000_000),
            (path(4), 1_974_744_870),
            (ring(6), 1_999_999_998),
            (NAPHTHALENE.block(), 1_925_367_726),
        ] {
            assert_eq!(answer(block.atoms as usize, &block.bond_bytes(), 1), Ok(j));
        }
    }

    /// How fine it is: the reckoning with K squared times 10^18 is at least K times the answer R, and times m - n + 2 it is
    /// below K times ((m - n + 2)(R + 1) + m squared).
    #[test]
    fn fineness() {
        for seed in 0..200 {
            let plan = random_block(&mut Random::new(seed), 64);
            let block = read_block(plan.atoms as usize, &plan.bond_bytes()).expect("a good block");
            let (n, m) = (block.atoms as u128, block.bonds.len() as u128);
            let (d, r) = (m + 2 - n, reckoned(&block, 1));
            for k in [1, 2, 3, 7, 10, 1_000, 99_991] {
                let finer = reckoned(&block, k);
                assert!(finer >= k * r);
                assert!(finer * d < k * (d * (r + 1) + m * m));
            }
        }
    }
}
