//! One block: refusals 1 to 7.

use crate::graph::Graph;
use crate::refusal::{refuse, Refusal};

pub const MOST_ATOMS: usize = 64;
pub const MOST_DEGREE: usize = 6;
pub const MOST_BONDS: usize = MOST_ATOMS * MOST_DEGREE / 2;

/// Reads a lone block: its atom count and its bonds, two bytes each. The place is the bond's number from 1, or 0.
pub fn read_block(atoms: usize, bytes: &[u8]) -> Result<Graph, Refusal> {
    if atoms == 0 || atoms > MOST_ATOMS {
        return refuse(1, 0);
    }
    if bytes.len() % 2 == 1 || bytes.len() > 2 * MOST_BONDS {
        return refuse(2, 0);
    }
    let mut graph = Graph { atoms, bonds: Vec::new() };
    for (index, pair) in bytes.chunks(2).enumerate() {
        let bond = index + 1;
        let (u, v) = (pair[0] as usize, pair[1] as usize);
        if u == 0 || u > atoms || v == 0 || v > atoms {
            return refuse(3, bond);
        }
        if u == v {
            return refuse(4, bond);
        }
        if graph.bonds.contains(&(u, v)) || graph.bonds.contains(&(v, u)) {
            return refuse(5, bond);
        }
        if graph.degree(u) == MOST_DEGREE || graph.degree(v) == MOST_DEGREE {
            return refuse(6, bond);
        }
        graph.bonds.push((u, v));
    }
    if !graph.is_connected() {
        return refuse(7, 0);
    }
    Ok(graph)
}
