//! The even and odd polynomial values, in document 01's order of roundings.

use crate::block::MOST_ATOMS;
use crate::graph::Graph;
use crate::refusal::{refuse, Refusal};

/// The number of pairs at each distance, from 0 to 63.
pub fn pairs_at(graph: &Graph) -> [u64; MOST_ATOMS] {
    let mut pairs = [0; MOST_ATOMS];
    let distances = graph.distances();
    for i in 1..=graph.atoms {
        for j in i + 1..=graph.atoms {
            pairs[distances[i][j]] += 1;
        }
    }
    pairs
}

/// The even and the odd value at x, or refusal 10.
pub fn values(graph: &Graph, x: f64) -> Result<[f64; 2], Refusal> {
    if x.is_nan() || x <= 0.0 || x > 1.0 {
        return refuse(10, 0);
    }
    let pairs = pairs_at(graph);
    let mut even = 0.0;
    let mut odd = 0.0;
    for k in (1..MOST_ATOMS).rev() {
        if k % 2 == 0 {
            even += pairs[k] as f64;
            odd += 0.0;
        } else {
            even += 0.0;
            odd += pairs[k] as f64;
        }
        even *= x;
        odd *= x;
    }
    Ok([even, odd])
}
