//! Path counts, the common denominator D and the contribution of each bond, with exact fractions.

use crate::fraction::{least_common_multiple, Fraction};
use crate::graph::Graph;
use crate::refusal::{refuse, Refusal};

pub const MOST_DENOMINATOR: u128 = 1_000_000;

/// How many shortest paths lead from i to j: `[i][j]`, entries 0 belonging to no atom.
pub fn path_counts(graph: &Graph) -> Vec<Vec<u128>> {
    let neighbours = graph.neighbours();
    let mut counts = vec![vec![0; graph.atoms + 1]];
    for (start, row) in graph.distances().iter().enumerate().skip(1) {
        // nearer atoms first: a shortest path to an atom comes through a neighbour that is one nearer
        let mut order: Vec<usize> = (1..=graph.atoms).collect();
        order.sort_by_key(|&atom| row[atom]);
        let mut paths = vec![0; graph.atoms + 1];
        paths[start] = 1;
        for &atom in &order {
            for &before in &neighbours[atom] {
                if row[before] + 1 == row[atom] {
                    paths[atom] += paths[before];
                }
            }
        }
        counts.push(paths);
    }
    counts
}

/// The least common multiple of the path counts of all pairs, or refusal 8.
pub fn denominator(graph: &Graph) -> Result<u128, Refusal> {
    let counts = path_counts(graph);
    let mut d = 1;
    for i in 1..=graph.atoms {
        for j in i + 1..=graph.atoms {
            d = least_common_multiple(d, counts[i][j]);
            if d > MOST_DENOMINATOR {
                return refuse(8, 0);
            }
        }
    }
    Ok(d)
}

/// The contribution of each bond, in list order: the sum over the pairs i < j of c(i,j;e) / c(i,j).
pub fn contributions(graph: &Graph) -> Vec<Fraction> {
    let counts = path_counts(graph);
    let distances = graph.distances();
    let mut shares = Vec::new();
    for &(u, v) in &graph.bonds {
        let mut share = Fraction::ZERO;
        for i in 1..=graph.atoms {
            for j in i + 1..=graph.atoms {
                let mut through = 0;
                if distances[i][u] + 1 + distances[v][j] == distances[i][j] {
                    through += counts[i][u] * counts[v][j];
                }
                if distances[i][v] + 1 + distances[u][j] == distances[i][j] {
                    through += counts[i][v] * counts[u][j];
                }
                if through > 0 {
                    share = share + Fraction::new(through, counts[i][j]);
                }
            }
        }
        shares.push(share);
    }
    shares
}

/// D, and D times each bond's contribution, or refusal 8.
pub fn whole_contributions(graph: &Graph) -> Result<(u64, Vec<u64>), Refusal> {
    let d = denominator(graph)?;
    let whole = |share: Fraction| share.times_whole(d).expect("D times a contribution is whole") as u64;
    Ok((d as u64, contributions(graph).into_iter().map(whole).collect()))
}
