//! A molecular graph, plain search from every atom, and the numbers that are sums over distances.

use std::collections::{BTreeSet, VecDeque};

/// Atoms are numbered from 1.
#[derive(Clone, Debug, PartialEq, Eq)]
pub struct Graph {
    pub atoms: usize,
    pub bonds: Vec<(usize, usize)>,
}

/// The fields of a sheet: five, and the largest distance, which a sheet of six has too.
#[derive(Clone, Copy, Debug, PartialEq, Eq)]
pub struct Indices {
    pub atoms: u64,
    pub w: u64,
    pub even: u64,
    pub odd: u64,
    pub polarity: u64,
    pub largest: u64,
}

impl Indices {
    pub fn fields(&self) -> [u64; 5] {
        [self.atoms, self.w, self.even, self.odd, self.polarity]
    }

    pub fn six(&self) -> [u64; 6] {
        [self.atoms, self.w, self.even, self.odd, self.polarity, self.largest]
    }
}

/// What one atom sees: the sum of its distances, its parts, and how many atoms there are of each sort.
#[derive(Clone, Copy, Debug, PartialEq, Eq)]
pub struct Vertex {
    pub sum: u64,
    pub even: u64,
    pub odd: u64,
    pub even_count: u64,
    pub odd_count: u64,
    pub ones: u64,
    pub twos: u64,
}

impl Vertex {
    pub fn fields(&self) -> [u64; 7] {
        [self.sum, self.even, self.odd, self.even_count, self.odd_count, self.ones, self.twos]
    }
}

impl Graph {
    /// The neighbours of each atom; entry 0 belongs to no atom.
    pub fn neighbours(&self) -> Vec<Vec<usize>> {
        let mut all = vec![Vec::new(); self.atoms + 1];
        for &(u, v) in &self.bonds {
            all[u].push(v);
            all[v].push(u);
        }
        all
    }

    pub fn degree(&self, atom: usize) -> usize {
        self.bonds.iter().map(|&(u, v)| (u == atom) as usize + (v == atom) as usize).sum()
    }

    pub fn is_connected(&self) -> bool {
        search(&self.neighbours(), 1).iter().skip(1).all(|d| d.is_some())
    }

    /// The distances of a connected graph: `[i][j]`, entries 0 belonging to no atom.
    pub fn distances(&self) -> Vec<Vec<usize>> {
        let neighbours = self.neighbours();
        let mut rows = vec![Vec::new()];
        for start in 1..=self.atoms {
            rows.push(distances_from(&neighbours, start));
        }
        rows
    }

    /// W and its parts, the polarity and the largest distance of a connected graph, over the pairs i < j.
    pub fn indices(&self) -> Indices {
        let neighbours = self.neighbours();
        let mut sums = Indices { atoms: self.atoms as u64, w: 0, even: 0, odd: 0, polarity: 0, largest: 0 };
        for i in 1..=self.atoms {
            let row = distances_from(&neighbours, i);
            for &distance in &row[i + 1..] {
                let d = distance as u64;
                sums.w += d;
                if d % 2 == 0 {
                    sums.even += d;
                } else {
                    sums.odd += d;
                }
                if d == 3 {
                    sums.polarity += 1;
                }
                sums.largest = sums.largest.max(d);
            }
        }
        sums
    }

    /// The sums of one atom over all atoms, itself too (it counts as even, at distance 0).
    pub fn vertex(&self, atom: usize) -> Vertex {
        let row = distances_from(&self.neighbours(), atom);
        let mut seen = Vertex { sum: 0, even: 0, odd: 0, even_count: 0, odd_count: 0, ones: 0, twos: 0 };
        for &distance in &row[1..] {
            let d = distance as u64;
            seen.sum += d;
            if d % 2 == 0 {
                seen.even += d;
                seen.even_count += 1;
            } else {
                seen.odd += d;
                seen.odd_count += 1;
            }
            seen.ones += (d == 1) as u64;
            seen.twos += (d == 2) as u64;
        }
        seen
    }

    /// How far the farthest atom is: how often the atoms reached grow by those bonded to them until all are reached.
    pub fn farthest(&self, atom: usize) -> u64 {
        let neighbours = self.neighbours();
        let mut reached: BTreeSet<usize> = [atom].into();
        let mut rounds = 0;
        while reached.len() < self.atoms {
            let grown: BTreeSet<usize> = reached.iter().flat_map(|&a| neighbours[a].iter().copied()).collect();
            reached.extend(grown);
            rounds += 1;
        }
        rounds
    }
}

/// Breadth-first search: the distance of each atom from the start, or None where no path leads. Entry 0 is None.
pub fn search(neighbours: &[Vec<usize>], start: usize) -> Vec<Option<usize>> {
    let mut distance = vec![None; neighbours.len()];
    let mut queue = VecDeque::with_capacity(neighbours.len());
    distance[start] = Some(0);
    queue.push_back((start, 0));
    while let Some((atom, far)) = queue.pop_front() {
        for &next in &neighbours[atom] {
            if distance[next].is_none() {
                distance[next] = Some(far + 1);
                queue.push_back((next, far + 1));
            }
        }
    }
    distance
}

/// The same in a connected graph, with 0 in the entry that belongs to no atom.
fn distances_from(neighbours: &[Vec<usize>], start: usize) -> Vec<usize> {
    let mut row = search(neighbours, start);
    row[0] = Some(0);
    row.into_iter().map(|d| d.expect("a connected graph")).collect()
}
