//! The plain side of the Szeged index: rows of distances by search over arrays, compared two by two, with no check.

use opinion::block::{MOST_BONDS, MOST_DEGREE};

pub struct Szeged {
    degree: [u8; 64],
    near: [[u8; MOST_DEGREE]; 64],
    rows: [[u8; 64]; 64],
    pub terms: [u64; MOST_BONDS],
    pub index: u64,
}

impl Szeged {
    pub fn new() -> Box<Szeged> {
        Box::new(Szeged {
            degree: [0; 64],
            near: [[0; MOST_DEGREE]; 64],
            rows: [[0; 64]; 64],
            terms: [0; MOST_BONDS],
            index: 0,
        })
    }

    pub fn work(&mut self, atoms: usize, bonds: &[u8]) {
        self.degree = [0; 64];
        for pair in bonds.chunks_exact(2) {
            let (u, v) = (pair[0] as usize - 1, pair[1] as usize - 1);
            for (from, to) in [(u, v), (v, u)] {
                self.near[from][self.degree[from] as usize] = to as u8;
                self.degree[from] += 1;
            }
        }
        for start in 0..atoms {
            self.search(start);
        }
        self.index = 0;
        for (k, pair) in bonds.chunks_exact(2).enumerate() {
            let (u, v) = (&self.rows[pair[0] as usize - 1], &self.rows[pair[1] as usize - 1]);
            let nearer = |one: &[u8; 64], two: &[u8; 64]| {
                one[..atoms].iter().zip(&two[..atoms]).filter(|(a, b)| a < b).count() as u64
            };
            self.terms[k] = nearer(u, v) * nearer(v, u);
            self.index += self.terms[k];
        }
    }

    fn search(&mut self, start: usize) {
        let row = &mut self.rows[start];
        *row = [u8::MAX; 64];
        let mut queue = [0u8; 64];
        row[start] = 0;
        queue[0] = start as u8;
        let (mut from, mut end) = (0, 1);
        while from < end {
            let atom = queue[from] as usize;
            from += 1;
            for k in 0..self.degree[atom] as usize {
                let next = self.near[atom][k] as usize;
                if row[next] == u8::MAX {
                    row[next] = row[atom] + 1;
                    queue[end] = next as u8;
                    end += 1;
                }
            }
        }
    }
}
