//! The plain side: decks read without any check, search over the whole molecule, and bond shares, on arrays, with no
//! allocation.

const MOST: usize = 2_048;
const NONE: u16 = u16::MAX;
const DEGREE: usize = opinion::block::MOST_DEGREE;
const BONDS: usize = opinion::block::MOST_BONDS;

/// A molecule as arrays; atoms are numbered from 0. `bond[v][k]` is the number of the bond to `near[v][k]`.
pub struct Plain {
    atoms: usize,
    bonds: usize,
    degree: [u8; MOST],
    near: [[u16; DEGREE]; MOST],
    bond: [[u16; DEGREE]; MOST],
    seen: [u16; MOST],
    queue: [u16; MOST],
}

impl Plain {
    pub fn new() -> Box<Plain> {
        Box::new(Plain {
            atoms: 0,
            bonds: 0,
            degree: [0; MOST],
            near: [[0; DEGREE]; MOST],
            bond: [[0; DEGREE]; MOST],
            seen: [NONE; MOST],
            queue: [0; MOST],
        })
    }

    fn clear(&mut self) {
        self.atoms = 0;
        self.bonds = 0;
    }

    /// More atoms and the bonds among them.
    fn add_block(&mut self, atoms: usize, bonds: &[u8]) {
        let before = self.atoms;
        self.degree[before..before + atoms].fill(0);
        self.atoms += atoms;
        for pair in bonds.chunks_exact(2) {
            self.add_bond(before + pair[0] as usize - 1, before + pair[1] as usize - 1);
        }
    }

    fn add_bond(&mut self, u: usize, v: usize) {
        for (from, to) in [(u, v), (v, u)] {
            let at = self.degree[from] as usize;
            self.near[from][at] = to as u16;
            self.bond[from][at] = self.bonds as u16;
            self.degree[from] += 1;
        }
        self.bonds += 1;
    }

    /// Reads a lone block.
    pub fn read_block(&mut self, atoms: usize, bonds: &[u8]) {
        self.clear();
        self.add_block(atoms, bonds);
    }

    /// Another block, its atom `own` bonded to the molecule's atom `at`.
    pub fn join_block(&mut self, atoms: usize, bonds: &[u8], at: usize, own: usize) {
        let before = self.atoms;
        self.add_block(atoms, bonds);
        self.add_bond(at, before + own);
    }

    /// Writes the molecule of a good deck out.
    pub fn read_deck(&mut self, deck: &[u8]) {
        self.clear();
        let (mut at, mut blocks) = (0, 0);
        let mut payloads = [0; 16];
        while deck[at + 2] == 1 {
            payloads[blocks] = at + 4;
            blocks += 1;
            at += 4 + pair(deck, at);
        }
        let mut firsts = [0; 32];
        for placed in 0..pair(deck, at + 4) {
            let entry = &deck[at + 6 + 6 * placed..][..6];
            let payload = payloads[..blocks].iter().find(|&&start| pair(deck, start) == pair(entry, 0));
            let start = *payload.expect("a good deck");
            firsts[placed] = self.atoms;
            self.add_block(pair(deck, start + 2), &deck[start + 6..start + 6 + 2 * pair(deck, start + 4)]);
            if placed > 0 {
                let at_parent = firsts[pair(entry, 2) - 1] + entry[4] as usize - 1;
                self.add_bond(at_parent, firsts[placed] + entry[5] as usize - 1);
            }
        }
    }

    /// The five fields, by a search from every atom, level by level. Each pair is met from both its ends.
    pub fn indices(&mut self) -> [u64; 5] {
        let (mut even, mut odd, mut threes) = (0, 0, 0);
        self.seen[..self.atoms].fill(NONE);
        for start in 0..self.atoms {
            self.seen[start] = start as u16;
            self.queue[0] = start as u16;
            let (mut from, mut to, mut distance) = (0, 1, 0);
            while from < to {
                let end = self.next_level(start as u16, from, to);
                distance += 1;
                let sum = distance * (end - to) as u64;
                if distance % 2 == 0 {
                    even += sum;
                } else {
                    odd += sum;
                }
                if distance == 3 {
                    threes += (end - to) as u64;
                }
                (from, to) = (to, end);
            }
        }
        [self.atoms as u64, (even + odd) / 2, even / 2, odd / 2, threes / 2]
    }

    /// Queues what is new next to the atoms from `from` to before `to`, and says where the queue ends now.
    #[inline]
    fn next_level(&mut self, start: u16, from: usize, to: usize) -> usize {
        let mut end = to;
        for at in from..to {
            let atom = self.queue[at] as usize;
            for k in 0..self.degree[atom] as usize {
                let next = self.near[atom][k];
                if self.seen[next as usize] != start {
                    self.seen[next as usize] = start;
                    self.queue[end] = next;
                    end += 1;
                }
            }
        }
        end
    }
}

fn pair(bytes: &[u8], at: usize) -> usize {
    u16::from_le_bytes([bytes[at], bytes[at + 1]]) as usize
}

/// A search of a block from one atom: the order, the distances and the numbers of shortest paths.
#[derive(Clone, Copy)]
struct Searched {
    order: [u8; 64],
    distance: [u8; 64],
    paths: [u64; 64],
}

/// Path counts, D and the shares of a block: Brandes' pass from each atom, in whole numbers.
pub struct Shares {
    searched: [Searched; 64],
    through: [u64; 64],
    pub shares: [u64; BONDS],
    pub denominator: u64,
}

impl Shares {
    pub fn new() -> Box<Shares> {
        let searched = Searched { order: [0; 64], distance: [0; 64], paths: [0; 64] };
        Box::new(Shares { searched: [searched; 64], through: [0; 64], shares: [0; BONDS], denominator: 1 })
    }

    pub fn work(&mut self, block: &Plain) {
        self.denominator = 1;
        self.shares = [0; BONDS];
        for start in 0..block.atoms {
            self.search(block, start);
            for &paths in &self.searched[start].paths[start + 1..block.atoms] {
                if self.denominator % paths != 0 {
                    self.denominator *= paths / greatest_common_divisor(self.denominator, paths);
                }
            }
        }
        for start in 0..block.atoms {
            self.share_out(block, start);
        }
    }

    fn search(&mut self, block: &Plain, start: usize) {
        let found = &mut self.searched[start];
        found.distance = [u8::MAX; 64];
        found.paths = [0; 64];
        found.distance[start] = 0;
        found.paths[start] = 1;
        found.order[0] = start as u8;
        let mut end = 1;
        for at in 0..block.atoms {
            let atom = found.order[at] as usize;
            let far = found.distance[atom] + 1;
            for k in 0..block.degree[atom] as usize {
                let next = block.near[atom][k] as usize;
                if found.distance[next] == u8::MAX {
                    found.distance[next] = far;
                    found.order[end] = next as u8;
                    end += 1;
                }
                if found.distance[next] == far {
                    found.paths[next] += found.paths[atom];
                }
            }
        }
    }

    /// Farthest first: what comes through an atom is its own pair's weight and what comes through those one farther.
    fn share_out(&mut self, block: &Plain, start: usize) {
        let found = &self.searched[start];
        for &atom in found.order[..block.atoms].iter().rev() {
            let atom = atom as usize;
            let mut through = if atom > start { self.denominator / found.paths[atom] } else { 0 };
            for k in 0..block.degree[atom] as usize {
                let next = block.near[atom][k] as usize;
                if found.distance[next] == found.distance[atom] + 1 {
                    self.shares[block.bond[atom][k] as usize] += found.paths[atom] * self.through[next];
                    through += self.through[next];
                }
            }
            self.through[atom] = through;
        }
    }
}

fn greatest_common_divisor(mut a: u64, mut b: u64) -> u64 {
    while b != 0 {
        (a, b) = (b, a % b);
    }
    a
}
