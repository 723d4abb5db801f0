//! Neighbour texts: the library's reader beside a plain one, and the stack.

use crate::limits::MOST_STACK;
use crate::timing::medians;
use crate::{archive, row, stack};
use opinion::block::{MOST_BONDS, MOST_DEGREE};
use opinion::documents::NAPHTHALENE;
use opinion::make::plan::BlockPlan;
use opinion::make::shapes;
use opinion::neighbours::write;
use std::hint::black_box;

/// What a plain reader keeps between texts.
#[derive(Default)]
struct Plain {
    numbers: Vec<usize>,
    bytes: Vec<u8>,
}

impl Plain {
    /// The atom count; the bytes of the bonds are left in `bytes`.
    fn read(&mut self, text: &[u8]) -> Option<usize> {
        self.numbers.clear();
        let mut at = 0;
        while at < text.len() {
            match text[at] {
                b'0'..=b'9' => {
                    let mut value = 0;
                    while at < text.len() && text[at].is_ascii_digit() {
                        value = 10 * value + (text[at] - b'0') as usize;
                        if value > 999 {
                            return None;
                        }
                        at += 1;
                    }
                    self.numbers.push(value);
                }
                b' ' | b'\t' | b'\r' | b'\n' => at += 1,
                _ => return None,
            }
        }
        let (&atoms, rest) = self.numbers.split_first()?;
        self.bytes.clear();
        let mut label = 0;
        for (at, &number) in rest.iter().enumerate() {
            match (label, number) {
                (0, 0) => return (at + 1 == rest.len() && self.is_block(atoms)).then_some(atoms),
                (0, _) if number > atoms => return None,
                (0, _) => label = number,
                (_, 0) => label = 0,
                _ if number > atoms || number > 255 => return None,
                _ if number >= label => self.bytes.extend([label as u8, number as u8]),
                _ => {}
            }
        }
        None
    }

    fn is_block(&self, atoms: usize) -> bool {
        if atoms == 0 || atoms > 64 || self.bytes.len() > 2 * MOST_BONDS {
            return false;
        }
        let most = MOST_DEGREE as u32;
        let mut near = [0u64; 64];
        for pair in self.bytes.chunks(2) {
            let (u, v) = (pair[0] as usize - 1, pair[1] as usize - 1);
            if u == v || near[u] >> v & 1 == 1 || near[u].count_ones() == most || near[v].count_ones() == most {
                return false;
            }
            near[u] |= 1 << v;
            near[v] |= 1 << u;
        }
        let (mut met, mut edge) = (1u64, 1u64);
        while edge != 0 {
            let mut next = 0;
            while edge != 0 {
                next |= near[edge.trailing_zeros() as usize];
                edge &= edge - 1;
            }
            edge = next & !met;
            met |= next;
        }
        met.count_ones() as usize == atoms
    }
}

fn text_of(block: &BlockPlan) -> Vec<u8> {
    write(block.atoms as usize, &block.bond_bytes(), 1024, 1).expect("a good block").into_bytes()
}

/// Rows of the table beside plain code, each with the goal of a reader within 2 times.
pub fn times() {
    let (mut bonds, mut counts) = ([0; 512], [0; 2]);
    for block in [shapes::ring(6), NAPHTHALENE.block(), shapes::path(64), shapes::double_ring(64)] {
        let text = text_of(&block);
        let mut plain = Plain::default();
        assert_eq!(archive::read_neighbours(&text, &mut bonds, &mut counts), 0);
        assert_eq!(plain.read(&text), Some(counts[0] as usize));
        assert_eq!(plain.bytes, bonds[..2 * counts[1] as usize]);
        let mut ours = || {
            black_box(archive::read_neighbours(black_box(&text), &mut bonds, &mut counts));
        };
        let mut theirs = || {
            black_box(plain.read(black_box(&text)));
        };
        let name = format!("read a neighbour text of {} atoms, {} bytes", block.atoms, text.len());
        row(&name, medians(&mut ours, &mut theirs), 1.0 / 2.0);
    }
}

/// Rows of the table of stack.
pub fn stack_rows() {
    let block = shapes::double_ring(64);
    let (text, bonds) = (text_of(&block), block.bond_bytes());
    let read = stack::bytes_used(|| {
        archive::read_neighbours(&text, &mut [0; 512], &mut [0; 2]);
    });
    let written = stack::bytes_used(|| {
        archive::write_neighbours(64, &bonds, &mut [0; 1024], &mut [0]);
    });
    for (name, used) in [("read_neighbours", read), ("write_neighbours", written)] {
        let met = if used <= MOST_STACK { "met" } else { "MISSED" };
        println!("| {name} | {used} | {MOST_STACK} | {met} |");
    }
}
