//! Molfiles: the library's reader beside a plain one, a long file beside a short one, and the stack.

use crate::limits::MOST_STACK;
use crate::timing::medians;
use crate::{archive, duration, row, stack};
use opinion::make::shapes;
use std::hint::black_box;

/// What a plain reader keeps between files.
#[derive(Default)]
struct Plain {
    is_h: Vec<bool>,
    ends: Vec<[usize; 2]>,
    bonds_on: Vec<u32>,
    hydrogens_on: Vec<u32>,
    numbers: Vec<u8>,
    bytes: Vec<u8>,
}

fn number(field: &[u8]) -> Option<usize> {
    let digits = field.trim_ascii_start();
    if digits.is_empty() {
        return None;
    }
    let mut value = 0;
    for &digit in digits {
        if !digit.is_ascii_digit() {
            return None;
        }
        value = 10 * value + (digit - b'0') as usize;
    }
    Some(value)
}

fn two_numbers(line: &[u8]) -> Option<[usize; 2]> {
    Some([number(line.get(..3)?)?, number(line.get(3..6)?)?])
}

impl Plain {
    /// The atom count; the bytes of the bonds are left in `bytes`.
    fn read(&mut self, file: &[u8]) -> Option<usize> {
        let mut lines = file.split(|&byte| byte == b'\n').map(|line| line.strip_suffix(b"\r").unwrap_or(line));
        let [atoms, bonds] = two_numbers(lines.nth(3)?)?;
        self.is_h.clear();
        self.ends.clear();
        for _ in 0..atoms {
            let line = lines.next()?;
            self.is_h.push(line.get(31..line.len().min(34))?.trim_ascii() == b"H");
        }
        for _ in 0..bonds {
            let [one, two] = two_numbers(lines.next()?)?;
            if one == 0 || two == 0 || one > atoms || two > atoms {
                return None;
            }
            self.ends.push([one - 1, two - 1]);
        }
        lines.find(|line| line.starts_with(b"M  END"))?;
        self.keep(atoms)
    }

    fn keep(&mut self, atoms: usize) -> Option<usize> {
        for counts in [&mut self.bonds_on, &mut self.hydrogens_on] {
            counts.clear();
            counts.resize(atoms, 0);
        }
        for &[one, two] in &self.ends {
            self.bonds_on[one] += 1;
            self.bonds_on[two] += 1;
            self.hydrogens_on[one] += self.is_h[two] as u32;
            self.hydrogens_on[two] += self.is_h[one] as u32;
        }
        self.numbers.clear();
        let mut kept = 0;
        for atom in 0..atoms {
            let dropped = self.is_h[atom] && self.bonds_on[atom] == 1 && self.hydrogens_on[atom] == 0;
            kept += !dropped as usize;
            self.numbers.push(if dropped { 0 } else { kept.min(255) as u8 });
        }
        if kept == 0 || kept > 64 {
            return None;
        }
        self.bytes.clear();
        for &[one, two] in &self.ends {
            if self.numbers[one] != 0 && self.numbers[two] != 0 {
                self.bytes.extend([self.numbers[one], self.numbers[two]]);
            }
        }
        self.is_block(kept).then_some(kept)
    }

    fn is_block(&self, atoms: usize) -> bool {
        let mut near = [0u64; 64];
        for pair in self.bytes.chunks(2) {
            let (u, v) = (pair[0] as usize - 1, pair[1] as usize - 1);
            if u == v || near[u] >> v & 1 == 1 || near[u].count_ones() == 6 || near[v].count_ones() == 6 {
                return false;
            }
            near[u] |= 1 << v;
            near[v] |= 1 << u;
        }
        let (mut met, mut edge) = (1u64, 1u64);
        while edge != 0 {
            let mut next = 0;
            while edge != 0 {
                next |= near[edge.trailing_zeros() as usize];
                edge &= edge - 1;
            }
            edge = next & !met;
            met |= next;
        }
        met.count_ones() as usize == atoms
    }
}

/// A chain of carbons with so many hydrogens on it.
fn chain(carbons: usize, hydrogens: usize) -> Vec<u8> {
    let mut bonds: Vec<(usize, usize)> = (1..carbons).map(|atom| (atom, atom + 1)).collect();
    bonds.extend((0..hydrogens).map(|at| (at % carbons + 1, carbons + 1 + at)));
    let mut file =
        format!("chain\n  bench\n\n{:3}{:3}  0  0  0  0  0  0  0  0999 V2000\n", carbons + hydrogens, bonds.len());
    for atom in 0..carbons + hydrogens {
        let symbol = if atom < carbons { "C" } else { "H" };
        let x = atom as f64 * 0.7;
        file.push_str(&format!("{x:10.4}{:10.4}{:10.4} {symbol:3} 0  0  0  0  0  0  0  0  0  0  0  0\n", -x, 0.0));
    }
    file.extend(bonds.iter().map(|(one, two)| format!("{one:3}{two:3}  1  0\n")));
    file.push_str("M  END\n");
    file.into_bytes()
}

fn library(file: &[u8], bonds: &mut [u8; 512], counts: &mut [u64; 2]) -> u64 {
    archive::read_molfile(black_box(file), bonds, counts)
}

/// Rows of the table beside plain code, each with the goal of a reader within 1.5 times.
pub fn times() -> String {
    let (mut bonds, mut counts, mut fields) = ([0; 512], [0; 2], [0; 5]);
    let mut took = Vec::new();
    for (carbons, hydrogens) in [(11, 13), (15, 18), (64, 935)] {
        let file = chain(carbons, hydrogens);
        let mut plain = Plain::default();
        assert_eq!(library(&file, &mut bonds, &mut counts), 0);
        assert_eq!(plain.read(&file), Some(counts[0] as usize));
        assert_eq!(plain.bytes, bonds[..2 * counts[1] as usize]);
        let mut ours = || {
            black_box(library(&file, &mut bonds, &mut counts));
        };
        let mut theirs = || {
            black_box(plain.read(black_box(&file)));
        };
        let both = medians(&mut ours, &mut theirs);
        row(&format!("read a molfile of {} atoms, {} bytes", carbons + hydrogens, file.len()), both, 1.0 / 1.5);
        took.push(both[0]);
    }
    let file = chain(11, 13);
    let mut measure = || {
        library(&file, &mut bonds, &mut counts);
        let used = 2 * counts[1] as usize;
        black_box(archive::indices(counts[0] as usize, &bonds[..used], &mut fields));
    };
    let [both, _] = medians(&mut measure, &mut || {});
    let growth = took[2] / took[1];
    let met = if growth <= 30.0 { "met" } else { "MISSED" };
    format!(
        "A molfile of 999 atoms takes {growth:.1} times one of 33 (goal 30: {met}). Reading and measuring one of {} bytes takes {}: {:.0} a second.",
        file.len(),
        duration(both),
        1.0 / both
    )
}

/// Rows of the table of stack.
pub fn stack_rows() {
    let (file, ring) = (chain(64, 935), shapes::double_ring(64).bond_bytes());
    let read = stack::bytes_used(|| {
        archive::read_molfile(&file, &mut [0; 512], &mut [0; 2]);
    });
    let written = stack::bytes_used(|| {
        archive::write_molfile(64, &ring, &mut [0; 9000], &mut [0]);
    });
    for (name, used) in [("read_molfile", read), ("write_molfile", written)] {
        let met = if used <= MOST_STACK { "met" } else { "MISSED" };
        println!("| {name} | {used} | {MOST_STACK} | {met} |");
    }
}
