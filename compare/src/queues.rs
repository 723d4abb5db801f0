//! Two queues at one table, with no table: what each queue holds is a list of blocks under numbers.

use crate::block::read_block;
use crate::deck::{read_assembly, record, Deck, ASSEMBLY, HEAD, MOST_BYTES};
use crate::graph::Graph;
use crate::molecule::write_out;
use crate::refusal::{refuse, Refusal};

/// The bytes that the table must have, and how many blocks a queue may hold.
pub const TABLE: usize = 8_448;
pub const PLACES: usize = 8;

/// A sheet of kind 4 has the sixth field.
pub const FIVE: usize = 3;
pub const SIX: usize = 4;

#[derive(Clone, Copy, Debug, PartialEq, Eq)]
pub enum Queue {
    Day,
    Night,
}

/// What a queue holds, in the order in which it was added.
#[derive(Clone, Debug, Default, PartialEq, Eq)]
pub struct Held {
    blocks: Vec<(u16, Graph)>,
}

/// The six fields: the five, and the largest distance.
pub fn six_fields(molecule: &Graph) -> [u64; 6] {
    let [atoms, w, even, odd, polarity] = molecule.indices().fields();
    let largest = molecule.distances().into_iter().flatten().max().unwrap_or(0);
    [atoms, w, even, odd, polarity, largest as u64]
}

/// The bytes of a sheet's record.
pub fn sheet_bytes(kind: usize) -> usize {
    if kind == SIX {
        44
    } else {
        40
    }
}

fn sheet(kind: usize, fields: [u64; 6]) -> Vec<u8> {
    let payload = sheet_bytes(kind) - HEAD;
    let mut bytes = vec![payload as u8, 0, kind as u8, 0];
    bytes.extend_from_slice(&(fields[0] as u32).to_le_bytes());
    for field in &fields[1..5] {
        bytes.extend_from_slice(&field.to_le_bytes());
    }
    bytes.extend_from_slice(&(fields[5] as u32).to_le_bytes());
    bytes.truncate(sheet_bytes(kind));
    bytes
}

impl Held {
    pub fn len(&self) -> usize {
        self.blocks.len()
    }

    pub fn is_empty(&self) -> bool {
        self.blocks.is_empty()
    }

    pub fn numbers(&self) -> Vec<u16> {
        self.blocks.iter().map(|&(number, _)| number).collect()
    }

    fn at(&self, number: u16) -> Option<usize> {
        self.blocks.iter().position(|&(held, _)| held == number)
    }

    /// The block's refusals, 14 for number 0, 29, 28.
    pub fn add(&mut self, number: u16, atoms: usize, bonds: &[u8]) -> Result<(), Refusal> {
        let block = read_block(atoms, bonds)?;
        if number == 0 {
            return refuse(14, 0);
        }
        if self.at(number).is_some() {
            return refuse(29, 0);
        }
        if self.blocks.len() == PLACES {
            return refuse(28, 0);
        }
        self.blocks.push((number, block));
        Ok(())
    }

    /// 30, then 9.
    pub fn look(&self, number: u16, room: usize) -> Result<[u64; 6], Refusal> {
        let Some(at) = self.at(number) else {
            return refuse(30, 0);
        };
        if room < 6 {
            return refuse(9, 0);
        }
        Ok(six_fields(&self.blocks[at].1))
    }

    pub fn drop(&mut self, number: u16) -> Result<(), Refusal> {
        let Some(at) = self.at(number) else {
            return refuse(30, 0);
        };
        self.blocks.remove(at);
        Ok(())
    }

    /// The sheet of one assembly record over the queue's blocks: 20, 9, and then as in a deck that begins with that record.
    pub fn compose(&self, kind: usize, bytes: &[u8], room: usize) -> Result<Vec<u8>, Refusal> {
        if bytes.len() > MOST_BYTES {
            return refuse(20, 0);
        }
        if room < sheet_bytes(kind) {
            return refuse(9, 0);
        }
        let next = record(bytes, 0, &[ASSEMBLY])?;
        let numbers: Vec<usize> = self.blocks.iter().map(|&(number, _)| number as usize).collect();
        let blocks: Vec<Graph> = self.blocks.iter().map(|(_, block)| block.clone()).collect();
        let placements = read_assembly(&next, &numbers, &blocks)?;
        let end = HEAD + next.payload.len();
        if end < bytes.len() {
            return refuse(11, end);
        }
        let molecule = write_out(&Deck { blocks, placements, sheet: None });
        Ok(sheet(kind, six_fields(&molecule)))
    }

    /// The queue's blocks as records of a deck.
    pub fn records(&self) -> Vec<u8> {
        let mut bytes = Vec::new();
        for (number, block) in &self.blocks {
            bytes.extend_from_slice(&(6 + 2 * block.bonds.len() as u16).to_le_bytes());
            bytes.extend_from_slice(&[1, 0]);
            for half in [*number, block.atoms as u16, block.bonds.len() as u16] {
                bytes.extend_from_slice(&half.to_le_bytes());
            }
            bytes.extend(block.bonds.iter().flat_map(|&(u, v)| [u as u8, v as u8]));
        }
        bytes
    }
}
