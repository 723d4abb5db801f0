//! Molfiles and neighbour texts, read as blocks and written.
use crate::functions as c;
use crate::reply::{fine, Refusal};

/// A block that was read: its atom count and its bonds, two bytes each.
#[derive(Clone, Debug, PartialEq, Eq)]
pub struct Block {
    pub atoms: usize,
    pub bonds: Vec<u8>,
}

const BOND_BYTES: usize = 384; // of the largest block
const MOLFILE_BYTES: usize = 50 + 70 * 64 + 22 * 192;
const NEIGHBOUR_BYTES: usize = 1024;

type Reading = unsafe extern "C" fn(*const u8, usize, *mut u8, usize, *mut u64, usize) -> u64;
type Writing = unsafe extern "C" fn(usize, *const u8, usize, *mut u8, usize, *mut u64, usize) -> u64;

fn read(function: Reading, text: &[u8]) -> Result<Block, Refusal> {
    let (mut bonds, mut counts) = (vec![0; BOND_BYTES], [0u64; 2]);
    let reply = unsafe {
        function(text.as_ptr(), text.len(), bonds.as_mut_ptr(), bonds.len(), counts.as_mut_ptr(), counts.len())
    };
    bonds.truncate(2 * counts[1] as usize);
    fine(reply, Block { atoms: counts[0] as usize, bonds })
}

fn write(function: Writing, room: usize, atoms: usize, bonds: &[u8]) -> Result<Vec<u8>, Refusal> {
    let (mut text, mut length) = (vec![0; room], 0);
    let reply = unsafe { function(atoms, bonds.as_ptr(), bonds.len(), text.as_mut_ptr(), text.len(), &mut length, 1) };
    text.truncate(length as usize);
    fine(reply, text)
}

/// Reads a V2000 molfile, or the first record of an SDF.
pub fn read_molfile(text: &[u8]) -> Result<Block, Refusal> {
    read(c::tteuyomal_read_molfile, text)
}

/// Writes a block as a molfile of carbons.
pub fn write_molfile(atoms: usize, bonds: &[u8]) -> Result<Vec<u8>, Refusal> {
    write(c::tteuyomal_write_molfile, MOLFILE_BYTES, atoms, bonds)
}

/// Reads a neighbour text.
pub fn read_neighbours(text: &[u8]) -> Result<Block, Refusal> {
    read(c::tteuyomal_read_neighbours, text)
}

/// Writes a block as a neighbour text.
pub fn write_neighbours(atoms: usize, bonds: &[u8]) -> Result<Vec<u8>, Refusal> {
    write(c::tteuyomal_write_neighbours, NEIGHBOUR_BYTES, atoms, bonds)
}
