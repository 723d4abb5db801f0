//! One block: an atom count, 1 to 64, and its bonds, two bytes each.
use crate::functions as c;
use crate::reply::{fine, Refusal};

/// The shares of W of the bonds, in list order, as whole numbers over one denominator.
#[derive(Clone, Debug, PartialEq, Eq)]
pub struct Contributions {
    pub shares: Vec<u64>,
    pub denominator: u64,
}

/// The Szeged index and the term of each bond, in list order.
#[derive(Clone, Debug, PartialEq, Eq)]
pub struct Szeged {
    pub terms: Vec<u64>,
    pub index: u64,
}

/// How many sets of bonds share no atom, and how many sets of atoms have no two that are bonded.
#[derive(Clone, Copy, Debug, PartialEq, Eq)]
pub struct Sets {
    pub bonds: u64,
    pub atoms: u64,
}

/// Checks a block.
pub fn check_block(atoms: usize, bonds: &[u8]) -> Result<(), Refusal> {
    fine(unsafe { c::tteuyomal_check_block(atoms, bonds.as_ptr(), bonds.len()) }, ())
}

/// Atoms, W, even part, odd part and polarity.
pub fn indices(atoms: usize, bonds: &[u8]) -> Result<[u64; 5], Refusal> {
    let mut fields = [0; 5];
    let reply = unsafe { c::tteuyomal_indices(atoms, bonds.as_ptr(), bonds.len(), fields.as_mut_ptr(), fields.len()) };
    fine(reply, fields)
}

/// Seven numbers of one atom, as the C header lists them.
pub fn vertex(atoms: usize, bonds: &[u8], atom: usize) -> Result<[u64; 7], Refusal> {
    let mut sums = [0; 7];
    let reply = unsafe { c::tteuyomal_vertex(atoms, bonds.as_ptr(), bonds.len(), atom, sums.as_mut_ptr(), sums.len()) };
    fine(reply, sums)
}

/// The largest of an atom's distances.
pub fn farthest(atoms: usize, bonds: &[u8], atom: usize) -> Result<u64, Refusal> {
    let mut largest = 0;
    let reply = unsafe { c::tteuyomal_farthest(atoms, bonds.as_ptr(), bonds.len(), atom, &mut largest, 1) };
    fine(reply, largest)
}

/// What each bond gives to W.
pub fn contributions(atoms: usize, bonds: &[u8]) -> Result<Contributions, Refusal> {
    let (mut shares, mut denominator) = (vec![0; bonds.len() / 2], 0);
    let reply = unsafe {
        c::tteuyomal_contributions(
            atoms,
            bonds.as_ptr(),
            bonds.len(),
            shares.as_mut_ptr(),
            shares.len(),
            &mut denominator,
            1,
        )
    };
    fine(reply, Contributions { shares, denominator })
}

/// The Szeged index.
pub fn szeged(atoms: usize, bonds: &[u8]) -> Result<Szeged, Refusal> {
    let (mut terms, mut index) = (vec![0; bonds.len() / 2], 0);
    let reply = unsafe {
        c::tteuyomal_szeged(atoms, bonds.as_ptr(), bonds.len(), terms.as_mut_ptr(), terms.len(), &mut index, 1)
    };
    fine(reply, Szeged { terms, index })
}

/// Balaban's J times 10^9, in the whole numbers that the C header describes.
pub fn balaban(atoms: usize, bonds: &[u8]) -> Result<u64, Refusal> {
    let mut value = 0;
    let reply = unsafe { c::tteuyomal_balaban(atoms, bonds.as_ptr(), bonds.len(), &mut value, 1) };
    fine(reply, value)
}

/// The even and the odd part of the distance polynomial at x.
pub fn polynomial(atoms: usize, bonds: &[u8], x: f64) -> Result<[f64; 2], Refusal> {
    let mut values = [0.0; 2];
    let reply =
        unsafe { c::tteuyomal_polynomial(atoms, bonds.as_ptr(), bonds.len(), x, values.as_mut_ptr(), values.len()) };
    fine(reply, values)
}

/// The Hosoya and the Merrifield-Simmons index of a tree.
pub fn count_sets(atoms: usize, bonds: &[u8]) -> Result<Sets, Refusal> {
    let mut counts = [0; 2];
    let reply =
        unsafe { c::tteuyomal_count_sets(atoms, bonds.as_ptr(), bonds.len(), counts.as_mut_ptr(), counts.len()) };
    fine(reply, Sets { bonds: counts[0], atoms: counts[1] })
}
