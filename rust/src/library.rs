//! Libraries: how many products a library deck has, their sheets, and the best of them.
use crate::deck::Kind;
use crate::functions as c;
use crate::reply::{fine, fine_or_done, Refusal};

/// How many products a library deck has.
pub fn library_count(deck: &[u8]) -> Result<u64, Refusal> {
    let mut count = 0;
    let reply = unsafe { c::tteuyomal_library_count(deck.as_ptr(), deck.len(), &mut count, 1) };
    fine(reply, count)
}

/// Writes the sheet of the product at a position, from 0, and answers the next position; nothing at or past the number of products.
pub fn library_step(deck: &[u8], kind: Kind, position: usize, out: &mut [u8]) -> Result<Option<u64>, Refusal> {
    let mut next = 0;
    let reply = unsafe {
        c::tteuyomal_library_step(
            deck.as_ptr(),
            deck.len(),
            kind as usize,
            position,
            out.as_mut_ptr(),
            out.len(),
            &mut next,
            1,
        )
    };
    fine_or_done(reply, next)
}

/// The same for the products from a position on, as many whole sheets as fit, one after the other.
pub fn library_run(deck: &[u8], kind: Kind, position: usize, out: &mut [u8]) -> Result<Option<u64>, Refusal> {
    let mut next = 0;
    let reply = unsafe {
        c::tteuyomal_library_run(
            deck.as_ptr(),
            deck.len(),
            kind as usize,
            position,
            out.as_mut_ptr(),
            out.len(),
            &mut next,
            1,
        )
    };
    fine_or_done(reply, next)
}

/// A product among the best: its value, the tag of its deck, and its position there.
#[repr(C)]
#[derive(Clone, Copy, Debug, Default, PartialEq, Eq)]
pub struct Ranked {
    pub value: u64,
    pub tag: u64,
    pub position: u64,
}

/// Puts every product of a library deck among the best so far by one field, 1 to 6: the smallest, or the greatest. The first `held`
/// entries are there already; answers how many are then.
pub fn library_best(
    deck: &[u8],
    field: usize,
    greatest: bool,
    tag: u64,
    best: &mut [Ranked],
    held: u64,
) -> Result<u64, Refusal> {
    let mut many = held;
    let reply = unsafe {
        c::tteuyomal_library_best(
            deck.as_ptr(),
            deck.len(),
            field,
            greatest as usize,
            tag,
            best.as_mut_ptr().cast(),
            3 * best.len(),
            &mut many,
            1,
        )
    };
    fine(reply, many)
}
