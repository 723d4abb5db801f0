//! Decks: judged, composed, their sheets written.
use crate::functions as c;
use crate::reply::{fine, verdict, Refusal, Verdict};

/// A sheet of five fields (a record of kind 3) or of six (kind 4).
#[derive(Clone, Copy, Debug, PartialEq, Eq, Hash)]
pub enum Kind {
    Five = 3,
    Six = 4,
}

impl Kind {
    /// How many bytes its record has.
    pub fn bytes(self) -> usize {
        match self {
            Kind::Five => 40,
            Kind::Six => 44,
        }
    }
}

/// Judges a deck that ends with a sheet.
pub fn judge(deck: &[u8]) -> Verdict {
    // safe, here and below: the library touches only what is lent, and only during the call
    verdict(unsafe { c::tteuyomal_judge(deck.as_ptr(), deck.len()) })
}

/// The sheet of a deck without one: a whole record of kind 3.
pub fn write_sheet(deck: &[u8]) -> Result<[u8; 40], Refusal> {
    let mut out = [0; 40];
    let reply = unsafe { c::tteuyomal_write_sheet(deck.as_ptr(), deck.len(), out.as_mut_ptr(), out.len()) };
    fine(reply, out)
}

/// The sheet of six fields of a deck without one: a whole record of kind 4.
pub fn write_six(deck: &[u8]) -> Result<[u8; 44], Refusal> {
    let mut out = [0; 44];
    let reply = unsafe { c::tteuyomal_write_six(deck.as_ptr(), deck.len(), out.as_mut_ptr(), out.len()) };
    fine(reply, out)
}

/// Atoms, W, even part, odd part and polarity of a deck without a sheet.
pub fn compose(deck: &[u8]) -> Result<[u64; 5], Refusal> {
    let mut fields = [0; 5];
    let reply = unsafe { c::tteuyomal_compose(deck.as_ptr(), deck.len(), fields.as_mut_ptr(), fields.len()) };
    fine(reply, fields)
}

/// The same and the largest distance.
pub fn compose_six(deck: &[u8]) -> Result<[u64; 6], Refusal> {
    let mut fields = [0; 6];
    let reply = unsafe { c::tteuyomal_compose_six(deck.as_ptr(), deck.len(), fields.as_mut_ptr(), fields.len()) };
    fine(reply, fields)
}

/// The distance, in the molecule of a deck without a sheet, between two atoms: each a placement and an atom of its block, from 1.
pub fn placed_distance(deck: &[u8], (k, i): (usize, usize), (l, j): (usize, usize)) -> Result<u64, Refusal> {
    let mut distance = 0;
    let reply = unsafe { c::tteuyomal_placed_distance(deck.as_ptr(), deck.len(), k, i, l, j, &mut distance, 1) };
    fine(reply, distance)
}
