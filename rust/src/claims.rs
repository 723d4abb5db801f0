//! Claims: what a program printed of a molecule, judged.
use crate::functions as c;
use crate::reply::{verdict, Verdict};

/// The fields that may be claimed; those from `Szeged` on only of a lone block.
#[derive(Clone, Copy, Debug, PartialEq, Eq, Hash)]
pub enum Field {
    Atoms = 1,
    W = 2,
    Even = 3,
    Odd = 4,
    Polarity = 5,
    Largest = 6,
    Szeged = 7,
    Hosoya = 8,
    MerrifieldSimmons = 9,
    Balaban = 10,
}

/// Claims as the library reads them: each a field and the text that a program printed for it.
#[derive(Clone, Debug, Default, PartialEq, Eq)]
pub struct Claims {
    bytes: Vec<u8>,
}

impl Claims {
    pub fn new() -> Claims {
        Claims::default()
    }

    /// One claim more. A text of more than 255 bytes has no room in a claim: another one stands for it that is no number either,
    /// so that it is refused and never read in part.
    pub fn claim(mut self, field: Field, text: &str) -> Claims {
        let text = if text.len() > 255 { "cut" } else { text };
        self.bytes.extend([field as u8, text.len() as u8]);
        self.bytes.extend(text.as_bytes());
        self
    }
}

/// Judges claims of the molecule of a deck without a sheet; `Differs` has the number of the first wrong one.
pub fn judge_claims(deck: &[u8], claims: &Claims) -> Verdict {
    let bytes = &claims.bytes;
    verdict(unsafe { c::tteuyomal_judge_claims(deck.as_ptr(), deck.len(), bytes.as_ptr(), bytes.len()) })
}

/// The same of a lone block.
pub fn judge_block(atoms: usize, bonds: &[u8], claims: &Claims) -> Verdict {
    let bytes = &claims.bytes;
    let (list, len) = (bonds.as_ptr(), bonds.len());
    verdict(unsafe { c::tteuyomal_judge_block(atoms, list, len, bytes.as_ptr(), bytes.len()) })
}
