//! The answers about library decks: how many products, the sheet of one, and the sheets from a position on.

use crate::deck::{sheet_record, MOST_BYTES, SHEET_OF_SIX};
use crate::library::{read_library, Library};
use crate::molecule::{write_out, Measurer};
use crate::refusal::{refuse, Refusal};

/// What a step or a run says where nothing is refused.
#[derive(Clone, Debug, PartialEq, Eq)]
pub enum Walked {
    /// There is no product at this position.
    Done,
    /// The sheets' bytes, and the next position.
    Next(Vec<u8>, u64),
}

/// The question of a step or a run. Any kind but 4 is taken for 3.
#[derive(Clone, Copy, Debug)]
pub struct Walk<'a> {
    pub deck: &'a [u8],
    pub kind: usize,
    pub position: usize,
    /// The bytes lent for sheets, and the entries lent for the next position.
    pub room: usize,
    pub entries: usize,
}

/// The number of products: the library's, then 9.
pub fn count(deck: &[u8], room: usize) -> Result<u64, Refusal> {
    let library = read_library(deck)?;
    if room < 1 {
        return refuse(9, 0);
    }
    Ok(library.count() as u64)
}

pub fn sheet_bytes(kind: usize) -> usize {
    if kind == SHEET_OF_SIX {
        44
    } else {
        40
    }
}

/// The sheet of this product.
pub fn sheet(measurer: &mut Measurer, library: &Library, kind: usize, position: usize) -> Vec<u8> {
    let fields = measurer.indices(write_out(&library.product(position))).six();
    sheet_record(if kind == SHEET_OF_SIX { &fields } else { &fields[..5] })
}

/// The sheet at a position.
pub fn step(measurer: &mut Measurer, walk: Walk) -> Result<Walked, Refusal> {
    walked(measurer, walk, 1)
}

/// The sheets from a position on, as many as there is room for.
pub fn run(measurer: &mut Measurer, walk: Walk) -> Result<Walked, Refusal> {
    walked(measurer, walk, walk.room / sheet_bytes(walk.kind))
}

/// At most so many sheets: 20, 9 for a sheet, the library's; done; 9 where a position is to be handed back and has no room.
fn walked(measurer: &mut Measurer, walk: Walk, most: usize) -> Result<Walked, Refusal> {
    if walk.deck.len() > MOST_BYTES {
        return refuse(20, 0);
    }
    if walk.room < sheet_bytes(walk.kind) {
        return refuse(9, 0);
    }
    let library = read_library(walk.deck)?;
    if walk.position >= library.count() {
        return Ok(Walked::Done);
    }
    if walk.entries < 1 {
        return refuse(9, 0);
    }
    let end = library.count().min(walk.position + most);
    let mut sheets = Vec::new();
    for position in walk.position..end {
        sheets.extend(sheet(measurer, &library, walk.kind, position));
    }
    Ok(Walked::Next(sheets, end as u64))
}
