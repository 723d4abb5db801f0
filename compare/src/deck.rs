//! Decks read record by record: refusals 11 to 20, and where each refusal stands in a deck.

use crate::block::{read_block, MOST_DEGREE};
use crate::graph::Graph;
use crate::refusal::{refuse, Refusal};

pub const MOST_BYTES: usize = 32_768;
pub const MOST_BLOCKS: usize = 16;
pub const MOST_PLACEMENTS: usize = 32;

pub const HEAD: usize = 4;
pub const BLOCK: usize = 1;
pub const ASSEMBLY: usize = 2;
pub const SHEET: usize = 3;
pub const SHEET_OF_SIX: usize = 4;
pub const LIBRARY: usize = 5;

/// The bytes of each field of a sheet of this kind: atom count, W, even part, odd part, polarity; largest distance.
fn widths(kind: usize) -> &'static [usize] {
    match kind {
        SHEET => &[4, 8, 8, 8, 8],
        _ => &[4, 8, 8, 8, 8, 4],
    }
}

/// A deck to be composed ends with its assembly, a deck to be judged with its sheet.
#[derive(Clone, Copy, Debug, PartialEq, Eq)]
pub enum Form {
    Composed,
    Judged,
}

/// A block placed: where its block stands in `Deck::blocks`, and the join to an earlier placement.
#[derive(Clone, Copy, Debug, PartialEq, Eq)]
pub struct Placement {
    pub block: usize,
    pub parent: usize,
    pub parent_atom: usize,
    pub own_atom: usize,
}

/// A deck that nothing refuses. The sheet's five or six fields are there in a judged deck.
#[derive(Clone, Debug)]
pub struct Deck {
    pub blocks: Vec<Graph>,
    pub placements: Vec<Placement>,
    pub sheet: Option<Vec<u64>>,
}

pub(crate) struct Record<'a> {
    pub(crate) first: usize,
    kind: usize,
    pub(crate) payload: &'a [u8],
}

/// A number of `width` bytes, little-endian.
fn number(bytes: &[u8], at: usize, width: usize) -> u64 {
    let mut value = 0;
    for offset in (0..width).rev() {
        value = value * 256 + bytes[at + offset] as u64;
    }
    value
}

pub(crate) fn pair(bytes: &[u8], at: usize) -> usize {
    number(bytes, at, 2) as usize
}

/// The record at this byte: whole (11) and of a kind that may stand here (12).
pub(crate) fn record<'a>(bytes: &'a [u8], first: usize, kinds: &[usize]) -> Result<Record<'a>, Refusal> {
    if bytes.len() - first < HEAD {
        return refuse(11, first);
    }
    let length = pair(bytes, first);
    if bytes.len() - first - HEAD < length {
        return refuse(11, first);
    }
    let kind = pair(bytes, first + 2);
    if !kinds.contains(&kind) {
        return refuse(12, first);
    }
    Ok(Record { first, kind, payload: &bytes[first + HEAD..first + HEAD + length] })
}

/// The blocks of a deck with their numbers, and the record behind them.
pub(crate) struct Opened<'a> {
    pub(crate) numbers: Vec<usize>,
    pub(crate) blocks: Vec<Graph>,
    pub(crate) last: Record<'a>,
}

impl Record<'_> {
    /// Where the record ends in its deck.
    pub(crate) fn end(&self) -> usize {
        self.first + HEAD + self.payload.len()
    }
}

/// Reads blocks, at least one, up to a record of this kind, which is whole but not read yet.
pub(crate) fn open_deck(bytes: &[u8], kind: usize) -> Result<Opened<'_>, Refusal> {
    if bytes.len() > MOST_BYTES {
        return refuse(20, 0);
    }
    let (mut numbers, mut blocks) = (Vec::new(), Vec::new());
    let mut at = 0;
    loop {
        let kinds: &[usize] = if blocks.is_empty() { &[BLOCK] } else { &[BLOCK, kind] };
        let next = record(bytes, at, kinds)?;
        if next.kind == kind {
            return Ok(Opened { numbers, blocks, last: next });
        }
        at = next.end();
        let (number, block) = read_block_record(&next, &numbers)?;
        numbers.push(number);
        blocks.push(block);
    }
}

/// Reads a whole deck of this form.
pub fn read_deck(bytes: &[u8], form: Form) -> Result<Deck, Refusal> {
    let Opened { numbers, blocks, last } = open_deck(bytes, ASSEMBLY)?;
    let placements = read_assembly(&last, &numbers, &blocks)?;
    let mut deck = Deck { blocks, placements, sheet: None };
    let mut at = last.end();
    if form == Form::Judged {
        let next = record(bytes, at, &[SHEET, SHEET_OF_SIX])?;
        at = next.end();
        deck.sheet = Some(read_sheet(&next)?);
    }
    nothing_behind(bytes, at)?;
    Ok(deck)
}

/// 11 where bytes follow the last record.
pub(crate) fn nothing_behind(bytes: &[u8], end: usize) -> Result<(), Refusal> {
    if end < bytes.len() {
        return refuse(11, end);
    }
    Ok(())
}

/// A block's record: 13, 14, then the block's own refusals: 3 to 6 at the bond's first byte, the others at the record's.
fn read_block_record(record: &Record, earlier: &[usize]) -> Result<(usize, Graph), Refusal> {
    let payload = record.payload;
    if payload.len() < 6 || payload.len() != 6 + 2 * pair(payload, 4) {
        return refuse(13, record.first);
    }
    let number = pair(payload, 0);
    if number == 0 || earlier.contains(&number) || earlier.len() == MOST_BLOCKS {
        return refuse(14, record.first);
    }
    match read_block(pair(payload, 2), &payload[6..]) {
        Ok(block) => Ok((number, block)),
        Err(refusal) if refusal.place == 0 => refuse(refusal.number, record.first),
        Err(refusal) => refuse(refusal.number, record.first + HEAD + 6 + 2 * (refusal.place as usize - 1)),
    }
}

/// The assembly: 13 and 15 at the record's first byte, 16 to 19, 23 and 24 at the placement's.
pub(crate) fn read_assembly(record: &Record, numbers: &[usize], blocks: &[Graph]) -> Result<Vec<Placement>, Refusal> {
    let payload = record.payload;
    if payload.len() < 2 || payload.len() != 2 + 6 * pair(payload, 0) {
        return refuse(13, record.first);
    }
    let count = pair(payload, 0);
    if count == 0 || count > MOST_PLACEMENTS {
        return refuse(15, record.first);
    }
    let mut placements = Vec::new();
    for index in 0..count {
        let at = 2 + 6 * index;
        let place = record.first + HEAD + at;
        let Some(block) = numbers.iter().position(|&number| number == pair(payload, at)) else {
            return refuse(16, place);
        };
        let placement = Placement {
            block,
            parent: pair(payload, at + 2),
            parent_atom: payload[at + 4] as usize,
            own_atom: payload[at + 5] as usize,
        };
        if let Err(number) = check_join(&placement, &placements, blocks) {
            return refuse(number, place);
        }
        placements.push(placement);
    }
    Ok(placements)
}

/// 17, or 23, 24, 18 and 19, of the placement that follows the earlier ones.
fn check_join(new: &Placement, earlier: &[Placement], blocks: &[Graph]) -> Result<(), u64> {
    if earlier.is_empty() {
        let joined = new.parent != 0 || new.parent_atom != 0 || new.own_atom != 0;
        return if joined { Err(17) } else { Ok(()) };
    }
    if new.parent == 0 {
        return Err(23);
    }
    if new.parent > earlier.len() {
        return Err(24);
    }
    let parent_block = &blocks[earlier[new.parent - 1].block];
    let own_block = &blocks[new.block];
    if new.parent_atom == 0 || new.parent_atom > parent_block.atoms {
        return Err(18);
    }
    if new.own_atom == 0 || new.own_atom > own_block.atoms {
        return Err(18);
    }
    let parent_bonds = parent_block.degree(new.parent_atom) + joins_at(earlier, new.parent, new.parent_atom);
    if parent_bonds == MOST_DEGREE || own_block.degree(new.own_atom) == MOST_DEGREE {
        return Err(19);
    }
    Ok(())
}

/// How many joins end at this atom of this placement (from 1): its own to its parent, and those of its children.
fn joins_at(placements: &[Placement], placed: usize, atom: usize) -> usize {
    let own = placed > 1 && placements[placed - 1].own_atom == atom;
    let children = placements.iter().filter(|child| child.parent == placed && child.parent_atom == atom);
    own as usize + children.count()
}

fn read_sheet(record: &Record) -> Result<Vec<u64>, Refusal> {
    let widths = widths(record.kind);
    if record.payload.len() != widths.iter().sum::<usize>() {
        return refuse(13, record.first);
    }
    let mut at = 0;
    let mut fields = Vec::new();
    for &width in widths {
        fields.push(number(record.payload, at, width));
        at += width;
    }
    Ok(fields)
}

/// A sheet's whole record, as composing writes it: of kind 3 from five fields, of kind 4 from six.
pub fn sheet_record(fields: &[u64]) -> Vec<u8> {
    let kind = if fields.len() == 5 { SHEET } else { SHEET_OF_SIX };
    let widths = widths(kind);
    let mut record = vec![widths.iter().sum::<usize>() as u8, 0, kind as u8, 0];
    for (&field, &width) in fields.iter().zip(widths) {
        record.extend_from_slice(&field.to_le_bytes()[..width]);
    }
    record
}
