//! What the library replies: one number, which says what and where.
use std::error::Error;
use std::fmt;

/// A refusal: what is wrong, by its number, and where.
#[derive(Clone, Copy, Debug, PartialEq, Eq, Hash)]
pub struct Refusal {
    pub number: u8,
    pub place: u64,
}

/// What a judged deck, or judged claims, came out as.
#[derive(Clone, Copy, Debug, PartialEq, Eq, Hash)]
pub enum Verdict {
    Accepted,
    /// The first field of the sheet, or the first claim, that is wrong, from 1.
    Differs(u64),
    Refused(Refusal),
}

const DONE: u64 = 254;
const DIFFERS: u64 = 255;

/// A reply of a function that judges.
pub(crate) fn verdict(reply: u64) -> Verdict {
    match reply % 256 {
        0 => Verdict::Accepted,
        DIFFERS => Verdict::Differs(reply / 256),
        _ => Verdict::Refused(refusal(reply)),
    }
}

/// A reply of a function that writes `value`, or refuses.
pub(crate) fn fine<T>(reply: u64, value: T) -> Result<T, Refusal> {
    if reply == 0 {
        Ok(value)
    } else {
        Err(refusal(reply))
    }
}

/// A reply of a function that may be done.
pub(crate) fn fine_or_done<T>(reply: u64, value: T) -> Result<Option<T>, Refusal> {
    if reply % 256 == DONE {
        Ok(None)
    } else {
        fine(reply, Some(value))
    }
}

fn refusal(reply: u64) -> Refusal {
    Refusal { number: (reply % 256) as u8, place: reply / 256 }
}

impl Refusal {
    /// What the number says.
    pub fn words(&self) -> &'static str {
        WORDS.get(usize::from(self.number).wrapping_sub(1)).copied().unwrap_or("no such refusal")
    }
}

impl fmt::Display for Refusal {
    fn fmt(&self, f: &mut fmt::Formatter<'_>) -> fmt::Result {
        write!(f, "refused {} at {}: {}", self.number, self.place, self.words())
    }
}

impl Error for Refusal {}

impl fmt::Display for Verdict {
    fn fmt(&self, f: &mut fmt::Formatter<'_>) -> fmt::Result {
        match self {
            Verdict::Accepted => write!(f, "accepted"),
            Verdict::Differs(field) => write!(f, "differs {field}"),
            Verdict::Refused(refusal) => refusal.fmt(f),
        }
    }
}

/// The words of the refusals, from 1: those of the C header.
const WORDS: &[&str] = &[
    "the atom count is 0 or above 64",
    "the bond bytes are odd in number, or more than 384",
    "a bond end is 0 or above the atom count",
    "both ends are the same atom",
    "the bond was listed before, either way round",
    "the bond is one too many for an atom: its seventh",
    "some pair of atoms has no path",
    "the common denominator is above 1,000,000",
    "a lent output is too short",
    "x is 0, negative, above 1 or a NaN",
    "a record is cut off, the deck ends early, or bytes follow its last record",
    "a kind that may not stand there",
    "a payload length that is not its kind's",
    "a block number that is 0 or used before, or a 17th block",
    "the placement count is 0 or above 32",
    "the placement's block is not in the deck",
    "the first placement has a join field that is not 0",
    "a join atom is 0 or above its block's atom count; at place 0: no such placement or atom as was asked about",
    "the join is one bond too many for an atom: its seventh, earlier joins counted",
    "the deck is longer than 32,768 bytes",
    "a byte of the neighbour text is no digit, blank, tab, CR or LF, or a number is above 999",
    "the neighbour text ends before its last 0, or a number follows it",
    "a later placement has the parent 0",
    "a later placement has a parent that is not earlier",
    "a line of the molfile is missing or too short",
    "a count or a bond end of the molfile isn't blanks, then at least one digit",
    "a bond end of the molfile is outside its atom list",
    "the queue holds eight blocks already",
    "the queue holds a block under this number already",
    "the queue holds no block under this number",
    "a library's site count is 0 or above 4",
    "a site's candidate count is 0 or above 8",
    "a site's atom was used by an earlier site",
    "the block's bonds are not one fewer than its atoms",
    "the claim is of no field, or is cut off; at place 0: no such field as was asked about",
    "there is no claim",
    "the text is no number as the rules read it",
    "the record has no such data item",
    "the record has that data item twice",
];
