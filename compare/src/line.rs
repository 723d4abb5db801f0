//! The lines that the programs print.

use crate::answers::{compose, judge, Verdict};
use crate::block::read_block;
use crate::molecule::Measurer;
use crate::molfile;
use crate::neighbours;
use crate::refusal::Refusal;

/// What `sheet` prints for a deck without a sheet.
pub fn sheet_line(measurer: &mut Measurer, deck: &[u8]) -> String {
    fields_line(compose(measurer, deck, 5))
}

/// What `desk measure` prints for a molfile.
pub fn measure_line(file: &[u8]) -> String {
    measured_line(file, molfile::read)
}

/// What `desk neighbours` prints for a neighbour text.
pub fn neighbours_line(file: &[u8]) -> String {
    measured_line(file, neighbours::read)
}

/// The reader of a kind of files: the text, the room for bonds, and for the counts.
type Reader = fn(&[u8], usize, usize) -> Result<(usize, Vec<u8>), Refusal>;

fn measured_line(file: &[u8], reader: Reader) -> String {
    if file.len() > 1 << 20 {
        return String::from("longer than 1048576 bytes");
    }
    let read = reader(file, usize::MAX, 2);
    let fields =
        read.map(|(atoms, bonds)| read_block(atoms, &bonds).expect("a block that was read").indices().fields());
    fields_line(fields)
}

fn fields_line(fields: Result<[u64; 5], Refusal>) -> String {
    match fields {
        Ok([atoms, w, even, odd, polarity]) => {
            format!("atoms {atoms} W {w} even {even} odd {odd} polarity {polarity}")
        }
        Err(refusal) => refused(refusal),
    }
}

/// What `desk judge` prints for a deck with a sheet.
pub fn judge_line(measurer: &mut Measurer, deck: &[u8]) -> String {
    match judge(measurer, deck) {
        Verdict::Accepted => String::from("accepted"),
        Verdict::Differs(field) => format!("differs {field}"),
        Verdict::Refused(refusal) => refused(refusal),
    }
}

fn refused(refusal: Refusal) -> String {
    format!("refused {} at {}", refusal.number, refusal.place)
}
