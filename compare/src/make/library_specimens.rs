//! Library decks that meet each refusal, with number and place written by hand from the rules.

use super::plan::{write_records, BlockPlan, RecordPlan};
use super::shapes::{block, path, ring, star};

pub struct LibrarySpecimen {
    pub name: &'static str,
    pub deck: Vec<u8>,
    pub number: u64,
    pub place: u64,
}

/// A ring of 6, number 1, and one atom, number 2, then at byte 32 a library of two products: at the ring's atom 1 the one atom or the
/// ring again, at its atom 4 the one atom.
pub const TWO_PRODUCTS: [u8; 53] = [
    0x12, 0x00, 0x01, 0x00, 0x01, 0x00, 0x06, 0x00, 0x06, 0x00, 0x01, 0x02, 0x02, 0x03, 0x03, 0x04, 0x04, 0x05, 0x05,
    0x06, 0x06, 0x01, //
    0x06, 0x00, 0x01, 0x00, 0x02, 0x00, 0x01, 0x00, 0x00, 0x00, //
    0x11, 0x00, 0x05, 0x00, 0x01, 0x00, 0x02, 0x00, 0x01, 0x02, 0x02, 0x00, 0x01, 0x01, 0x00, 0x01, 0x04, 0x01, 0x02,
    0x00, 0x01,
];

/// Atoms, W, even part, odd part, polarity of the two.
pub const TWO_FIELDS: [[u64; 5]; 2] = [[8, 62, 28, 34, 7], [13, 252, 124, 128, 16]];

/// Blocks 1, a ring of 6, 2, one atom, and 3, a star of 7 with a full atom 1; this record's bytes come at byte 54.
fn behind_blocks(kind: u16, payload: &[u8]) -> Vec<u8> {
    let blocks = (1..).zip([ring(6), path(1), star(7)]).map(|(number, block)| BlockPlan { number, ..block });
    let records = blocks.map(|block| RecordPlan::new(1, block.payload()));
    write_records(&records.chain([RecordPlan::new(kind, payload.to_vec())]).collect::<Vec<_>>())
}

type Meets<'a> = &'a mut dyn FnMut(u64, u64, &'static str, Vec<u8>);

/// Every refusal of a library deck, and the order among them.
pub fn libraries() -> Vec<LibrarySpecimen> {
    let mut all = Vec::new();
    let mut meets = |number, place, name, deck| all.push(LibrarySpecimen { name, deck, number, place });
    in_records(&mut meets);
    in_counts(&mut meets);
    in_candidates(&mut meets);
    all
}

/// The example with these bytes put over its own.
fn with(changes: &[(usize, u8)]) -> Vec<u8> {
    let mut bytes = TWO_PRODUCTS.to_vec();
    for &(at, byte) in changes {
        bytes[at] = byte;
    }
    bytes
}

fn in_records(meets: Meets) {
    let whole = TWO_PRODUCTS;
    meets(11, 0, "an empty deck for a library", Vec::new());
    meets(11, 32, "an end before the library's record", whole[..32].to_vec());
    meets(11, 32, "a library's head cut off", whole[..35].to_vec());
    meets(11, 32, "a library's record cut off", whole[..52].to_vec());
    meets(11, 32, "cut off and of a kind that may not stand there", with(&[(32, 18), (34, 2)]));
    meets(11, 53, "a byte behind the library's record", [&whole[..], &[0]].concat());
    meets(
        11,
        53,
        "an assembly behind the library's record",
        [&whole[..], &[8, 0, 2, 0, 1, 0, 1, 0, 0, 0, 0, 0]].concat(),
    );
    meets(12, 0, "a library first", whole[32..].to_vec());
    meets(12, 32, "an assembly for a library", [&whole[..32], &[8, 0, 2, 0, 1, 0, 1, 0, 0, 0, 0, 0]].concat());
    for (kind, name) in [(0, "kind 0 for a library"), (3, "a sheet for a library"), (4, "a sheet of six for a library")]
    {
        meets(12, 32, name, with(&[(34, kind)]));
    }
    meets(12, 32, "a library's kind whose low byte alone is right, and no site", with(&[(35, 1), (38, 0)]));
    meets(14, 22, "a block number again before a library", with(&[(26, 1), (38, 0)]));
    meets(14, 160, "a 17th block before a library", {
        let blocks = (1..=17).map(|number| RecordPlan::new(1, BlockPlan { number, ..path(1) }.payload()));
        write_records(&blocks.chain([RecordPlan::new(5, vec![1, 0, 0, 0])]).collect::<Vec<_>>())
    });
    meets(1, 22, "a block of no atom before a library", with(&[(28, 0), (36, 9)]));
    meets(3, 12, "a bond end above n before a library", with(&[(13, 7)]));
    meets(7, 22, "two atoms and no bond before a library", with(&[(28, 2)]));
    meets(13, 22, "a block of a wrong length before a library", with(&[(30, 1), (38, 0)]));
    meets(20, 0, "a library's deck of 32,769 bytes", {
        let mut long = whole.to_vec();
        long.resize(32_769, 0);
        long
    });
    meets(11, 53, "a library's deck of 32,768 bytes", {
        let mut long = whole.to_vec();
        long.resize(32_768, 0);
        long
    });
}

fn in_counts(meets: Meets) {
    let mut record = |number, name, payload: &[u8]| meets(number, 54, name, behind_blocks(5, payload));
    record(13, "a library of no byte", &[]);
    record(13, "a library of three bytes", &[9, 0, 0]);
    record(31, "no site, and no such core", &[9, 0, 0, 0]);
    record(31, "five sites", &[1, 0, 5, 0, 1, 1, 2, 0, 1]);
    record(
        31,
        "five sites that are there",
        &[1, 0, 5, 0, 1, 1, 2, 0, 1, 2, 1, 2, 0, 1, 3, 1, 2, 0, 1, 4, 1, 2, 0, 1, 5, 1, 2, 0, 1],
    );
    record(31, "a site count whose low byte alone is right", &[1, 0, 1, 1, 1, 1, 2, 0, 1]);
    record(16, "a core that is no block, and no site's bytes", &[9, 0, 1, 0]);
    record(16, "core 0, and a site with no candidate", &[0, 0, 1, 0, 1, 0]);
    record(16, "a core whose low byte alone is a block's", &[1, 1, 1, 0, 1, 1, 2, 0, 1]);
    record(13, "a site with no byte", &[1, 0, 1, 0]);
    record(13, "a site with one byte, atom 0", &[1, 0, 1, 0, 0]);
    record(13, "a second site that is not there", &[1, 0, 2, 0, 1, 1, 2, 0, 1]);
    record(32, "no candidate, and atom 0", &[1, 0, 1, 0, 0, 0]);
    record(32, "nine candidates, and atom 7 of 6", &[1, 0, 1, 0, 7, 9]);
    record(
        32,
        "nine candidates that are there",
        &[1, 0, 1, 0, 1, 9, 2, 0, 1, 2, 0, 1, 2, 0, 1, 2, 0, 1, 2, 0, 1, 2, 0, 1, 2, 0, 1, 2, 0, 1, 2, 0, 1],
    );
    record(32, "a second site at the same atom with no candidate", &[1, 0, 2, 0, 1, 1, 2, 0, 1, 1, 0]);
    record(32, "a second site at the same atom with nine candidates", &[1, 0, 2, 0, 1, 1, 2, 0, 1, 1, 9, 2, 0, 1]);
    record(18, "a site at atom 0, and no candidate's bytes", &[1, 0, 1, 0, 0, 1]);
    record(18, "a site at atom 7 of 6, and a candidate that is no block", &[1, 0, 1, 0, 7, 1, 9, 0, 1]);
    record(18, "a site at an atom of another block than the core", &[2, 0, 1, 0, 2, 1, 1, 0, 1]);
    record(33, "a second site at the same atom", &[1, 0, 2, 0, 1, 1, 2, 0, 1, 1, 1, 2, 0, 1]);
    record(33, "a second site at the same atom, and no candidate's bytes", &[1, 0, 2, 0, 1, 1, 2, 0, 1, 1, 1]);
    record(
        33,
        "a third site at the first's atom, and no such candidate",
        &[1, 0, 3, 0, 6, 1, 2, 0, 1, 1, 1, 2, 0, 1, 6, 1, 9, 0, 1],
    );
}

fn in_candidates(meets: Meets) {
    let mut record = |number, name, payload: &[u8]| meets(number, 54, name, behind_blocks(5, payload));
    record(13, "a candidate of no byte", &[1, 0, 1, 0, 1, 1]);
    record(13, "a candidate of two bytes, no block's number", &[1, 0, 1, 0, 1, 1, 9, 0]);
    record(13, "a second candidate that is not there", &[1, 0, 1, 0, 1, 2, 2, 0, 1]);
    record(16, "a candidate that is no block, and atom 0", &[1, 0, 1, 0, 1, 1, 9, 0, 0]);
    record(16, "a second candidate that is no block", &[1, 0, 1, 0, 1, 2, 2, 0, 1, 0, 0, 1]);
    record(16, "a candidate whose low byte alone is a block's", &[1, 0, 1, 0, 1, 1, 2, 1, 1]);
    record(16, "a candidate that is no block at a full atom", &[3, 0, 1, 0, 1, 1, 9, 0, 1]);
    record(18, "a joining atom 0", &[1, 0, 1, 0, 1, 1, 2, 0, 0]);
    record(18, "a joining atom above its n", &[1, 0, 1, 0, 1, 1, 2, 0, 2]);
    record(18, "a joining atom above its n at a full atom", &[3, 0, 1, 0, 1, 1, 2, 0, 2]);
    record(19, "a site at a full atom", &[3, 0, 1, 0, 1, 1, 2, 0, 1]);
    record(19, "a joining atom that is full", &[1, 0, 1, 0, 1, 1, 3, 0, 1]);
    record(
        19,
        "a last candidate whose joining atom is full, and a byte left over",
        &[1, 0, 1, 0, 1, 3, 2, 0, 1, 3, 0, 2, 3, 0, 1, 0],
    );
    record(
        19,
        "a full joining atom before a second site at the same atom",
        &[1, 0, 2, 0, 1, 1, 3, 0, 1, 1, 1, 2, 0, 1],
    );
    record(16, "the earlier of two wrong candidates", &[1, 0, 1, 0, 1, 2, 9, 0, 1, 3, 0, 1]);
    record(13, "a byte left over", &[1, 0, 1, 0, 1, 1, 2, 0, 1, 0]);
    record(13, "a whole candidate left over", &[1, 0, 1, 0, 1, 1, 2, 0, 1, 2, 0, 1]);
    meets(19, 64, "a joining atom that is full by the last of sixteen bonds", {
        let late = (1..=10).map(|atom| (atom, atom + 1)).chain((11..=16).map(|atom| (atom, 17)));
        let blocks =
            (1..).zip([ring(6), block(17, late.collect())]).map(|(number, block)| BlockPlan { number, ..block });
        let records = blocks.map(|block| RecordPlan::new(1, block.payload()));
        write_records(&records.chain([RecordPlan::new(5, vec![1, 0, 1, 0, 1, 1, 2, 0, 17])]).collect::<Vec<_>>())
    });
    let left_over = behind_blocks(5, &[1, 0, 1, 0, 1, 1, 2, 0, 1, 0]);
    meets(13, 54, "a byte left over, and one behind the record", [&left_over[..], &[0]].concat());
    let full = behind_blocks(5, &[3, 0, 1, 0, 1, 1, 2, 0, 1]);
    meets(19, 54, "a full atom, and a byte behind the record", [&full[..], &[0]].concat());
}
