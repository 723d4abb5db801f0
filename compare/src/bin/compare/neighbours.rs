//! Neighbour texts: those that the request names, texts of every length, and random ones, good and damaged.

use crate::archive;
use crate::checker::Checker;
use opinion::documents::NAPHTHALENE;
use opinion::make::blocks::random_block;
use opinion::make::damage::damage_block;
use opinion::make::damage_bytes::damage_bytes;
use opinion::make::neighbours::{damage_text, random_text};
use opinion::make::random::Random;
use opinion::make::shapes;
use opinion::neighbours::{self, in_order};

/// More bytes than any block's bonds take.
const BONDS: usize = 512;

/// More bytes than any block's text has.
const TEXT: usize = 1024;

/// Document 001, table 1.
const TABLE_1: &[u8] = b"10\n1 2 10 0\n2 3 0\n3 4 8 0\n4 5 0\n5 6 0\n6 7 0\n7 8 0\n8 9 0\n9 10 0\n0\n";

pub fn run(checker: &mut Checker, seed: u64, first: u64, cases: u64) {
    named(checker);
    cuts(checker);
    single_bytes(checker);
    rooms(checker);
    limits(checker);
    table_1(checker);
    for case in first..first + cases {
        let name = format!("random neighbour text {case} (compare --seed {seed} --first {case} --cases 1)");
        checker.case(name, |checker| {
            let random = &mut Random::for_case(seed ^ 0x6E65_6172, case);
            text(checker, random);
            block(checker, random);
        });
    }
}

/// Texts of a few numbers, each beside what is right, written by hand.
fn named(checker: &mut Checker) {
    let refused = |number: u64, place: u64| number + 256 * place;
    let cases: [(&str, u64); 37] = [
        ("2 1 2 0\n0\n", 0),
        ("\t0002\r\n00001 02 000 0000", 0),
        ("1\n0\n", 0),
        ("2 1 2 0 2 1 0 0", 0),
        ("3 2 3 0 1 2 0 0", 0),
        ("3 1 2 0 1 3 0 0", 0),
        ("2 1 0 1 2 0 2 0 0", 0),
        ("2 1 1000x", refused(21, 4)),
        ("2 1 12x", refused(21, 6)),
        ("x", refused(21, 0)),
        ("2 1 2 0 0 7 x", refused(21, 12)),
        ("2 1 2 0 0 00001000", refused(21, 10)),
        ("99999999999999999999999", refused(21, 0)),
        ("2 1 2 0 0\x0b", refused(21, 9)),
        ("1000x", refused(21, 0)),
        ("", refused(22, 0)),
        (" \n", refused(22, 2)),
        ("0", refused(22, 1)),
        ("2\n1 2 0\n", refused(22, 8)),
        ("2 1 2", refused(22, 5)),
        ("2 1 2 0 0 0", refused(22, 10)),
        ("99 0 1", refused(22, 5)),
        ("0 0", refused(1, 0)),
        ("257 0", refused(1, 0)),
        ("65 0", refused(1, 0)),
        ("2 1 2 0 3 0 0", refused(3, 2)),
        ("4 1 2 0 5 0 0", refused(3, 2)),
        ("2 1 258 0 0", refused(3, 1)),
        ("2 257 258 0 0", refused(3, 1)),
        ("2 3 0 0", refused(3, 1)),
        ("2 1 1 0 3 0 0", refused(4, 1)),
        ("2 1 2 0 2 1 2 0 0", refused(4, 2)),
        ("2 1 2 2 0 0", refused(5, 2)),
        ("2 1 2 0 1 2 0 0", refused(5, 2)),
        ("2 2 1 0 0", refused(7, 0)),
        ("2 0", refused(7, 0)),
        ("999 0", refused(1, 0)),
    ];
    for (text, right) in cases {
        checker.case(format!("neighbour text {text:?} by hand"), |checker| {
            let found = neighbours::read(text.as_bytes(), BONDS, 2);
            let code = found.map_or_else(|refusal| refusal.number + 256 * refusal.place, |_| 0);
            checker.holds(code == right, "the second opinion is not what was written by hand");
            checker.read_neighbours(text.as_bytes(), BONDS, 2);
        });
    }
}

/// Document 001's table 1 cut at every length.
fn cuts(checker: &mut Checker) {
    checker.case("a neighbour text cut at every length", |checker| {
        for length in 0..=TABLE_1.len() {
            checker.read_neighbours(&TABLE_1[..length], BONDS, 2);
        }
    });
}

/// Every byte in the middle of a text and at its end.
fn single_bytes(checker: &mut Checker) {
    checker.case("every byte in a neighbour text", |checker| {
        for byte in 0..=255 {
            for (front, behind) in [("2 1", "2 0 0"), ("2 1 2 0 0", ""), ("", "2 1 2 0 0")] {
                checker.read_neighbours(&[front.as_bytes(), &[byte], behind.as_bytes()].concat(), BONDS, 2);
            }
        }
    });
}

/// Outputs of every length about what is needed.
fn rooms(checker: &mut Checker) {
    let ring = shapes::ring(6).bond_bytes();
    checker.case("neighbour texts into outputs of every length", |checker| {
        let text = neighbours::write(6, &ring, TEXT, 1).expect("a ring");
        for room in 0..=16 {
            for entries in 0..=3 {
                checker.read_neighbours(text.as_bytes(), room, entries);
                checker.read_neighbours(b"1 0", room, entries);
                checker.read_neighbours(b"", room, entries);
                checker.write_neighbours(6, &ring, text.len() - 8 + room, entries);
                checker.write_neighbours(7, &ring, text.len() - 8 + room, entries);
            }
        }
    });
}

/// As many bonds as a block may have, one more, and the longest text.
fn limits(checker: &mut Checker) {
    for bonds in [127, 128, 129, 191, 192, 193] {
        checker.case(format!("a neighbour text of {bonds} times the same bond"), |checker| {
            for label in ["1", "99"] {
                let text = format!("2 {label}{} 0 0", " 500".repeat(bonds));
                checker.read_neighbours(text.as_bytes(), BONDS, 2);
            }
        });
    }
    for block in [shapes::double_ring(64), shapes::path(64), shapes::grid(8, 8), shapes::path(1)] {
        checker.case(format!("the neighbour text of {} atoms", block.atoms), |checker| {
            written(checker, block.atoms as usize, &block.bond_bytes());
        });
    }
}

/// Document 001's table 1 is naphthalene.
fn table_1(checker: &mut Checker) {
    checker.case("document 001, table 1", |checker| {
        checker.read_neighbours(TABLE_1, BONDS, 2);
        let (mut bonds, mut counts, mut fields) = ([0; BONDS], [0; 2], [0; 5]);
        let reply = archive::read_neighbours(TABLE_1, &mut bonds, &mut counts);
        checker.holds(reply == 0 && counts == [10, 11], "not ten atoms and eleven bonds");
        let bonds = &bonds[..2 * counts[1] as usize];
        checker.holds(bonds == in_order(&NAPHTHALENE.block().bond_bytes()), "other bonds");
        let reply = archive::indices(counts[0] as usize, bonds, &mut fields);
        checker.holds(reply == 0 && fields == [10, 109, 52, 57, 12], "not document 01's numbers");
        let (mut text, mut length) = ([0; TEXT], [0]);
        let reply = archive::write_neighbours(10, bonds, &mut text, &mut length);
        checker.holds(reply == 0 && &text[..length[0] as usize] == TABLE_1, "another text");
    });
}

fn text(checker: &mut Checker, random: &mut Random) {
    let mut plan = random_text(random);
    if random.once_in(2) {
        for _ in 0..random.between(1, 2) {
            damage_text(random, &mut plan);
        }
    }
    let mut bytes = plan.bytes(random);
    if random.once_in(10) {
        damage_bytes(random, &mut bytes);
    }
    let room = if random.once_in(6) { random.below(2 * plan.bonds + 2) } else { BONDS };
    let entries = if random.once_in(10) { random.below(3) } else { 2 };
    checker.read_neighbours(&bytes, room, entries);
}

fn block(checker: &mut Checker, random: &mut Random) {
    let mut block = random_block(random, 64);
    if random.once_in(3) {
        damage_block(random, &mut block);
    }
    let (atoms, bonds) = (block.atoms as usize, block.bond_bytes());
    let room = if random.once_in(6) { random.below(TEXT) } else { TEXT };
    let entries = if random.once_in(10) { 0 } else { 1 };
    checker.write_neighbours(atoms, &bonds, room, entries);
    written(checker, atoms, &bonds);
}

/// What is written reads back as the block's bonds in that order, and writing those gives the same bytes.
fn written(checker: &mut Checker, atoms: usize, bonds: &[u8]) {
    checker.write_neighbours(atoms, bonds, TEXT, 1);
    let (mut text, mut length) = ([0; TEXT], [0]);
    if archive::write_neighbours(atoms, bonds, &mut text, &mut length) != 0 {
        return;
    }
    let text = &text[..length[0] as usize];
    checker.read_neighbours(text, BONDS, 2);
    let (mut back, mut counts) = ([0; BONDS], [0; 2]);
    let reply = archive::read_neighbours(text, &mut back, &mut counts);
    let back = &back[..bonds.len()];
    let same = reply == 0 && counts == [atoms as u64, bonds.len() as u64 / 2] && back == in_order(bonds);
    checker.holds(same, "a written text reads back as other bonds");
    let (mut again, mut told) = ([0; TEXT], [0]);
    let reply = archive::write_neighbours(atoms, back, &mut again, &mut told);
    checker.holds(reply == 0 && again[..told[0] as usize] == *text, "written again it is another text");
}
