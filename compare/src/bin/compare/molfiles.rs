//! Molfiles: the shapes that the request names, files of every length, and random ones, good and damaged.

use crate::archive;
use crate::checker::Checker;
use opinion::documents::NAPHTHALENE;
use opinion::make::blocks::random_block;
use opinion::make::damage::damage_block;
use opinion::make::damage_bytes::damage_bytes;
use opinion::make::molfiles::{damage_molfile, random_molfile};
use opinion::make::random::Random;
use opinion::make::shapes;
use opinion::molfile;

/// More bytes than any block's bonds take.
const BONDS: usize = 512;

/// The most bytes of a text: 64 atoms and as many bonds as a block may have.
const TEXT: usize = 50 + 70 * 64 + 22 * 192;

pub fn run(checker: &mut Checker, seed: u64, first: u64, cases: u64) {
    named(checker);
    cuts(checker);
    bytes(checker);
    long(checker);
    rooms(checker);
    naphthalene(checker);
    for case in first..first + cases {
        let name = format!("random molfile {case} (compare --seed {seed} --first {case} --cases 1)");
        checker.case(name, |checker| {
            let random = &mut Random::for_case(seed ^ 0x6D6F_6C66, case);
            file(checker, random);
            block(checker, random);
        });
    }
}

fn atom(symbol: &str) -> String {
    format!("{:31}{symbol}\n", "")
}

/// Files of a few lines, each beside what is right, written by hand.
fn named(checker: &mut Checker) {
    let (c, h) = (atom("C"), atom("H  "));
    let rest = "M  END\n";
    let refused = |number: u64, place: u64| number + 256 * place;
    let cases = [
        (format!("\n\n\n  3  2\n{h}{c}{c}  1  2\n  3  2\n{rest}"), 0),
        (format!("\n\n\n  2  1\n{h}{h}  1  2\n{rest}"), 0),
        (format!("\n\n\n  2  1\n{c}{}  1  2\r\nM  END", atom("  H")), 0),
        (format!("\n\n\n  2  1\n{c}{}  1  2\n{rest}", atom("D  ")), 0),
        (format!("\n\n\n  3  2\n{c}{h}{c}  1  2\n  3  2\n{rest}"), 0),
        (format!("\n\n\n  2  2\n{c}{h}  1  2\n  2  1\n{rest}"), refused(5, 2)),
        (format!("\n\n\n  2  0\n{c}{h}{rest}"), refused(7, 0)),
        (format!("\n\n\n  1  1\n{c}  1  1\n{rest}"), refused(4, 1)),
        (format!("\n\n\n  1  1\n{c}  9  x\n{rest}"), refused(26, 43)),
        (format!("\n\n\n  1  1\n{c}  9  1\n{rest}"), refused(27, 43)),
        (format!("\n\n\n  1  1\n{c}  0  1\n{rest}"), refused(27, 43)),
        (format!("\n\n\n  1  1\n{c}{rest}"), refused(26, 43)),
        (format!("\n\n\n  2  0\n{c}{rest}{rest}"), refused(25, 43)),
        (format!("\n\n\n  1  1\n{c}  1"), refused(25, 43)),
        (format!("\n\n\n  2  2\n{c}{c}  1  2"), refused(25, 82)),
        (format!("\n\n\n  1  0\n{c}"), refused(25, 43)),
        (format!("\n\n\n  1  \r\r\n{c}{rest}"), refused(26, 3)),
        (format!("\n\n\n  1  \r\n{c}{rest}"), refused(25, 3)),
        (String::from("\n\n\n  0  0  0     0  0              1 V3000\nM  END\n"), refused(1, 0)),
        (format!("\n\n\n  0  1\n  1  1\n{rest}"), refused(27, 10)),
        (String::from("\n\n"), refused(25, 2)),
        (String::from("\r\n\r\n\r\n"), refused(25, 6)),
        ("\n".repeat(40), refused(25, 3)),
    ];
    for (at, (file, right)) in cases.iter().enumerate() {
        checker.case(format!("molfile {at} by hand"), |checker| {
            let found = molfile::read(file.as_bytes(), BONDS, 2);
            let code = found.map_or_else(|refusal| refusal.number + 256 * refusal.place, |_| 0);
            checker.holds(code == *right, "the second opinion is not what was written by hand");
            checker.read_molfile(file.as_bytes(), BONDS, 2);
        });
    }
}

/// A file cut at every length.
fn cuts(checker: &mut Checker) {
    let (c, h) = (atom("C  "), atom("H  "));
    let file = format!("ab\r\n\r\n\n  3  2\r\n{c}{h}{c}  1  2  1\r\n  3  1\nM  CHG\r\nM  END\r\n$$$$\n");
    checker.case("a molfile cut at every length", |checker| {
        for length in 0..=file.len() {
            checker.read_molfile(&file.as_bytes()[..length], BONDS, 2);
        }
    });
}

/// Each byte of a small file given every value: counts, symbols, ends, feeds and the last line.
fn bytes(checker: &mut Checker) {
    let file = format!("\n\n\n  3  2\n{}{}{}  1  2\r\n  3  2\nM  END\n", atom("C"), atom("H  "), atom("  C"));
    for at in 0..file.len() {
        checker.case(format!("byte {at} of a molfile changed"), |checker| {
            let mut changed = file.clone().into_bytes();
            for value in 0..=255 {
                changed[at] = value;
                checker.read_molfile(&changed, BONDS, 2);
            }
        });
    }
}

/// Files of as many atoms and bonds as the counts can say, of thousands of lines that are read over, of lines without end, and a
/// megabyte behind the last line.
fn long(checker: &mut Checker) {
    let (c, h) = (atom("C"), atom("H  "));
    let bonds: String = (2..=999).map(|end| format!("{:3}{end:3}\n", 1 + (end - 2) % 64)).collect();
    let (few, over) = (format!("\n\n\n  2  1\n{c}{h}  1  2\n"), "M  CHG  1   1   0\n".repeat(5_000));
    let blanks = " ".repeat(100_000);
    for (name, file) in [
        ("999 atoms, one heavy", format!("\n\n\n999998\n{c}{}{}M  END\n", h.repeat(998), bonds)),
        ("999 atoms, 64 heavy", format!("\n\n\n999998\n{}{}{}M  END\n", c.repeat(64), h.repeat(935), bonds)),
        ("5,000 lines read over", format!("{few}{over}M  END\n")),
        ("5,000 lines read over, and no end", format!("{few}{over}")),
        (
            "lines of 100,000 characters",
            format!("{blanks}\n{blanks}\n\n  1  0{blanks}\n{}{blanks}\nM  END{blanks}\n", c.trim_end()),
        ),
        ("a megabyte behind the end", format!("{few}M  END\n{}", blanks.repeat(10))),
    ] {
        checker.case(format!("a long molfile: {name}"), |checker| checker.read_molfile(file.as_bytes(), BONDS, 2));
    }
}

/// Outputs of every length about what is needed.
fn rooms(checker: &mut Checker) {
    let ring = shapes::ring(6).bond_bytes();
    let length = 50 + 70 * 6 + 22 * 6;
    checker.case("molfiles into outputs of every length", |checker| {
        let text = molfile::write(6, &ring, TEXT, 1).expect("a ring");
        for room in 0..=16 {
            for entries in 0..=3 {
                checker.read_molfile(text.as_bytes(), room, entries);
                checker.read_molfile(b"", room, entries);
                checker.write_molfile(6, &ring, length - 8 + room, entries);
                checker.write_molfile(7, &ring, length - 8 + room, entries);
            }
        }
    });
}

/// Document 001's naphthalene as a file with all its hydrogens.
fn naphthalene(checker: &mut Checker) {
    let block = NAPHTHALENE.block();
    let degree = |atom: u8| block.bonds.iter().filter(|bond| bond.0 == atom || bond.1 == atom).count();
    let bare: Vec<u8> = (1..=10).filter(|&atom| degree(atom) == 2).collect();
    let mut file = format!("naphthalene\n\n\n{:3}{:3}  0  0\n", 10 + bare.len(), block.bonds.len() + bare.len());
    file.extend((0..10).map(|_| atom("C   0")));
    file.extend(bare.iter().map(|_| atom("H   0")));
    file.extend(block.bonds.iter().map(|(u, v)| format!("{u:3}{v:3}  1\n")));
    file.extend(bare.iter().enumerate().map(|(at, u)| format!("{:3}{u:3}  1\n", 11 + at)));
    file.push_str("M  END\n");
    checker.case("naphthalene with its hydrogens", |checker| {
        checker.read_molfile(file.as_bytes(), BONDS, 2);
        let (mut bonds, mut counts, mut fields) = ([0; BONDS], [0; 2], [0; 5]);
        let reply = archive::read_molfile(file.as_bytes(), &mut bonds, &mut counts);
        checker.holds(reply == 0 && counts == [10, 11], "not ten atoms and eleven bonds");
        let bonds = &bonds[..2 * counts[1] as usize];
        checker.holds(bonds == block.bond_bytes(), "other bonds");
        let reply = archive::indices(counts[0] as usize, bonds, &mut fields);
        checker.holds(reply == 0 && fields == [10, 109, 52, 57, 12], "not document 01's numbers");
    });
}

fn file(checker: &mut Checker, random: &mut Random) {
    let mut file = random_molfile(random);
    if random.once_in(2) {
        for _ in 0..random.between(1, 2) {
            damage_molfile(random, &mut file);
        }
    }
    let mut bytes = file.bytes();
    if random.once_in(10) {
        damage_bytes(random, &mut bytes);
    }
    let room = if random.once_in(6) { random.below(2 * file.bonds + 2) } else { BONDS };
    let entries = if random.once_in(10) { random.below(3) } else { 2 };
    checker.read_molfile(&bytes, room, entries);
}

/// What is written reads back as the same block, and writing that gives the same bytes.
fn block(checker: &mut Checker, random: &mut Random) {
    let mut block = random_block(random, 64);
    if random.once_in(3) {
        damage_block(random, &mut block);
    }
    let (atoms, bonds) = (block.atoms as usize, block.bond_bytes());
    let room = if random.once_in(6) { random.below(TEXT) } else { TEXT };
    let entries = if random.once_in(10) { 0 } else { 1 };
    checker.write_molfile(atoms, &bonds, room, entries);
    let (mut text, mut length) = ([0; TEXT], [0]);
    if archive::write_molfile(atoms, &bonds, &mut text, &mut length) == 0 {
        let text = &text[..length[0] as usize];
        checker.read_molfile(text, BONDS, 2);
        let (mut back, mut counts) = ([0; BONDS], [0; 2]);
        let reply = archive::read_molfile(text, &mut back, &mut counts);
        let same = reply == 0 && counts == [atoms as u64, bonds.len() as u64 / 2] && back[..bonds.len()] == bonds;
        checker.holds(same, "a written molfile reads back as another block");
    }
}
