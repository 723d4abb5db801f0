//! Molecules of every size: molfiles of up to 999 atoms, decks written out, and matchings of the two; by hand, and random ones, good and
//! damaged.

use crate::archive;
use crate::checker::{code, hex, written, Checker};
use crate::lent::{Lent, Shown};
use opinion::answers::Verdict;
use opinion::documents::{ten_graphs, FORTY};
use opinion::graph::Graph;
use opinion::make::damage_bytes::damage_bytes;
use opinion::make::decks::random_deck;
use opinion::make::matchings::{damage_matching, random_matching, Matching};
use opinion::make::molfiles::{damage_molfile, random_large_molfile, random_molfile};
use opinion::make::random::Random;
use opinion::make::shapes::{chained, path};
use opinion::{matched as opinions, molfile};
use std::path::{Path, PathBuf};
use std::{fs, io};

/// The ends of the bonds of the largest file, and of the largest deck: 32 blocks of 192 bonds and 31 joins.
const ENDS: usize = 2 * 999;
const DECK_ENDS: usize = 2 * (32 * 192 + 31);

pub fn run(checker: &mut Checker, seed: u64, first: u64, cases: u64) {
    named(checker);
    cuts(checker);
    largest(checker);
    rooms(checker);
    for case in first..first + cases {
        let name = format!("random large molecule {case} (compare --seed {seed} --first {case} --cases 1)");
        checker.case(name, |checker| {
            let random = &mut Random::for_case(seed ^ 0x7768_6F6C, case);
            file(checker, random);
            deck(checker, random);
        });
    }
}

/// Real molecules, each as NAME.mol, NAME.deck and NAME.pairs (the matching, two bytes a number) in a folder: read, written out and matched,
/// with the file's own fields by plain search, a line each; and the matching damaged so many times.
pub fn real(checker: &mut Checker, folder: &Path, seed: u64, damages: usize) -> io::Result<()> {
    let mut names: Vec<PathBuf> =
        fs::read_dir(folder)?.map(|one| one.map(|one| one.path())).collect::<Result<_, _>>()?;
    names.retain(|name| name.extension().is_some_and(|end| end == "deck"));
    names.sort();
    let (mut damaged, mut wrong) = (0, 0);
    for (case, name) in names.iter().enumerate() {
        let (file, deck) = (fs::read(name.with_extension("mol"))?, fs::read(name)?);
        let pairs = fs::read(name.with_extension("pairs"))?;
        let pairs: Vec<u16> = pairs.chunks_exact(2).map(|two| u16::from_le_bytes([two[0], two[1]])).collect();
        let random = &mut Random::for_case(seed, case as u64);
        checker.case(name.display(), |checker| {
            read_whole(checker, &file, ENDS, 2);
            written_out(checker, &deck, DECK_ENDS, 2);
            let Ok((atoms, bonds)) = molfile::read_whole(&file, ENDS, 2) else {
                return checker.holds(false, "a real file is refused");
            };
            let one = Matching { deck, atoms, bonds, pairs };
            let before = checker.matched;
            matched(checker, &one);
            checker.holds(checker.matched == before + 1, "a real file is not matched with its deck");
            for _ in 0..damages {
                let (mut other, before) = (one.clone(), checker.matched);
                damage_matching(random, &mut other);
                matched(checker, &other);
                damaged += 1;
                wrong += (checker.matched == before) as usize;
            }
            let ends: Vec<(usize, usize)> =
                one.bonds.chunks_exact(2).map(|two| (two[0] as usize, two[1] as usize)).collect();
            let six = Graph { atoms, bonds: ends }.indices().six();
            println!("{}: {}", name.display(), six.map(|field| field.to_string()).join(","));
        });
    }
    println!("{} real molecules; {damaged} damaged matchings, {wrong} of them wrong", names.len());
    println!("{} passed, {} failed", checker.passed, checker.failed);
    Ok(())
}

pub fn read_whole(checker: &mut Checker, file: &[u8], room: usize, entries: usize) {
    let (lent, mut out, mut counts) = (Shown::new(file), Lent::new(room), Lent::new(entries));
    let reply = archive::read_whole(lent.part(), out.part(), counts.part());
    checker.holds(lent.is_still(file), "an input was changed");
    let right = molfile::read_whole(file, room, entries);
    let bonds_fault = out.fault(&written(&right, |(_, ends)| ends.clone()));
    let counts_fault = counts.fault(&written(&right, |(atoms, ends)| vec![*atoms as u64, ends.len() as u64 / 2]));
    let call = || format!("read_whole room {room} and {entries} {:?}", String::from_utf8_lossy(file));
    checker.agree(call, code(&right), reply, bonds_fault.or(counts_fault));
}

pub fn written_out(checker: &mut Checker, deck: &[u8], room: usize, entries: usize) {
    let (lent, mut out, mut counts) = (Shown::new(deck), Lent::new(room), Lent::new(entries));
    let reply = archive::written_out(lent.part(), out.part(), counts.part());
    checker.holds(lent.is_still(deck), "an input was changed");
    let right = opinions::written_out(deck, room, entries);
    let bonds_fault = out.fault(&written(&right, |(_, ends)| ends.clone()));
    let counts_fault = counts.fault(&written(&right, |(atoms, ends)| vec![*atoms as u64, ends.len() as u64 / 2]));
    let call = || format!("written_out room {room} and {entries} {}", hex(deck));
    checker.agree(call, code(&right), reply, bonds_fault.or(counts_fault));
}

pub fn matched(checker: &mut Checker, one: &Matching) {
    let (deck, bonds, pairs) = (Shown::new(&one.deck), Shown::new(&one.bonds), Shown::new(&one.pairs));
    let reply = archive::matched(deck.part(), one.atoms, bonds.part(), pairs.part());
    let still = deck.is_still(&one.deck) && bonds.is_still(&one.bonds) && pairs.is_still(&one.pairs);
    checker.holds(still, "an input was changed");
    let right = match opinions::matched(&one.deck, one.atoms, &one.bonds, &one.pairs) {
        Verdict::Accepted => 0,
        Verdict::Differs(place) => 255 + 256 * place,
        Verdict::Refused(refusal) => refusal.number + 256 * refusal.place,
    };
    let (n, m) = (one.atoms as u64, one.bonds.len() as u64 / 2);
    let call = || format!("matched {n} atoms {:?} by {:?} {}", one.bonds, one.pairs, hex(&one.deck));
    checker.agree_matched(call, (n, m), right, reply);
}

/// Two rings of 6 joined, each beside what is right, written by hand.
fn named(checker: &mut Checker) {
    let rings: Vec<u16> = (0..12).flat_map(|at| [at + 1, at / 6 * 6 + (at + 1) % 6 + 1]).chain([1, 7]).collect();
    let own: Vec<u16> = (0..12).flat_map(|at| [1 + at / 6, 1 + at % 6]).collect();
    let turned: Vec<u16> = (0..12).flat_map(|at| [2 - at / 6, 1 + (6 - at % 6) % 6]).collect();
    let without = |at: usize| [&rings[..2 * at - 2], &rings[2 * at..]].concat();
    let with = |bond: [u16; 2]| [&rings[..], &bond].concat();
    let changed = |at: usize, to: u16| [&own[..at], &[to], &own[at + 1..]].concat();
    let differs = |place: u64| 255 + 256 * place;
    let cases: [(usize, Vec<u16>, Vec<u16>, u64); 18] = [
        (12, rings.clone(), own.clone(), 0),
        (12, rings.clone(), turned, 0),
        (12, with([12, 11]), own.clone(), 0),
        (12, [&rings[..], &[9]].concat(), [&own[..], &[9, 9, 9]].concat(), 0),
        (12, rings.clone(), own[..23].to_vec(), 9),
        (usize::MAX, rings.clone(), own.clone(), 9),
        (1 << 63, rings.clone(), own.clone(), 9),
        (11, rings.clone(), own.clone(), differs(0)),
        (0, rings.clone(), own.clone(), differs(0)),
        (12, rings.clone(), changed(0, 0), differs(1)),
        (12, rings.clone(), changed(22, 3), differs(12)),
        (12, rings.clone(), changed(23, 7), differs(12)),
        (12, rings.clone(), changed(23, 256 + 6), differs(12)),
        (12, rings.clone(), changed(3, 1), differs(2)),
        (12, with([2, 5]), own.clone(), differs(12 + 14)),
        (12, with([1, 13]), own.clone(), differs(12 + 14)),
        (12, without(1), own.clone(), differs(12 + 12 + 1)),
        (12, without(13), own.clone(), differs(12 + 12 + 13)),
    ];
    for (at, (atoms, bonds, pairs, right)) in cases.into_iter().enumerate() {
        checker.case(format!("matching {at} by hand"), |checker| {
            let one = Matching { deck: FORTY.to_vec(), atoms, bonds, pairs };
            let said = match opinions::matched(&one.deck, one.atoms, &one.bonds, &one.pairs) {
                Verdict::Accepted => 0,
                Verdict::Differs(place) => differs(place),
                Verdict::Refused(refusal) => refusal.number + 256 * refusal.place,
            };
            checker.holds(said == right, "the second opinion is not what was written by hand");
            matched(checker, &one);
        });
    }
    for (name, deck, _) in ten_graphs() {
        checker.case(format!("{name}, written out"), |checker| written_out(checker, &deck.bytes(), DECK_ENDS, 2));
    }
}

/// A file, a deck and a matching cut at every length.
fn cuts(checker: &mut Checker) {
    let atom = |symbol: &str| format!("{:31}{symbol}\n", "");
    let (c, h) = (atom("C  "), atom("H  "));
    let file = format!("ab\r\n\r\n\n  4  3\r\n{c}{h}{c}{h}  1  2  1\r\n  3  1\n  2  4\nM  CHG\r\nM  END\r\n$$$$\n");
    checker.case("a molfile read whole, cut at every length", |checker| {
        (0..=file.len()).for_each(|length| read_whole(checker, &file.as_bytes()[..length], ENDS, 2));
    });
    for at in 0..file.len() {
        checker.case(format!("byte {at} of a molfile read whole changed"), |checker| {
            let mut changed = file.clone().into_bytes();
            for value in 0..=255 {
                changed[at] = value;
                read_whole(checker, &changed, ENDS, 2);
            }
        });
    }
    checker.case("a deck written out and matched, cut at every length", |checker| {
        let one = random_matching(&mut Random::new(1), &FORTY);
        for length in 0..=one.deck.len() {
            written_out(checker, &one.deck[..length], DECK_ENDS, 2);
            matched(checker, &Matching { deck: one.deck[..length].to_vec(), ..one.clone() });
        }
        for length in 0..=one.pairs.len() {
            matched(checker, &Matching { pairs: one.pairs[..length].to_vec(), ..one.clone() });
        }
        for length in 0..=one.bonds.len() {
            matched(checker, &Matching { bonds: one.bonds[..length].to_vec(), ..one.clone() });
        }
    });
}

/// As many atoms and bonds as there can be.
fn largest(checker: &mut Checker) {
    let (c, h) = (format!("{:31}C\n", ""), format!("{:31}H\n", ""));
    let path_of = |atoms: usize| (1..atoms).map(|at| format!("{at:3}{:3}\n", at + 1)).collect::<String>();
    for (name, file) in [
        ("a path of 999", format!("\n\n\n999998\n{}{}M  END\n", c.repeat(999), path_of(999))),
        ("a path of 999 hydrogens", format!("\n\n\n999998\n{}{}M  END\n", h.repeat(999), path_of(999))),
        ("a ring of 999", format!("\n\n\n999999\n{}{}999  1\nM  END\n", c.repeat(999), path_of(999))),
        ("999 atoms and no bond", format!("\n\n\n999  0\n{}M  END\n", c.repeat(999))),
        ("no atom", String::from("\n\n\n  0  0\nM  END\n")),
        ("65 atoms", format!("\n\n\n 65 64\n{}{}M  END\n", c.repeat(65), path_of(65))),
    ] {
        checker.case(format!("a large molfile: {name}"), |checker| {
            read_whole(checker, file.as_bytes(), ENDS, 2);
            read_whole(checker, file.as_bytes(), 2 * 998, 2);
            read_whole(checker, file.as_bytes(), 2 * 998 - 1, 2);
        });
    }
    checker.case("32 paths of 64, written out and matched", |checker| {
        let deck = chained(path(64), 32, 64, 1).bytes();
        written_out(checker, &deck, DECK_ENDS, 2);
        written_out(checker, &deck, 2 * 2047, 2);
        written_out(checker, &deck, 2 * 2047 - 1, 2);
        matched(checker, &random_matching(&mut Random::new(2), &deck));
    });
}

/// Outputs of every length about what is needed.
fn rooms(checker: &mut Checker) {
    let c = format!("{:31}C\n", "");
    let file = format!("\n\n\n  3  2\n{}  1  2\n  3  2\nM  END\n", c.repeat(3));
    checker.case("large molecules into outputs of every length", |checker| {
        for room in 0..=8 {
            for entries in 0..=3 {
                read_whole(checker, file.as_bytes(), room, entries);
                read_whole(checker, b"", room, entries);
                written_out(checker, &FORTY, 20 + room, entries);
                written_out(checker, &FORTY[..39], 20 + room, entries);
            }
        }
    });
}

fn file(checker: &mut Checker, random: &mut Random) {
    let mut file = if random.once_in(3) { random_large_molfile(random) } else { random_molfile(random) };
    if random.once_in(3) {
        for _ in 0..random.between(1, 2) {
            damage_molfile(random, &mut file);
        }
    }
    let mut bytes = file.bytes();
    if random.once_in(10) {
        damage_bytes(random, &mut bytes);
    }
    let room = if random.once_in(6) { random.below(2 * file.bonds + 2) } else { ENDS };
    let entries = if random.once_in(10) { random.below(3) } else { 2 };
    read_whole(checker, &bytes, room, entries);
}

fn deck(checker: &mut Checker, random: &mut Random) {
    let deck = random_deck(random).bytes();
    let room = if random.once_in(6) { random.below(200) } else { DECK_ENDS };
    let entries = if random.once_in(10) { random.below(3) } else { 2 };
    written_out(checker, &deck, room, entries);
    let right = random_matching(random, &deck);
    matched(checker, &right);
    for _ in 0..3 {
        let mut one = right.clone();
        for _ in 0..random.between(1, 2) {
            if one.atoms == right.atoms && one.pairs.len() >= 2 * one.atoms {
                damage_matching(random, &mut one);
            }
        }
        matched(checker, &one);
    }
    if random.once_in(4) {
        let mut one = right;
        damage_bytes(random, &mut one.deck);
        written_out(checker, &one.deck, DECK_ENDS, 2);
        matched(checker, &one);
    }
}
