//! Inputs to begin with: the documents' graphs and decks, the specimens of every refusal, libraries, texts, two queues; and some decks and
//! libraries by chance, which have more blocks and placements.

use opinion::deck::Form;
use opinion::documents::{ten_graphs, FORTY, NAPHTHALENE};
use opinion::make::decks::random_deck;
use opinion::make::libraries::random_library;
use opinion::make::library_specimens::{libraries, TWO_PRODUCTS};
use opinion::make::random::Random;
use opinion::make::{shapes, specimens};
use opinion::molecule::Measurer;
use opinion::{answers, molfile, neighbours};
use std::path::Path;
use std::{fs, io};

const LONGEST: usize = 1_200;
const BY_CHANCE: usize = 150;

/// Writes each seed to a file of its own.
pub fn write(folder: &Path) -> io::Result<()> {
    fs::create_dir_all(folder)?;
    for (at, seed) in all().iter().filter(|seed| seed.len() <= LONGEST).enumerate() {
        fs::write(folder.join(format!("seed-{at:04}")), seed)?;
    }
    Ok(())
}

/// A call: which function, the numbers, the bytes.
fn input(which: u8, numbers: [u8; 4], data: &[u8]) -> Vec<u8> {
    let [a, b, c, d] = numbers;
    [&[which, 0, 0, a, b, c, d, 0], data].concat()
}

fn all() -> Vec<Vec<u8>> {
    let mut seeds = Vec::new();
    let mut decks: Vec<Vec<u8>> = ten_graphs().into_iter().map(|(_, deck, _)| deck.bytes()).collect();
    decks.push(FORTY.to_vec());
    let random = &mut Random::new(41);
    decks.extend((0..BY_CHANCE).map(|_| random_deck(random).bytes()));
    decks.extend(specimens::decks().into_iter().filter(|one| one.form == Form::Composed).map(|one| one.deck));
    let mut judged: Vec<Vec<u8>> =
        specimens::decks().into_iter().filter(|one| one.form == Form::Judged).map(|one| one.deck).collect();
    for deck in &decks {
        seeds.extend((1..5).map(|which| input(which, [0; 4], deck)));
        seeds.push(input(5, [1, 1, 2, 4], deck));
        let written = [
            answers::write_sheet(&mut Measurer::default(), deck, 40),
            answers::write_six(&mut Measurer::default(), deck, 44),
        ];
        judged.extend(written.into_iter().flatten().map(|sheet| [&deck[..], &sheet].concat()));
    }
    seeds.extend(judged.iter().map(|deck| input(0, [0; 4], deck)));
    let by_chance: Vec<Vec<u8>> = (0..BY_CHANCE).map(|_| random_library(random).bytes()).collect();
    for deck in libraries().into_iter().map(|one| one.deck).chain([TWO_PRODUCTS.to_vec()]).chain(by_chance) {
        seeds.extend((6..9).map(|which| input(which, [4, 0, 0, 0], &deck)));
        seeds.push(input(28, [2, 0, 3, 0], &deck));
    }
    let mut blocks: Vec<(usize, Vec<u8>)> =
        specimens::blocks().into_iter().map(|one| (one.atoms.min(255), one.bonds)).collect();
    let shapes = [
        shapes::path(4),
        shapes::ring(6),
        shapes::star(7),
        shapes::cube(3),
        shapes::path(64),
        shapes::double_ring(64),
        NAPHTHALENE.block(),
    ];
    blocks.extend(shapes.iter().map(|block| (block.atoms as usize, block.bond_bytes())));
    for (atoms, bonds) in &blocks {
        seeds.extend([9, 10, 11, 12, 13, 14, 15, 17, 19, 21].map(|which| input(which, [*atoms as u8, 1, 0, 0], bonds)));
        seeds.push(input(16, [*atoms as u8, 0, 0, 0], &[&0.5f64.to_le_bytes(), &bonds[..]].concat()));
        let texts = (molfile::write(*atoms, bonds, 9_000, 1), neighbours::write(*atoms, bonds, 1_024, 1));
        for which in [18, 29] {
            seeds.extend(texts.0.iter().map(|text| input(which, [0; 4], text.as_bytes())));
        }
        seeds.extend(texts.1.map(|text| input(20, [0; 4], text.as_bytes())));
        seeds.extend((bonds.len() < 256).then(|| queued(*atoms as u8, bonds)));
    }
    for text in ["1", "4 ", " 10.0", "198", "1.9747", "nan"] {
        for field in [1, 2, 6, 8, 10, 11] {
            let list = [&[field, text.len() as u8], text.as_bytes()].concat();
            seeds.push(input(24, [0, list.len() as u8, 0, 0], &[&list[..], &FORTY].concat()));
            seeds.push(input(25, [4, list.len() as u8, 0, 0], &[&list[..], &shapes::path(4).bond_bytes()].concat()));
        }
    }
    let sdf = b"W\n\n\n  0  0\nM  END\n> <W>\n12\n\n> <B>\n> <C>\nx\n> <C>\n$$$$\n\n";
    seeds.extend([input(26, [0; 4], &sdf[1..]), input(26, [0, 40, 0, 0], &sdf[1..]), input(27, [0, 1, 0, 0], sdf)]);
    seeds.extend((0..7).map(|field| input(28, [field, field % 2, 3, 0], &TWO_PRODUCTS)));
    let rings: Vec<u8> = (0..12).flat_map(|at| [at + 1, at / 6 * 6 + (at + 1) % 6 + 1]).chain([1, 7]).collect();
    let own: Vec<u8> = (0..12).flat_map(|at| [1 + at / 6, 1 + at % 6]).collect();
    let other: Vec<u8> = (0..12).flat_map(|at| [1 + at / 6, 1 + (at + 1) % 6]).collect();
    for pairs in [&own, &other] {
        let data = [&rings[..], pairs, &FORTY].concat();
        seeds.extend([0, 0xE0, 0xF0].map(|far| input(31, [12, 26, 24, far], &data)));
        seeds.push(input(31, [12, 24, 24, 0], &[&rings[..24], pairs, &FORTY].concat()));
        seeds.push(input(31, [12, 24, 24, 0], &[&rings[2..], pairs, &FORTY].concat()));
    }
    seeds.extend(decks.iter().map(|deck| input(30, [0; 4], deck)));
    let hydrogen = format!("\n\n\n  3  2\n{0:31}H\n{0:31}C\n{0:31}C\n  1  2\n  3  2\nM  END\n", "");
    seeds.extend([18, 29].map(|which| input(which, [0; 4], hydrogen.as_bytes())));
    seeds
}

/// A block added to both queues, looked up, placed twice, and dropped.
fn queued(atoms: u8, bonds: &[u8]) -> Vec<u8> {
    let record = [14, 0, 2, 0, 2, 0, 1, 0, 0, 0, 0, 0, 1, 0, 1, 0, 1, 1];
    let add = |queue: u8| [&[queue, 1, bonds.len() as u8, atoms], bonds].concat();
    let place = [&[10, 0, 18, 0], &record[..]].concat();
    input(22, [0; 4], &[add(0), add(1), vec![6, 1, 0, 0], place, vec![8, 1, 0, 0], vec![6, 1, 0, 0]].concat())
}
