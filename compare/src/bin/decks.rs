//! Writes random decks, good and damaged, with and without sheets, and what the second opinion says of each.
//!
//!     decks FOLDER [CASES [SEED]]
//!
//! The decks are FOLDER/000/000000.deck and so on, a thousand to a folder. One line a deck goes to standard output, in the order of
//! the names: the name, `: `, the verdict, and where the deck isn't refused ` | ` and the fields worked out.

use opinion::answers::compose_six;
use opinion::deck::{read_deck, sheet_record, Form};
use opinion::line::{judge_line, sheet_line};
use opinion::make::damage_bytes::damage_bytes;
use opinion::make::decks::random_deck;
use opinion::make::random::Random;
use opinion::molecule::{write_out, Measurer};
use std::fs;
use std::io::{self, BufWriter, Write};
use std::path::PathBuf;

/// A deck with a sheet of either kind, a right one in most; then, in some, a few bytes changed.
fn judged_deck(random: &mut Random, measurer: &mut Measurer) -> Vec<u8> {
    let mut deck = random_deck(random);
    if !random.once_in(12) {
        let right = compose_six(measurer, &deck.bytes(), 6).ok();
        deck.sheet = right.map(|fields| fields[..random.between(5, 6)].to_vec());
    }
    let mut bytes = deck.bytes();
    if random.once_in(3) {
        let at = bytes.len() - 1 - random.below(bytes.len().min(40));
        bytes[at] ^= 1 << random.below(8);
    }
    if random.once_in(3) {
        damage_bytes(random, &mut bytes);
    }
    bytes
}

/// The fields of a deck that isn't refused, as many as its sheet has.
fn worked_out(measurer: &mut Measurer, judged: &[u8]) -> String {
    let deck = read_deck(judged, Form::Judged).expect("a deck that isn't refused");
    let claimed = deck.sheet.as_ref().expect("a judged deck has its sheet");
    let line = sheet_line(measurer, &judged[..judged.len() - sheet_record(claimed).len()]);
    match claimed.len() {
        6 => format!("{line} largest {}", measurer.indices(write_out(&deck)).largest),
        _ => line,
    }
}

fn main() -> io::Result<()> {
    let words: Vec<String> = std::env::args().collect();
    let number = |at: usize, default: u64| words.get(at).and_then(|word| word.parse().ok()).unwrap_or(default);
    let folder = PathBuf::from(words.get(1).expect("usage: decks FOLDER [CASES [SEED]]"));
    let (cases, seed) = (number(2, 2_000), number(3, 20_011));
    let mut out = BufWriter::new(io::stdout().lock());
    let measurer = &mut Measurer::default();
    for case in 0..cases {
        let random = &mut Random::for_case(seed, case);
        let bytes = judged_deck(random, measurer);
        let file = folder.join(format!("{:03}", case / 1000)).join(format!("{case:06}.deck"));
        if case % 1000 == 0 {
            fs::create_dir_all(file.parent().expect("a folder"))?;
        }
        fs::write(&file, &bytes)?;
        let verdict = judge_line(measurer, &bytes);
        write!(out, "{}: {verdict}", file.display())?;
        if !verdict.starts_with("refused") {
            write!(out, " | {}", worked_out(measurer, &bytes))?;
        }
        writeln!(out)?;
    }
    out.flush()
}
