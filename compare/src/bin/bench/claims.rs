//! Claims of a block beside its indices alone, an SDF gone over beside its lines gone over, and names that are hard to look for.

use crate::timing::medians;
use crate::{archive, duration, row};
use opinion::documents::NAPHTHALENE;
use opinion::make::shapes;
use opinion::molfile;
use std::hint::black_box;
use std::time::Instant;

/// The bytes of the long SDF.
const LONG: usize = 100_000_000;

fn claim(field: u8, text: &str) -> Vec<u8> {
    [&[field, text.len() as u8], text.as_bytes()].concat()
}

/// A molfile with a data item, as a record.
fn record() -> Vec<u8> {
    let text = molfile::write(10, &NAPHTHALENE.block().bond_bytes(), 9999, 1).expect("naphthalene");
    format!("{text}> <WPATH>\n109\n\n$$$$\n").into_bytes()
}

/// All records of a text.
fn walk(text: &[u8]) -> usize {
    let (mut at, mut records, mut span) = (0, 0, [0; 3]);
    while archive::sdf_record(text, at, &mut span) == 0 {
        at = span[2] as usize;
        records += 1;
    }
    records
}

/// The lines that begin with marks.
fn marked(text: &[u8]) -> usize {
    text.split(|&byte| byte == b'\n').filter(|line| line.starts_with(b"$$$$")).count()
}

/// Rows of the table: a claim of W beside the indices that it asks for, and records beside lines.
pub fn times() -> String {
    let blocks = [("naphthalene", NAPHTHALENE.block(), 109), ("path of 64", shapes::path(64), 43_680)];
    for (name, block, w) in blocks {
        let (atoms, bonds, mut fields) = (block.atoms as usize, block.bond_bytes(), [0; 5]);
        let list = claim(2, &w.to_string());
        assert_eq!(archive::judge_block(atoms, &bonds, &list), 0);
        let mut judged = || {
            black_box(archive::judge_block(atoms, black_box(&bonds), &list));
        };
        let mut indices = || {
            black_box(archive::indices(atoms, black_box(&bonds), &mut fields));
        };
        row(&format!("claim of W beside the indices, {name}"), medians(&mut judged, &mut indices), 1.0 / 1.5);
    }
    let text = record().repeat(1_000);
    assert_eq!(walk(&text), marked(&text));
    let mut ours = || {
        black_box(walk(black_box(&text)));
    };
    let mut theirs = || {
        black_box(marked(black_box(&text)));
    };
    let both = medians(&mut ours, &mut theirs);
    row(&format!("an SDF of 1,000 records, {} bytes", text.len()), both, 1.0 / 2.0);
    let rate = both[0] / text.len() as f64 * LONG as f64;
    let met = if rate <= 1.0 / 3.0 { "met" } else { "MISSED" };
    let long = record().repeat(LONG / record().len());
    let begin = Instant::now();
    let records = walk(black_box(&long));
    let took = begin.elapsed().as_secs_f64();
    format!(
        "At that rate 10^8 bytes of an SDF are gone over in {rate:.2} s (goal 0.33: {met}); one text of {} bytes, {records} records, in one go in {took:.2} s. {}",
        long.len(),
        hard_names()
    )
}

/// A header line of 10^6 bytes that looks like the name again and again, for the names that take longest.
fn hard_names() -> String {
    let front = b"\n\n\n  0  0\nM  END\n>".to_vec();
    let looked = |line: &[u8], name: &[u8]| {
        let record = [&front[..], line].concat();
        let begin = Instant::now();
        assert_eq!(archive::sdf_item(&record, name, &mut [0; 2]), 38);
        duration(begin.elapsed().as_secs_f64())
    };
    let (many, few) = (vec![b'<'; 10_000], vec![b'<'; 16]);
    let long = [&b"><".repeat(16)[..], &b">".repeat(9_000), b"xx"].concat();
    format!(
        "In a header line of 10^6 bytes a name of 10,000 `<` is looked for in {}, one of 16 `<` in {}, one of 9,034 bytes with 16 `<` in {}.",
        looked(&vec![b'<'; 1_000_000], &many),
        looked(&vec![b'<'; 1_000_000], &few),
        looked(&b"<>".repeat(500_000), &long),
    )
}
