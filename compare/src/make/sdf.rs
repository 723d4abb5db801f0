//! Random SDFs: records of molfiles with data items, and short texts of the bytes that matter.

use super::damage_bytes::damage_bytes;
use super::molfiles::{damage_molfile, random_molfile};
use super::random::Random;

/// Names that are asked for and stand in headers; some have brackets in them.
pub const NAMES: [&str; 14] =
    ["<<<<<<<<<<<<<<<<", "<<<<<<<<<<<<<<<<<", "W", "WPATH", "w", "", "<", ">", "><", "<<", "A>", "<A", "a b", "W>\n"];

const PIECES: [&str; 17] = [
    "$$$$",
    "$$$",
    "$",
    "\n",
    "\r\n",
    "\r",
    "\t",
    " ",
    ">",
    "<",
    "> <W>",
    "M  END",
    "\nM  END\n",
    "x",
    "12.5",
    "\n$$$$\n",
    "\n\n\n  0  0\n",
];

/// A short text of pieces, of which many begin or end something.
pub fn random_pieces(random: &mut Random) -> Vec<u8> {
    (0..random.below(24)).flat_map(|_| random.pick(&PIECES).bytes()).collect()
}

fn header(random: &mut Random) -> String {
    let front = random.pick(&[">", "> ", ">  ", "> 25 ", ">DT12 ", " >", "", ">>", "><x>"]);
    let behind = random.pick(&["", " ", " (1)", ">", "<W>", " <w> "]);
    match random.below(8) {
        0 => format!("{front}{}", random.pick(&NAMES)),
        1 => format!("{front}<{}", random.pick(&NAMES)),
        _ => format!("{front}<{}>{behind}", random.pick(&NAMES)),
    }
}

/// Data items, each a header, a value and a blank line, if none of these is missing.
fn items(random: &mut Random, feed: &str) -> String {
    let mut text = String::new();
    for _ in 0..random.below(6) {
        text += &header(random);
        text += feed;
        for _ in 0..random.below(4).min(2) {
            text += *random.pick(&["109", " 31.5 ", "", "> 7", "> <W>", "M  END", "\r", "a line"]);
            text += feed;
        }
        if !random.once_in(5) {
            text += feed;
        }
    }
    text
}

/// One record, without the line behind it.
pub fn random_record(random: &mut Random) -> Vec<u8> {
    let mut file = random_molfile(random);
    if random.once_in(6) {
        damage_molfile(random, &mut file);
    }
    if random.once_in(12) {
        file.lines[0] = b"M  END".to_vec();
        file.lines[1] = b"> <W>".to_vec();
    }
    let feed = if random.once_in(3) { "\r\n" } else { "\n" };
    let mut bytes = file.bytes();
    bytes.extend(items(random, feed).into_bytes());
    if random.once_in(10) {
        damage_bytes(random, &mut bytes);
    }
    bytes
}

/// A file of some records.
pub fn random_sdf(random: &mut Random) -> Vec<u8> {
    let mut bytes = Vec::new();
    for _ in 0..random.below(4) {
        let record = if random.once_in(2) { random_pieces(random) } else { random_record(random) };
        bytes.extend(record);
        bytes.extend(
            random.pick(&["$$$$\n", "\n$$$$\n", "\r\n$$$$\r\n", "\n$$$$ and more\n", "\n$$$$", "\n"]).as_bytes(),
        );
    }
    bytes.extend(random.pick(&["", "", "\n", " \t\r\n", "x", "\n\n\n"]).as_bytes());
    bytes
}
