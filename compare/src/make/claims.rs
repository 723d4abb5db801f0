//! Random claims: right, nearly right, wrong, and damaged ones, in the spellings that programs have.

use super::random::Random;

/// Texts that say no number.
const NO_NUMBERS: [&str; 18] = [
    "",
    " ",
    "nan",
    "inf",
    "-1",
    "+7",
    "1e3",
    "31.0000004",
    ".5",
    ".",
    "1 2",
    "0x1F",
    "1,000",
    "7\n",
    "7\r",
    "12.0.0",
    "\u{663}",
    "1_0",
];

fn white(random: &mut Random) -> &'static str {
    if random.once_in(3) {
        *random.pick(&[" ", "\t", "  \t ", "   "])
    } else {
        ""
    }
}

/// A whole number as programs print it.
fn whole(random: &mut Random, number: u128) -> String {
    let zeros = "0".repeat(if random.once_in(5) { random.below(30) } else { 0 });
    let behind = if random.once_in(3) { format!(".{}", "0".repeat(random.below(12))) } else { String::new() };
    format!("{}{zeros}{number}{behind}{}", white(random), white(random))
}

/// A number in units of 10^-9 with some digits behind the point, cut or rounded, and perhaps more behind the ninth.
fn fine(random: &mut Random, number: u128) -> String {
    let digits = random.below(14);
    let kept = digits.min(9) as u32;
    let unit = 10u128.pow(9 - kept);
    let c = (number + if random.once_in(2) { unit / 2 } else { 0 }) / unit;
    let shown = format!("{c:0>width$}", width = kept as usize + 1);
    let (front, behind) = shown.split_at(shown.len() - kept as usize);
    let more: String = (kept as usize..digits).map(|_| (b'0' + random.below(10) as u8) as char).collect();
    let point = if digits > 0 || random.once_in(6) { "." } else { "" };
    format!("{}{front}{point}{behind}{more}{}", white(random), white(random))
}

/// A number that is right, or a little or far beside it.
fn near(random: &mut Random, (low, high): (u128, u128), far: u128) -> u128 {
    let most = u64::MAX as u128;
    match random.below(8) {
        0 => low.saturating_sub(1 + random.below(3) as u128),
        1 => high + 1 + random.below(3) as u128,
        2 => (high + far).min(most),
        3 => low.saturating_sub(far),
        4 => *random.pick(&[0, 1, most, most + 1, 1 << 70]),
        _ => low + random.draw() as u128 % (high - low + 1),
    }
}

fn claim(random: &mut Random, field: u8, text: &str) -> Vec<u8> {
    let length = if random.once_in(200) { random.below(256) } else { text.len() };
    [&[field, length as u8], text.as_bytes()].concat()
}

/// Claims of a molecule with these fields, J in units of 10^-9, where it is the tenth; those of trees are mostly left out where it is none.
pub fn random_claims(random: &mut Random, fields: &[(u128, u128)], tree: bool) -> Vec<u8> {
    let asked: Vec<usize> = (0..fields.len()).filter(|at| tree || ![7, 8].contains(at) || random.once_in(8)).collect();
    let (often_right, damaged) = (random.once_in(2), random.once_in(4));
    let mut bytes = Vec::new();
    let count = if random.once_in(30) { 0 } else { random.between(1, fields.len() + 3) };
    for _ in 0..count {
        let at = *random.pick(&asked);
        let number = if often_right { fields[at].0 } else { near(random, fields[at], 1_000_000) };
        let text = match at {
            _ if damaged && random.once_in(6) => random.pick(&NO_NUMBERS).to_string(),
            9 => fine(random, number),
            _ => whole(random, number),
        };
        let field = if damaged && random.once_in(8) { *random.pick(&[0, 7, 10, 11, 255]) } else { at as u8 + 1 };
        bytes.extend(claim(random, field, &text[..text.len().min(255)]));
    }
    if damaged && random.once_in(3) {
        let length = random.below(bytes.len() + 1);
        bytes.truncate(length);
    }
    if random.once_in(12) && !bytes.is_empty() {
        let at = random.below(bytes.len());
        bytes[at] = random.draw() as u8;
    }
    bytes
}
