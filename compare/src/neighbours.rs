//! The neighbour text of document 001, table 1, read and written as request E1 asks.
//!
//! The whole text is cut into numbers first; what they say is looked at afterwards.

use crate::block::{read_block, MOST_ATOMS, MOST_BONDS};
use crate::refusal::{refuse, Refusal};

/// The most that a number may say.
const MOST: u64 = 999;

/// A run of digits: where it begins, and what it says, as far as 1,000 can be told from what is above.
struct Number {
    place: usize,
    value: u64,
}

/// What the text asks for, in its order.
enum Step {
    Describe(u64),
    Bond(u64, u64),
}

fn numbers(text: &[u8]) -> Vec<Number> {
    let mut found = Vec::new();
    let mut at = 0;
    while at < text.len() {
        let length = text[at..].iter().take_while(|byte| byte.is_ascii_digit()).count();
        if length == 0 {
            at += 1;
            continue;
        }
        let digits = std::str::from_utf8(&text[at..at + length]).expect("digits");
        let digits = digits.trim_start_matches('0');
        let value = if digits.len() > 4 { u64::MAX } else { digits.parse().unwrap_or(0) };
        found.push(Number { place: at, value });
        at += length;
    }
    found
}

/// 21: the first fault of the whole text, a strange byte or a number above 999.
fn fault(text: &[u8], numbers: &[Number]) -> Option<usize> {
    let strange = text.iter().position(|byte| !b"0123456789 \t\r\n".contains(byte));
    let large = numbers.iter().find(|number| number.value > MOST).map(|number| number.place);
    strange.into_iter().chain(large).min()
}

/// 22: descriptions, each a label, its neighbours and a 0, then the last 0 and nothing.
fn steps(numbers: &[Number], end: usize) -> Result<Vec<Step>, Refusal> {
    let mut steps = Vec::new();
    let mut rest = numbers.iter();
    loop {
        let Some(label) = rest.next() else { return refuse(22, end) };
        if label.value == 0 {
            break;
        }
        steps.push(Step::Describe(label.value));
        loop {
            let Some(neighbour) = rest.next() else { return refuse(22, end) };
            if neighbour.value == 0 {
                break;
            }
            if neighbour.value >= label.value {
                steps.push(Step::Bond(label.value, neighbour.value));
            }
        }
    }
    match rest.next() {
        Some(number) => refuse(22, number.place),
        None => Ok(steps),
    }
}

/// The bytes of the bonds of a text with this atom count: 1, 2, then 3 to 6 in the order of the text, then 7.
fn bonds(atoms: u64, steps: &[Step]) -> Result<Vec<u8>, Refusal> {
    if atoms == 0 || atoms > MOST_ATOMS as u64 {
        return refuse(1, 0);
    }
    let all = steps.iter().filter(|step| matches!(step, Step::Bond(..))).count();
    if all > MOST_BONDS {
        return refuse(2, 0);
    }
    let mut bytes = Vec::new();
    for step in steps {
        let next = bytes.len() / 2 + 1;
        match *step {
            Step::Describe(label) if label > atoms => return refuse(3, next),
            Step::Describe(_) => {}
            Step::Bond(label, neighbour) if label > atoms || neighbour > atoms => return refuse(3, next),
            Step::Bond(label, neighbour) => bytes.extend([label as u8, neighbour as u8]),
        }
        // the block's refusal of the last bond comes before whatever stands behind it
        match read_block(atoms as usize, &bytes) {
            Err(refusal) if refusal.number != 7 => return Err(refusal),
            _ => {}
        }
    }
    read_block(atoms as usize, &bytes).map(|_| bytes)
}

/// The atom count and the bytes of the bonds: 21, 22, the block's, then 9 for either output.
pub fn read(text: &[u8], room: usize, entries: usize) -> Result<(usize, Vec<u8>), Refusal> {
    let numbers = numbers(text);
    if let Some(place) = fault(text, &numbers) {
        return refuse(21, place);
    }
    let Some((count, rest)) = numbers.split_first() else { return refuse(22, text.len()) };
    let steps = steps(rest, text.len())?;
    let bytes = bonds(count.value, &steps)?;
    if room < bytes.len() || entries < 2 {
        return refuse(9, 0);
    }
    Ok((count.value as usize, bytes))
}

/// The text of a block: the block's, then 9 for either output.
pub fn write(atoms: usize, bonds: &[u8], room: usize, entries: usize) -> Result<String, Refusal> {
    let block = read_block(atoms, bonds)?;
    let mut text = format!("{atoms}\n");
    for atom in 1..=atoms {
        let mut greater: Vec<usize> = Vec::new();
        for &(u, v) in &block.bonds {
            let (low, high) = (u.min(v), u.max(v));
            if low == atom {
                greater.push(high);
            }
        }
        greater.sort();
        if !greater.is_empty() {
            let listed: Vec<String> = greater.iter().map(|neighbour| neighbour.to_string()).collect();
            text.push_str(&format!("{atom} {} 0\n", listed.join(" ")));
        }
    }
    text.push_str("0\n");
    if room < text.len() || entries < 1 {
        return refuse(9, 0);
    }
    Ok(text)
}

/// The bytes of a block's bonds in the order of its text, smaller end first.
pub fn in_order(bonds: &[u8]) -> Vec<u8> {
    let mut pairs: Vec<(u8, u8)> = bonds.chunks(2).map(|pair| (pair[0].min(pair[1]), pair[0].max(pair[1]))).collect();
    pairs.sort();
    pairs.into_iter().flat_map(|(low, high)| [low, high]).collect()
}
