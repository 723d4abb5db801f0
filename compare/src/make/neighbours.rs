//! Random neighbour texts: a good block in the spellings that texts have, and damaged ones.

use super::blocks::random_block;
use super::random::Random;

/// A text as its numbers; the atom count is the first.
pub struct TextPlan {
    pub numbers: Vec<String>,
    pub atoms: usize,
    pub bonds: usize,
}

impl TextPlan {
    /// The numbers set apart by what may stand between them.
    pub fn bytes(&self, random: &mut Random) -> Vec<u8> {
        let plain = random.once_in(2);
        let mut text = String::new();
        if random.once_in(6) {
            text.push_str(*random.pick(&[" ", "\n", "\t\r\n "]));
        }
        for number in &self.numbers {
            text.push_str(number);
            text.push_str(if plain { " " } else { *random.pick(&[" ", "\n", "\r\n", "\t", "  ", " \t ", "\r"]) });
        }
        if random.once_in(3) {
            text.truncate(text.trim_end().len());
        }
        text.into_bytes()
    }
}

/// Digits for a number, with zeros in front.
fn spelled(random: &mut Random, value: usize) -> String {
    match random.below(12) {
        0 => format!("0{value}"),
        1 => format!("{value:05}"),
        _ => value.to_string(),
    }
}

/// A good text: each bond at its smaller end, and any smaller neighbours, in any order.
pub fn random_text(random: &mut Random) -> TextPlan {
    let block = random_block(random, 64);
    let atoms = block.atoms as usize;
    let mut lists: Vec<(usize, Vec<usize>)> = (1..=atoms).map(|atom| (atom, Vec::new())).collect();
    let both_ways = random.once_in(3);
    for &(u, v) in &block.bonds {
        let (low, high) = ((u as usize).min(v as usize), (u as usize).max(v as usize));
        lists[low - 1].1.push(high);
        if both_ways || random.once_in(8) {
            lists[high - 1].1.push(low);
        }
    }
    if random.once_in(3) {
        random.shuffle(&mut lists);
        for (_, neighbours) in &mut lists {
            random.shuffle(neighbours);
        }
    }
    let keep_empty = random.once_in(3);
    let mut numbers = vec![spelled(random, atoms)];
    for (label, neighbours) in lists {
        if neighbours.is_empty() && !keep_empty {
            continue;
        }
        numbers.push(spelled(random, label));
        for (at, &neighbour) in neighbours.iter().enumerate() {
            // a label may be described several times
            if at > 0 && random.once_in(20) {
                numbers.push(String::from("0"));
                numbers.push(spelled(random, label));
            }
            numbers.push(spelled(random, neighbour));
        }
        numbers.push(spelled(random, 0));
    }
    numbers.push(String::from("0"));
    TextPlan { numbers, atoms, bonds: block.bonds.len() }
}

/// Another number, one more or one fewer.
pub fn damage_text(random: &mut Random, text: &mut TextPlan) {
    let at = random.below(text.numbers.len());
    match random.below(9) {
        0 => {
            text.numbers.remove(at);
            if text.numbers.is_empty() {
                text.numbers.push(String::from("0"));
            }
        }
        1 => text.numbers.insert(at, random.below(70).to_string()),
        2 => text.numbers[at] = String::from("0"),
        3 => text.numbers[at] = (text.atoms + random.below(3)).to_string(),
        4 => {
            text.numbers[at] =
                random.pick(&["255", "256", "257", "258", "999", "1000", "00001000", "65537", "4294967297"]).to_string()
        }
        5 => text.numbers.push(random.below(3).to_string()),
        6 => text.numbers.truncate(at + 1),
        7 => {
            let again = text.numbers[at].clone();
            text.numbers.insert(at, again);
        }
        _ => {
            let strange = random.pick(&["x", "1x", "+1", "-1", "1.0", "\u{b}", "\u{c}", "\0", ","]).to_string();
            text.numbers.insert(at, strange);
        }
    }
}
