//! Random molfiles: a good block with hydrogens on it, in the spellings that files have, and damaged ones.

use super::blocks::random_block;
use super::random::Random;
use crate::block::MOST_DEGREE;
use std::ops::Range;

const HEAVY: [&str; 12] = ["C  ", "N  ", "O  ", "Cl ", "  C", " S ", "D  ", "He ", "h  ", "H1 ", "C", "HH "];
const LIGHT: [&str; 5] = ["H  ", " H ", "  H", "H", "H "];

/// Ends of a line that are not one line feed.
const ODD_FEEDS: [&[u8]; 3] = [b"", b"\r\r\n", b"\r"];

/// A file by its lines; the last one may lack its line feed.
pub struct MolfilePlan {
    pub lines: Vec<Vec<u8>>,
    pub feeds: Vec<&'static [u8]>,
    pub atoms: usize,
    pub bonds: usize,
}

impl MolfilePlan {
    pub fn bytes(&self) -> Vec<u8> {
        let ended = self.lines.iter().zip(&self.feeds);
        ended.flat_map(|(line, feed)| [&line[..], feed].concat()).collect()
    }

    fn insert(&mut self, at: usize, line: Vec<u8>) {
        self.lines.insert(at, line);
        self.feeds.insert(at, b"\n");
    }
}

/// Three characters for a number, with blanks or zeros in front.
fn field(random: &mut Random, value: usize) -> String {
    match random.below(6) {
        0 => format!("{value:03}"),
        1 if value < 100 => format!(" {value:02}"),
        _ => format!("{value:3}"),
    }
}

/// A good file, or one whose block is refused.
pub fn random_molfile(random: &mut Random) -> MolfilePlan {
    let block = random_block(random, 64);
    let heavy = block.atoms as usize;
    let mut symbols: Vec<&str> = (0..heavy).map(|_| *random.pick(&HEAVY)).collect();
    let mut bonds: Vec<(usize, usize)> = block.bonds.iter().map(|&(u, v)| (u as usize - 1, v as usize - 1)).collect();
    let most = if random.once_in(10) { 999 - heavy } else { 2 * heavy };
    for _ in 0..random.below(most + 1) {
        if bonds.len() == 999 {
            break;
        }
        bonds.push((random.below(heavy), symbols.len()));
        symbols.push(*random.pick(&LIGHT));
    }
    for _ in 0..random.below(8).saturating_sub(5) {
        odd_hydrogen(random, &mut symbols, &mut bonds);
    }
    let mut names: Vec<usize> = (1..=symbols.len()).collect();
    if random.once_in(2) {
        random.shuffle(&mut names);
        random.shuffle(&mut bonds);
    }
    lines_of(random, &symbols, &bonds, &names)
}

/// A file of up to 999 atoms and bonds: blocks joined to each other, in some not all of them, with hydrogens on them. In a few a bond is
/// drawn twice, or from an atom to itself, or is one too many.
pub fn random_large_molfile(random: &mut Random) -> MolfilePlan {
    let (mut symbols, mut bonds): (Vec<&str>, Vec<(usize, usize)>) = (Vec::new(), Vec::new());
    let mut degrees: Vec<usize> = Vec::new();
    let (most, in_parts) = (random.between(65, 999), random.once_in(5));
    loop {
        let block = random_block(random, 64);
        let before = symbols.len();
        if before + block.atoms as usize > most || bonds.len() + block.bonds.len() + 1 > 990 {
            break;
        }
        symbols.extend((0..block.atoms).map(|_| *random.pick(&HEAVY)));
        degrees.resize(symbols.len(), 0);
        let mut added: Vec<(usize, usize)> =
            block.bonds.iter().map(|&(u, v)| (before + u as usize - 1, before + v as usize - 1)).collect();
        let open = |atoms: Range<usize>, degrees: &[usize]| -> Vec<usize> {
            atoms.filter(|&atom| degrees[atom] < MOST_DEGREE).collect()
        };
        added.iter().for_each(|&(u, v)| [u, v].iter().for_each(|&end| degrees[end] += 1));
        let (there, own) = (open(0..before, &degrees), open(before..symbols.len(), &degrees));
        if !there.is_empty() && !own.is_empty() && !(in_parts && random.once_in(4)) {
            let join = (*random.pick(&there), *random.pick(&own));
            degrees[join.0] += 1;
            degrees[join.1] += 1;
            added.push(join);
        }
        bonds.extend(added);
    }
    let heavy = symbols.len();
    for _ in 0..random.below(1 + (999 - heavy).min(999 - bonds.len())) {
        bonds.push((random.below(heavy), symbols.len()));
        symbols.push(*random.pick(&["H  ", "H  ", "H  ", "  H", "D  "]));
    }
    if random.once_in(6) {
        odd_hydrogen(random, &mut symbols, &mut bonds);
    }
    if random.once_in(8) && bonds.len() < 999 {
        let ((u, v), other) = (*random.pick(&bonds), random.below(heavy));
        bonds.push(*random.pick(&[(u, v), (v, u), (u, u), (0, other)]));
    }
    let mut names: Vec<usize> = (1..=symbols.len()).collect();
    if random.once_in(2) {
        random.shuffle(&mut names);
        random.shuffle(&mut bonds);
    }
    lines_of(random, &symbols, &bonds, &names)
}

/// An H with no bond, on an H, or between two atoms; or a bond to it listed twice.
fn odd_hydrogen(random: &mut Random, symbols: &mut Vec<&str>, bonds: &mut Vec<(usize, usize)>) {
    let (atom, other) = (symbols.len(), random.below(symbols.len()));
    if atom > 996 || bonds.len() > 996 {
        return;
    }
    symbols.push("H  ");
    match random.below(5) {
        0 => {}
        1 => {
            bonds.push((atom, other));
            bonds.push((random.below(atom), atom));
        }
        2 => {
            bonds.push((atom, other));
            bonds.push((atom + 1, atom));
            symbols.push("H  ");
        }
        3 => {
            bonds.push((atom, other));
            bonds.push((other, atom));
        }
        _ => bonds.push((atom, atom)),
    }
}

fn lines_of(random: &mut Random, symbols: &[&str], bonds: &[(usize, usize)], names: &[usize]) -> MolfilePlan {
    let mut lines: Vec<Vec<u8>> = ["a name", "  a program", ""].iter().map(|line| line.as_bytes().to_vec()).collect();
    let more = *random.pick(&["", "  0  0  0  0  0  0  0  0999 V2000", " anything"]);
    let (atoms, count) = (field(random, symbols.len()), field(random, bonds.len()));
    lines.push(format!("{atoms}{count}{more}").into_bytes());
    let mut by_name = vec![""; symbols.len() + 1];
    for (symbol, &name) in symbols.iter().zip(names) {
        by_name[name] = symbol;
    }
    for symbol in &by_name[1..] {
        let behind = if symbol.len() == 3 { *random.pick(&["", " 0  0  0", "x"]) } else { "" };
        lines.push(format!("{:10}{:10}{:10} {symbol}{behind}", 0.5, -1.25, 10.0).into_bytes());
    }
    for &(one, two) in bonds {
        let (mut one, mut two) = (names[one], names[two]);
        if random.once_in(4) {
            (one, two) = (two, one);
        }
        let behind = *random.pick(&["", "  1", "  2  0  0  0  0"]);
        lines.push(format!("{}{}{behind}", field(random, one), field(random, two)).into_bytes());
    }
    for _ in 0..random.below(3) {
        lines.push(random.pick(&["M  CHG  1   1   1", "", "A    1", " M  END"]).as_bytes().to_vec());
    }
    lines.push(random.pick(&["M  END", "M  END", "M  ENDING"]).as_bytes().to_vec());
    let (atoms, bonds) = (symbols.len(), bonds.len());
    let feed: &[u8] = if random.once_in(3) { b"\r\n" } else { b"\n" };
    let mut feeds = vec![feed; lines.len()];
    if random.once_in(4) {
        *feeds.last_mut().expect("a file has lines") = b"";
    } else if random.once_in(3) {
        for line in ["", "> <NAME>", "$$$$", "next"] {
            lines.push(line.as_bytes().to_vec());
            feeds.push(feed);
        }
    }
    MolfilePlan { lines, feeds, atoms, bonds }
}

/// One damage of its lines.
pub fn damage_molfile(random: &mut Random, file: &mut MolfilePlan) {
    let at = random.below(file.lines.len());
    match random.below(9) {
        0 => {
            file.lines.remove(at);
            file.feeds.remove(at);
        }
        1 => {
            let length = random.below(file.lines[at].len() + 1);
            file.lines[at].truncate(length);
        }
        2 => file.insert(at, random.pick(&["", "  1  2", "\r"]).as_bytes().to_vec()),
        3 => file.feeds[at] = *random.pick(&ODD_FEEDS),
        4 => damage_field(random, file, 3),
        _ => {
            let from = (4 + file.atoms).min(file.lines.len() - 1);
            let line = random.between(from, (from + file.bonds).min(file.lines.len() - 1));
            damage_field(random, file, line);
        }
    }
}

/// Another number, or none, where a line has its two numbers.
fn damage_field(random: &mut Random, file: &mut MolfilePlan, line: usize) {
    let near = (file.atoms + random.below(3)).min(999);
    let wrong = match random.below(5) {
        0 => String::from("  0"),
        1 => format!("{near:3}"),
        2 => format!("{:3}", random.below(1000)),
        _ => random.pick(&["6  ", " 6 ", "   ", "+ 6", " -1", "\t 6", "1 2", " 1x"]).to_string(),
    };
    let at = 3 * random.below(2);
    let line = &mut file.lines[line];
    if line.len() >= at + 3 {
        line[at..at + 3].copy_from_slice(wrong.as_bytes());
    }
}
