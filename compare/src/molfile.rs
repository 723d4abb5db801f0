//! V2000 molfiles: refusals 25, 26 and 27, the hydrogens that are dropped, and the block or the whole molecule that is left.
//! Also the text that is written for a block. Written from document 02's request E6.

use crate::block::{read_block, MOST_ATOMS, MOST_DEGREE};
use crate::refusal::{refuse, Refusal};

/// A line: its first byte, and its characters without the CR before its line feed.
struct Line<'a> {
    place: usize,
    chars: &'a [u8],
}

struct Lines<'a> {
    file: &'a [u8],
    at: usize,
}

impl<'a> Lines<'a> {
    fn next(&mut self) -> Option<Line<'a>> {
        let place = self.at;
        let rest = &self.file[place..];
        if rest.is_empty() {
            return None;
        }
        let Some(end) = rest.iter().position(|&byte| byte == b'\n') else {
            self.at = self.file.len();
            return Some(Line { place, chars: rest });
        };
        self.at = place + end + 1;
        let chars = rest[..end].strip_suffix(b"\r").unwrap_or(&rest[..end]);
        Some(Line { place, chars })
    }

    /// The next line, which needs so many characters.
    fn due(&mut self, least: usize) -> Result<Line<'a>, Refusal> {
        match self.next() {
            None => refuse(25, self.file.len()),
            Some(line) if line.chars.len() < least => refuse(25, line.place),
            Some(line) => Ok(line),
        }
    }

    /// The next line, which begins with two numbers.
    fn two_numbers(&mut self) -> Result<(usize, [usize; 2]), Refusal> {
        let line = self.due(6)?;
        match (number(&line.chars[..3]), number(&line.chars[3..6])) {
            (Some(one), Some(two)) => Ok((line.place, [one, two])),
            _ => refuse(26, line.place),
        }
    }
}

/// Blanks, then at least one digit.
fn number(field: &[u8]) -> Option<usize> {
    let blanks = field.iter().take_while(|&&byte| byte == b' ').count();
    let digits = &field[blanks..];
    if digits.is_empty() || !digits.iter().all(u8::is_ascii_digit) {
        return None;
    }
    Some(digits.iter().fold(0, |value, &digit| 10 * value + (digit - b'0') as usize))
}

/// What the lines say: which atoms are H (entry 0 belongs to none), the bonds, and where the line behind M  END begins.
struct File {
    is_h: Vec<bool>,
    bonds: Vec<[usize; 2]>,
    end: usize,
}

fn read_lines(file: &[u8]) -> Result<File, Refusal> {
    let mut lines = Lines { file, at: 0 };
    for _ in 0..3 {
        lines.due(0)?;
    }
    let (_, [atoms, count]) = lines.two_numbers()?;
    let mut is_h = vec![false];
    for _ in 0..atoms {
        let chars = lines.due(32)?.chars;
        let symbol: Vec<u8> = chars[31..chars.len().min(34)].to_vec();
        let symbol = String::from_utf8_lossy(&symbol).into_owned();
        is_h.push(symbol.trim_matches(' ') == "H");
    }
    let mut bonds = Vec::new();
    for _ in 0..count {
        let (place, ends) = lines.two_numbers()?;
        if ends.iter().any(|&end| end == 0 || end > atoms) {
            return refuse(27, place);
        }
        bonds.push(ends);
    }
    loop {
        match lines.next() {
            None => return refuse(25, file.len()),
            Some(line) if line.chars.starts_with(b"M  END") => return Ok(File { is_h, bonds, end: lines.at }),
            Some(_) => {}
        }
    }
}

impl File {
    /// An H with exactly one bond, to an atom that isn't H.
    fn is_dropped(&self, atom: usize) -> bool {
        let named: Vec<&[usize; 2]> = self.bonds.iter().filter(|ends| ends.contains(&atom)).collect();
        let [bond] = named[..] else { return false };
        let other = if bond[0] == atom { bond[1] } else { bond[0] };
        self.is_h[atom] && !self.is_h[other]
    }
}

/// How many atoms are kept, and the bonds between them by their new numbers, in the order of the lines.
fn kept(file: &File) -> (usize, Vec<[usize; 2]>) {
    let mut numbers = vec![None];
    let mut atoms = 0;
    for atom in 1..file.is_h.len() {
        let kept = !file.is_dropped(atom);
        atoms += kept as usize;
        numbers.push(kept.then_some(atoms));
    }
    let between = |&[one, two]: &[usize; 2]| Some([numbers[one]?, numbers[two]?]);
    (atoms, file.bonds.iter().filter_map(between).collect())
}

/// The block of a file: its atom count and the bytes of its bonds. `room` and `entries` are the lengths of the lent
/// outputs for these bytes and for the two counts.
pub fn read(file: &[u8], room: usize, entries: usize) -> Result<(usize, Vec<u8>), Refusal> {
    let (atoms, bonds) = kept(&read_lines(file)?);
    if atoms > MOST_ATOMS {
        return refuse(1, 0);
    }
    let bytes: Vec<u8> = bonds.iter().flatten().map(|&end| end as u8).collect();
    read_block(atoms, &bytes)?;
    if room < bytes.len() || entries < 2 {
        return refuse(9, 0);
    }
    Ok((atoms, bytes))
}

/// The molecule of a file, of any number of atoms: its atom count and the ends of its bonds. 1 for no atom; bond by bond 4, 5 and 6, at
/// the bond's number among those that are kept; 9 for the lent outputs. A molecule in parts is read.
pub fn read_whole(file: &[u8], room: usize, entries: usize) -> Result<(usize, Vec<u16>), Refusal> {
    let (atoms, bonds) = kept(&read_lines(file)?);
    if atoms == 0 {
        return refuse(1, 0);
    }
    let mut beside = vec![Vec::new(); atoms + 1];
    for (at, &[one, two]) in bonds.iter().enumerate() {
        let number = if one == two {
            4
        } else if beside[one].contains(&two) {
            5
        } else if beside[one].len() == MOST_DEGREE || beside[two].len() == MOST_DEGREE {
            6
        } else {
            beside[one].push(two);
            beside[two].push(one);
            continue;
        };
        return refuse(number, at + 1);
    }
    if room < 2 * bonds.len() || entries < 2 {
        return refuse(9, 0);
    }
    Ok((atoms, bonds.iter().flatten().map(|&end| end as u16).collect()))
}

/// Where the data items of an SDF's record begin, behind the molfile's own M  END; there are none where its lines are refused.
pub fn items_place(record: &[u8]) -> Option<usize> {
    read_lines(record).ok().map(|file| file.end)
}

/// The text of a block: the block's refusals, then 9 for the text or for its length.
pub fn write(atoms: usize, bonds: &[u8], room: usize, entries: usize) -> Result<String, Refusal> {
    let block = read_block(atoms, bonds)?;
    let mut text = format!("\n\n\n{atoms:3}{:3}", block.bonds.len());
    text.push_str("  0  0  0  0  0  0  0  0999 V2000\n");
    for _ in 0..atoms {
        text.push_str(&"    0.0000".repeat(3));
        text.push_str(" C ");
        text.push_str(&"  0".repeat(12));
        text.push('\n');
    }
    for (one, two) in block.bonds {
        text.push_str(&format!("{one:3}{two:3}  1  0  0  0  0\n"));
    }
    text.push_str("M  END\n");
    if room < text.len() || entries < 1 {
        return refuse(9, 0);
    }
    Ok(text)
}

#[cfg(test)]
mod tests {
    use super::{read, read_whole, write};
    use crate::refusal::Refusal;

    fn carbon() -> String {
        format!("{:30} C", "")
    }

    fn refused(file: &str, number: u64, place: u64) {
        assert_eq!(read(file.as_bytes(), 512, 2), Err(Refusal { number, place }), "{file:?}");
    }

    #[test]
    fn lines_missing_or_short() {
        refused("", 25, 0);
        refused("\n\n\n", 25, 3);
        refused("\n\n\n  1  \r\n", 25, 3);
        refused("\n\n\n  1  0\nC\nM  END\n", 25, 10);
        refused(&format!("\n\n\n  1  0\n{}\nM END", carbon()), 25, 48);
    }

    #[test]
    fn fields() {
        for field in ["6  ", " 6 ", "   ", "+ 6", " -1", "\t 6", "1 2"] {
            refused(&format!("\n\n\n{field}  0\n"), 26, 3);
        }
        let file = format!("\n\n\n001 00\n{}\nM  END", carbon());
        assert_eq!(read(file.as_bytes(), 0, 2), Ok((1, vec![])));
    }

    #[test]
    fn whole() {
        let file = |atoms: usize, bonds: &[(usize, usize)]| {
            let lines: String = bonds.iter().map(|(u, v)| format!("{u:3}{v:3}\n")).collect();
            format!("\n\n\n{atoms:3}{:3}\n{}{lines}M  END", bonds.len(), format!("{}\n", carbon()).repeat(atoms))
        };
        let ask = |atoms, bonds: &[(usize, usize)]| read_whole(file(atoms, bonds).as_bytes(), 9, 2);
        assert_eq!(ask(999, &[(999, 1), (300, 2)]), Ok((999, vec![999, 1, 300, 2])));
        assert_eq!(ask(0, &[]), Err(Refusal { number: 1, place: 0 }));
        assert_eq!(ask(70, &[(1, 2), (70, 70)]), Err(Refusal { number: 4, place: 2 }));
        assert_eq!(ask(70, &[(1, 70), (70, 1)]), Err(Refusal { number: 5, place: 2 }));
        let star: Vec<(usize, usize)> = (2..9).map(|end| (end, 1)).collect();
        assert_eq!(ask(70, &star), Err(Refusal { number: 6, place: 7 }));
        assert_eq!(ask(70, &star[..5]), Err(Refusal { number: 9, place: 0 }));
        assert_eq!(read_whole(b"", 9, 2), Err(Refusal { number: 25, place: 0 }));
    }

    #[test]
    fn written() {
        let text = write(2, &[1, 2], 9999, 1).expect("a good block");
        let line = "    0.0000    0.0000    0.0000 C   0  0  0  0  0  0  0  0  0  0  0  0\n";
        let counts = "  2  1  0  0  0  0  0  0  0  0999 V2000\n";
        assert_eq!(text, format!("\n\n\n{counts}{line}{line}  1  2  1  0  0  0  0\nM  END\n"));
        assert_eq!(text.len(), 50 + 70 * 2 + 22);
        assert_eq!(read(text.as_bytes(), 2, 2), Ok((2, vec![1, 2])));
    }
}
