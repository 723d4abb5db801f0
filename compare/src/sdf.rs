//! The records of an SDF and the data items of a record, line by line.

use crate::molfile::items_place;
use crate::refusal::{refuse, Refusal};

const WHITE: &[u8] = b" \t\r\n";

/// Each line with its line feed, and its first byte.
fn lines(text: &[u8], from: usize) -> impl Iterator<Item = (usize, &[u8])> {
    let mut at = from;
    text.get(from..).unwrap_or(&[]).split_inclusive(|&byte| byte == b'\n').map(move |line| {
        at += line.len();
        (at - line.len(), line)
    })
}

/// The record that begins at a byte: its first byte, its length, and where the next one begins. Nothing where it is done.
pub fn record(text: &[u8], from: usize, room: usize) -> Result<Option<[u64; 3]>, Refusal> {
    if text.get(from..).unwrap_or(&[]).iter().all(|byte| WHITE.contains(byte)) {
        return Ok(None);
    }
    if room < 3 {
        return refuse(9, 0);
    }
    let end = lines(text, from).find(|(_, line)| line.starts_with(b"$$$$"));
    let (end, next) = end.map_or((text.len(), text.len()), |(at, line)| (at, at + line.len()));
    Ok(Some([from, end - from, next].map(|one| one as u64)))
}

/// A line that begins with > and has <, something, > in it; with a name, that.
fn is_header(line: &[u8], name: Option<&[u8]>) -> bool {
    let line = line.strip_suffix(b"\n").unwrap_or(line);
    if !line.starts_with(b">") {
        return false;
    }
    match name {
        Some(name) => {
            let tag = [b"<", name, b">"].concat();
            line.windows(tag.len()).any(|part| part == tag)
        }
        None => line.iter().position(|&byte| byte == b'<').is_some_and(|at| line[at..].contains(&b'>')),
    }
}

/// The most < in a name.
const MOST_OPENS: usize = 16;

/// The value of the data item of a name: its first byte and its length. 38, 39, then 9.
pub fn item(record: &[u8], name: &[u8], room: usize) -> Result<[u64; 2], Refusal> {
    let is_name = !name.is_empty() && name.iter().filter(|&&byte| byte == b'<').count() <= MOST_OPENS;
    let Some(from) = items_place(record) else { return refuse(38, 0) };
    let mut headers = lines(record, from).filter(|(_, line)| is_header(line, Some(name)));
    let Some((at, header)) = headers.next().filter(|_| is_name) else { return refuse(38, 0) };
    if let Some((second, _)) = headers.next() {
        return refuse(39, second);
    }
    if room < 2 {
        return refuse(9, 0);
    }
    let start = at + header.len();
    let value = lines(record, start).next().map_or(&b""[..], |(_, line)| line);
    let chars = match value.strip_suffix(b"\n") {
        _ if is_header(value, None) => 0,
        Some(line) => line.strip_suffix(b"\r").unwrap_or(line).len(),
        None => value.len(),
    };
    Ok([start as u64, chars as u64])
}

#[cfg(test)]
mod tests {
    use super::*;

    const FRONT: &str = "\n\n\n  0  0\n";

    #[test]
    fn records() {
        let two = b"ab\n$$$$\r\nc $$$$\nd";
        assert_eq!(record(two, 0, 3), Ok(Some([0, 3, 9])));
        assert_eq!(record(two, 9, 3), Ok(Some([9, 8, 17])));
        assert_eq!(record(two, 17, 0), Ok(None));
        assert_eq!(record(two, 99, 0), Ok(None));
        assert_eq!(record(two, 0, 2), refuse(9, 0));
        let empties = b"$$$$ x\n$$$$\n \n$$$$\n\t\r\n ";
        assert_eq!(record(empties, 12, 3), Ok(Some([12, 2, 19])));
        assert_eq!(record(empties, 19, 3), Ok(None));
    }

    #[test]
    fn items() {
        let text = format!(
            "{FRONT}> <A>\nM  END\n>  <A> (1)\r\n12.5\r\n\r\n> 7 <B>\n\n> <C>\n1\n> <C>\n2\n> <E>\n><F> \n>5\n><D>"
        );
        let ask = |name: &str| item(text.as_bytes(), name.as_bytes(), 2);
        assert_eq!(ask("A"), Ok([35, 4]));
        assert_eq!(ask("B"), Ok([51, 0]));
        assert_eq!(ask("C"), refuse(39, 60));
        assert_eq!(ask("D"), Ok([87, 0]));
        assert_eq!(ask("E"), Ok([74, 0]));
        assert_eq!(ask("F"), Ok([80, 2]));
        assert_eq!(ask(""), refuse(38, 0));
        assert_eq!(ask("a"), refuse(38, 0));
        let forged = b"M  END\n> <A>\n9\n  0  0\nM  END\n> <A>\n1\n";
        assert_eq!(item(forged, b"A", 2), Ok([35, 1]));
        assert_eq!(item(&forged[..29], b"A", 2), refuse(38, 0));
    }
}
