//! Claims: what a program printed of a molecule, judged. Texts are read as strings and in numbers of 128 bits, and every field is worked
//! out whatever is claimed.

use crate::answers::Verdict;
use crate::balaban::reckoned;
use crate::block::read_block;
use crate::count_sets::count_sets;
use crate::deck::{read_deck, Form};
use crate::graph::Graph;
use crate::molecule::{write_out, Measurer};
use crate::refusal::{refuse, Refusal};
use crate::szeged::terms;

const HOSOYA: usize = 8;
const MERRIFIELD_SIMMONS: usize = 9;
const BALABAN: usize = 10;

/// The least and the largest number that a field may be, by a claim or by the molecule.
type Range = (u128, u128);

/// A text without the blanks and tabs at its ends: what stands before the point, and behind it.
fn parts(text: &[u8]) -> Option<(String, String)> {
    let text = std::str::from_utf8(text).ok()?.trim_matches([' ', '\t']);
    let (front, behind) = text.split_once('.').unwrap_or((text, ""));
    let digits = |part: &str| part.chars().all(|one| one.is_ascii_digit());
    (!front.is_empty() && digits(front) && digits(behind)).then(|| (front.to_string(), behind.to_string()))
}

/// The value of digits, if it has at most 30 of them that count.
fn value(digits: &str) -> Option<u128> {
    let digits = digits.trim_start_matches('0');
    match digits.len() {
        0 => Some(0),
        1..=30 => digits.parse().ok(),
        _ => None,
    }
}

fn below_2_64(number: u128) -> Option<u128> {
    (number < 1 << 64).then_some(number)
}

/// A whole number; only zeros may stand behind the point.
fn whole(text: &[u8]) -> Option<Range> {
    let (front, behind) = parts(text)?;
    let number = below_2_64(value(&front)?)?;
    behind.chars().all(|one| one == '0').then_some((number, number))
}

/// A number in units of 10^-9, within one of its last digit: the first nine digits behind the point count.
fn fine(text: &[u8]) -> Option<Range> {
    let (front, behind) = parts(text)?;
    let counted = &behind[..behind.len().min(9)];
    let unit = 10u128.pow(9 - counted.len() as u32);
    let c = value(&(front + counted))?;
    below_2_64(c * unit)?;
    Some((c.saturating_sub(1) * unit, (c + 1) * unit))
}

/// All claims, or 36, 35 and 37.
fn read_claims(bytes: &[u8], fields: usize) -> Result<Vec<(usize, Range)>, Refusal> {
    if bytes.is_empty() {
        return refuse(36, 0);
    }
    let mut claims = Vec::new();
    let mut rest = bytes;
    while let Some((&field, behind)) = rest.split_first() {
        let k = claims.len() + 1;
        if !(1..=fields).contains(&(field as usize)) {
            return refuse(35, k);
        }
        let text = match behind.split_first() {
            Some((&length, behind)) if length as usize <= behind.len() => &behind[..length as usize],
            _ => return refuse(35, k),
        };
        let said = if field as usize == BALABAN { fine(text) } else { whole(text) };
        match said {
            Some(range) => claims.push((field as usize, range)),
            None => return refuse(37, k),
        }
        rest = &behind[1 + text.len()..];
    }
    Ok(claims)
}

/// The first claim that does not meet what is true of its field.
fn compared(claims: &[(usize, Range)], right: &[Range]) -> Verdict {
    let meets = |(field, (low, high)): &(usize, Range)| *low <= right[field - 1].1 && right[field - 1].0 <= *high;
    match claims.iter().position(|claim| !meets(claim)) {
        None => Verdict::Accepted,
        Some(at) => Verdict::Differs(at as u64 + 1),
    }
}

fn exactly(fields: &[u64]) -> Vec<Range> {
    fields.iter().map(|&field| (field as u128, field as u128)).collect()
}

fn told(verdict: Result<Verdict, Refusal>) -> Verdict {
    verdict.unwrap_or_else(Verdict::Refused)
}

/// The six fields of a deck without a sheet.
pub fn of_deck(measurer: &mut Measurer, deck: &[u8], claims: &[u8]) -> Verdict {
    told(read_deck(deck, Form::Composed).and_then(|deck| {
        let claims = read_claims(claims, 6)?;
        Ok(compared(&claims, &exactly(&measurer.indices(write_out(&deck)).six())))
    }))
}

/// Where J of a block lies: from the answer to 1 + m * m / (m - n + 2) above it.
pub fn fine_range(graph: &Graph) -> Range {
    let (n, m) = (graph.atoms as u128, graph.bonds.len() as u128);
    let answer = reckoned(graph, 1);
    (answer, answer + 1 + m * m / (m + 2 - n))
}

/// The ten fields of a block; the two of a tree are 0 where it is none.
pub fn block_fields(atoms: usize, bonds: &[u8]) -> Result<(Graph, Vec<Range>), Refusal> {
    let graph = read_block(atoms, bonds)?;
    let mut fields = graph.indices().six().to_vec();
    fields.push(terms(&graph).iter().sum());
    fields.extend(count_sets(atoms, bonds, 2).unwrap_or([0, 0]));
    let mut right = exactly(&fields);
    right.push(fine_range(&graph));
    Ok((graph, right))
}

pub fn of_block(atoms: usize, bonds: &[u8], claims: &[u8]) -> Verdict {
    told(block_fields(atoms, bonds).and_then(|(graph, right)| {
        let claims = read_claims(claims, BALABAN)?;
        let of_trees = claims.iter().any(|(field, _)| [HOSOYA, MERRIFIELD_SIMMONS].contains(field));
        if of_trees && graph.bonds.len() + 1 != graph.atoms {
            return refuse(34, 0);
        }
        Ok(compared(&claims, &right))
    }))
}

#[cfg(test)]
mod tests {
    use super::*;
    use crate::documents::FORTY;
    use crate::make::shapes::{path, ring};

    fn claims(list: &[(u8, &str)]) -> Vec<u8> {
        list.iter().flat_map(|(field, text)| [&[*field, text.len() as u8], text.as_bytes()].concat()).collect()
    }

    fn refused(number: u64, place: u64) -> Verdict {
        Verdict::Refused(Refusal { number, place })
    }

    #[test]
    fn texts() {
        for text in ["109", "109.", "109.000", " \t109\t", "00109", "000000000000000000000000000000000000000109"] {
            assert_eq!(whole(text.as_bytes()), Some((109, 109)), "{text:?}");
        }
        for text in [
            "",
            " ",
            "+5",
            "-5",
            "1e2",
            "nan",
            "31.0000004",
            ".5",
            ".",
            "1 2",
            "1..0",
            "7\n",
            "7\r",
            "18446744073709551616",
        ] {
            assert_eq!(whole(text.as_bytes()), None, "{text:?}");
        }
        assert_eq!(fine(b"1.9747"), Some((1_974_600_000, 1_974_800_000)));
        assert_eq!(fine(b"0.00"), Some((0, 10_000_000)));
        assert_eq!(fine(b"1.97474487139"), Some((1_974_744_870, 1_974_744_872)));
        assert_eq!(fine(b"1.97474487x39"), None);
        assert_eq!(fine(b"18446744073.709551616"), None);
    }

    #[test]
    fn decks() {
        let measurer = &mut Measurer::default();
        let mut ask = |list: &[(u8, &str)]| of_deck(measurer, &FORTY, &claims(list));
        assert_eq!(ask(&[(1, "12"), (2, "198.0"), (3, "96"), (4, "102"), (5, "14"), (6, "7")]), Verdict::Accepted);
        assert_eq!(ask(&[(2, "198"), (2, "199"), (1, "11")]), Verdict::Differs(2));
        assert_eq!(ask(&[]), refused(36, 0));
        assert_eq!(ask(&[(1, "12"), (7, "1")]), refused(35, 2));
        assert_eq!(ask(&[(1, "13"), (2, "1.98e2")]), refused(37, 2));
        assert_eq!(of_deck(measurer, &FORTY, &[1, 2, b'1']), refused(35, 1));
        assert_eq!(of_deck(measurer, &FORTY, &[1]), refused(35, 1));
    }

    #[test]
    fn blocks() {
        let ask = |list: &[(u8, &str)]| of_block(4, &path(4).bond_bytes(), &claims(list));
        assert_eq!(ask(&[(7, "10"), (8, "5"), (9, "8"), (10, "1.974744871")]), Verdict::Accepted);
        assert_eq!(ask(&[(10, "1.98"), (10, "1.99")]), Verdict::Differs(2));
        assert_eq!(of_block(3, &ring(3).bond_bytes(), &claims(&[(2, "4"), (8, "4")])), refused(34, 0));
        assert_eq!(of_block(3, &ring(3).bond_bytes(), &claims(&[(8, "4"), (11, "4")])), refused(35, 2));
    }
}
