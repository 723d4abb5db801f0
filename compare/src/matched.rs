//! A deck held against a molecule: the molecule written out as numbers of 16 bits, and whether a matching of atoms carries bonds to bonds
//! both ways.

use crate::answers::Verdict;
use crate::deck::{read_deck, Form};
use crate::molecule::{placed_atom, write_out};
use crate::refusal::{refuse, Refusal};
use std::collections::BTreeSet;

/// The atom count and the ends of the bonds of a deck's molecule: the deck's, then 9.
pub fn written_out(deck: &[u8], room: usize, entries: usize) -> Result<(usize, Vec<u16>), Refusal> {
    let molecule = write_out(&read_deck(deck, Form::Composed)?);
    let ends: Vec<u16> = molecule.bonds.iter().flat_map(|&(u, v)| [u as u16, v as u16]).collect();
    if room < ends.len() || entries < 2 {
        return refuse(9, 0);
    }
    Ok((molecule.atoms, ends))
}

/// Two atoms, the smaller first.
fn pair(u: usize, v: usize) -> (usize, usize) {
    (u.min(v), u.max(v))
}

/// Whether a matching is one: accepted, or the place of what fails first.
pub fn matched(deck: &[u8], atoms: usize, bonds: &[u16], matching: &[u16]) -> Verdict {
    let deck = match read_deck(deck, Form::Composed) {
        Ok(deck) => deck,
        Err(refusal) => return Verdict::Refused(refusal),
    };
    if matching.len() / 2 < atoms {
        return Verdict::Refused(Refusal { number: 9, place: 0 });
    }
    let molecule = write_out(&deck);
    if molecule.atoms != atoms {
        return Verdict::Differs(0);
    }
    let mut partners = vec![0];
    for (at, two) in matching.chunks(2).take(atoms).enumerate() {
        match placed_atom(&deck, two[0] as usize, two[1] as usize) {
            Some(partner) if !partners.contains(&partner) => partners.push(partner),
            _ => return Verdict::Differs(at as u64 + 1),
        }
    }
    let of_deck: BTreeSet<(usize, usize)> = molecule.bonds.iter().map(|&(u, v)| pair(u, v)).collect();
    let mut carried = BTreeSet::new();
    for (at, ends) in bonds.chunks_exact(2).enumerate() {
        let [u, v] = [ends[0] as usize, ends[1] as usize];
        let both = (1..=atoms).contains(&u) && (1..=atoms).contains(&v);
        if !both || !of_deck.contains(&pair(partners[u], partners[v])) {
            return Verdict::Differs((atoms + at + 1) as u64);
        }
        carried.insert(pair(partners[u], partners[v]));
    }
    match molecule.bonds.iter().position(|&(u, v)| !carried.contains(&pair(u, v))) {
        None => Verdict::Accepted,
        Some(at) => Verdict::Differs((atoms + bonds.len() / 2 + at + 1) as u64),
    }
}

#[cfg(test)]
mod tests {
    use super::*;
    use crate::documents::FORTY;

    const RINGS: [(u16, u16); 13] =
        [(1, 2), (2, 3), (3, 4), (4, 5), (5, 6), (6, 1), (7, 8), (8, 9), (9, 10), (10, 11), (11, 12), (12, 7), (1, 7)];

    fn ends(bonds: &[(u16, u16)]) -> Vec<u16> {
        bonds.iter().flat_map(|&(u, v)| [u, v]).collect()
    }

    fn own() -> Vec<u16> {
        (0..12).flat_map(|at| [1 + at / 6, 1 + at % 6]).collect()
    }

    #[test]
    fn two_rings_written_out() {
        assert_eq!(written_out(&FORTY, 26, 2), Ok((12, ends(&RINGS))));
        assert_eq!(written_out(&FORTY, 25, 2), Err(Refusal { number: 9, place: 0 }));
        assert_eq!(written_out(&FORTY, 26, 1), Err(Refusal { number: 9, place: 0 }));
        assert_eq!(written_out(&FORTY[..39], 0, 0), Err(Refusal { number: 11, place: 22 }));
    }

    #[test]
    fn every_place() {
        let (bonds, own) = (ends(&RINGS), own());
        let changed = |at: usize, to: u16| {
            let mut other = own.clone();
            other[at] = to;
            other
        };
        let ask = |bonds: &[u16], matching: &[u16]| matched(&FORTY, 12, bonds, matching);
        assert_eq!(ask(&bonds, &own), Verdict::Accepted);
        assert_eq!(ask(&[&bonds[..], &[12, 7, 9]].concat(), &own), Verdict::Accepted);
        assert_eq!(ask(&bonds, &own[..23]), Verdict::Refused(Refusal { number: 9, place: 0 }));
        assert_eq!(matched(&FORTY, usize::MAX, &bonds, &own), Verdict::Refused(Refusal { number: 9, place: 0 }));
        assert_eq!(matched(&FORTY, 11, &bonds, &own), Verdict::Differs(0));
        assert_eq!(ask(&bonds, &changed(0, 3)), Verdict::Differs(1));
        assert_eq!(ask(&bonds, &changed(23, 7)), Verdict::Differs(12));
        assert_eq!(ask(&bonds, &changed(3, 1)), Verdict::Differs(2));
        let mut turned = own.clone();
        (turned[1], turned[3]) = (2, 1);
        assert_eq!(ask(&bonds, &turned), Verdict::Differs(12 + 2));
        assert_eq!(ask(&[&bonds[..], &[13, 1]].concat(), &own), Verdict::Differs(12 + 14));
        assert_eq!(ask(&[&[0, 1], &bonds[..]].concat(), &own), Verdict::Differs(12 + 1));
        assert_eq!(ask(&bonds[2..], &own), Verdict::Differs(12 + 12 + 1));
        assert_eq!(ask(&bonds[..24], &own), Verdict::Differs(12 + 12 + 13));
        assert_eq!(ask(&[], &own), Verdict::Differs(12 + 1));
    }
}
