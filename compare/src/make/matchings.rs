//! A molecule beside a deck and a matching of their atoms: right ones, and ones that are damaged in every way.

use super::random::Random;
use super::relisted::listed;
use crate::deck::{read_deck, Deck, Form};
use crate::graph::Graph;
use crate::molecule::write_out;

/// What is held against a deck: the bonds of a molecule as a list of ends, and for each atom its placement and its atom there.
#[derive(Clone)]
pub struct Matching {
    pub deck: Vec<u8>,
    pub atoms: usize,
    pub bonds: Vec<u16>,
    pub pairs: Vec<u16>,
}

/// The placed atoms of a deck, in the order in which its molecule is written out.
fn placed(deck: &Deck) -> Vec<[u16; 2]> {
    let atoms =
        |(at, block): (usize, usize)| (1..=deck.blocks[block].atoms).map(move |atom| [at as u16 + 1, atom as u16]);
    deck.placements.iter().map(|one| one.block).enumerate().flat_map(atoms).collect()
}

/// A right matching: the molecule of the deck with its atoms numbered anew, its bonds turned round and in another order; in some the
/// deck is another one of the same molecule, cut at other bonds.
pub fn random_matching(random: &mut Random, deck: &[u8]) -> Matching {
    let read = read_deck(deck, Form::Composed).expect("a good deck");
    let molecule = write_out(&read);
    let other = if random.once_in(3) { listed(random, &molecule) } else { None };
    if let Some(other) = other {
        let deck = other.deck.bytes();
        let placed = placed(&read_deck(&deck, Form::Composed).expect("a good deck"));
        let pairs = other.names[1..].iter().flat_map(|&name| placed[name - 1]).collect();
        return Matching { deck, atoms: molecule.atoms, bonds: ends(random, &molecule, None), pairs };
    }
    let mut names: Vec<usize> = (1..=molecule.atoms).collect();
    random.shuffle(&mut names);
    let mut pairs = vec![0; 2 * molecule.atoms];
    for (at, two) in placed(&read).into_iter().enumerate() {
        pairs[2 * names[at] - 2..2 * names[at]].copy_from_slice(&two);
    }
    let bonds = ends(random, &molecule, Some(&names));
    Matching { deck: deck.to_vec(), atoms: molecule.atoms, bonds, pairs }
}

/// The ends of the bonds, under other names where there are such.
fn ends(random: &mut Random, molecule: &Graph, names: Option<&[usize]>) -> Vec<u16> {
    let named = |atom: usize| names.map_or(atom, |names| names[atom - 1]) as u16;
    let mut bonds: Vec<[u16; 2]> = molecule.bonds.iter().map(|&(u, v)| [named(u), named(v)]).collect();
    if random.once_in(2) {
        random.shuffle(&mut bonds);
    }
    for bond in &mut bonds {
        if random.once_in(2) {
            bond.swap(0, 1);
        }
    }
    bonds.into_iter().flatten().collect()
}

/// One damage, which need not make it wrong: a bond may be listed twice, two atoms may be alike, and more may follow than is read.
pub fn damage_matching(random: &mut Random, one: &mut Matching) {
    let (atom, count) = (random.below(one.atoms), one.bonds.len() / 2);
    let ends = one.atoms + 2;
    let any = |random: &mut Random| random.below(ends) as u16;
    match random.below(16) {
        0 => one.atoms = *random.pick(&[0, one.atoms - 1, one.atoms + 1, one.pairs.len() / 2 + 1, usize::MAX, 1 << 63]),
        1 => one.pairs.truncate(random.below(2 * one.atoms)),
        2 => one.pairs[2 * atom] = *random.pick(&[0, 33, 32, 255, 65_535, one.pairs[2 * atom] + 1]),
        3 => one.pairs[2 * atom + 1] = *random.pick(&[0, 65, 64, 256, 65_535, one.pairs[2 * atom + 1] + 1]),
        4 => one.pairs[2 * atom + 1] += *random.pick(&[256, 4096]),
        5 | 6 => {
            let other = random.below(one.atoms);
            let two = [one.pairs[2 * other], one.pairs[2 * other + 1]];
            one.pairs[2 * atom..2 * atom + 2].copy_from_slice(&two);
        }
        7 | 8 => {
            let other = random.below(one.atoms);
            one.pairs.swap(2 * atom, 2 * other);
            one.pairs.swap(2 * atom + 1, 2 * other + 1);
        }
        9 | 10 if count > 0 => {
            let at = random.below(count);
            one.bonds.drain(2 * at..2 * at + 2);
        }
        11 => {
            let at = 2 * random.below(count + 1);
            let bond = *random.pick(&[[0, 1], [1, 0], [1, 65_535], [1, one.atoms as u16 + 1], [1, 1]]);
            one.bonds.splice(at..at, bond);
        }
        12 => {
            let bond = [any(random), any(random)];
            one.bonds.extend(bond);
        }
        13 if count > 0 => {
            let at = random.below(one.bonds.len());
            one.bonds[at] = any(random);
        }
        14 => one.pairs.extend([9, 9, 9]),
        _ => one.bonds.push(any(random)),
    }
}

#[cfg(test)]
mod tests {
    use super::*;
    use crate::answers::Verdict;
    use crate::make::decks::random_deck;
    use crate::matched::matched;

    /// Right matchings are right, and damage makes every kind of place.
    #[test]
    fn places() {
        let mut met = [0; 6];
        for seed in 0..400 {
            let random = &mut Random::new(seed);
            let deck = random_deck(random).bytes();
            let mut one = random_matching(random, &deck);
            assert_eq!(matched(&one.deck, one.atoms, &one.bonds, &one.pairs), Verdict::Accepted);
            damage_matching(random, &mut one);
            let (n, m) = (one.atoms as u64, one.bonds.len() as u64 / 2);
            met[match matched(&one.deck, one.atoms, &one.bonds, &one.pairs) {
                Verdict::Accepted => 0,
                Verdict::Refused(_) => 1,
                Verdict::Differs(0) => 2,
                Verdict::Differs(place) if place <= n => 3,
                Verdict::Differs(place) if place <= n + m => 4,
                Verdict::Differs(_) => 5,
            }] += 1;
        }
        assert!(met.iter().all(|&times| times > 5), "{met:?}");
    }
}
