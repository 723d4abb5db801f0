//! Claims of decks and of blocks: by hand, cut at every length, and random ones, good and damaged.

use crate::archive;
use crate::checker::{hex, Checker};
use crate::lent::Shown;
use opinion::answers::Verdict;
use opinion::claims;
use opinion::deck::{read_deck, Form};
use opinion::documents::FORTY;
use opinion::make::blocks::random_block;
use opinion::make::claims::random_claims;
use opinion::make::damage::damage_block;
use opinion::make::damage_bytes::damage_bytes;
use opinion::make::decks::random_deck;
use opinion::make::random::Random;
use opinion::make::shapes;
use opinion::molecule::write_out;

pub fn run(checker: &mut Checker, seed: u64, first: u64, cases: u64) {
    named(checker);
    cuts(checker);
    for case in first..first + cases {
        let name = format!("random claims {case} (compare --seed {seed} --first {case} --cases 1)");
        checker.case(name, |checker| {
            let random = &mut Random::for_case(seed ^ 0x636C_6169, case);
            blocks(checker, random);
            if random.once_in(4) {
                decks(checker, random);
            }
        });
    }
}

fn code(verdict: Verdict) -> u64 {
    match verdict {
        Verdict::Accepted => 0,
        Verdict::Differs(claim) => 255 + 256 * claim,
        Verdict::Refused(refusal) => refusal.number + 256 * refusal.place,
    }
}

pub fn judge_claims(checker: &mut Checker, deck: &[u8], list: &[u8]) {
    let (shown, lent) = (Shown::new(deck), Shown::new(list));
    let reply = archive::judge_claims(shown.part(), lent.part());
    checker.holds(shown.is_still(deck) && lent.is_still(list), "an input was changed");
    let right = code(claims::of_deck(&mut checker.measurer, deck, list));
    checker.agree_claims(|| format!("judge_claims {} of {}", hex(list), hex(deck)), right, reply);
}

pub fn judge_block(checker: &mut Checker, atoms: usize, bonds: &[u8], list: &[u8]) {
    let (shown, lent) = (Shown::new(bonds), Shown::new(list));
    let reply = archive::judge_block(atoms, shown.part(), lent.part());
    checker.holds(shown.is_still(bonds) && lent.is_still(list), "an input was changed");
    let right = code(claims::of_block(atoms, bonds, list));
    checker.agree_claims(|| format!("judge_block {} of {atoms} {}", hex(list), hex(bonds)), right, reply);
}

fn written(list: &[(u8, &str)]) -> Vec<u8> {
    list.iter().flat_map(|(field, text)| [&[*field, text.len() as u8], text.as_bytes()].concat()).collect()
}

/// Claims of a path of 4, each beside what is right, written by hand.
fn named(checker: &mut Checker) {
    let path = shapes::path(4).bond_bytes();
    let ring = shapes::ring(6).bond_bytes();
    let of_path: [(&[(u8, &str)], u64); 14] = [
        (
            &[
                (1, "4"),
                (2, "10"),
                (3, "4"),
                (4, "6"),
                (5, "1"),
                (6, "3"),
                (7, "10"),
                (8, "5"),
                (9, "8"),
                (10, "1.974744871"),
            ],
            0,
        ),
        (&[(10, "1.98"), (10, "1.9747"), (10, "2"), (10, "1."), (10, "1.97474487139158904909")], 0),
        (&[(10, "1.99")], 255 + 256),
        (&[(10, "1.974744868")], 255 + 256),
        (&[(10, "1.974744869")], 0),
        (&[(10, "1.974744881"), (10, "1.974744882")], 255 + 512),
        (&[(2, "10.0"), (2, "11"), (1, "5")], 255 + 512),
        (&[], 36),
        (&[(2, "11"), (0, "4")], 35 + 512),
        (&[(2, "11"), (11, "4")], 35 + 512),
        (&[(2, "11"), (3, "nan"), (11, "4")], 37 + 512),
        (&[(2, "18446744073709551615")], 255 + 256),
        (&[(2, "18446744073709551616")], 37 + 256),
        (&[(10, "18446744073.709551616")], 37 + 256),
    ];
    for (at, (list, right)) in of_path.iter().enumerate() {
        checker.case(format!("claims {at} by hand"), |checker| {
            let list = written(list);
            checker.holds(
                code(claims::of_block(4, &path, &list)) == *right,
                "the second opinion is not what was written by hand",
            );
            judge_block(checker, 4, &path, &list);
            judge_block(checker, 6, &ring, &list);
            judge_claims(checker, &FORTY, &list);
        });
    }
    checker.case("a tree is asked for after all claims are read", |checker| {
        for list in [written(&[(2, "1"), (9, "18")]), written(&[(8, "1"), (2, "x")]), written(&[(8, "18")])] {
            judge_block(checker, 6, &ring, &list);
            judge_block(checker, 2, &[], &list);
        }
    });
}

/// Claims cut at every length, and with every byte there is in each place.
fn cuts(checker: &mut Checker) {
    let list = written(&[(1, "12"), (2, " 198.0"), (6, "7")]);
    checker.case("claims cut at every length", |checker| {
        for length in 0..=list.len() {
            judge_claims(checker, &FORTY, &list[..length]);
            judge_block(checker, 4, &shapes::path(4).bond_bytes(), &list[..length]);
        }
    });
    for at in 0..list.len() {
        checker.case(format!("claims with every byte at {at}"), |checker| {
            for byte in 0..=255 {
                let mut list = list.clone();
                list[at] = byte;
                judge_claims(checker, &FORTY, &list);
            }
        });
    }
}

fn blocks(checker: &mut Checker, random: &mut Random) {
    let size = if random.once_in(8) { 64 } else { 16 };
    let mut block = random_block(random, size);
    let (graph, fields) = claims::block_fields(block.atoms as usize, &block.bond_bytes()).expect("a good block");
    let tree = graph.bonds.len() + 1 == graph.atoms;
    if random.once_in(10) {
        damage_block(random, &mut block);
    }
    let (atoms, bonds) = (block.atoms as usize, block.bond_bytes());
    for _ in 0..4 {
        let list = random_claims(random, &fields, tree);
        judge_block(checker, atoms, &bonds, &list);
    }
}

fn decks(checker: &mut Checker, random: &mut Random) {
    let mut deck = random_deck(random).bytes();
    let read = read_deck(&deck, Form::Composed).expect("a good deck");
    let fields: Vec<(u128, u128)> =
        checker.measurer.indices(write_out(&read)).six().map(|one| (one as u128, one as u128)).into();
    if random.once_in(10) {
        damage_bytes(random, &mut deck);
    }
    for _ in 0..4 {
        let list = random_claims(random, &fields, true);
        judge_claims(checker, &deck, &list);
    }
}
