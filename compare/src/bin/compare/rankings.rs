//! The best products of library decks: lent numbers of every length, what is held in order and in none, decks in turn, and shards.

use crate::archive;
use crate::checker::Checker;
use opinion::library::read_library;
use opinion::make::library_specimens::TWO_PRODUCTS;
use opinion::make::random::Random;
use opinion::ranking::{best, entries, first, Ask, Entry};

/// A ranking of the best three by W, from none.
fn ask<'a>(deck: &'a [u8], entries: &'a [u64]) -> Ask<'a> {
    Ask { deck, field: 2, greatest: 0, tag: 7, entries, held: Some(0) }
}

/// Every field, room and number held about what is there, on a deck that is good, refused and too long.
pub fn run(checker: &mut Checker) {
    let (good, refused, long) = (TWO_PRODUCTS.to_vec(), TWO_PRODUCTS[..52].to_vec(), vec![0; 32_769]);
    let numbers: Vec<u64> = (0..16).map(|at| 50 * (at / 3) + at % 3).collect();
    for room in 0..=numbers.len() {
        checker.case(format!("two products into {room} numbers"), |checker| {
            for deck in [&good, &refused, &long] {
                for field in [0, 1, 2, 6, 7, 255, 256, 258, 1 << 32, usize::MAX] {
                    for held in [None, Some(0), Some(1), Some(2), Some(5), Some(6), Some(1 << 32), Some(u64::MAX)] {
                        let tag = u64::MAX - room as u64;
                        checker.library_best(Ask { field, tag, held, ..ask(deck, &numbers[..room]) });
                    }
                }
                for greatest in [0, 1, 2, 256, 1 << 32, usize::MAX] {
                    checker.library_best(Ask { greatest, held: Some(2), ..ask(deck, &numbers[..room]) });
                }
            }
        });
    }
}

/// Some random questions of a deck, good or not.
pub fn questions(checker: &mut Checker, random: &mut Random, deck: &[u8]) {
    for _ in 0..2 {
        let entries = some_entries(random);
        let held = match random.below(12) {
            0 => None,
            1 => Some(u64::MAX - random.below(3) as u64),
            _ => Some(random.below(entries.len() / 3 + 3) as u64),
        };
        let field = if random.once_in(12) { random.below(300) } else { random.between(1, 6) };
        let greatest = if random.once_in(4) { usize::MAX } else { random.below(2) };
        checker.library_best(Ask { deck, field, greatest, tag: random.below(1000) as u64, entries: &entries, held });
    }
}

/// Numbers for up to some thirty entries, their values such as products have, in order one way or the other or in none.
fn some_entries(random: &mut Random) -> Vec<u64> {
    let count = if random.once_in(6) { 0 } else { random.between(1, 30) };
    let mut values: Vec<u64> = (0..count).map(|_| random.below(2_000) as u64).collect();
    match random.below(3) {
        0 => values.sort_unstable(),
        1 => values.sort_unstable_by_key(|value| u64::MAX - value),
        _ => {}
    }
    let mut numbers: Vec<u64> =
        values.iter().flat_map(|&value| [value, random.below(9) as u64, random.below(99) as u64]).collect();
    numbers.extend((0..random.below(3)).map(|at| at as u64));
    numbers
}

/// A deck ranked several times in turn under its own tags; and as shards, each ranked apart, whose best are then put in order. Both are
/// all products in order.
pub fn in_turn(checker: &mut Checker, random: &mut Random, deck: &[u8]) {
    let room = random.between(1, 40);
    let (field, greatest) = (random.between(1, 6), random.below(2));
    let turns = random.between(2, 4);
    let (mut numbers, mut held) = (vec![0; 3 * room], [0]);
    let (mut shards, mut all): (Vec<Entry>, Vec<Entry>) = (Vec::new(), Vec::new());
    let count = read_library(deck).expect("a good library").count();
    for tag in 0..turns as u64 {
        let reply = archive::library_best(deck, field, greatest, tag, &mut numbers, &mut held);
        let (mut apart, mut many) = (vec![0; 3 * room], [0]);
        let other = archive::library_best(deck, field, greatest, tag, &mut apart, &mut many);
        checker.holds((reply, other) == (0, 0), "a good library is not ranked");
        shards.extend(entries(&apart, many[0] as usize));
        let empty = vec![0; 3 * count];
        let each = Ask { deck, field, greatest, tag, entries: &empty, held: Some(0) };
        all.extend(best(&mut checker.measurer, each).expect("a good library"));
    }
    all.sort_by_key(|entry| (entry[1], entry[2]));
    let right = first(Vec::new(), all, greatest != 0, room);
    checker.holds(entries(&numbers, held[0] as usize) == right, "decks in turn are not their products joined");
    checker
        .holds(first(Vec::new(), shards, greatest != 0, room) == right, "the best of shards are not the best of all");
}
