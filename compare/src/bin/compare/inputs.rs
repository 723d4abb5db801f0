//! Bytes as calls of the library: what a fuzzer changes and keeps. Every bytes are some call, so none is wasted.
//!
//! The first byte says which function, seven more say rooms and numbers, and the rest is the deck, the bonds, the text or the
//! calls of two queues. `compare` makes the calls of the inputs that `compare/fuzz` kept (compare/corpus.txt), `compare/fuzz`
//! finds new ones.

use crate::checker::Checker;
use crate::queues::{self, Call};
use crate::{claims, sdf, whole};
use opinion::block::MOST_BONDS;
use opinion::make::matchings::Matching;
use opinion::queues::{sheet_bytes, FIVE, SIX};
use opinion::ranking::Ask;
use opinion::walk::Walk;
use std::borrow::Cow;

const HEAD: usize = 8;
const KEPT: &str = include_str!("../../../corpus.txt");

/// Makes the calls of the inputs that were kept, each a line of hexadecimal digits.
pub fn run(checker: &mut Checker) {
    for (at, line) in KEPT.lines().enumerate() {
        checker.case(format!("kept input {}", at + 1), |checker| {
            let digits = |at: usize| u8::from_str_radix(&line[at..at + 2], 16).expect("hexadecimal digits");
            call(checker, &(0..line.len()).step_by(2).map(digits).collect::<Vec<u8>>());
        });
    }
}

/// Makes the call that these bytes say. Fewer than eight are none.
pub fn call(checker: &mut Checker, input: &[u8]) {
    let Some((head, rest)) = input.split_first_chunk::<HEAD>() else { return };
    let [which, room, other, a, b, c, d, more] = *head;
    let (a, b, c, d) = (a as usize, b as usize, c as usize, d as usize);
    let longer = lengthened(rest, 16_500 * more.saturating_sub(0xFD) as usize);
    let data = &longer[..];
    let bonds = (data.len() / 2).min(MOST_BONDS + 1);
    match which % 32 {
        0 => checker.judge(data),
        1 => checker.write_sheet(data, about(room, 40)),
        2 => checker.compose(data, about(room, 5)),
        3 => checker.write_six(data, about(room, 44)),
        4 => checker.compose_six(data, about(room, 6)),
        5 => checker.placed_distance(data, [a, b, c, d], about(room, 1)),
        6 => checker.library_count(data, about(room, 1)),
        7 => checker.library_step(walk(data, [a, b, c, d], about(room, 44), about(other, 1))),
        8 => checker.library_run(walk(data, [a, b, c, d], 2 * room as usize, about(other, 1))),
        9 => checker.check_block(a, data),
        10 => checker.indices(a, data, about(room, 5)),
        11 => checker.vertex(a, data, b, about(room, 7)),
        12 => checker.farthest(a, data, b, about(room, 1)),
        13 => checker.contributions(a, data, about(room, bonds), about(other, 1)),
        14 => checker.szeged(a, data, about(room, bonds), about(other, 1)),
        15 => checker.balaban(a, data, about(room, 1)),
        16 => polynomial(checker, a, data, about(room, 2)),
        17 => checker.count_sets(a, data, about(room, 2)),
        18 => checker.read_molfile(data, about(room, 384), about(other, 2)),
        19 => checker.write_molfile(a, data, about(room, 50 + 70 * a.min(64) + 22 * bonds), about(other, 1)),
        20 => checker.read_neighbours(data, about(room, 384), about(other, 2)),
        21 => checker.write_neighbours(
            a,
            data,
            if room < 0x80 { 1024 } else { 4 * (room as usize - 0x80) },
            about(other, 1),
        ),
        22 | 23 => queues::calls(checker, (which % 2) as usize * 3, &queue_calls(data)),
        24 => {
            let (list, deck) = data.split_at(b.min(data.len()));
            claims::judge_claims(checker, deck, list);
        }
        25 => {
            let (list, bonds) = data.split_at(b.min(data.len()));
            claims::judge_block(checker, a, bonds, list);
        }
        26 => sdf::record(checker, data, b + (c << 8), about(room, 3)),
        27 => {
            let (name, text) = data.split_at((b % 32).min(data.len()));
            sdf::item(checker, text, name, about(room, 2));
        }
        29 => whole::read_whole(checker, data, about(room, 1998), about(other, 2)),
        30 => whole::written_out(checker, data, about(room, 400), about(other, 2)),
        31 => whole::matched(checker, &matching(data, a, [b, c, d])),
        _ => best(checker, data, [a, b, c], (room, other)),
    }
}

/// The first bytes are the numbers of a list of bonds, the next those of a matching, a byte each; the rest is the deck. The last number
/// is taken 256 times, so that a number above a byte comes too.
fn matching(data: &[u8], atoms: usize, [bonds, pairs, far]: [usize; 3]) -> Matching {
    let (list, rest) = data.split_at(bonds.min(data.len()));
    let (pairs, deck) = rest.split_at(pairs.min(rest.len()));
    let numbers = |bytes: &[u8]| bytes.iter().map(|&byte| byte as u16).collect::<Vec<u16>>();
    let (bonds, mut pairs) = (numbers(list), numbers(pairs));
    if let (Some(last), 0xF0..) = (pairs.last_mut(), far) {
        *last <<= 8;
    }
    Matching { deck: deck.to_vec(), atoms: if far == 0xE0 { usize::MAX } else { atoms }, bonds, pairs }
}

/// With so many zeros behind it.
fn lengthened(data: &[u8], zeros: usize) -> Cow<'_, [u8]> {
    match zeros {
        0 => Cow::Borrowed(data),
        _ => Cow::Owned([data, &vec![0; zeros]].concat()),
    }
}

/// What is needed, or near it, or any number up to it.
fn about(room: u8, needed: usize) -> usize {
    match room {
        0..=0x7F => needed,
        0x80..=0x8F => (needed + room as usize).saturating_sub(0x88),
        _ => needed * (room as usize - 0x90) / 0x70,
    }
}

fn walk(deck: &[u8], [kind, low, high, far]: [usize; 4], room: usize, entries: usize) -> Walk<'_> {
    Walk { deck, kind, position: low + (high << 8) + if far == 0xFF { usize::MAX / 2 } else { 0 }, room, entries }
}

/// The best products of a library that has few, added to some entries that are there, whatever they are.
fn best(checker: &mut Checker, deck: &[u8], [field, greatest, tag]: [usize; 3], (room, held): (u8, u8)) {
    if opinion::walk::count(deck, 1).is_ok_and(|count| count > 40) {
        return;
    }
    let entries: Vec<u64> = (0..room as u64 % 25).map(|at| (at * 37 + tag as u64) % 400).collect();
    let held = (held < 0xF0).then_some(held as u64 % 10);
    checker.library_best(Ask { deck, field, greatest: greatest % 3, tag: tag as u64, entries: &entries, held });
}

/// The first eight bytes are x.
fn polynomial(checker: &mut Checker, atoms: usize, data: &[u8], room: usize) {
    if let Some((x, bonds)) = data.split_first_chunk() {
        checker.polynomial(atoms, bonds, f64::from_le_bytes(*x), room);
    }
}

/// Calls of two queues: whose, a number, and what the call takes.
fn queue_calls(mut data: &[u8]) -> Vec<(usize, Call)> {
    let mut calls = Vec::new();
    while let (Some((&[what, number, size, atoms], rest)), true) = (data.split_first_chunk(), calls.len() < 40) {
        let (lent, behind) = rest.split_at(rest.len().min(size as usize));
        let number = if number == 0xFF { 256 } else { number as u16 };
        let (call, taken) = match what / 2 % 8 {
            0..=2 => (Call::Add(number, atoms as usize, lent.to_vec()), true),
            3 => (Call::Look(number, about(atoms, 6)), false),
            4 => (Call::Drop(number), false),
            5 => (Call::Compose(SIX, lent.to_vec(), about(atoms, sheet_bytes(SIX))), true),
            _ => (Call::Compose(FIVE, lent.to_vec(), about(atoms, sheet_bytes(FIVE))), true),
        };
        calls.push((what as usize % 2, call));
        data = if taken { behind } else { rest };
    }
    calls
}
