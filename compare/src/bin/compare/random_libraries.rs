//! Random library decks, good and damaged: products against the whole molecule and the assembly, runs against steps.

use crate::archive;
use crate::checker::{Checker, DONE};
use crate::libraries::{ask, other_forms, whole_library, KINDS};
use crate::rankings;
use opinion::library::{read_library, Library};
use opinion::make::damage_bytes::{damage_bytes, damage_records};
use opinion::make::damage_library::damage_library;
use opinion::make::libraries::{random_library, LibraryPlan};
use opinion::make::plan::{write_records, DeckPlan, PlacementPlan};
use opinion::make::random::Random;
use opinion::walk::{sheet_bytes, Walk};

/// A library of at most so many products has each of them looked at.
const FEW: usize = 100;

pub fn run(checker: &mut Checker, seed: u64, first: u64, cases: u64) {
    let (mut good, mut products) = (0, 0);
    for case in first..first + cases {
        let name = format!("library, case {case} (compare --seed {seed} --first {case} --cases 1)");
        checker.case(name, |checker| {
            let random = &mut Random::for_case(seed.rotate_left(12), case);
            let plan = random_library(random);
            if random.once_in(3) {
                good += 1;
                products += good_library(checker, random, &plan);
            } else {
                damaged_library(checker, random, plan);
            }
        });
    }
    println!("libraries: {good} good with {products} products looked at, {} damaged", cases - good);
}

/// Every product of a small library, some of a large one; says how many.
fn good_library(checker: &mut Checker, random: &mut Random, plan: &LibraryPlan) -> usize {
    let deck = plan.bytes();
    let library = read_library(&deck).expect("a good library");
    let count = library.count();
    whole_library(checker, &deck);
    for position in [count, count + 1, count + random.below(5_000), usize::MAX] {
        checker.library_step(ask(&deck, 3, position));
        checker.library_run(ask(&deck, 4, position));
    }
    let kind = *random.pick(&KINDS);
    let looked_at: Vec<usize> = match count {
        0..=FEW => (0..count).collect(),
        _ => (0..6).map(|_| random.below(count)).chain([count - 1]).collect(),
    };
    for &position in &looked_at {
        checker.library_step(ask(&deck, kind, position));
        as_assembly(checker, plan, &library, position);
    }
    let sheets = random.between(1, 12);
    let room = sheets * sheet_bytes(kind) + random.below(sheet_bytes(kind));
    let position = random.below(count);
    checker.library_run(Walk { room, ..ask(&deck, kind, position) });
    in_pieces(checker, random, &deck, kind, count);
    if count <= FEW {
        rankings::questions(checker, random, &deck);
        rankings::in_turn(checker, random, &deck);
    }
    looked_at.len()
}

/// The product's sheet is the one that is written for its assembly in the library record's place, and is accepted there.
fn as_assembly(checker: &mut Checker, plan: &LibraryPlan, library: &Library, position: usize) {
    let mut placements = vec![PlacementPlan::first(plan.core)];
    for (site, chosen) in plan.sites.iter().zip(library.choice(position)) {
        let (number, atom) = site.candidates[chosen];
        placements.push(PlacementPlan::joined(number, 1, site.atom, atom));
    }
    let assembly = DeckPlan { blocks: plan.blocks.clone(), placements, sheet: None }.bytes();
    let (mut of_product, mut of_assembly) = ([0; 44], [0; 44]);
    let product = archive::library_step(&plan.bytes(), 4, position, &mut of_product, &mut [0]);
    let written = archive::write_six(&assembly, &mut of_assembly);
    checker.holds((product, written) == (0, 0), "a product or its assembly is refused");
    checker.holds(of_product == of_assembly, "a product's sheet is not its assembly's");
    let judged = [&assembly[..], &of_product].concat();
    checker.holds(archive::judge(&judged) == 0, "a product's sheet is not accepted");
}

/// The whole library by one run, by runs in pieces of random lengths, and by steps: the same bytes, then done.
fn in_pieces(checker: &mut Checker, random: &mut Random, deck: &[u8], kind: usize, count: usize) {
    let size = sheet_bytes(kind);
    let mut whole = vec![0; count * size];
    let mut next = [0];
    let reply = archive::library_run(deck, kind, 0, &mut whole, &mut next);
    checker.holds((reply, next[0]) == (0, count as u64), "a run with room for all is not to the end");
    let stepped = follow(checker, deck, kind, count, || None);
    checker.holds(stepped == whole, "a run is not the steps one after the other");
    let pieces = follow(checker, deck, kind, count, || Some(size * random.between(1, 20) + random.below(size)));
    checker.holds(pieces == whole, "runs in pieces are not the whole run");
}

/// What is written from position 0 on until it is done, each call at the position that the last handed back: by runs of so
/// much room, or by steps.
fn follow(
    checker: &mut Checker,
    deck: &[u8],
    kind: usize,
    count: usize,
    mut room: impl FnMut() -> Option<usize>,
) -> Vec<u8> {
    let (mut all, mut next) = (Vec::new(), [0]);
    for _ in 0..=count {
        let before = next[0] as usize;
        let (mut out, reply);
        if let Some(room) = room() {
            out = vec![0; room];
            reply = archive::library_run(deck, kind, before, &mut out, &mut next);
        } else {
            out = vec![0; sheet_bytes(kind)];
            reply = archive::library_step(deck, kind, before, &mut out, &mut next);
        }
        if reply != 0 {
            checker.holds(reply == DONE && before == count, "not done at the end");
            return all;
        }
        all.extend_from_slice(&out[..(next[0] as usize - before) * sheet_bytes(kind)]);
    }
    checker.holds(false, "never done");
    all
}

fn damaged_library(checker: &mut Checker, random: &mut Random, mut plan: LibraryPlan) {
    for _ in 0..random.between(1, 2) {
        damage_library(random, &mut plan);
    }
    let mut records = plan.records();
    if random.once_in(4) {
        damage_records(random, &mut records);
    }
    let mut bytes = write_records(&records);
    if random.once_in(4) {
        damage_bytes(random, &mut bytes);
    }
    let room = random.below(8).min(2);
    checker.library_count(&bytes, room);
    for _ in 0..2 {
        let kind = *random.pick(&KINDS);
        let sheets = random.below(3) * sheet_bytes(kind);
        let walk = Walk {
            room: if random.once_in(6) { random.below(50) } else { sheets + sheet_bytes(kind) },
            entries: random.below(8).min(2),
            ..ask(&bytes, kind, random.below(4))
        };
        checker.library_step(walk);
        checker.library_run(walk);
    }
    if read_library(&bytes).map_or(0, |library| library.count()) <= FEW {
        rankings::questions(checker, random, &bytes);
    }
    if random.once_in(4) {
        other_forms(checker, &bytes);
    }
}
