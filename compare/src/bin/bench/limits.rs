//! The stack that each function takes on the largest inputs, and whether the archive asks for heap memory.

use crate::{archive, libraries, opened, queues, stack};
use opinion::block::MOST_BONDS;
use opinion::make::plan::DeckPlan;
use opinion::make::shapes;
use opinion::queues::{SIX, TABLE};
use std::fs;

pub const MOST_STACK: usize = 64 << 10; // TTEUYOMAL_STACK_BYTES

/// Prints a row for each function, measured over these decks and over large blocks.
pub fn stack(decks: &[&DeckPlan]) {
    let judged: Vec<Vec<u8>> = decks.iter().map(|deck| opened(deck).1).collect();
    let decks: Vec<Vec<u8>> = decks.iter().map(|deck| deck.bytes()).collect();
    let libraries = [libraries::largest().bytes()];
    let (table, record) = queues::largest();
    let blocks = [shapes::path(64), shapes::double_ring(64), shapes::cube(6), shapes::doubling(32)];
    let blocks = blocks.map(|block| block.bond_bytes());
    let rows = [
        ("judge", most(&judged, archive::judge)),
        ("write_sheet", most(&decks, |deck| archive::write_sheet(deck, &mut [0; 40]))),
        ("write_six", most(&decks, |deck| archive::write_six(deck, &mut [0; 44]))),
        ("compose", most(&decks, |deck| archive::compose(deck, &mut [0; 5]))),
        ("placed_distance", most(&decks, |deck| archive::placed_distance(deck, [1, 1, 32, 64], &mut [0]))),
        ("library_count", most(&libraries, |deck| archive::library_count(deck, &mut [0]))),
        ("library_step", most(&libraries, |deck| archive::library_step(deck, 4, 0, &mut [0; 44], &mut [0]))),
        ("library_run", most(&libraries, |deck| archive::library_run(deck, 4, 0, &mut [0; 440], &mut [0]))),
        ("check_block", most(&blocks, |bonds| archive::check_block(64, bonds))),
        ("indices", most(&blocks, |bonds| archive::indices(64, bonds, &mut [0; 5]))),
        ("vertex", most(&blocks, |bonds| archive::vertex(64, bonds, 64, &mut [0; 7]))),
        ("farthest", most(&blocks, |bonds| archive::farthest(64, bonds, 64, &mut [0]))),
        ("contributions", most(&blocks, |bonds| archive::contributions(64, bonds, &mut [0; MOST_BONDS], &mut [0]))),
        ("szeged", most(&blocks, |bonds| archive::szeged(64, bonds, &mut [0; MOST_BONDS], &mut [0]))),
        ("balaban", most(&blocks, |bonds| archive::balaban(64, bonds, &mut [0]))),
        ("polynomial", most(&blocks, |bonds| archive::polynomial(64, bonds, 0.5, &mut [0.0; 2]))),
        ("queue_empty", most(&[table.clone()], |table| archive::queue_empty(&mut table.to_vec()))),
        ("queue_add", most(&blocks, |bonds| archive::queue_add(&mut vec![0; TABLE], 0, 1, 64, bonds))),
        ("queue_look", most(&[table.clone()], |table| archive::queue_look(table, 1, 8, &mut [0; 6]))),
        ("queue_drop", most(&[table.clone()], |table| archive::queue_drop(&mut table.to_vec(), 1, 8))),
        ("queue_compose", most(&[record], |record| archive::queue_compose(&table, 1, SIX, record, &mut [0; 44]))),
        ("count_sets", most(&blocks, |bonds| archive::count_sets(64, bonds, &mut [0; 2]))),
    ];
    println!("| Function | bytes of stack | goal | |");
    println!("|---|---|---|---|");
    for (name, used) in rows {
        let met = if used <= MOST_STACK { "met" } else { "MISSED" };
        println!("| {name} | {used} | {MOST_STACK} | {met} |");
    }
}

/// The most stack over these inputs.
fn most(inputs: &[Vec<u8>], call: impl Fn(&[u8]) -> u64) -> usize {
    let used = |input: &Vec<u8>| {
        stack::bytes_used(|| {
            call(input);
        })
    };
    inputs.iter().map(used).max().unwrap_or(0)
}

/// Looks in the archive for the names of functions that give memory.
pub fn heap() {
    let archive = fs::read(env!("TTEUYOMAL_ARCHIVE")).expect("the archive that was linked");
    let named = |name: &&&str| archive.windows(name.len() + 1).any(|part| part == format!("{name}\0").as_bytes());
    let found: Vec<&&str> = ["malloc", "calloc", "realloc", "mmap", "brk"].iter().filter(named).collect();
    if found.is_empty() {
        println!("Heap: the archive names no function that gives memory: met.");
    } else {
        println!("Heap: the archive names {found:?}: MISSED.");
    }
}
