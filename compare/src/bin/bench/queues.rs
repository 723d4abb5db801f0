//! Two queues at one table: adding a block beside its indices, composing beside the sheet of the same deck, and a look-up.

use crate::timing::medians;
use crate::{archive, duration, libraries, many_blocks, row};
use opinion::make::plan::{write_records, BlockPlan, DeckPlan, PlacementPlan};
use opinion::make::shapes;
use opinion::queues::{FIVE, TABLE};
use std::hint::black_box;

const NIGHT: usize = 1;
const LOOK_SECONDS: f64 = 0.1e-6;

/// Prints the rows, and says the line about looking up.
pub fn times() -> String {
    for (name, block) in [
        ("64 atoms, 128 bonds", shapes::double_ring(64)),
        ("64 atoms, 192 bonds", shapes::cube(6)),
        ("path of 64", shapes::path(64)),
        ("ring of 20", shapes::ring(20)),
        ("ring of 6", shapes::ring(6)),
    ] {
        time_adding(name, &block, 1.0 / 1.5);
    }
    for (name, deck) in [
        ("eight blocks of 64 atoms in 32 placements", many_blocks(64, 8, 32)),
        ("five blocks of 20 atoms", many_blocks(20, 5, 5)),
        ("two rings of 6", shapes::chained(shapes::ring(6), 2, 1, 1)),
    ] {
        time_composing(name, &deck, 1.0);
    }
    time_product(1.0);
    time_looking()
}

fn add(table: &mut [u8], block: &BlockPlan) {
    assert_eq!(archive::queue_add(table, NIGHT, block.number, block.atoms as usize, &block.bond_bytes()), 0);
}

/// A table with the blocks of a deck, and its assembly's record.
fn held(deck: &DeckPlan) -> (Vec<u8>, Vec<u8>) {
    let mut table = vec![0; TABLE];
    for block in &deck.blocks {
        add(&mut table, block);
    }
    (table, write_records(&[deck.records().pop().expect("an assembly")]))
}

/// As much as a queue may hold and compose.
pub fn largest() -> (Vec<u8>, Vec<u8>) {
    held(&many_blocks(64, 8, 32))
}

/// A block added in the last place, whose number is set to 0 before, beside its indices.
fn time_adding(name: &str, block: &BlockPlan, goal: f64) {
    let (atoms, bonds) = (block.atoms as usize, block.bond_bytes());
    let mut table = vec![0; TABLE];
    for number in 1..=8 {
        add(&mut table, &BlockPlan { number, ..block.clone() });
    }
    let mut fields = [0; 5];
    let last = TABLE / 16 * 15;
    let mut again = || {
        table[last..last + 2].fill(0);
        assert_eq!(archive::queue_add(black_box(&mut table), NIGHT, 8, atoms, black_box(&bonds)), 0);
    };
    let mut indices = || {
        black_box(archive::indices(atoms, black_box(&bonds), &mut fields));
    };
    row(&format!("add beside indices, {name}"), medians(&mut again, &mut indices), goal);
}

/// The sheet of an assembly over blocks that a queue holds, beside writing the sheet of the deck of both.
fn time_composing(name: &str, deck: &DeckPlan, goal: f64) {
    let (table, record) = held(deck);
    let bytes = deck.bytes();
    let (mut composed, mut written) = ([0; 40], [0; 40]);
    assert_eq!(archive::queue_compose(&table, NIGHT, FIVE, &record, &mut composed), 0);
    assert_eq!((archive::write_sheet(&bytes, &mut written), written), (0, composed));
    let mut compose = || {
        black_box(archive::queue_compose(black_box(&table), NIGHT, FIVE, black_box(&record), &mut composed));
    };
    let mut write = || {
        black_box(archive::write_sheet(black_box(&bytes), &mut written));
    };
    row(&format!("queue's sheet beside the deck's, {name}"), medians(&mut compose, &mut write), goal);
}

/// The sheet of a library's first product from a queue that holds its blocks, beside a step of the library.
fn time_product(goal: f64) {
    let plan = libraries::library();
    let library = plan.bytes();
    let joined = plan.sites.iter().map(|site| {
        let (number, own) = site.candidates[0];
        PlacementPlan::joined(number, 1, site.atom, own)
    });
    let placements: Vec<PlacementPlan> = [PlacementPlan::first(plan.core)].into_iter().chain(joined).collect();
    let (table, record) = held(&DeckPlan { blocks: plan.blocks[..8].to_vec(), placements, sheet: None });
    let (mut composed, mut stepped, mut next) = ([0; 40], [0; 40], [0]);
    assert_eq!(archive::queue_compose(&table, NIGHT, FIVE, &record, &mut composed), 0);
    assert_eq!((archive::library_step(&library, FIVE, 0, &mut stepped, &mut next), stepped), (0, composed));
    let mut compose = || {
        black_box(archive::queue_compose(black_box(&table), NIGHT, FIVE, black_box(&record), &mut composed));
    };
    let mut step = || {
        black_box(archive::library_step(black_box(&library), FIVE, 0, &mut stepped, &mut next));
    };
    row("queue's sheet beside a library's step, core of 20 and four of 10", medians(&mut compose, &mut step), goal);
}

/// The number in the last place of eight.
fn time_looking() -> String {
    let mut table = vec![0; TABLE];
    for number in 1..=8 {
        add(&mut table, &BlockPlan { number, ..shapes::ring(6) });
    }
    let mut fields = [0; 6];
    let mut look = || {
        assert_eq!(archive::queue_look(black_box(&table), NIGHT, 8, &mut fields), 0);
    };
    let [taken, _] = medians(&mut look, &mut || {});
    let met = if taken < LOOK_SECONDS { "met" } else { "MISSED" };
    format!(
        "A queue's look-up in its last place takes {:.1} ns (goal under {}: {met}).",
        taken * 1e9,
        duration(LOOK_SECONDS)
    )
}
