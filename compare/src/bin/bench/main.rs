//! Times libtteuyomal.a beside plain search in the same process, and prints the table of docs/BENCHMARKS.md. Run it in release.
//!
//!     bench [claims | libraries]      only the rows of claims and SDFs, or of libraries, where that word is given

#[allow(dead_code)] // the comparison calls every function, this program those it times
#[path = "../../archive.rs"]
mod archive;
mod claims;
mod libraries;
mod limits;
mod molfiles;
mod neighbours;
mod plain;
mod queues;
mod stack;
mod szeged;
mod timing;

use opinion::block::MOST_BONDS;
use opinion::deck::{read_deck, sheet_record, Form};
use opinion::graph::Graph;
use opinion::make::blocks::with_more_bonds;
use opinion::make::decks::{assemble, random_deck};
use opinion::make::plan::{BlockPlan, DeckPlan};
use opinion::make::random::Random;
use opinion::make::shapes;
use opinion::molecule::write_out;
use plain::{Plain, Shares};
use std::hint::black_box;
use szeged::Szeged;
use timing::medians;

fn main() {
    println!("| what | library | times as fast | goal |");
    println!("|---|---|---|---|");
    match std::env::args().nth(1).as_deref() {
        Some("claims") => return println!("\n{}", claims::times()),
        Some("libraries") => return println!("\n{}", libraries::times()),
        _ => {}
    }
    let decks = [
        ("32 paths of 64 atoms", shapes::longest_path(), 150.0),
        ("16 blocks of 64 atoms in 32 placements", many_blocks(64, 16, 32), 30.0),
        ("five blocks of 20 atoms", many_blocks(20, 5, 5), 5.0),
        ("two rings of 6", shapes::chained(shapes::ring(6), 2, 1, 1), 1.0 / 2.0),
    ];
    for (name, deck, goal) in &decks {
        time_deck(name, deck, *goal);
    }
    let rings = [("64 atoms, 128 bonds", shapes::double_ring(64)), ("64 atoms, 192 bonds", shapes::cube(6))];
    for (name, block) in [("path of 64", shapes::path(64))].iter().chain(&rings) {
        time_indices(name, block, 1.0 / 1.5);
    }
    for (name, block) in rings.iter().chain(&[("10 squares", shapes::squares(10))]) {
        time_shares(name, block, 1.0 / 3.0);
    }
    for (name, block) in [("64 atoms, 128 bonds", shapes::double_ring(64)), ("path of 64", shapes::path(64))] {
        time_szeged(name, &block, 1.0 / 1.5);
    }
    time_balaban("64 atoms, 128 bonds", &shapes::double_ring(64), 1.0 / 1.5);
    time_sets("path of 64", &shapes::path(64), 1.0 / 1.5);
    let products = libraries::times();
    let look = queues::times();
    let growth = molfiles::times();
    neighbours::times();
    let walked = claims::times();
    println!();
    println!("{growth}");
    println!();
    println!("{walked}");
    println!();
    println!("{products}");
    println!();
    println!("{look}");
    println!();
    let (decks_judged, atoms) = decks_a_second();
    println!("Judged in a second: {decks_judged:.0} random decks of {atoms:.0} atoms on average.");
    println!();
    limits::stack(&[&decks[0].1, &decks[1].1]);
    molfiles::stack_rows();
    neighbours::stack_rows();
    println!();
    limits::heap();
}

/// Different blocks of so many atoms, from a tree to many rings, each placed in turn.
fn many_blocks(atoms: usize, blocks: usize, placements: usize) -> DeckPlan {
    let random = &mut Random::new(64);
    let extra = |i: usize| 3 * atoms * i / (4 * blocks);
    let made: Vec<BlockPlan> =
        (0..blocks).map(|i| BlockPlan { number: i as u16 + 1, ..with_more_bonds(random, atoms, extra(i)) }).collect();
    let order: Vec<usize> = (0..placements).map(|placed| placed % blocks).collect();
    let deck = assemble(random, made, &order);
    assert_eq!(deck.placements.len(), placements);
    deck
}

/// The page that keeps the goals, each at least nine tenths of the best ratio that was seen.
const PAGE: &str = include_str!("../../../../docs/BENCHMARKS.md");

/// The goal that the page has for a row.
fn goal_of(what: &str) -> Option<f64> {
    let rest = PAGE.lines().find_map(|line| line.strip_prefix("| ")?.strip_prefix(what)?.strip_prefix(" | "))?;
    rest.split([' ', '|']).filter_map(|word| word.parse().ok()).nth(2)
}

/// Prints a row as the page has them. The goal is the page's, and what was given for a row that the page has not; it grows with the ratio.
fn row(what: &str, [library, plain]: [f64; 2], given: f64) {
    let ratio = plain / library;
    let goal = goal_of(what).unwrap_or(given);
    let reached = (90.0 * ratio).ceil() / 100.0;
    let told = if ratio < goal { format!("{goal:.2} MISSED") } else { format!("{:.2}", goal.max(reached)) };
    println!("| {what} | {} | {ratio:.2} | {told} |", duration(library));
}

fn duration(seconds: f64) -> String {
    if seconds < 1e-3 {
        format!("{:.2} µs", seconds * 1e6)
    } else {
        format!("{:.2} ms", seconds * 1e3)
    }
}

/// The molecule of a deck, and the deck with its right sheet behind it.
pub fn opened(deck: &DeckPlan) -> (Graph, Vec<u8>, [u64; 5]) {
    let bytes = deck.bytes();
    let molecule = write_out(&read_deck(&bytes, Form::Composed).expect("a good deck"));
    let right = molecule.indices().fields();
    (molecule, [&bytes[..], &sheet_record(&right)].concat(), right)
}

/// The plain side reads the deck too, with no check.
fn time_deck(name: &str, deck: &DeckPlan, goal: f64) {
    let (_, judged, right) = opened(deck);
    let composed = deck.bytes();
    let mut plain = Plain::new();
    let mut fields = [0; 5];
    assert_eq!(archive::judge(&judged), 0);
    assert_eq!((archive::compose(&composed, &mut fields), fields), (0, right));
    let mut search = || {
        plain.read_deck(black_box(&composed));
        assert_eq!(plain.indices(), right);
    };
    let mut judge = || {
        black_box(archive::judge(black_box(&judged)));
    };
    row(&format!("judge, {name}"), medians(&mut judge, &mut search), goal);
    let mut compose = || {
        black_box(archive::compose(black_box(&composed), &mut fields));
    };
    row(&format!("compose, {name}"), medians(&mut compose, &mut search), goal);
}

fn time_indices(name: &str, block: &BlockPlan, goal: f64) {
    let (atoms, bonds) = (block.atoms as usize, block.bond_bytes());
    let mut plain = Plain::new();
    let mut fields = [0; 5];
    assert_eq!(archive::indices(atoms, &bonds, &mut fields), 0);
    let right = fields;
    let mut library = || {
        black_box(archive::indices(atoms, black_box(&bonds), &mut fields));
    };
    let mut search = || {
        plain.read_block(atoms, black_box(&bonds));
        assert_eq!(plain.indices(), right);
    };
    row(&format!("indices, {name}"), medians(&mut library, &mut search), goal);
}

fn time_shares(name: &str, block: &BlockPlan, goal: f64) {
    let (atoms, bonds) = (block.atoms as usize, block.bond_bytes());
    let mut plain = Plain::new();
    let mut worked = Shares::new();
    let (mut shares, mut denominator) = ([0; MOST_BONDS], [0]);
    assert_eq!(archive::contributions(atoms, &bonds, &mut shares, &mut denominator), 0);
    let right = (shares, denominator[0]);
    let mut library = || {
        black_box(archive::contributions(atoms, black_box(&bonds), &mut shares, &mut denominator));
    };
    let mut same = || {
        plain.read_block(atoms, black_box(&bonds));
        worked.work(&plain);
        assert_eq!((worked.shares, worked.denominator), right);
    };
    row(&format!("shares, {name}"), medians(&mut library, &mut same), goal);
}

fn time_szeged(name: &str, block: &BlockPlan, goal: f64) {
    let (atoms, bonds) = (block.atoms as usize, block.bond_bytes());
    let mut plain = Szeged::new();
    let (mut terms, mut index) = ([0; MOST_BONDS], [0]);
    assert_eq!(archive::szeged(atoms, &bonds, &mut terms, &mut index), 0);
    let right = (terms, index[0]);
    let mut library = || {
        black_box(archive::szeged(atoms, black_box(&bonds), &mut terms, &mut index));
    };
    let mut same = || {
        plain.work(atoms, black_box(&bonds));
        assert_eq!((plain.terms, plain.index), right);
    };
    row(&format!("szeged, {name}"), medians(&mut library, &mut same), goal);
}

/// Beside the library's own indices of the same block.
fn time_balaban(name: &str, block: &BlockPlan, goal: f64) {
    let (atoms, bonds) = (block.atoms as usize, block.bond_bytes());
    let (mut value, mut fields) = ([0], [0; 5]);
    assert_eq!(archive::balaban(atoms, &bonds, &mut value), 0);
    let mut library = || {
        black_box(archive::balaban(atoms, black_box(&bonds), &mut value));
    };
    let mut indices = || {
        black_box(archive::indices(atoms, black_box(&bonds), &mut fields));
    };
    row(&format!("balaban beside indices, {name}"), medians(&mut library, &mut indices), goal);
}

/// Beside the seven numbers of one atom, that is its row of distances.
fn time_sets(name: &str, tree: &BlockPlan, goal: f64) {
    let (atoms, bonds) = (tree.atoms as usize, tree.bond_bytes());
    let (mut counts, mut sums) = ([0; 2], [0; 7]);
    assert_eq!(archive::count_sets(atoms, &bonds, &mut counts), 0);
    let mut sets = || {
        black_box(archive::count_sets(atoms, black_box(&bonds), &mut counts));
    };
    let mut row_of_one = || {
        black_box(archive::vertex(atoms, black_box(&bonds), 1, &mut sums));
    };
    row(&format!("sets beside one row of distances, {name}"), medians(&mut sets, &mut row_of_one), goal);
}

/// How many random decks with right sheets are judged in a second, and how many atoms they have on average.
fn decks_a_second() -> (f64, f64) {
    let random = &mut Random::new(1);
    let decks: Vec<(Graph, Vec<u8>, [u64; 5])> = (0..500).map(|_| opened(&random_deck(random))).collect();
    let atoms: usize = decks.iter().map(|(molecule, _, _)| molecule.atoms).sum();
    let mut all = || {
        for (_, judged, _) in &decks {
            assert_eq!(archive::judge(black_box(judged)), 0);
        }
    };
    let [batch, _] = medians(&mut all, &mut || {});
    (decks.len() as f64 / batch, atoms as f64 / decks.len() as f64)
}
