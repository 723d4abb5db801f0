//! A library run and the best of a library beside plain search over the same products, and how many products a second.

use crate::archive;
use crate::plain::Plain;
use crate::row;
use crate::timing::medians;
use opinion::deck::sheet_record;
use opinion::library::read_library;
use opinion::make::blocks::{free_atoms, with_more_bonds};
use opinion::make::libraries::{LibraryPlan, SitePlan};
use opinion::make::plan::BlockPlan;
use opinion::make::random::Random;
use opinion::make::shapes::path;
use opinion::molecule::write_out;
use std::hint::black_box;

const SITES: [u8; 4] = [1, 6, 11, 16];
const CANDIDATES: usize = 8;
const PRODUCTS: usize = CANDIDATES.pow(SITES.len() as u32);
const SHEET: usize = 40;
const GOAL: f64 = 200.0;
const PRODUCTS_A_SECOND: f64 = 2_000_000.0;
const BEST: usize = 1_000;
const EMPTY_GOAL: f64 = 263.0; // nine tenths of what was reached: 292.8 and 683.4
const FULL_GOAL: f64 = 615.0;
const RANKED_A_SECOND: f64 = 10_000_000.0;

/// A core of 20 atoms with four sites, and for each site eight candidates of 10 atoms, each by some atom.
pub fn library() -> LibraryPlan {
    let random = &mut Random::new(20);
    let core = BlockPlan { number: 1, ..with_more_bonds(random, 20, 4) };
    let arms: Vec<BlockPlan> =
        (0..CANDIDATES).map(|i| BlockPlan { number: i as u16 + 2, ..with_more_bonds(random, 10, i / 2) }).collect();
    let mut site = |atom| {
        let candidates = arms.iter().map(|arm| (arm.number, *random.pick(&free_atoms(arm))));
        SitePlan::new(atom, candidates.collect())
    };
    let sites = SITES.map(&mut site).to_vec();
    LibraryPlan::new([&[core][..], &arms].concat(), 1, sites)
}

/// As much as a library deck may have: 16 blocks of 64 atoms, four sites, eight candidates each.
pub fn largest() -> LibraryPlan {
    let blocks: Vec<BlockPlan> = (1..=16).map(|number| BlockPlan { number, ..path(64) }).collect();
    let sites = SITES.map(|atom| SitePlan::new(atom, (2..10).map(|number| (number, 64)).collect()));
    LibraryPlan::new(blocks, 1, sites.to_vec())
}

/// The product at a position, written out and searched; the last site turns fastest.
fn product(plain: &mut Plain, plan: &LibraryPlan, blocks: &[Vec<u8>], position: usize) -> [u64; 5] {
    plain.read_block(plan.blocks[0].atoms as usize, &blocks[0]);
    for (k, site) in plan.sites.iter().enumerate() {
        let turn = CANDIDATES.pow((SITES.len() - 1 - k) as u32);
        let (number, own) = site.candidates[position / turn % CANDIDATES];
        let arm = number as usize - 1;
        plain.join_block(plan.blocks[arm].atoms as usize, &blocks[arm], site.atom as usize - 1, own as usize - 1);
    }
    plain.indices()
}

/// The sheet of each product by plain search.
fn search(plain: &mut Plain, plan: &LibraryPlan, blocks: &[Vec<u8>], out: &mut [u8]) {
    for (position, sheet) in out.chunks_exact_mut(SHEET).enumerate() {
        let [atoms, fields @ ..] = product(plain, plan, blocks, position);
        sheet[..4].copy_from_slice(&[36, 0, 3, 0]);
        sheet[4..8].copy_from_slice(&(atoms as u32).to_le_bytes());
        for (field, bytes) in fields.iter().zip(sheet[8..].chunks_exact_mut(8)) {
            bytes.copy_from_slice(&field.to_le_bytes());
        }
    }
}

/// Prints the row, and says the line with the products a second.
pub fn times() -> String {
    let plan = library();
    let deck = plan.bytes();
    let blocks: Vec<Vec<u8>> = plan.blocks.iter().map(BlockPlan::bond_bytes).collect();
    let (mut sheets, mut searched, mut next) = (vec![0; PRODUCTS * SHEET], vec![0; PRODUCTS * SHEET], [0]);
    let mut plain = Plain::new();
    assert_eq!((archive::library_run(&deck, 3, 0, &mut sheets, &mut next), next[0]), (0, PRODUCTS as u64));
    search(&mut plain, &plan, &blocks, &mut searched);
    assert_eq!(sheets, searched);
    let last = write_out(&read_library(&deck).expect("a good library").product(PRODUCTS - 1));
    assert_eq!(sheets[(PRODUCTS - 1) * SHEET..], sheet_record(&last.indices().fields()));
    let mut run = || {
        black_box(archive::library_run(black_box(&deck), 3, 0, &mut sheets, &mut next));
    };
    let mut same = || search(&mut plain, &plan, black_box(&blocks), &mut searched);
    let both = medians(&mut run, &mut same);
    row("library run, core of 20, four sites, eight candidates of 10", both, GOAL);
    let ranked = [("an empty list", 0, EMPTY_GOAL), ("a list of better ones", BEST, FULL_GOAL)];
    let ranked = ranked.map(|(into, held, goal)| time_best(into, held, goal, &plan));
    let a_second = PRODUCTS as f64 / both[0];
    let met = if a_second >= PRODUCTS_A_SECOND { "met" } else { "MISSED" };
    let [empty, full] = ranked.map(|seconds| PRODUCTS as f64 / seconds);
    let quick = if empty.min(full) >= RANKED_A_SECOND { "met" } else { "MISSED" };
    format!(
        "Products a second: {a_second:.0}, sheets of kind 3 written; goal {PRODUCTS_A_SECOND:.0}: {met}. Ranked: {empty:.0} into an empty list of {BEST}, {full:.0} into a full one; goal {RANKED_A_SECOND:.0}: {quick}."
    )
}

/// The products with the smallest W into a list that holds so many better ones; by plain search all of them are put in order, equal ones as
/// they came. Says the seconds.
fn time_best(into: &str, held: usize, goal: f64, plan: &LibraryPlan) -> f64 {
    let deck = plan.bytes();
    let blocks: Vec<Vec<u8>> = plan.blocks.iter().map(BlockPlan::bond_bytes).collect();
    let mut plain = Plain::new();
    let mut ranked = || {
        let mut all = vec![[0; 3]; held];
        all.extend((0..PRODUCTS).map(|at| [product(&mut plain, plan, black_box(&blocks), at)[1], 1, at as u64]));
        all.sort_by_key(|entry| entry[0]);
        all.truncate(BEST);
        all
    };
    let mut best = vec![0; 3 * BEST];
    let mut library = || {
        let mut many = [held as u64];
        assert_eq!((archive::library_best(black_box(&deck), 2, 0, 1, &mut best, &mut many), many[0]), (0, BEST as u64));
    };
    library();
    let right = ranked().concat();
    let both = medians(&mut library, &mut || {
        black_box(ranked());
    });
    assert_eq!(best, right);
    row(&format!("the best {BEST} of the same products, into {into}"), both, goal);
    both[0]
}
