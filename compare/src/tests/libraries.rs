//! Library decks: the example's bytes, each refusal by hand, and products against assemblies written as decks.

use crate::answers::{compose, compose_six, judge, placed_distance, write_sheet, write_six, Verdict};
use crate::deck::sheet_record;
use crate::library::read_library;
use crate::make::damage_library::damage_library;
use crate::make::libraries::{random_library, LibraryPlan};
use crate::make::library_specimens::{libraries, TWO_FIELDS, TWO_PRODUCTS};
use crate::make::plan::{DeckPlan, PlacementPlan};
use crate::make::random::Random;
use crate::molecule::Measurer;
use crate::refusal::Refusal;
use crate::walk::{count, run, sheet, step, Walk, Walked};

fn refused<T>(number: u64, place: u64) -> Result<T, Refusal> {
    Err(Refusal { number, place })
}

fn walk(deck: &[u8], kind: usize, position: usize, room: usize) -> Walk<'_> {
    Walk { deck, kind, position, room, entries: 1 }
}

#[test]
fn two_products_then_done() {
    let measurer = &mut Measurer::default();
    assert_eq!(count(&TWO_PRODUCTS, 1), Ok(2));
    for (position, fields) in TWO_FIELDS.iter().enumerate() {
        let right = Walked::Next(sheet_record(fields), position as u64 + 1);
        assert_eq!(step(measurer, walk(&TWO_PRODUCTS, 3, position, 40)), Ok(right));
    }
    let both: Vec<u8> = TWO_FIELDS.iter().flat_map(|fields| sheet_record(fields)).collect();
    assert_eq!(run(measurer, walk(&TWO_PRODUCTS, 3, 0, 119)), Ok(Walked::Next(both.clone(), 2)));
    assert_eq!(run(measurer, walk(&TWO_PRODUCTS, 3, 0, 79)), Ok(Walked::Next(both[..40].to_vec(), 1)));
    for position in [2, 3, 4_096, 1 << 32, usize::MAX] {
        assert_eq!(step(measurer, walk(&TWO_PRODUCTS, 3, position, 40)), Ok(Walked::Done));
        assert_eq!(run(measurer, walk(&TWO_PRODUCTS, 4, position, 44)), Ok(Walked::Done));
    }
}

#[test]
fn either_kind_of_sheet() {
    let measurer = &mut Measurer::default();
    let Ok(Walked::Next(six, 2)) = step(measurer, walk(&TWO_PRODUCTS, 4, 1, 44)) else { panic!("a product") };
    assert_eq!((six.len(), &six[..8], &six[40..]), (44, &[40, 0, 4, 0, 13, 0, 0, 0][..], &[8, 0, 0, 0][..]));
    for kind in [0, 2, 5, 260] {
        let five = step(measurer, walk(&TWO_PRODUCTS, 3, 1, 40));
        assert_eq!(step(measurer, walk(&TWO_PRODUCTS, kind, 1, 40)), five);
    }
}

#[test]
fn outputs_too_short() {
    let measurer = &mut Measurer::default();
    let long = vec![0; 32_769];
    assert_eq!(count(&long, 0), refused(20, 0));
    assert_eq!(count(&[], 0), refused(11, 0));
    assert_eq!(count(&TWO_PRODUCTS, 0), refused(9, 0));
    for walked in [step, run] {
        assert_eq!(walked(measurer, walk(&long, 3, 0, 0)), refused(20, 0));
        assert_eq!(walked(measurer, walk(&[], 3, 0, 39)), refused(9, 0));
        assert_eq!(walked(measurer, walk(&[], 4, 0, 43)), refused(9, 0));
        assert_eq!(walked(measurer, walk(&[], 4, 9, 44)), refused(11, 0));
        let no_entry = Walk { entries: 0, ..walk(&TWO_PRODUCTS, 3, 1, 40) };
        assert_eq!(walked(measurer, no_entry), refused(9, 0));
        assert_eq!(walked(measurer, walk(&TWO_PRODUCTS, 3, 2, 39)), refused(9, 0));
    }
}

#[test]
fn each_refusal_by_hand() {
    let mut seen = Vec::new();
    for specimen in libraries() {
        let found = read_library(&specimen.deck).map(|_| ());
        assert_eq!(found, refused(specimen.number, specimen.place), "{}", specimen.name);
        seen.push(specimen.number);
    }
    for number in [1, 3, 7, 11, 12, 13, 14, 16, 18, 19, 20, 31, 32, 33] {
        assert!(seen.contains(&number), "{number}");
    }
}

/// A library deck is no deck to be composed or judged: 12 at the record of kind 5.
#[test]
fn no_deck_of_the_other_forms() {
    let measurer = &mut Measurer::default();
    assert_eq!(compose(measurer, &TWO_PRODUCTS, 5), refused(12, 32));
    assert_eq!(compose_six(measurer, &TWO_PRODUCTS, 6), refused(12, 32));
    assert_eq!(write_sheet(measurer, &TWO_PRODUCTS, 40), refused(12, 32));
    assert_eq!(write_six(measurer, &TWO_PRODUCTS, 44), refused(12, 32));
    assert_eq!(placed_distance(&TWO_PRODUCTS, [1, 1, 1, 1], 1), refused(12, 32));
    let judged = [&TWO_PRODUCTS[..], &sheet_record(&TWO_FIELDS[0])].concat();
    for deck in [&TWO_PRODUCTS[..], &judged] {
        assert_eq!(judge(measurer, deck), Verdict::Refused(Refusal { number: 12, place: 32 }));
    }
}

/// All choices by counting up like an odometer, as placements.
fn all_choices(library: &LibraryPlan) -> Vec<Vec<PlacementPlan>> {
    let mut all = vec![vec![PlacementPlan::first(library.core)]];
    for site in &library.sites {
        let mut longer = Vec::new();
        for before in &all {
            for &(number, atom) in &site.candidates {
                let joined = PlacementPlan::joined(number, 1, site.atom, atom);
                longer.push([&before[..], &[joined]].concat());
            }
        }
        all = longer;
    }
    all
}

/// Each choice exactly once, in the odometer's order, and its sheet is that of the deck with its assembly, which is never refused.
#[test]
fn products_are_assemblies_written_out() {
    let measurer = &mut Measurer::default();
    for case in 0..80 {
        let plan = random_library(&mut Random::for_case(12, case));
        let library = read_library(&plan.bytes()).expect("a good library");
        let choices = all_choices(&plan);
        assert_eq!(library.count(), choices.len());
        for (position, placements) in choices.into_iter().enumerate().take(40) {
            let deck = DeckPlan { blocks: plan.blocks.clone(), placements, sheet: None };
            let right = compose_six(measurer, &deck.bytes(), 6).expect("a good deck");
            assert_eq!(sheet(measurer, &library, 4, position), sheet_record(&right));
        }
    }
}

/// The damage reaches every refusal of a library deck that is not of its bytes.
#[test]
fn damage_meets_every_refusal() {
    let mut seen = [0; 256];
    for case in 0..4_000 {
        let random = &mut Random::for_case(33, case);
        let mut plan = random_library(random);
        damage_library(random, &mut plan);
        if let Err(refusal) = read_library(&plan.bytes()) {
            seen[refusal.number as usize] += 1;
        }
    }
    for number in (1..=7).chain([13, 14, 16, 18, 19, 31, 32, 33]) {
        assert!(seen[number] > 0, "{number}");
    }
}
