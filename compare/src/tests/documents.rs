//! The numbers that documents 000, 001 and 01 print.

use crate::answers::{self, compose, judge, Verdict};
use crate::block::{read_block, MOST_BONDS};
use crate::deck::sheet_record;
use crate::documents::*;
use crate::graph::Graph;
use crate::line::{judge_line, sheet_line};
use crate::make::plan::{BlockPlan, DeckPlan, PlacementPlan};
use crate::make::shapes::{alone, cube, double_ring, longest_path, path, ring, squares, star, triple_ring};
use crate::molecule::Measurer;
use crate::refusal::Refusal;

fn graph(block: &BlockPlan) -> Graph {
    read_block(block.atoms as usize, &block.bond_bytes()).expect("a good block")
}

fn fields(deck: &DeckPlan) -> [u64; 5] {
    compose(&mut Measurer::default(), &deck.bytes(), 5).expect("a good deck")
}

/// D and the shares of a block.
fn shares(block: &BlockPlan) -> Result<(u64, Vec<u64>), Refusal> {
    answers::contributions(block.atoms as usize, &block.bond_bytes(), MOST_BONDS, 1)
}

#[test]
fn ten_graphs_of_document_01() {
    for (name, deck, numbers) in ten_graphs() {
        assert_eq!(fields(&deck)[1..], numbers, "{name}");
    }
}

#[test]
fn forty_bytes_and_their_line() {
    assert_eq!(crate::make::specimens::two_rings().bytes(), FORTY);
    let mut measurer = Measurer::default();
    assert_eq!(sheet_line(&mut measurer, &FORTY), FORTY_LINE);
    let judged = |sheet: [u64; 5]| [&FORTY[..], &sheet_record(&sheet)].concat();
    assert_eq!(judge_line(&mut measurer, &judged([12, 198, 96, 102, 14])), "accepted");
    assert_eq!(judge_line(&mut measurer, &judged([12, 198, 102, 96, 14])), "differs 3");
    assert_eq!(judge_line(&mut measurer, &FORTY), "refused 11 at 40");
    assert_eq!(sheet_line(&mut measurer, &judged([12, 198, 96, 102, 14])), "refused 11 at 40");
}

#[test]
fn each_wrong_field_is_named() {
    let right = [12, 198, 96, 102, 14, 7];
    let mut measurer = Measurer::default();
    for kind in [5, 6] {
        for field in 0..kind {
            let mut wrong = right;
            wrong[field] += 1;
            let deck = [&FORTY[..], &sheet_record(&wrong[..kind])].concat();
            assert_eq!(judge(&mut measurer, &deck), Verdict::Differs(field as u64 + 1));
        }
    }
}

#[test]
fn six_fields() {
    let mut measurer = Measurer::default();
    let written = answers::write_six(&mut measurer, &FORTY, 44).expect("a good deck");
    assert_eq!(
        (written.len(), &written[..8], &written[40..]),
        (44, &[40, 0, 4, 0, 12, 0, 0, 0][..], &[7, 0, 0, 0][..])
    );
    assert_eq!(judge_line(&mut measurer, &[&FORTY[..], &written].concat()), "accepted");
    let paths = longest_path().bytes();
    let right = [2_048, 1_431_655_424, 715_827_200, 715_828_224, 2_045, 2_047];
    assert_eq!(answers::compose_six(&mut measurer, &paths, 6), Ok(right));
}

#[test]
fn naphthalene() {
    let block = NAPHTHALENE.block();
    assert_eq!(graph(&block).indices().fields(), [10, 109, 52, 57, 12]);
    assert_eq!(shares(&block), Ok((6, vec![37, 51, 75, 76, 75, 51, 37, 51, 75, 75, 51])));
    assert_eq!(answers::polynomial(10, &block.bond_bytes(), 0.5, 2), Ok([3.875, 7.0625]));
}

/// Each contribution, rounded to four places, is the one printed; they add up to D times W.
#[test]
fn tables_of_document_001() {
    for (table, d) in [(NAPHTHALENE, 6), (DIBENZFULVENE, 2), (ACEPLEIADYLENE, 6)] {
        let block = table.block();
        let (found_d, whole) = shares(&block).expect("a small D");
        assert_eq!(found_d, d, "{}", table.name);
        assert_eq!(graph(&block).indices().w, table.w, "{}", table.name);
        assert_eq!(whole.iter().sum::<u64>(), d * table.w, "{}", table.name);
        for (&(u, v, printed), share) in table.bonds.iter().zip(whole) {
            assert_eq!((2 * 10_000 * share + d) / (2 * d), printed, "{} {u}-{v}", table.name);
        }
    }
}

#[test]
fn rings_and_squares() {
    assert_eq!(shares(&ring(4)), Ok((2, vec![4, 4, 4, 4])));
    assert_eq!(shares(&squares(19)).map(|(d, _)| d), Ok(524_288));
    assert_eq!(squares(20).atoms, 61);
    assert_eq!(shares(&squares(20)), Err(Refusal { number: 8, place: 0 }));
    assert_eq!(shares(&double_ring(64)).map(|(d, shares)| (d, shares.len())), Ok((720_720, 128)));
    assert_eq!(shares(&cube(6)), Ok((720, vec![23_040; 192])));
    assert_eq!(shares(&triple_ring(64)), Err(Refusal { number: 8, place: 0 }));
    assert_eq!(shares(&path(1)), Ok((1, vec![])));
}

/// Sulfur hexafluoride as one block, and as an atom with six on it; a seventh is one too many. The cube of six
/// dimensions has six bonds at each of 64 atoms.
#[test]
fn six_bonds_and_a_seventh() {
    assert_eq!(fields(&alone(star(7))), [7, 36, 30, 6, 0]);
    assert_eq!(fields(&alone(cube(6))), [64, 6_144, 3_072, 3_072, 640]);
    for (on_it, right) in [(6, Ok([7, 36, 30, 6, 0])), (7, Err(Refusal { number: 19, place: 58 }))] {
        let mut deck = alone(path(1));
        deck.placements.extend(vec![PlacementPlan::joined(1, 1, 1, 1); on_it]);
        assert_eq!(compose(&mut Measurer::default(), &deck.bytes(), 5), right);
    }
}

#[test]
fn longest_path_of_2048() {
    let n: u64 = 2_048;
    assert_eq!(fields(&longest_path())[..2], [n, 1_431_655_424]);
    assert_eq!((n * n * n - n) / 6, 1_431_655_424);
}

#[test]
fn worked_example_of_document_000() {
    for joined in 0..=3 {
        assert_eq!(fields(&worked_example(joined))[1], WORKED_W[joined]);
    }
    let core = graph(&ring(6)).distances();
    assert_eq!([core[1][3], core[1][4], core[3][4]], [2, 3, 1]);
    // W, and the sum of each atom, of the four blocks
    for (size, w, sum) in [(6, 27, 9), (3, 3, 2), (4, 8, 4), (5, 15, 6)] {
        assert_eq!(graph(&ring(size)).indices().w, w);
        assert_eq!(graph(&ring(size)).vertex(1).sum, sum);
    }
}

/// The vertex sums of c2 and c3 as document 000 works them: 20 and 23 in CR1, 35 in CR1R2.
#[test]
fn vertex_sums_of_document_000() {
    for (joined, site, sum) in [(1, 3, 20), (1, 4, 23), (2, 4, 35)] {
        let deck = crate::deck::read_deck(&worked_example(joined).bytes(), crate::deck::Form::Composed).unwrap();
        assert_eq!(crate::molecule::write_out(&deck).vertex(site).sum, sum);
    }
}
