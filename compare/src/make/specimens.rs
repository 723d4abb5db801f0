//! Decks and blocks that meet each refusal, with number and place written by hand from document 01.

use super::plan::{BlockPlan, DeckPlan, PlacementPlan};
use super::shapes::{alone, block, chained, path, ring, star, triple_ring};
use crate::deck::Form;

pub struct DeckSpecimen {
    pub name: &'static str,
    pub form: Form,
    pub deck: Vec<u8>,
    pub number: u64,
    pub place: u64,
}

pub struct BlockSpecimen {
    pub name: &'static str,
    pub atoms: usize,
    pub bonds: Vec<u8>,
    pub number: u64,
    pub place: u64,
}

/// Lone blocks: refusals 1 to 7, and the order among them.
pub fn blocks() -> Vec<BlockSpecimen> {
    let mut all = Vec::new();
    let mut meets = |number, place, name, atoms, bonds: &[u8]| {
        all.push(BlockSpecimen { name, atoms, bonds: bonds.to_vec(), number, place });
    };
    meets(1, 0, "no atom", 0, &[]);
    meets(1, 0, "65 atoms", 65, &[1, 2]);
    meets(1, 0, "a number of atoms that no byte holds", 1 << 40, &[1, 2]);
    meets(1, 0, "65 atoms and an odd number of bytes", 65, &[1]);
    meets(2, 0, "an odd number of bytes", 2, &[1, 2, 1]);
    meets(2, 0, "386 bytes", 64, &[1; 386]);
    meets(2, 0, "385 bytes, the first bond wrong", 64, &[0; 385]);
    meets(3, 1, "384 bytes, the first bond wrong", 64, &[0; 384]);
    meets(3, 1, "a bond end 0", 2, &[0, 1]);
    meets(3, 2, "a bond end above n", 3, &[1, 2, 2, 4]);
    meets(3, 1, "both ends are 0", 3, &[0, 0]);
    meets(4, 2, "a bond from an atom to itself", 3, &[1, 2, 3, 3]);
    meets(5, 3, "a bond again", 3, &[1, 2, 2, 3, 1, 2]);
    meets(5, 3, "a bond again, the other way round", 3, &[1, 2, 2, 3, 3, 2]);
    meets(5, 7, "a bond again at an atom that has six", 7, &[1, 2, 1, 3, 1, 4, 1, 5, 1, 6, 1, 7, 7, 1]);
    meets(6, 7, "a seventh bond, first end", 8, &[1, 2, 1, 3, 1, 4, 1, 5, 1, 6, 1, 7, 1, 8]);
    meets(6, 7, "a seventh bond, second end", 8, &[2, 1, 3, 1, 4, 1, 5, 1, 6, 1, 7, 1, 8, 1]);
    meets(7, 0, "two atoms and no bond", 2, &[]);
    meets(7, 0, "two pieces", 4, &[1, 2, 3, 4]);
    meets(3, 3, "two pieces, then a bond end above n", 4, &[1, 2, 3, 4, 1, 5]);
    all
}

/// The deck of document 01: two rings of 6 joined. Its records begin at bytes 0 and 22, its placements at 28 and 34.
pub fn two_rings() -> DeckPlan {
    chained(ring(6), 2, 1, 1)
}

/// A deck of a single atom, number 1, and this block, number 2, whose record begins at byte 10.
fn second(mut block: BlockPlan) -> Vec<u8> {
    block.number = 2;
    let mut deck = alone(path(1));
    deck.blocks.push(block);
    deck.bytes()
}

/// Two rings of 6 with these bytes put over theirs.
fn rings_with(changes: &[(usize, u8)]) -> Vec<u8> {
    let mut bytes = two_rings().bytes();
    for &(at, byte) in changes {
        bytes[at] = byte;
    }
    bytes
}

/// Two rings of 6 with a sheet of these fields behind them, its record at byte 40.
fn judged_rings(fields: &[u64]) -> Vec<u8> {
    let mut deck = two_rings();
    deck.sheet = Some(fields.to_vec());
    deck.bytes()
}

const FIVE: [u64; 5] = [12, 198, 96, 102, 14];

const SIX: [u64; 6] = [12, 198, 96, 102, 14, 7];

/// The assembly of these placements over blocks of one atom (1), of a star of 7 (2) and of a triple ring of 7 (3);
/// the records begin at bytes 0, 10, 32 and 84, the placements at 90, 96 and so on.
fn placed(placements: &[PlacementPlan]) -> Vec<u8> {
    let blocks = [path(1), star(7), triple_ring(7)];
    let numbered = (1..).zip(blocks).map(|(number, block)| BlockPlan { number, ..block });
    DeckPlan { blocks: numbered.collect(), placements: placements.to_vec(), sheet: None }.bytes()
}

/// Decks of both forms: refusals 1 to 7, 11 to 20, 23 and 24, and the order among them.
pub fn decks() -> Vec<DeckSpecimen> {
    let mut all = Vec::new();
    in_records(&mut |number, place, name, deck| {
        all.push(DeckSpecimen { name, form: Form::Composed, deck, number, place });
    });
    in_placements(&mut |number, place, name, deck| {
        all.push(DeckSpecimen { name, form: Form::Composed, deck, number, place });
    });
    behind_the_assembly(&mut |number, place, name, deck| {
        all.push(DeckSpecimen { name, form: Form::Judged, deck, number, place });
    });
    all
}

type Meets<'a> = &'a mut dyn FnMut(u64, u64, &'static str, Vec<u8>);

fn in_records(meets: Meets) {
    let rings = two_rings().bytes();
    meets(11, 0, "an empty deck", Vec::new());
    meets(11, 0, "a head cut off", rings[..3].to_vec());
    meets(11, 0, "a head and nothing behind it", rings[..4].to_vec());
    meets(11, 0, "a block cut off", rings[..21].to_vec());
    meets(11, 22, "an end before the assembly", rings[..22].to_vec());
    meets(11, 22, "an assembly's head cut off", rings[..25].to_vec());
    meets(11, 22, "an assembly cut off", rings[..39].to_vec());
    meets(11, 40, "a byte behind the assembly", [&rings[..], &[0]].concat());
    meets(11, 40, "a sheet behind a deck to be composed", judged_rings(&FIVE));
    meets(11, 40, "a sheet of six behind a deck to be composed", judged_rings(&SIX));
    meets(11, 22, "cut off and of a kind that may not stand there", rings_with(&[(22, 15), (24, 9)]));
    meets(12, 0, "an assembly first", rings[22..].to_vec());
    meets(12, 0, "kind 0", rings_with(&[(2, 0)]));
    meets(12, 0, "a kind whose low byte alone is right", rings_with(&[(3, 1)]));
    meets(12, 22, "a sheet for an assembly", rings_with(&[(24, 3)]));
    meets(12, 22, "a sheet of six for an assembly", rings_with(&[(24, 4)]));
    meets(12, 22, "kind 9 with a wrong count", rings_with(&[(24, 9), (26, 3)]));
    meets(13, 0, "a block of five bytes", vec![5, 0, 1, 0, 1, 0, 1, 0, 0]);
    meets(13, 0, "a bond count too high", rings_with(&[(8, 7)]));
    meets(13, 0, "a bond count too low, and block number 0", rings_with(&[(8, 5), (4, 0)]));
    meets(13, 10, "an assembly of one byte", [&alone(path(1)).bytes()[..10], &[1, 0, 2, 0, 0]].concat());
    meets(13, 22, "a placement count too low", rings_with(&[(26, 1)]));
    meets(13, 22, "a placement count above 32 that its length belies", rings_with(&[(26, 33)]));
    meets(14, 0, "block number 0, and no atom", rings_with(&[(4, 0), (6, 0)]));
    meets(14, 10, "a block number again", {
        let mut twice = alone(path(1));
        twice.blocks.push(path(2));
        twice.bytes()
    });
    meets(14, 160, "a 17th block", {
        let mut many = alone(path(1));
        many.blocks.extend((2..=17).map(|number| BlockPlan { number, ..path(1) }));
        many.bytes()
    });
    meets(1, 10, "a block of no atom", second(block(0, vec![])));
    meets(1, 10, "65 atoms and 193 bonds", second(block(65, vec![(1, 2); 193])));
    meets(2, 10, "193 bonds, the first wrong", second(block(64, vec![(0, 2); 193])));
    meets(3, 20, "a bond end above n", second(block(2, vec![(1, 3)])));
    meets(4, 22, "a bond from an atom to itself", second(block(2, vec![(1, 2), (2, 2)])));
    meets(5, 22, "a bond again", second(block(2, vec![(1, 2), (2, 1)])));
    meets(6, 32, "a seventh bond", second(star(8)));
    meets(7, 10, "two pieces", second(block(3, vec![(1, 2)])));
    meets(15, 10, "no placement", DeckPlan { placements: vec![], ..alone(path(1)) }.bytes());
    meets(15, 14, "33 placements, the first wrong", {
        let mut many = chained(path(3), 33, 3, 1);
        many.placements[0].block = 9;
        many.bytes()
    });
    meets(20, 0, "32,769 bytes", vec![0; 32_769]);
    meets(20, 0, "32,769 bytes that begin well", {
        let mut long = two_rings().bytes();
        long.resize(32_769, 0);
        long
    });
    meets(12, 0, "32,768 bytes of 0", vec![0; 32_768]);
    meets(11, 40, "32,768 bytes that begin well", {
        let mut long = two_rings().bytes();
        long.resize(32_768, 0);
        long
    });
}

fn in_placements(meets: Meets) {
    let first = PlacementPlan::first;
    let joined = PlacementPlan::joined;
    meets(16, 90, "a first placement of no block", placed(&[first(4)]));
    meets(16, 96, "block 0, and a parent of 0", placed(&[first(1), joined(0, 0, 1, 1)]));
    meets(16, 90, "no block, and joined", placed(&[joined(9, 1, 1, 1)]));
    meets(17, 90, "a first placement with a parent", placed(&[joined(1, 1, 0, 0)]));
    meets(17, 90, "a first placement with a parent's atom", placed(&[joined(1, 0, 1, 0)]));
    meets(17, 90, "a first placement with an own atom", placed(&[joined(1, 0, 0, 1)]));
    meets(23, 96, "a later placement without a parent", placed(&[first(1), joined(1, 0, 1, 1)]));
    meets(24, 96, "its own parent, and atom 0", placed(&[first(1), joined(1, 2, 0, 0)]));
    meets(24, 96, "a parent that comes later", placed(&[first(2), joined(1, 3, 1, 1), joined(1, 1, 1, 1)]));
    meets(24, 96, "a parent whose low byte alone is right", placed(&[first(2), joined(1, 257, 2, 1)]));
    meets(18, 96, "parent's atom 0", placed(&[first(1), joined(1, 1, 0, 1)]));
    meets(18, 96, "own atom 0", placed(&[first(1), joined(1, 1, 1, 0)]));
    meets(18, 96, "parent's atom above its n", placed(&[first(1), joined(2, 1, 2, 2)]));
    meets(18, 96, "own atom above n, parent's atom full", placed(&[first(2), joined(1, 1, 1, 2)]));
    meets(19, 96, "a parent's atom with six bonds", placed(&[first(2), joined(1, 1, 1, 1)]));
    meets(19, 96, "an own atom with six bonds", placed(&[first(1), joined(3, 1, 1, 4)]));
    meets(19, 132, "a seventh atom on one atom", {
        placed(&[
            first(1),
            joined(1, 1, 1, 1),
            joined(1, 1, 1, 1),
            joined(1, 1, 1, 1),
            joined(1, 1, 1, 1),
            joined(1, 1, 1, 1),
            joined(1, 1, 1, 1),
            joined(1, 1, 1, 1),
        ])
    });
    meets(19, 132, "a seventh bond, the join to the parent counted", {
        placed(&[
            first(1),
            joined(1, 1, 1, 1),
            joined(1, 2, 1, 1),
            joined(1, 2, 1, 1),
            joined(1, 2, 1, 1),
            joined(1, 2, 1, 1),
            joined(1, 2, 1, 1),
            joined(1, 2, 1, 1),
        ])
    });
    meets(19, 108, "the earlier of two wrong placements", {
        placed(&[first(2), joined(1, 1, 2, 1), joined(2, 2, 1, 2), joined(1, 3, 1, 1), joined(7, 1, 1, 1)])
    });
}

fn behind_the_assembly(meets: Meets) {
    let whole = judged_rings(&FIVE);
    let six = judged_rings(&SIX);
    let with = |at: usize, byte: u8| {
        let mut changed = whole.clone();
        changed[at] = byte;
        changed
    };
    meets(11, 40, "a deck to be judged without its sheet", whole[..40].to_vec());
    meets(11, 40, "a sheet's head cut off", whole[..43].to_vec());
    meets(11, 40, "a sheet cut off", whole[..79].to_vec());
    meets(11, 80, "a byte behind the sheet", [&whole[..], &[0]].concat());
    meets(12, 40, "an assembly for a sheet", with(42, 2));
    meets(11, 40, "a sheet of six cut off", six[..83].to_vec());
    meets(11, 84, "a byte behind a sheet of six", [&six[..], &[0]].concat());
    meets(11, 80, "a sheet of six behind a sheet", [&whole[..], &six[40..]].concat());
    meets(11, 84, "a sheet behind a sheet of six", [&six[..], &whole[40..]].concat());
    meets(12, 40, "a sheet of kind 5, and a byte behind it", [&with(42, 5)[..], &[0]].concat());
    meets(13, 40, "kind 4 with five fields, and a byte behind it", [&with(42, 4)[..], &[0]].concat());
    meets(13, 40, "kind 3 with six fields", {
        let mut changed = six.clone();
        changed[42] = 3;
        changed
    });
    meets(13, 40, "a sheet of 35 bytes, and a byte behind it", with(40, 35));
    meets(19, 34, "a wrong placement before a sheet cut off", {
        let mut deck = chained(star(7), 2, 1, 2);
        deck.sheet = Some(vec![0; 5]);
        let bytes = deck.bytes();
        bytes[..bytes.len() - 1].to_vec()
    });
    meets(20, 0, "32,769 bytes", vec![0; 32_769]);
}
