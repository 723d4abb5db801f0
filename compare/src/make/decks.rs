//! Random good decks without a sheet.

use super::blocks::{free_atoms, random_block};
use super::plan::{BlockPlan, DeckPlan, PlacementPlan};
use super::random::Random;
use crate::block::MOST_DEGREE;

/// 1 to 16 blocks in 1 to 32 placements; most decks are small, some are as large as can be.
pub fn random_deck(random: &mut Random) -> DeckPlan {
    let (blocks, placements, atoms) = match random.below(20) {
        0..=11 => (random.between(1, 3), random.between(1, 6), 16),
        12..=18 => (random.between(1, 8), random.between(1, 12), 32),
        _ => (random.between(1, 16), random.between(1, 32), 64),
    };
    let blocks = (0..blocks).map(|_| random_block(random, atoms)).collect();
    let numbered = number_blocks(random, blocks);
    let order: Vec<usize> = (0..placements).map(|_| random.below(numbered.len())).collect();
    assemble(random, numbered, &order)
}

/// Places these blocks in this order, each but the first joined to some earlier placement, in a third of the decks to
/// the last, by atoms that have room; a block that has no such atom, or finds none, is left out.
pub fn assemble(random: &mut Random, blocks: Vec<BlockPlan>, order: &[usize]) -> DeckPlan {
    let mut deck = DeckPlan { blocks, placements: Vec::new(), sheet: None };
    let mut free: Vec<Vec<u8>> = Vec::new();
    let in_a_row = random.once_in(3);
    for &block in order {
        let number = deck.blocks[block].number;
        let mut own_free = free_atoms(&deck.blocks[block]);
        let open: Vec<usize> = (0..free.len()).filter(|&parent| !free[parent].is_empty()).collect();
        if deck.placements.is_empty() {
            deck.placements.push(PlacementPlan::first(number));
        } else if open.is_empty() || own_free.is_empty() {
            continue;
        } else {
            let parent = if in_a_row { open[open.len() - 1] } else { *random.pick(&open) };
            let parent_atom = *random.pick(&free[parent]);
            let own_atom = *random.pick(&own_free);
            deck.placements.push(PlacementPlan::joined(number, parent as u16 + 1, parent_atom, own_atom));
            drop_if_full(&deck, &mut free[parent], parent, parent_atom);
            drop_if_full(&deck, &mut own_free, deck.placements.len() - 1, own_atom);
        }
        free.push(own_free);
    }
    deck
}

/// Takes an atom off a placement's free atoms where the join just made was the last that it may have.
fn drop_if_full(deck: &DeckPlan, free: &mut Vec<u8>, placed: usize, atom: u8) {
    if bonds_at(deck, placed, atom) == MOST_DEGREE {
        free.retain(|&other| other != atom);
    }
}

/// How many bonds an atom of a placement (from 0) has, joins counted.
pub fn bonds_at(deck: &DeckPlan, placed: usize, atom: u8) -> usize {
    let placement = deck.placements[placed];
    let block = deck.blocks.iter().find(|block| block.number == placement.block);
    let own = block.map_or(0, |block| block.bonds.iter().filter(|&&(u, v)| u == atom || v == atom).count());
    let up = placed > 0 && placement.own_atom == atom;
    let joins = deck.placements.iter().filter(|child| child.parent as usize == placed + 1 && child.parent_atom == atom);
    own + up as usize + joins.count()
}

/// Gives each block a number of its own; small numbers come often, also those that need two bytes.
pub(super) fn number_blocks(random: &mut Random, mut blocks: Vec<BlockPlan>) -> Vec<BlockPlan> {
    let mut taken = Vec::new();
    for block in &mut blocks {
        loop {
            let most = if random.once_in(3) { 65_535 } else { 20 };
            block.number = random.between(1, most) as u16;
            if !taken.contains(&block.number) {
                break;
            }
        }
        taken.push(block.number);
    }
    blocks
}
