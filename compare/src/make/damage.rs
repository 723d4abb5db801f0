//! Damage to what a deck says: blocks and placements made wrong in every way that document 01's table knows.

use super::blocks::free_atoms;
use super::decks::bonds_at;
use super::plan::{BlockPlan, DeckPlan, PlacementPlan};
use super::random::Random;
use crate::block::{MOST_BONDS, MOST_DEGREE};

/// Makes one thing wrong, or leaves the deck as it is where it has no place for that wrong.
pub fn damage_plan(random: &mut Random, deck: &mut DeckPlan) {
    if random.once_in(2) {
        let damaged = random.below(deck.blocks.len());
        damage_block(random, &mut deck.blocks[damaged]);
        return;
    }
    match random.below(10) {
        0 => block_number_wrong(random, &mut deck.blocks),
        1 => too_many_blocks(random, &mut deck.blocks),
        2 => deck.placements.clear(),
        3 => too_many_placements(random, deck),
        4 => block_not_there(random, deck),
        5 => first_joined(random, deck),
        6 => parent_wrong(random, deck),
        7 => join_atom_wrong(random, deck),
        _ => join_over_limit(random, deck),
    }
}

/// Makes one thing of a block wrong: refusals 1 to 7.
pub fn damage_block(random: &mut Random, block: &mut BlockPlan) {
    match random.below(9) {
        0 => block.atoms = *random.pick(&[0, 65, 66, 256, 65_535]),
        1 => too_many_bonds(random, block),
        2 => bond_end_wrong(random, block),
        3 => bond_to_itself(random, block),
        4 | 5 => bond_again(random, block),
        6 => bond_over_limit(random, block),
        7 => drop_bonds(random, block),
        _ => block.atoms = block.atoms.saturating_add(1),
    }
}

/// Atom numbers of this block, if it still has some that a byte can hold.
fn some_atom(random: &mut Random, block: &BlockPlan) -> u8 {
    random.between(1, (block.atoms as usize).clamp(1, 255)) as u8
}

fn insert_bond(random: &mut Random, block: &mut BlockPlan, bond: (u8, u8)) {
    let at = random.below(block.bonds.len() + 1);
    block.bonds.insert(at, bond);
}

fn too_many_bonds(random: &mut Random, block: &mut BlockPlan) {
    let wanted = *random.pick(&[MOST_BONDS + 1, MOST_BONDS + 2, 300, 1_000]);
    while block.bonds.len() < wanted {
        let bond = (some_atom(random, block), some_atom(random, block));
        block.bonds.push(bond);
    }
}

fn bond_end_wrong(random: &mut Random, block: &mut BlockPlan) {
    let beyond = (block.atoms as usize + 1).min(255) as u8;
    let wrong = *random.pick(&[0, beyond, 255]);
    let right = some_atom(random, block);
    let bond = if random.once_in(2) { (wrong, right) } else { (right, wrong) };
    if block.bonds.is_empty() || random.once_in(2) {
        insert_bond(random, block, bond);
    } else {
        let at = random.below(block.bonds.len());
        block.bonds[at] = bond;
    }
}

fn bond_to_itself(random: &mut Random, block: &mut BlockPlan) {
    let atom = some_atom(random, block);
    insert_bond(random, block, (atom, atom));
}

fn bond_again(random: &mut Random, block: &mut BlockPlan) {
    if block.bonds.is_empty() {
        return;
    }
    let (u, v) = *random.pick(&block.bonds);
    let bond = if random.once_in(2) { (u, v) } else { (v, u) };
    insert_bond(random, block, bond);
}

/// Bonds from one atom to others until it has one too many.
fn bond_over_limit(random: &mut Random, block: &mut BlockPlan) {
    let atom = some_atom(random, block);
    for other in 1..=block.atoms.min(64) as u8 {
        let bonds = block.bonds.iter().filter(|&&(u, v)| u == atom || v == atom).count();
        let listed = block.bonds.contains(&(atom, other)) || block.bonds.contains(&(other, atom));
        if bonds <= MOST_DEGREE && other != atom && !listed {
            insert_bond(random, block, (atom, other));
        }
    }
}

fn drop_bonds(random: &mut Random, block: &mut BlockPlan) {
    for _ in 0..random.between(1, 4) {
        if !block.bonds.is_empty() {
            let at = random.below(block.bonds.len());
            block.bonds.remove(at);
        }
    }
}

pub(super) fn block_number_wrong(random: &mut Random, blocks: &mut [BlockPlan]) {
    let other = random.pick(blocks).number;
    let damaged = random.below(blocks.len());
    blocks[damaged].number = if random.once_in(2) { 0 } else { other };
}

/// A 17th block, and now and then more.
pub(super) fn too_many_blocks(random: &mut Random, blocks: &mut Vec<BlockPlan>) {
    let wanted = random.between(17, 18);
    for number in 1.. {
        if blocks.len() >= wanted {
            break;
        }
        if blocks.iter().all(|block| block.number != number) {
            blocks.push(BlockPlan { number, atoms: 1, bonds: Vec::new() });
        }
    }
}

fn too_many_placements(random: &mut Random, deck: &mut DeckPlan) {
    let wanted = *random.pick(&[33, 34, 300]);
    let number = random.pick(&deck.blocks).number;
    while deck.placements.len() < wanted {
        deck.placements.push(PlacementPlan::joined(number, deck.placements.len() as u16, 1, 1));
    }
}

fn some_placement(random: &mut Random, deck: &DeckPlan) -> Option<usize> {
    if deck.placements.is_empty() {
        None
    } else {
        Some(random.below(deck.placements.len()))
    }
}

fn block_not_there(random: &mut Random, deck: &mut DeckPlan) {
    let absent = *random.pick(&[0, 21, 77, 65_535]);
    if let Some(at) = some_placement(random, deck) {
        deck.placements[at].block = absent;
    }
}

fn first_joined(random: &mut Random, deck: &mut DeckPlan) {
    let Some(first) = deck.placements.first_mut() else { return };
    match random.below(3) {
        0 => first.parent = *random.pick(&[1, 2, 256]),
        1 => first.parent_atom = 1,
        _ => first.own_atom = 1,
    }
}

fn parent_wrong(random: &mut Random, deck: &mut DeckPlan) {
    if let Some(at) = some_placement(random, deck) {
        let own = at as u16 + 1;
        deck.placements[at].parent = *random.pick(&[0, own, own + 1, 32, 33, 65_535]);
    }
}

fn join_atom_wrong(random: &mut Random, deck: &mut DeckPlan) {
    let Some(at) = some_placement(random, deck) else { return };
    let parent = (deck.placements[at].parent as usize).clamp(1, deck.placements.len()) - 1;
    let own_side = random.once_in(2);
    let whose = deck.placements[if own_side { at } else { parent }].block;
    let atoms = deck.blocks.iter().find(|block| block.number == whose).map_or(64, |block| block.atoms);
    let beyond = (atoms as usize + 1).min(255) as u8;
    let wrong = *random.pick(&[0, beyond, beyond, 255]);
    if own_side {
        deck.placements[at].own_atom = wrong;
    } else {
        deck.placements[at].parent_atom = wrong;
    }
}

/// Joins at one atom of a placement until it has one bond too many, or a block joined by an atom that is full.
fn join_over_limit(random: &mut Random, deck: &mut DeckPlan) {
    let Some(at) = some_placement(random, deck) else { return };
    if random.once_in(3) {
        if let Some(block) = deck.blocks.iter().find(|block| block.number == deck.placements[at].block) {
            let free = free_atoms(block);
            if let Some(full) = (1..=block.atoms.min(64) as u8).find(|atom| !free.contains(atom)) {
                deck.placements[at].own_atom = full;
            }
        }
        return;
    }
    let number = random.pick(&deck.blocks).number;
    let atom = random.between(1, 3) as u8;
    while bonds_at(deck, at, atom) <= MOST_DEGREE && deck.placements.len() < 40 {
        deck.placements.push(PlacementPlan::joined(number, at as u16 + 1, atom, 1));
    }
}
