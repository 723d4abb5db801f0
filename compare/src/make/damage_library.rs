//! Damage to what a library deck says: its blocks, counts, sites and candidates made wrong in every way that the rules know.

use super::blocks::free_atoms;
use super::damage::{block_number_wrong, damage_block, too_many_blocks};
use super::libraries::{LibraryPlan, SitePlan};
use super::plan::BlockPlan;
use super::random::Random;
use super::shapes::triple_ring;

/// Makes one thing wrong, or leaves the library as it is where it has no place for that wrong.
pub fn damage_library(random: &mut Random, library: &mut LibraryPlan) {
    match random.below(16) {
        0 | 1 => {
            let damaged = random.below(library.blocks.len());
            damage_block(random, &mut library.blocks[damaged]);
        }
        2 => block_number_wrong(random, &mut library.blocks),
        3 => too_many_blocks(random, &mut library.blocks),
        4 => library.core = absent(random),
        5 => library.count = *random.pick(&[0, 5, 6, 255, 256, 257, 65_535]),
        6 => library.count = library.count.wrapping_add(*random.pick(&[1, 65_535])),
        7 => too_many_sites(library),
        8 => site_again(random, library),
        9 => site_atom_wrong(random, library),
        10 => full_site(random, library),
        _ => {
            if !library.sites.is_empty() {
                let at = random.below(library.sites.len());
                damage_site(random, library, at);
            }
        }
    }
}

/// The number of no block, in most decks.
fn absent(random: &mut Random) -> u16 {
    *random.pick(&[0, 21, 77, 65_535])
}

/// An atom number that the block does not have.
fn no_atom(random: &mut Random, block: Option<&BlockPlan>) -> u8 {
    let beyond = block.map_or(65, |block| (block.atoms as usize + 1).min(255)) as u8;
    *random.pick(&[0, beyond, beyond, 255])
}

fn full_atom(block: &BlockPlan) -> Option<u8> {
    let free = free_atoms(block);
    (1..=block.atoms.min(64) as u8).find(|atom| !free.contains(atom))
}

/// Five sites, all of them good but for their number where the core has atoms enough.
fn too_many_sites(library: &mut LibraryPlan) {
    let Some(last) = library.sites.last().cloned() else { return };
    for atom in 1..=64 {
        if library.sites.len() < 5 && library.sites.iter().all(|site| site.atom != atom) {
            library.sites.push(SitePlan { atom, ..last.clone() });
        }
    }
    library.count = library.sites.len() as u16;
}

/// A site's atom used by another; now and then that one's candidates are wrong too.
fn site_again(random: &mut Random, library: &mut LibraryPlan) {
    let Some(mut again) = library.sites.first().cloned() else { return };
    match random.below(6) {
        0 => again.count = *random.pick(&[0, 9]),
        1 if !again.candidates.is_empty() => again.candidates[0].0 = absent(random),
        _ => {}
    }
    let at = random.between(1, library.sites.len());
    if library.sites.len() < 4 {
        library.sites.insert(at, again);
        library.count += 1;
    } else {
        library.sites[at.min(3)] = again;
    }
}

fn site_atom_wrong(random: &mut Random, library: &mut LibraryPlan) {
    let wrong = no_atom(random, library.block(library.core));
    if !library.sites.is_empty() {
        let at = random.below(library.sites.len());
        library.sites[at].atom = wrong;
    }
}

/// A site at an atom of the core that can take no further bond.
fn full_site(random: &mut Random, library: &mut LibraryPlan) {
    let full = library.block(library.core).and_then(full_atom);
    if let (Some(full), false) = (full, library.sites.is_empty()) {
        let at = random.below(library.sites.len());
        library.sites[at].atom = full;
    }
}

fn damage_site(random: &mut Random, library: &mut LibraryPlan, at: usize) {
    let chosen = random.below(library.sites[at].candidates.len().max(1));
    match random.below(8) {
        0 => library.sites[at].count = *random.pick(&[0, 9, 10, 128, 255]),
        1 => {
            let site = &mut library.sites[at];
            site.count = site.count.wrapping_add(*random.pick(&[1, 255]));
        }
        2 => {
            let last = library.sites[at].candidates.last().copied().unwrap_or((1, 1));
            library.sites[at].candidates.resize(random.between(9, 12), last);
            library.sites[at].count = library.sites[at].candidates.len() as u8;
        }
        3 => library.sites[at] = SitePlan::new(library.sites[at].atom, Vec::new()),
        4 => change(library, at, chosen, |candidate| candidate.0 = absent(random)),
        5 | 6 => {
            let number = library.sites[at].candidates.get(chosen).map_or(0, |&(number, _)| number);
            let wrong = no_atom(random, library.block(number));
            change(library, at, chosen, |candidate| candidate.1 = wrong);
        }
        _ => full_candidate(library, at, chosen),
    }
}

fn change(library: &mut LibraryPlan, at: usize, chosen: usize, make: impl FnOnce(&mut (u16, u8))) {
    if let Some(candidate) = library.sites[at].candidates.get_mut(chosen) {
        make(candidate);
    }
}

/// A candidate joined by an atom that is full: of its own block, or of a new block that has only such atoms.
fn full_candidate(library: &mut LibraryPlan, at: usize, chosen: usize) {
    let Some(&(number, _)) = library.sites[at].candidates.get(chosen) else { return };
    if let Some(full) = library.block(number).and_then(full_atom) {
        change(library, at, chosen, |candidate| candidate.1 = full);
    } else if let Some(free) = (1..).find(|&number| library.block(number).is_none()) {
        library.blocks.push(BlockPlan { number: free, ..triple_ring(7) });
        change(library, at, chosen, |candidate| *candidate = (free, 3));
    }
}
