//! Library decks as they are to be written, right or wrong, and random good ones.

use super::blocks::{free_atoms, random_block};
use super::decks::number_blocks;
use super::plan::{write_records, BlockPlan, RecordPlan};
use super::random::Random;
use super::shapes;

/// One site as a library lists it: `count` is what is written, right or wrong.
#[derive(Clone, Debug, PartialEq, Eq)]
pub struct SitePlan {
    pub atom: u8,
    pub count: u8,
    /// Block numbers and joining atoms.
    pub candidates: Vec<(u16, u8)>,
}

#[derive(Clone, Debug, PartialEq, Eq)]
pub struct LibraryPlan {
    pub blocks: Vec<BlockPlan>,
    pub core: u16,
    /// The number of sites that is written, right or wrong.
    pub count: u16,
    pub sites: Vec<SitePlan>,
}

impl SitePlan {
    pub fn new(atom: u8, candidates: Vec<(u16, u8)>) -> SitePlan {
        SitePlan { atom, count: candidates.len() as u8, candidates }
    }
}

impl LibraryPlan {
    pub fn new(blocks: Vec<BlockPlan>, core: u16, sites: Vec<SitePlan>) -> LibraryPlan {
        LibraryPlan { blocks, core, count: sites.len() as u16, sites }
    }

    pub fn records(&self) -> Vec<RecordPlan> {
        let blocks = self.blocks.iter().map(|block| RecordPlan::new(1, block.payload()));
        blocks.chain([RecordPlan::new(5, self.payload())]).collect()
    }

    pub fn bytes(&self) -> Vec<u8> {
        write_records(&self.records())
    }

    fn payload(&self) -> Vec<u8> {
        let mut payload = [self.core.to_le_bytes(), self.count.to_le_bytes()].concat();
        for site in &self.sites {
            payload.extend_from_slice(&[site.atom, site.count]);
            for (number, atom) in &site.candidates {
                payload.extend_from_slice(&number.to_le_bytes());
                payload.push(*atom);
            }
        }
        payload
    }

    pub fn block(&self, number: u16) -> Option<&BlockPlan> {
        self.blocks.iter().find(|block| block.number == number)
    }
}

/// A core with 1 to 4 sites, each with 1 to 8 candidates; most are small, some are as large as can be.
pub fn random_library(random: &mut Random) -> LibraryPlan {
    let (blocks, atoms, most) = match random.below(20) {
        0..=13 => (random.between(1, 4), 9, 3),
        14..=18 => (random.between(1, 8), 20, 8),
        _ => (random.between(1, 15), 64, 8),
    };
    let mut blocks: Vec<BlockPlan> = (0..blocks).map(|_| random_block(random, atoms)).collect();
    if blocks.iter().all(|block| free_atoms(block).is_empty()) {
        blocks.push(shapes::path(1));
    }
    let blocks = number_blocks(random, blocks);
    let open: Vec<(u16, Vec<u8>)> = blocks.iter().map(|block| (block.number, free_atoms(block))).collect();
    let open: Vec<(u16, Vec<u8>)> = open.into_iter().filter(|(_, free)| !free.is_empty()).collect();
    let (core, mut atoms) = random.pick(&open).clone();
    random.shuffle(&mut atoms);
    atoms.truncate(random.between(1, 4));
    let sites = atoms.into_iter().map(|atom| {
        let candidates = (0..random.between(1, most)).map(|_| some_candidate(random, &open));
        SitePlan::new(atom, candidates.collect())
    });
    let sites = sites.collect();
    LibraryPlan::new(blocks, core, sites)
}

/// A block and one of the atoms by which it can be joined.
fn some_candidate(random: &mut Random, open: &[(u16, Vec<u8>)]) -> (u16, u8) {
    let (number, free) = random.pick(open);
    (*number, *random.pick(free))
}
