//! Library decks: blocks, and a record of kind 5 where the assembly would stand. Each product is an assembly of its own.

use crate::block::MOST_DEGREE;
use crate::deck::{nothing_behind, open_deck, pair, Deck, Placement, LIBRARY};
use crate::graph::Graph;
use crate::refusal::{refuse, Refusal};

pub const MOST_SITES: usize = 4;
pub const MOST_CANDIDATES: usize = 8;

/// A block that may stand at a site, by where it stands in `Library::blocks`, and the atom that it is joined by.
#[derive(Clone, Copy, Debug, PartialEq, Eq)]
pub struct Candidate {
    pub block: usize,
    pub atom: usize,
}

/// An atom of the core, and what may be joined to it.
#[derive(Clone, Debug, PartialEq, Eq)]
pub struct Site {
    pub atom: usize,
    pub candidates: Vec<Candidate>,
}

/// A library deck that nothing refuses.
#[derive(Clone, Debug)]
pub struct Library {
    pub blocks: Vec<Graph>,
    pub core: usize,
    pub sites: Vec<Site>,
}

/// Reads a library deck: 20, the blocks', 11 and 12 for the record, the record's, and 11 for what follows it.
pub fn read_library(bytes: &[u8]) -> Result<Library, Refusal> {
    let opened = open_deck(bytes, LIBRARY)?;
    let end = opened.last.end();
    let mut reader = Reader { left: opened.last.payload, first: opened.last.first, numbers: &opened.numbers };
    let (core, sites) = reader.record(&opened.blocks)?;
    nothing_behind(bytes, end)?;
    Ok(Library { blocks: opened.blocks, core, sites })
}

/// What is left of the record's payload. Everything that it refuses stands at the record's first byte.
struct Reader<'a> {
    left: &'a [u8],
    first: usize,
    numbers: &'a [usize],
}

impl Reader<'_> {
    fn refuse<T>(&self, number: u64) -> Result<T, Refusal> {
        refuse(number, self.first)
    }

    fn refuse_if(&self, wrong: bool, number: u64) -> Result<(), Refusal> {
        if wrong {
            return self.refuse(number);
        }
        Ok(())
    }

    /// The next so many bytes, or 13 where the payload ends too early.
    fn take(&mut self, count: usize) -> Result<&[u8], Refusal> {
        if self.left.len() < count {
            return self.refuse(13);
        }
        let (front, back) = self.left.split_at(count);
        self.left = back;
        Ok(front)
    }

    /// Where the block of this number stands, or 16.
    fn block(&self, number: usize) -> Result<usize, Refusal> {
        match self.numbers.iter().position(|&known| known == number) {
            Some(block) => Ok(block),
            None => self.refuse(16),
        }
    }

    fn record(&mut self, blocks: &[Graph]) -> Result<(usize, Vec<Site>), Refusal> {
        let head = self.take(4)?;
        let (core, count) = (pair(head, 0), pair(head, 2));
        self.refuse_if(count == 0 || count > MOST_SITES, 31)?;
        let core = self.block(core)?;
        let mut sites = Vec::new();
        for _ in 0..count {
            let site = self.site(&blocks[core], blocks, &sites)?;
            sites.push(site);
        }
        self.refuse_if(!self.left.is_empty(), 13)?;
        Ok((core, sites))
    }

    fn site(&mut self, core: &Graph, blocks: &[Graph], earlier: &[Site]) -> Result<Site, Refusal> {
        let head = self.take(2)?;
        let (atom, count) = (head[0] as usize, head[1] as usize);
        self.refuse_if(count == 0 || count > MOST_CANDIDATES, 32)?;
        self.refuse_if(atom == 0 || atom > core.atoms, 18)?;
        self.refuse_if(earlier.iter().any(|site| site.atom == atom), 33)?;
        let mut candidates = Vec::new();
        for _ in 0..count {
            let bytes = self.take(3)?;
            let (number, own) = (pair(bytes, 0), bytes[2] as usize);
            let block = self.block(number)?;
            self.refuse_if(own == 0 || own > blocks[block].atoms, 18)?;
            let full = core.degree(atom) == MOST_DEGREE || blocks[block].degree(own) == MOST_DEGREE;
            self.refuse_if(full, 19)?;
            candidates.push(Candidate { block, atom: own });
        }
        Ok(Site { atom, candidates })
    }
}

impl Library {
    /// How many products there are.
    pub fn count(&self) -> usize {
        self.sites.iter().map(|site| site.candidates.len()).product()
    }

    /// Which candidate each site has at this position below the count: the last site turns fastest.
    pub fn choice(&self, position: usize) -> Vec<usize> {
        let mut left = position;
        let mut choice = vec![0; self.sites.len()];
        for (chosen, site) in choice.iter_mut().zip(&self.sites).rev() {
            *chosen = left % site.candidates.len();
            left /= site.candidates.len();
        }
        choice
    }

    /// The product as a deck to be composed: the core first, then the choice at each site, joined to it.
    pub fn product(&self, position: usize) -> Deck {
        let mut placements = vec![Placement { block: self.core, parent: 0, parent_atom: 0, own_atom: 0 }];
        for (site, chosen) in self.sites.iter().zip(self.choice(position)) {
            let Candidate { block, atom } = site.candidates[chosen];
            placements.push(Placement { block, parent: 1, parent_atom: site.atom, own_atom: atom });
        }
        Deck { blocks: self.blocks.clone(), placements, sheet: None }
    }
}
