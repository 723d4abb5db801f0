//! What the documents print: graphs, decks and numbers.

use crate::make::plan::{BlockPlan, DeckPlan, PlacementPlan};
use crate::make::shapes::{alone, block, chained, path, ring, star};

/// The deck of 40 bytes in document 01, and the line it gives.
pub const FORTY: [u8; 40] = [
    0x12, 0x00, 0x01, 0x00, 0x01, 0x00, 0x06, 0x00, 0x06, 0x00, 0x01, 0x02, 0x02, 0x03, 0x03, 0x04, 0x04, 0x05, 0x05,
    0x06, //
    0x06, 0x01, 0x0E, 0x00, 0x02, 0x00, 0x02, 0x00, 0x01, 0x00, 0x00, 0x00, 0x00, 0x00, 0x01, 0x00, 0x01, 0x00, 0x01,
    0x01,
];
pub const FORTY_LINE: &str = "atoms 12 W 198 even 96 odd 102 polarity 14";

/// Document 01's table of ten graphs: W, even, odd, polarity. Those with a join are two or more blocks.
pub fn ten_graphs() -> Vec<(&'static str, DeckPlan, [u64; 4])> {
    vec![
        ("one atom", alone(path(1)), [0, 0, 0, 0]),
        ("path of 2", alone(path(2)), [1, 0, 1, 0]),
        ("path of 4", alone(path(4)), [10, 4, 6, 1]),
        ("star of 4", alone(star(4)), [9, 6, 3, 0]),
        ("ring of 3", alone(ring(3)), [3, 0, 3, 0]),
        ("ring of 6", alone(ring(6)), [27, 12, 15, 3]),
        ("ring of 6 + one atom", with_atoms(ring(6), &[1]), [42, 20, 22, 5]),
        ("two rings of 6 joined", chained(ring(6), 2, 1, 1), [198, 96, 102, 14]),
        ("one atom + four on it", with_atoms(path(1), &[1, 1, 1, 1]), [16, 12, 4, 0]),
        ("path of 2, an atom on each end", with_atoms(path(2), &[1, 2]), [10, 4, 6, 1]),
    ]
}

/// A block with single atoms on these of its atoms.
fn with_atoms(core: BlockPlan, sites: &[u8]) -> DeckPlan {
    let mut deck = alone(core);
    deck.blocks.push(BlockPlan { number: 2, ..path(1) });
    deck.placements.extend(sites.iter().map(|&site| PlacementPlan::joined(2, 1, site, 1)));
    deck
}

/// A table of document 001: the bonds in its order, each with its contribution times 10,000 as printed, and W.
pub struct Printed {
    pub name: &'static str,
    pub atoms: usize,
    pub bonds: &'static [(u8, u8, u64)],
    pub w: u64,
}

impl Printed {
    pub fn block(&self) -> BlockPlan {
        block(self.atoms, self.bonds.iter().map(|&(u, v, _)| (u, v)).collect())
    }
}

pub const NAPHTHALENE: Printed = Printed {
    name: "naphthalene (document 001, table 2)",
    atoms: 10,
    bonds: &[
        (1, 10, 61_667),
        (1, 2, 85_000),
        (2, 3, 125_000),
        (3, 8, 126_667),
        (3, 4, 125_000),
        (4, 5, 85_000),
        (5, 6, 61_667),
        (6, 7, 85_000),
        (7, 8, 125_000),
        (8, 9, 125_000),
        (9, 10, 85_000),
    ],
    w: 109,
};

pub const DIBENZFULVENE: Printed = Printed {
    name: "dibenzfulvene (document 001, table 3)",
    atoms: 14,
    bonds: &[
        (1, 14, 120_000),
        (1, 2, 70_000),
        (2, 3, 130_000),
        (3, 4, 210_000),
        (4, 13, 170_000),
        (4, 5, 270_000),
        (5, 10, 170_000),
        (5, 6, 210_000),
        (6, 7, 130_000),
        (7, 8, 70_000),
        (8, 9, 120_000),
        (9, 10, 200_000),
        (10, 11, 210_000),
        (11, 13, 210_000),
        (11, 12, 130_000),
        (13, 14, 200_000),
    ],
    w: 262,
};

pub const ACEPLEIADYLENE: Printed = Printed {
    name: "acepleiadylene (document 001, table 4)",
    atoms: 16,
    bonds: &[
        (1, 10, 141_667),
        (1, 2, 185_000),
        (2, 11, 240_000),
        (2, 3, 295_000),
        (3, 8, 346_667),
        (3, 4, 295_000),
        (4, 14, 240_000),
        (4, 5, 185_000),
        (5, 6, 141_667),
        (6, 7, 155_000),
        (7, 16, 140_000),
        (7, 8, 225_000),
        (8, 9, 225_000),
        (9, 15, 140_000),
        (9, 10, 155_000),
        (11, 12, 150_000),
        (12, 13, 100_000),
        (13, 14, 150_000),
        (15, 16, 70_000),
    ],
    w: 358,
};

/// Document 000's worked example: a ring of 6 with a ring of 3 on atom 1, then a ring of 4 on atom 3, then a ring of
/// 5 on atom 4. `joined` says how many of the three are on it; W is 27, 87, 247, 580.
pub fn worked_example(joined: usize) -> DeckPlan {
    let mut deck = alone(ring(6));
    for (number, size, site) in [(2, 3, 1), (3, 4, 3), (4, 5, 4)] {
        deck.blocks.push(BlockPlan { number, ..ring(size) });
        if (number as usize) < joined + 2 {
            deck.placements.push(PlacementPlan::joined(number, 1, site, 1));
        }
    }
    deck
}
pub const WORKED_W: [u64; 4] = [27, 87, 247, 580];
