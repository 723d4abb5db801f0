//! A deck as it is to be written, right or wrong: nothing here is checked.

/// One block as a deck lists it.
#[derive(Clone, Debug, PartialEq, Eq)]
pub struct BlockPlan {
    pub number: u16,
    pub atoms: u16,
    pub bonds: Vec<(u8, u8)>,
}

/// One placement as a deck lists it.
#[derive(Clone, Copy, Debug, PartialEq, Eq)]
pub struct PlacementPlan {
    pub block: u16,
    pub parent: u16,
    pub parent_atom: u8,
    pub own_atom: u8,
}

#[derive(Clone, Debug, PartialEq, Eq)]
pub struct DeckPlan {
    pub blocks: Vec<BlockPlan>,
    pub placements: Vec<PlacementPlan>,
    /// Five fields, or the six of a sheet of kind 4.
    pub sheet: Option<Vec<u64>>,
}

/// A record with a length field that need not be its payload's.
#[derive(Clone, Debug, PartialEq, Eq)]
pub struct RecordPlan {
    pub length: u16,
    pub kind: u16,
    pub payload: Vec<u8>,
}

impl BlockPlan {
    /// The bonds as a lone block is handed over: two bytes each.
    pub fn bond_bytes(&self) -> Vec<u8> {
        self.bonds.iter().flat_map(|&(u, v)| [u, v]).collect()
    }

    pub(super) fn payload(&self) -> Vec<u8> {
        let mut payload = Vec::new();
        for count in [self.number, self.atoms, self.bonds.len() as u16] {
            payload.extend_from_slice(&count.to_le_bytes());
        }
        payload.extend(self.bond_bytes());
        payload
    }
}

impl PlacementPlan {
    /// The first placement of an assembly: no join.
    pub fn first(block: u16) -> PlacementPlan {
        PlacementPlan { block, parent: 0, parent_atom: 0, own_atom: 0 }
    }

    pub fn joined(block: u16, parent: u16, parent_atom: u8, own_atom: u8) -> PlacementPlan {
        PlacementPlan { block, parent, parent_atom, own_atom }
    }
}

impl RecordPlan {
    pub fn new(kind: u16, payload: Vec<u8>) -> RecordPlan {
        RecordPlan { length: payload.len() as u16, kind, payload }
    }
}

impl DeckPlan {
    pub fn records(&self) -> Vec<RecordPlan> {
        let mut records: Vec<RecordPlan> =
            self.blocks.iter().map(|block| RecordPlan::new(1, block.payload())).collect();
        records.push(RecordPlan::new(2, self.assembly_payload()));
        if let Some(fields) = &self.sheet {
            let kind = if fields.len() == 6 { 4 } else { 3 };
            records.push(RecordPlan::new(kind, sheet_payload(fields)));
        }
        records
    }

    pub fn bytes(&self) -> Vec<u8> {
        write_records(&self.records())
    }

    fn assembly_payload(&self) -> Vec<u8> {
        let mut payload = (self.placements.len() as u16).to_le_bytes().to_vec();
        for placement in &self.placements {
            payload.extend_from_slice(&placement.block.to_le_bytes());
            payload.extend_from_slice(&placement.parent.to_le_bytes());
            payload.push(placement.parent_atom);
            payload.push(placement.own_atom);
        }
        payload
    }

    /// Where each placement's first byte stands in the deck.
    pub fn placement_place(&self, index: usize) -> usize {
        let blocks: usize = self.blocks.iter().map(|block| 10 + 2 * block.bonds.len()).sum();
        blocks + 6 + 6 * index
    }
}

fn sheet_payload(fields: &[u64]) -> Vec<u8> {
    let mut payload = (fields[0] as u32).to_le_bytes().to_vec();
    for field in &fields[1..5] {
        payload.extend_from_slice(&field.to_le_bytes());
    }
    for &largest in &fields[5..] {
        payload.extend_from_slice(&(largest as u32).to_le_bytes());
    }
    payload
}

pub fn write_records(records: &[RecordPlan]) -> Vec<u8> {
    let mut bytes = Vec::new();
    for record in records {
        bytes.extend_from_slice(&record.length.to_le_bytes());
        bytes.extend_from_slice(&record.kind.to_le_bytes());
        bytes.extend_from_slice(&record.payload);
    }
    bytes
}
