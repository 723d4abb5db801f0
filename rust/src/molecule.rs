//! Molecules of every size: read from molfiles, written out of decks, and held against decks.
use crate::functions as c;
use crate::reply::{fine, verdict, Refusal, Verdict};

/// A molecule: its atom count, and the two ends of each bond.
#[derive(Clone, Debug, PartialEq, Eq)]
pub struct Molecule {
    pub atoms: usize,
    pub bonds: Vec<[u16; 2]>,
}

const FILE_ENDS: usize = 1998; // of the largest file
const DECK_ENDS: usize = 12350; // and of the largest deck

type Reading = unsafe extern "C" fn(*const u8, usize, *mut u16, usize, *mut u64, usize) -> u64;

fn read(function: Reading, room: usize, data: &[u8]) -> Result<Molecule, Refusal> {
    let (mut ends, mut counts) = (vec![0; room], [0u64; 2]);
    let reply = unsafe {
        function(data.as_ptr(), data.len(), ends.as_mut_ptr(), ends.len(), counts.as_mut_ptr(), counts.len())
    };
    let pairs = ends.chunks_exact(2).take(counts[1] as usize);
    fine(reply, Molecule { atoms: counts[0] as usize, bonds: pairs.map(|two| [two[0], two[1]]).collect() })
}

/// Reads a V2000 molfile of up to 999 atoms, hydrogens left out, in one part or in several.
pub fn read_whole(text: &[u8]) -> Result<Molecule, Refusal> {
    read(c::tteuyomal_read_whole, FILE_ENDS, text)
}

/// The molecule of a deck without a sheet.
pub fn written_out(deck: &[u8]) -> Result<Molecule, Refusal> {
    read(c::tteuyomal_written_out, DECK_ENDS, deck)
}

/// Whether a deck's molecule is this one but for the numbering; the matching has for each atom its placement and its atom there, from 1.
/// `Differs` has the first place that fails, as the C header says.
pub fn matched(deck: &[u8], molecule: &Molecule, matching: &[[u16; 2]]) -> Verdict {
    let (bonds, pairs) = (molecule.bonds.as_flattened(), matching.as_flattened());
    verdict(unsafe {
        let (list, two) = (bonds.as_ptr(), pairs.as_ptr());
        c::tteuyomal_matched(deck.as_ptr(), deck.len(), molecule.atoms, list, bonds.len(), two, pairs.len())
    })
}
