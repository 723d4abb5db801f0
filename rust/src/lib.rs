//! Tteuyomal for Rust: a judge of molecular sheets that needs no reference file.
//!
//! Each function here lends its arguments to one function of the proved library and hands on what it replies. None of them
//! has a precondition, none keeps anything between calls, and all of them may be called from any number of threads.
//! `docs/RULES.md` of the repository says what is right; the C header says what each function writes and refuses.
//!
//! ```
//! use tteuyomal::{judge, Verdict};
//!
//! assert!(matches!(judge(b"no deck"), Verdict::Refused(refusal) if refusal.number == 11));
//! ```

mod block;
mod claims;
mod deck;
mod functions;
mod library;
mod molecule;
mod reply;
mod sdf;
mod table;
mod text;

pub use block::{balaban, check_block, contributions, count_sets, farthest, indices, polynomial, szeged, vertex};
pub use block::{Contributions, Sets, Szeged};
pub use claims::{judge_block, judge_claims, Claims, Field};
pub use deck::{compose, compose_six, judge, placed_distance, write_sheet, write_six, Kind};
pub use library::{library_best, library_count, library_run, library_step, Ranked};
pub use molecule::{matched, read_whole, written_out, Molecule};
pub use reply::{Refusal, Verdict};
pub use sdf::{sdf_item, sdf_record, sdf_records};
pub use table::{Queue, Table};
pub use text::{read_molfile, read_neighbours, write_molfile, write_neighbours, Block};

/// The version of the library: its three parts.
pub fn version() -> (u64, u64, u64) {
    // safe: nothing is lent
    let number = unsafe { functions::tteuyomal_version() };
    (number / 1_000_000, number / 1_000 % 1_000, number % 1_000)
}
