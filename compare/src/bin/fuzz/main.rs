//! The comparison for a fuzzer that looks at which branches of the library an input takes (libFuzzer). Each input is a call, or calls of two
//! queues (compare/src/bin/compare/inputs.rs), with everything that is lent between pages that nobody may touch; the second opinion
//! judges the reply and every lent entry, and the first difference ends the process. `compare/fuzz` builds and runs it.
//!
//! What was done is counted in the file that TTEUYOMAL_COUNTS names, which stays as it is when the process is killed.
#![no_main]
#![allow(dead_code)] // of the comparison only what an input can say is used

#[path = "../../archive.rs"]
mod archive;
#[path = "../compare/checker.rs"]
mod checker;
#[path = "../compare/claims.rs"]
mod claims;
mod counts;
#[path = "../compare/inputs.rs"]
mod inputs;
mod lent;
#[path = "../compare/library_calls.rs"]
mod library_calls;
#[path = "../compare/queues.rs"]
mod queues;
#[path = "../compare/sdf.rs"]
mod sdf;
mod seeds;
#[path = "../compare/whole.rs"]
mod whole;

use checker::Checker;
use counts::Counts;
use std::sync::Mutex;
use std::{env, process, slice};

static STATE: Mutex<Option<(Checker, Counts)>> = Mutex::new(None);

/// Writes the seeds, where TTEUYOMAL_SEEDS names a folder for them.
#[no_mangle]
pub extern "C" fn LLVMFuzzerInitialize(_: *mut i32, _: *mut *mut *mut u8) -> i32 {
    if let Some(folder) = env::var_os("TTEUYOMAL_SEEDS") {
        seeds::write(folder.as_ref()).expect("seeds can be written");
        process::exit(0);
    }
    0
}

/// # Safety
/// `data` names `size` readable bytes.
#[no_mangle]
pub unsafe extern "C" fn LLVMFuzzerTestOneInput(data: *const u8, size: usize) -> i32 {
    let input = if size == 0 { &[][..] } else { unsafe { slice::from_raw_parts(data, size) } };
    let mut state = STATE.lock().expect("one thread");
    let (checker, counts) = state.get_or_insert_with(|| (Checker::default(), Counts::kept()));
    let before = [checker.calls, checker.fine];
    checker.case("an input", |checker| inputs::call(checker, input));
    counts.input(input, before, checker);
    if checker.failed > 0 {
        process::abort();
    }
    0
}
