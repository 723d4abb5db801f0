//! What was done, as numbers in a file that is mapped: no write is lost when the process is killed, and none costs a call.

use crate::checker::Checker;
use std::ffi::c_void;
use std::fs::OpenOptions;
use std::os::fd::AsRawFd;
use std::{env, ptr};

/// Which numbers: inputs with a call in them, inputs without one, calls compared, those of them that are refused nothing, differences, and
/// the inputs of each function.
const INPUTS: usize = 0;
const WITHOUT: usize = 1;
const CALLS: usize = 2;
const FINE: usize = 3;
const DIFFERENCES: usize = 4;
const EACH: usize = 5;
const NUMBERS: usize = EACH + 32;

extern "C" {
    fn mmap(at: *mut c_void, size: usize, protection: i32, flags: i32, file: i32, offset: i64) -> *mut c_void;
}

pub struct Counts(&'static mut [u64; NUMBERS]);

impl Counts {
    /// In the file that TTEUYOMAL_COUNTS names, from nothing on; in memory where it names none.
    pub fn kept() -> Counts {
        let Some(name) = env::var_os("TTEUYOMAL_COUNTS") else { return Counts(Box::leak(Box::new([0; NUMBERS]))) };
        let file = OpenOptions::new()
            .read(true)
            .write(true)
            .create(true)
            .truncate(true)
            .open(name)
            .expect("a file for the counts");
        let size = 8 * NUMBERS;
        file.set_len(size as u64).expect("room for the counts");
        let at = unsafe { mmap(ptr::null_mut(), size, 3, 1, file.as_raw_fd(), 0) };
        assert_ne!(at as isize, -1, "the counts can be mapped");
        Counts(unsafe { &mut *at.cast() })
    }

    /// One input was run to its end, with what the checker counted before it and counts now.
    pub fn input(&mut self, input: &[u8], [calls, fine]: [usize; 2], checker: &Checker) {
        if checker.calls == calls {
            self.0[WITHOUT] += 1;
            return;
        }
        self.0[EACH + input[0] as usize % 32] += 1;
        self.0[CALLS] += (checker.calls - calls) as u64;
        self.0[FINE] += (checker.fine - fine) as u64;
        self.0[DIFFERENCES] += (checker.failed > 0) as u64;
        self.0[INPUTS] += 1;
    }
}
