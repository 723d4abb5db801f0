//! What is lent to the library between two pages that nobody may touch: one byte read or written behind it, or in front of it, ends
//! the process. Where it begins and ends within its pages changes from one to the next. The rest is as in the comparison: outputs
//! are filled with a pattern, and every entry is looked at afterwards.

#[path = "../compare/lent.rs"]
mod margins;

pub use margins::Entry;
use std::cell::{Cell, RefCell};
use std::ffi::c_void;
use std::marker::PhantomData;
use std::{mem, ptr, slice};

const PAGE: usize = 65_536; // a multiple of every page size
const ROOM: usize = 4 * PAGE; // more than anything that is lent

extern "C" {
    fn mmap(at: *mut c_void, size: usize, protection: i32, flags: i32, file: i32, offset: i64) -> *mut c_void;
    fn mprotect(at: *mut c_void, size: usize, protection: i32) -> i32;
}

thread_local! {
    static FREE: RefCell<Vec<usize>> = const { RefCell::new(Vec::new()) };
    static TURN: Cell<bool> = const { Cell::new(false) };
}

/// Pages to lend from, given back when they are dropped.
struct Pages {
    start: usize,
    at: usize,
}

impl Pages {
    /// So many bytes that end where the pages end or, every second time, begin where they begin.
    fn of(size: usize) -> Pages {
        assert!(size <= ROOM);
        let start = FREE.with(|free| free.borrow_mut().pop()).unwrap_or_else(mapped);
        let front = TURN.with(|turn| turn.replace(!turn.get()));
        Pages { start, at: if front { start } else { start + ROOM - size } }
    }
}

impl Drop for Pages {
    fn drop(&mut self) {
        FREE.with(|free| free.borrow_mut().push(self.start));
    }
}

/// New pages between two that have no right at all.
fn mapped() -> usize {
    unsafe {
        let whole = mmap(ptr::null_mut(), ROOM + 2 * PAGE, 0, 0x22, -1, 0) as usize;
        assert_eq!(mprotect((whole + PAGE) as *mut c_void, ROOM, 3), 0);
        whole + PAGE
    }
}

/// Bytes or numbers that the library may read.
pub struct Shown<T> {
    pages: Pages,
    size: usize,
    entries: PhantomData<T>,
}

impl<T: Entry> Shown<T> {
    pub fn new(entries: &[T]) -> Shown<T> {
        let pages = Pages::of(mem::size_of_val(entries));
        unsafe { ptr::copy_nonoverlapping(entries.as_ptr(), pages.at as *mut T, entries.len()) };
        Shown { pages, size: entries.len(), entries: PhantomData }
    }

    pub fn part(&self) -> &[T] {
        unsafe { slice::from_raw_parts(self.pages.at as *const T, self.size) }
    }

    /// Whether it is still what it was made of.
    pub fn is_still(&self, entries: &[T]) -> bool {
        self.part() == entries
    }
}

/// Entries that the library may write.
pub struct Lent<T> {
    pages: Pages,
    room: usize,
    entries: PhantomData<T>,
}

impl<T: Entry> Lent<T> {
    pub fn new(room: usize) -> Lent<T> {
        let pages = Pages::of(room * mem::size_of::<T>());
        let mut lent = Lent { pages, room, entries: PhantomData };
        for (at, entry) in lent.part().iter_mut().enumerate() {
            *entry = T::pattern(at);
        }
        lent
    }

    pub fn part(&mut self) -> &mut [T] {
        unsafe { slice::from_raw_parts_mut(self.pages.at as *mut T, self.room) }
    }

    /// What is wrong where these entries should have been written to the front and nothing else: None if nothing.
    pub fn fault(&self, written: &[T]) -> Option<String> {
        let part = unsafe { slice::from_raw_parts(self.pages.at as *const T, self.room) };
        part.iter().enumerate().find_map(|(at, entry)| {
            let right = written.get(at).copied().unwrap_or_else(|| T::pattern(at));
            let same = entry.bits() == right.bits();
            (!same).then(|| format!("entry {at} holds {:#x}, right is {:#x}", entry.bits(), right.bits()))
        })
    }
}
