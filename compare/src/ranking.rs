//! The best products of a library, by putting all of them in order.

use crate::library::read_library;
use crate::molecule::{write_out, Measurer};
use crate::refusal::{refuse, Refusal};

/// The question: a deck, a field, whether the greatest are wanted (any number but 0), a tag, the lent numbers, and the number lent
/// for how many entries are held, where it is.
#[derive(Clone, Copy, Debug)]
pub struct Ask<'a> {
    pub deck: &'a [u8],
    pub field: usize,
    pub greatest: usize,
    pub tag: u64,
    pub entries: &'a [u64],
    pub held: Option<u64>,
}

/// A value, the tag of its deck, its position there.
pub type Entry = [u64; 3];

/// The entries that are held afterwards, the best first: the library's refusals, 35, 9.
pub fn best(measurer: &mut Measurer, ask: Ask) -> Result<Vec<Entry>, Refusal> {
    let library = read_library(ask.deck)?;
    if !(1..=6).contains(&ask.field) {
        return refuse(35, 0);
    }
    let room = ask.entries.len() / 3;
    let Some(held) = ask.held else { return refuse(9, 0) };
    if room == 0 {
        return refuse(9, 0);
    }
    let before = entries(ask.entries, held.min(room as u64) as usize);
    let coming = (0..library.count()).map(|position| {
        let fields = measurer.indices(write_out(&library.product(position))).six();
        [fields[ask.field - 1], ask.tag, position as u64]
    });
    Ok(first(before, coming.collect(), ask.greatest != 0, room))
}

/// The first so many entries of some numbers.
pub fn entries(numbers: &[u64], count: usize) -> Vec<Entry> {
    numbers.chunks_exact(3).take(count).map(|entry| [entry[0], entry[1], entry[2]]).collect()
}

/// The first n of what is held and of what comes. What is held in order: all of it put in order, equal ones as they came. What is
/// held in no order: one by one, behind the last that is as good or better.
pub fn first(held: Vec<Entry>, coming: Vec<Entry>, greatest: bool, n: usize) -> Vec<Entry> {
    let key = |entry: &Entry| if greatest { !entry[0] } else { entry[0] };
    let mut all = held;
    if all.windows(2).all(|pair| key(&pair[0]) <= key(&pair[1])) {
        all.extend(coming);
        all.sort_by_key(key);
        all.truncate(n);
        return all;
    }
    for entry in coming {
        let behind = all.iter().rposition(|other| key(other) <= key(&entry)).map_or(0, |at| at + 1);
        all.insert(behind, entry);
        all.truncate(n);
    }
    all
}
