//! What is lent to the library. Outputs are filled with a pattern, between two margins, and every entry is looked at
//! afterwards; so are inputs, which must not change.

/// Entries in front of and behind the lent part, which must never change.
const MARGIN: usize = 8;

/// Bytes or numbers that the library may read: they stand at an odd entry, and what is read behind them is no deck.
pub struct Shown<T> {
    whole: Vec<T>,
}

impl<T: Entry> Shown<T> {
    pub fn new(entries: &[T]) -> Shown<T> {
        let margin = [T::LARGEST; MARGIN + 1];
        Shown { whole: [&margin, entries, &margin].concat() }
    }

    pub fn part(&self) -> &[T] {
        &self.whole[MARGIN + 1..self.whole.len() - MARGIN - 1]
    }

    /// Whether it is still what it was made of.
    pub fn is_still(&self, entries: &[T]) -> bool {
        self.whole == Shown::new(entries).whole
    }
}

/// An entry, by its bits.
pub trait Entry: Copy + PartialEq {
    const LARGEST: Self;
    fn pattern(at: usize) -> Self;
    fn bits(self) -> u64;
}

impl Entry for u8 {
    const LARGEST: u8 = u8::MAX;

    fn pattern(at: usize) -> u8 {
        (at * 37 + 171) as u8
    }

    fn bits(self) -> u64 {
        self as u64
    }
}

impl Entry for u16 {
    const LARGEST: u16 = u16::MAX;

    fn pattern(at: usize) -> u16 {
        (at * 40_503 + 43_690) as u16
    }

    fn bits(self) -> u64 {
        self as u64
    }
}

impl Entry for u64 {
    const LARGEST: u64 = u64::MAX;

    fn pattern(at: usize) -> u64 {
        0xA5C3_9617_0000_0000 + at as u64 * 0x0101_0101
    }

    fn bits(self) -> u64 {
        self
    }
}

impl Entry for f64 {
    const LARGEST: f64 = f64::MAX;

    fn pattern(at: usize) -> f64 {
        -1234.5 - at as f64
    }

    fn bits(self) -> u64 {
        self.to_bits()
    }
}

pub struct Lent<T> {
    whole: Vec<T>,
}

impl<T: Entry> Lent<T> {
    pub fn new(room: usize) -> Lent<T> {
        Lent { whole: (0..room + 2 * MARGIN).map(T::pattern).collect() }
    }

    /// The part that is lent.
    pub fn part(&mut self) -> &mut [T] {
        let end = self.whole.len() - MARGIN;
        &mut self.whole[MARGIN..end]
    }

    /// What is wrong where these entries should have been written to the front and nothing else: None if nothing.
    pub fn fault(&self, written: &[T]) -> Option<String> {
        for (at, entry) in self.whole.iter().enumerate() {
            let in_front = at >= MARGIN && at - MARGIN < written.len();
            let right = if in_front { written[at - MARGIN] } else { T::pattern(at) };
            if entry.bits() != right.bits() {
                let place = at as i64 - MARGIN as i64;
                return Some(format!("entry {place} holds {:#x}, right is {:#x}", entry.bits(), right.bits()));
            }
        }
        None
    }
}
