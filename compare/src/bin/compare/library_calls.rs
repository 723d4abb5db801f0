//! Calls about library decks, each beside the second opinion.

use crate::archive;
use crate::checker::{code, hex, written, Checker, DONE};
use crate::lent::{Lent, Shown};
use opinion::molecule::Measurer;
use opinion::ranking::{self, Ask};
use opinion::refusal::Refusal;
use opinion::walk::{self, Walk, Walked};

/// A deck, a kind and a position; lends sheets and the next position.
type Call = fn(&[u8], usize, usize, &mut [u8], &mut [u64]) -> u64;

/// A step or a run of the library under test, and of the second opinion.
struct Walker {
    name: &'static str,
    call: Call,
    right: fn(&mut Measurer, Walk) -> Result<Walked, Refusal>,
}

const STEP: Walker = Walker { name: "library_step", call: archive::library_step, right: walk::step };
const RUN: Walker = Walker { name: "library_run", call: archive::library_run, right: walk::run };

impl Checker {
    pub fn library_count(&mut self, deck: &[u8], room: usize) {
        let (lent, mut out) = (Shown::new(deck), Lent::new(room));
        let reply = archive::library_count(lent.part(), out.part());
        self.holds(lent.is_still(deck), "an input was changed");
        let right = walk::count(deck, room);
        let fault = out.fault(&written(&right, |&count| vec![count]));
        self.agree(|| format!("library_count room {room} {}", hex(deck)), code(&right), reply, fault);
    }

    pub fn library_step(&mut self, walk: Walk) {
        self.walked(STEP, walk);
    }

    pub fn library_run(&mut self, walk: Walk) {
        self.walked(RUN, walk);
    }

    /// The entries and the number as they are before the call; both after it, with every other number about them.
    pub fn library_best(&mut self, ask: Ask) {
        let Ask { deck, field, greatest, tag, entries, held } = ask;
        let (lent, mut best, mut many) = (Shown::new(deck), Lent::new(entries.len()), Lent::new(held.iter().len()));
        best.part().copy_from_slice(entries);
        many.part().copy_from_slice(held.as_slice());
        let reply = archive::library_best(lent.part(), field, greatest, tag, best.part(), many.part());
        self.holds(lent.is_still(deck), "an input was changed");
        let right = ranking::best(&mut self.measurer, ask);
        let (mut after, mut count) = (entries.to_vec(), held.as_slice().to_vec());
        if let Ok(held) = &right {
            after[..3 * held.len()].copy_from_slice(&held.concat());
            count = vec![held.len() as u64];
        }
        let fault = best.fault(&after).or(many.fault(&count));
        let call = || {
            format!(
                "library_best field {field} greatest {greatest} tag {tag} held {held:?} in {entries:?} {}",
                hex(deck)
            )
        };
        self.agree(call, code(&right), reply, fault);
    }

    fn walked(&mut self, walker: Walker, walk: Walk) {
        let Walk { deck, kind, position, room, entries } = walk;
        let (lent, mut out, mut next) = (Shown::new(deck), Lent::new(room), Lent::new(entries));
        let reply = (walker.call)(lent.part(), kind, position, out.part(), next.part());
        self.holds(lent.is_still(deck), "an input was changed");
        let right = (walker.right)(&mut self.measurer, walk);
        let (told, sheets, position_told) = match &right {
            Ok(Walked::Next(sheets, next)) => (0, &sheets[..], vec![*next]),
            Ok(Walked::Done) => (DONE, &[][..], Vec::new()),
            Err(_) => (code(&right), &[][..], Vec::new()),
        };
        let fault = out.fault(sheets).or(next.fault(&position_told));
        let call = || format!("{} kind {kind} at {position} room {room} and {entries} {}", walker.name, hex(deck));
        self.agree(call, told, reply, fault);
    }
}
