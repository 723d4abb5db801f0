//! Calls of the library, each beside the second opinion: the reply and every lent entry must agree.

use crate::archive;
use crate::lent::{Lent, Shown};
use opinion::answers::{self, Verdict};
use opinion::balaban;
use opinion::count_sets;
use opinion::molecule::Measurer;
use opinion::molfile;
use opinion::neighbours;
use opinion::refusal::Refusal;
use opinion::szeged;
use std::fmt::Display;
use std::{process, ptr};

/// Failures told in full; the others are only counted.
const MOST_TOLD: usize = 20;

/// The reply where a library has no product at a position.
pub const DONE: u64 = 254;

/// How often each number was met.
pub struct Refusals(pub [usize; 256]);

impl Default for Refusals {
    fn default() -> Refusals {
        Refusals([0; 256])
    }
}

#[derive(Default)]
pub struct Checker {
    pub passed: usize,
    pub failed: usize,
    pub calls: usize,
    /// How many of them are refused nothing and find no difference.
    pub fine: usize,
    /// How often each refusal number was right.
    pub refused: Refusals,
    pub accepted: usize,
    /// How often each field was the first wrong one.
    pub differed: [usize; 7],
    /// How often claims were accepted, and how often one was wrong.
    pub claims_accepted: usize,
    pub claims_differed: usize,
    /// How often a matching was right, and how often each kind of place was told: 0, an atom, a bond of the list, a bond of the deck.
    pub matched: usize,
    pub unmatched: [usize; 4],
    /// How often the products of a library, or the records of an SDF, were done.
    pub done: usize,
    pub measurer: Measurer,
    /// Whether the first failure, or a case of more than two seconds, ends the program.
    pub ends: bool,
    faults: Vec<String>,
}

/// The one number that a C function replies.
pub fn code<T>(answer: &Result<T, Refusal>) -> u64 {
    match answer {
        Ok(_) => 0,
        Err(refusal) => refusal.number + 256 * refusal.place,
    }
}

fn words(code: u64) -> String {
    match (code % 256, code / 256) {
        (0, 0) => String::from("fine"),
        (DONE, 0) => String::from("done"),
        (255, field) => format!("differs {field}"),
        (number, place) => format!("refused {number} at {place}"),
    }
}

/// The bytes of an input, as far as a line holds them.
pub fn hex(bytes: &[u8]) -> String {
    let shown: Vec<String> = bytes.iter().take(300).map(|byte| format!("{byte:02x}")).collect();
    let rest = if bytes.len() > 300 { ".." } else { "" };
    format!("{} bytes {}{rest}", bytes.len(), shown.join(" "))
}

/// What was written, for an output: nothing where the answer is a refusal.
pub fn written<T, E: Clone>(answer: &Result<T, Refusal>, entries: impl Fn(&T) -> Vec<E>) -> Vec<E> {
    answer.as_ref().map_or(Vec::new(), entries)
}

extern "C" {
    fn setitimer(which: i32, new: *const [i64; 4], old: *mut [i64; 4]) -> i32;
}

/// Two seconds of processor time from now the program is killed.
pub fn limit_time() {
    const VIRTUAL: i32 = 1;
    unsafe { setitimer(VIRTUAL, &[0, 0, 2, 0], ptr::null_mut()) };
}

impl Checker {
    /// One case: it passes when every call in it agrees.
    pub fn case(&mut self, name: impl Display, calls: impl FnOnce(&mut Checker)) {
        if self.ends {
            limit_time();
        }
        calls(self);
        if self.faults.is_empty() {
            self.passed += 1;
            return;
        }
        self.failed += 1;
        if self.failed <= MOST_TOLD {
            println!("FAILED {name}");
            for fault in self.faults.iter().take(3) {
                println!("  {fault}");
            }
        }
        if self.ends {
            process::exit(1);
        }
        self.faults.clear();
    }

    /// A fact that must hold within a case.
    pub fn holds(&mut self, fact: bool, name: impl Display) {
        if !fact {
            self.faults.push(name.to_string());
        }
    }

    fn count(&mut self, right: u64) {
        self.calls += 1;
        match (right % 256, right / 256) {
            (0, _) => self.fine += 1,
            (DONE, _) => self.done += 1,
            (255, field) => self.differed[field as usize] += 1,
            (number, _) => self.refused.0[number as usize] += 1,
        }
    }

    /// The same of claims, which have no field of their own.
    fn count_claims(&mut self, right: u64) {
        match right % 256 {
            0 => {
                self.fine += 1;
                self.claims_accepted += 1;
            }
            255 => self.claims_differed += 1,
            _ => return self.count(right),
        }
        self.calls += 1;
    }

    pub fn agree(&mut self, call: impl Fn() -> String, right: u64, reply: u64, fault: Option<String>) {
        self.count(right);
        self.same(call, right, reply, fault);
    }

    pub fn agree_claims(&mut self, call: impl Fn() -> String, right: u64, reply: u64) {
        self.count_claims(right);
        self.same(call, right, reply, None);
    }

    /// The same of a matching of so many atoms and bonds, by the kind of its place.
    pub fn agree_matched(&mut self, call: impl Fn() -> String, (n, m): (u64, u64), right: u64, reply: u64) {
        match (right % 256, right / 256) {
            (0, _) => self.matched += 1,
            (255, place) => {
                let kind = (place > 0) as usize + (place > n) as usize + (place > n + m) as usize;
                self.unmatched[kind] += 1;
            }
            _ => self.refused.0[(right % 256) as usize] += 1,
        }
        self.calls += 1;
        self.same(call, right, reply, None);
    }

    fn same(&mut self, call: impl Fn() -> String, right: u64, reply: u64, fault: Option<String>) {
        if reply != right {
            self.faults.push(format!("{}: {}, right is {}", call(), words(reply), words(right)));
        } else if let Some(fault) = fault {
            self.faults.push(format!("{}: {}, and {fault}", call(), words(reply)));
        }
    }

    pub fn judge(&mut self, deck: &[u8]) {
        let lent = Shown::new(deck);
        let reply = archive::judge(lent.part());
        self.holds(lent.is_still(deck), "an input was changed");
        let right = match answers::judge(&mut self.measurer, deck) {
            Verdict::Accepted => 0,
            Verdict::Differs(field) => 255 + 256 * field,
            Verdict::Refused(refusal) => refusal.number + 256 * refusal.place,
        };
        self.accepted += (right == 0) as usize;
        self.agree(|| format!("judge {}", hex(deck)), right, reply, None);
    }

    pub fn write_sheet(&mut self, deck: &[u8], room: usize) {
        let (lent, mut out) = (Shown::new(deck), Lent::new(room));
        let reply = archive::write_sheet(lent.part(), out.part());
        self.holds(lent.is_still(deck), "an input was changed");
        let right = answers::write_sheet(&mut self.measurer, deck, room);
        let fault = out.fault(&written(&right, |sheet| sheet.clone()));
        self.agree(|| format!("write_sheet room {room} {}", hex(deck)), code(&right), reply, fault);
    }

    pub fn compose(&mut self, deck: &[u8], room: usize) {
        let (lent, mut out) = (Shown::new(deck), Lent::new(room));
        let reply = archive::compose(lent.part(), out.part());
        self.holds(lent.is_still(deck), "an input was changed");
        let right = answers::compose(&mut self.measurer, deck, room);
        let fault = out.fault(&written(&right, |fields| fields.to_vec()));
        self.agree(|| format!("compose room {room} {}", hex(deck)), code(&right), reply, fault);
    }

    pub fn write_six(&mut self, deck: &[u8], room: usize) {
        let (lent, mut out) = (Shown::new(deck), Lent::new(room));
        let reply = archive::write_six(lent.part(), out.part());
        self.holds(lent.is_still(deck), "an input was changed");
        let right = answers::write_six(&mut self.measurer, deck, room);
        let fault = out.fault(&written(&right, |sheet| sheet.clone()));
        self.agree(|| format!("write_six room {room} {}", hex(deck)), code(&right), reply, fault);
    }

    pub fn compose_six(&mut self, deck: &[u8], room: usize) {
        let (lent, mut out) = (Shown::new(deck), Lent::new(room));
        let reply = archive::compose_six(lent.part(), out.part());
        self.holds(lent.is_still(deck), "an input was changed");
        let right = answers::compose_six(&mut self.measurer, deck, room);
        let fault = out.fault(&written(&right, |fields| fields.to_vec()));
        self.agree(|| format!("compose_six room {room} {}", hex(deck)), code(&right), reply, fault);
    }

    pub fn placed_distance(&mut self, deck: &[u8], atoms: [usize; 4], room: usize) {
        let (lent, mut out) = (Shown::new(deck), Lent::new(room));
        let reply = archive::placed_distance(lent.part(), atoms, out.part());
        self.holds(lent.is_still(deck), "an input was changed");
        let right = answers::placed_distance(deck, atoms, room);
        let fault = out.fault(&written(&right, |&distance| vec![distance]));
        let call = || format!("placed_distance {atoms:?} room {room} {}", hex(deck));
        self.agree(call, code(&right), reply, fault);
    }

    pub fn check_block(&mut self, atoms: usize, bonds: &[u8]) {
        let lent = Shown::new(bonds);
        let reply = archive::check_block(atoms, lent.part());
        self.holds(lent.is_still(bonds), "an input was changed");
        let right = answers::check_block(atoms, bonds);
        self.agree(|| format!("check_block {atoms} {}", hex(bonds)), code(&right), reply, None);
    }

    pub fn indices(&mut self, atoms: usize, bonds: &[u8], room: usize) {
        let (lent, mut out) = (Shown::new(bonds), Lent::new(room));
        let reply = archive::indices(atoms, lent.part(), out.part());
        self.holds(lent.is_still(bonds), "an input was changed");
        let right = answers::indices(atoms, bonds, room);
        let fault = out.fault(&written(&right, |fields| fields.to_vec()));
        self.agree(|| format!("indices {atoms} room {room} {}", hex(bonds)), code(&right), reply, fault);
    }

    pub fn vertex(&mut self, atoms: usize, bonds: &[u8], atom: usize, room: usize) {
        let (lent, mut out) = (Shown::new(bonds), Lent::new(room));
        let reply = archive::vertex(atoms, lent.part(), atom, out.part());
        self.holds(lent.is_still(bonds), "an input was changed");
        let right = answers::vertex(atoms, bonds, atom, room);
        let fault = out.fault(&written(&right, |sums| sums.to_vec()));
        let call = || format!("vertex {atoms} atom {atom} room {room} {}", hex(bonds));
        self.agree(call, code(&right), reply, fault);
    }

    pub fn farthest(&mut self, atoms: usize, bonds: &[u8], atom: usize, room: usize) {
        let (lent, mut out) = (Shown::new(bonds), Lent::new(room));
        let reply = archive::farthest(atoms, lent.part(), atom, out.part());
        self.holds(lent.is_still(bonds), "an input was changed");
        let right = answers::farthest(atoms, bonds, atom, room);
        let fault = out.fault(&written(&right, |&largest| vec![largest]));
        let call = || format!("farthest {atoms} atom {atom} room {room} {}", hex(bonds));
        self.agree(call, code(&right), reply, fault);
    }

    pub fn contributions(&mut self, atoms: usize, bonds: &[u8], room: usize, d_room: usize) {
        let (lent, mut out, mut d_out) = (Shown::new(bonds), Lent::new(room), Lent::new(d_room));
        let reply = archive::contributions(atoms, lent.part(), out.part(), d_out.part());
        self.holds(lent.is_still(bonds), "an input was changed");
        let right = answers::contributions(atoms, bonds, room, d_room);
        let shares_fault = out.fault(&written(&right, |(_, shares)| shares.clone()));
        let d_fault = d_out.fault(&written(&right, |&(d, _)| vec![d]));
        let call = || format!("contributions {atoms} room {room} and {d_room} {}", hex(bonds));
        self.agree(call, code(&right), reply, shares_fault.or(d_fault));
    }

    pub fn szeged(&mut self, atoms: usize, bonds: &[u8], room: usize, index_room: usize) {
        let (lent, mut out, mut index_out) = (Shown::new(bonds), Lent::new(room), Lent::new(index_room));
        let reply = archive::szeged(atoms, lent.part(), out.part(), index_out.part());
        self.holds(lent.is_still(bonds), "an input was changed");
        let right = szeged::answer(atoms, bonds, room, index_room);
        let terms_fault = out.fault(&written(&right, |(_, terms)| terms.clone()));
        let index_fault = index_out.fault(&written(&right, |&(index, _)| vec![index]));
        let call = || format!("szeged {atoms} room {room} and {index_room} {}", hex(bonds));
        self.agree(call, code(&right), reply, terms_fault.or(index_fault));
    }

    pub fn balaban(&mut self, atoms: usize, bonds: &[u8], room: usize) {
        let (lent, mut out) = (Shown::new(bonds), Lent::new(room));
        let reply = archive::balaban(atoms, lent.part(), out.part());
        self.holds(lent.is_still(bonds), "an input was changed");
        let right = balaban::answer(atoms, bonds, room);
        let fault = out.fault(&written(&right, |&value| vec![value]));
        self.agree(|| format!("balaban {atoms} room {room} {}", hex(bonds)), code(&right), reply, fault);
    }

    pub fn polynomial(&mut self, atoms: usize, bonds: &[u8], x: f64, room: usize) {
        let (lent, mut out) = (Shown::new(bonds), Lent::new(room));
        let reply = archive::polynomial(atoms, lent.part(), x, out.part());
        self.holds(lent.is_still(bonds), "an input was changed");
        let right = answers::polynomial(atoms, bonds, x, room);
        let fault = out.fault(&written(&right, |values| values.to_vec()));
        let call = || format!("polynomial {atoms} x {x:e} room {room} {}", hex(bonds));
        self.agree(call, code(&right), reply, fault);
    }

    pub fn read_molfile(&mut self, file: &[u8], room: usize, entries: usize) {
        let (lent, mut out, mut counts) = (Shown::new(file), Lent::new(room), Lent::new(entries));
        let reply = archive::read_molfile(lent.part(), out.part(), counts.part());
        self.holds(lent.is_still(file), "an input was changed");
        let right = molfile::read(file, room, entries);
        let bonds_fault = out.fault(&written(&right, |(_, bytes)| bytes.clone()));
        let counts_fault = counts.fault(&written(&right, |(atoms, bytes)| vec![*atoms as u64, bytes.len() as u64 / 2]));
        let call = || format!("read_molfile room {room} and {entries} {:?}", String::from_utf8_lossy(file));
        self.agree(call, code(&right), reply, bonds_fault.or(counts_fault));
    }

    pub fn write_molfile(&mut self, atoms: usize, bonds: &[u8], room: usize, entries: usize) {
        let (lent, mut out, mut length) = (Shown::new(bonds), Lent::new(room), Lent::new(entries));
        let reply = archive::write_molfile(atoms, lent.part(), out.part(), length.part());
        self.holds(lent.is_still(bonds), "an input was changed");
        let right = molfile::write(atoms, bonds, room, entries);
        let text_fault = out.fault(&written(&right, |text| text.clone().into_bytes()));
        let length_fault = length.fault(&written(&right, |text| vec![text.len() as u64]));
        let call = || format!("write_molfile {atoms} room {room} and {entries} {}", hex(bonds));
        self.agree(call, code(&right), reply, text_fault.or(length_fault));
    }

    pub fn count_sets(&mut self, atoms: usize, bonds: &[u8], room: usize) {
        let (lent, mut out) = (Shown::new(bonds), Lent::new(room));
        let reply = archive::count_sets(atoms, lent.part(), out.part());
        self.holds(lent.is_still(bonds), "an input was changed");
        let right = count_sets::count_sets(atoms, bonds, room);
        let fault = out.fault(&written(&right, |counts| counts.to_vec()));
        self.agree(|| format!("count_sets {atoms} room {room} {}", hex(bonds)), code(&right), reply, fault);
    }

    pub fn read_neighbours(&mut self, text: &[u8], room: usize, entries: usize) {
        let (lent, mut out, mut counts) = (Shown::new(text), Lent::new(room), Lent::new(entries));
        let reply = archive::read_neighbours(lent.part(), out.part(), counts.part());
        self.holds(lent.is_still(text), "an input was changed");
        let right = neighbours::read(text, room, entries);
        let bonds_fault = out.fault(&written(&right, |(_, bytes)| bytes.clone()));
        let counts_fault = counts.fault(&written(&right, |(atoms, bytes)| vec![*atoms as u64, bytes.len() as u64 / 2]));
        let call = || format!("read_neighbours room {room} and {entries} {:?}", String::from_utf8_lossy(text));
        self.agree(call, code(&right), reply, bonds_fault.or(counts_fault));
    }

    pub fn write_neighbours(&mut self, atoms: usize, bonds: &[u8], room: usize, entries: usize) {
        let (lent, mut out, mut length) = (Shown::new(bonds), Lent::new(room), Lent::new(entries));
        let reply = archive::write_neighbours(atoms, lent.part(), out.part(), length.part());
        self.holds(lent.is_still(bonds), "an input was changed");
        let right = neighbours::write(atoms, bonds, room, entries);
        let text_fault = out.fault(&written(&right, |text| text.clone().into_bytes()));
        let length_fault = length.fault(&written(&right, |text| vec![text.len() as u64]));
        let call = || format!("write_neighbours {atoms} room {room} and {entries} {}", hex(bonds));
        self.agree(call, code(&right), reply, text_fault.or(length_fault));
    }
}
