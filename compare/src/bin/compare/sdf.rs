//! SDFs: records and data items, by hand, in outputs of every length, and random ones, good and damaged.

use crate::archive;
use crate::checker::{code, written, Checker, DONE};
use crate::lent::{Lent, Shown};
use opinion::make::random::Random;
use opinion::make::sdf::{random_pieces, random_record, random_sdf, NAMES};
use opinion::sdf;

pub fn run(checker: &mut Checker, seed: u64, first: u64, cases: u64) {
    named(checker);
    for case in first..first + cases {
        let name = format!("random SDF {case} (compare --seed {seed} --first {case} --cases 1)");
        checker.case(name, |checker| {
            let random = &mut Random::for_case(seed ^ 0x7364_6600, case);
            walk(checker, random);
            let pieces = random_pieces(random);
            for from in 0..=pieces.len() + 1 {
                record(checker, &pieces, from, 3);
            }
            items(checker, random);
        });
    }
}

pub fn record(checker: &mut Checker, text: &[u8], from: usize, room: usize) {
    let (lent, mut out) = (Shown::new(text), Lent::new(room));
    let reply = archive::sdf_record(lent.part(), from, out.part());
    checker.holds(lent.is_still(text), "an input was changed");
    let right = sdf::record(text, from, room);
    let fault = out.fault(&written(&right, |span| span.map_or(Vec::new(), |span| span.to_vec())));
    let number = if right == Ok(None) { DONE } else { code(&right) };
    checker.agree(
        || format!("sdf_record from {from} room {room} {:?}", String::from_utf8_lossy(text)),
        number,
        reply,
        fault,
    );
}

pub fn item(checker: &mut Checker, text: &[u8], name: &[u8], room: usize) {
    let (lent, asked, mut out) = (Shown::new(text), Shown::new(name), Lent::new(room));
    let reply = archive::sdf_item(lent.part(), asked.part(), out.part());
    checker.holds(lent.is_still(text) && asked.is_still(name), "an input was changed");
    let right = sdf::item(text, name, room);
    let fault = out.fault(&written(&right, |span| span.to_vec()));
    let call = || {
        let [text, name] = [text, name].map(String::from_utf8_lossy);
        format!("sdf_item {name:?} room {room} of {text:?}")
    };
    checker.agree(call, code(&right), reply, fault);
}

fn named(checker: &mut Checker) {
    let text = b"\n\n\n  0  0\nM  END\n> <A>\n12\n\n> <B>\n> <C>\nx\n> <C>\n";
    checker.case("records and items into outputs of every length", |checker| {
        for room in 0..=4 {
            for from in [0, 10, text.len() - 1, text.len(), usize::MAX] {
                record(checker, text, from, room);
            }
            for name in [&b"A"[..], b"B", b"C", b"D", b""] {
                item(checker, text, name, room);
                item(checker, &text[..9], name, room);
            }
        }
    });
    checker.case("an SDF cut at every length", |checker| {
        let text = [&text[..], b"$$$$\r\n  \n"].concat();
        for length in 0..=text.len() {
            record(checker, &text[..length], 0, 3);
            for name in [&b"A"[..], b"B", b"C"] {
                item(checker, &text[..length], name, 2);
            }
        }
    });
}

/// Record after record: every byte is in one of them, in a line behind one, or in the blank rest; and a front that has the line behind a
/// record whole is told the same.
fn walk(checker: &mut Checker, random: &mut Random) {
    let text = random_sdf(random);
    let (mut at, mut span) = (0, [0; 3]);
    record(checker, &text, at, random.below(5));
    while archive::sdf_record(&text, at, &mut span) == 0 {
        record(checker, &text, at, 3);
        let [start, length, next] = span.map(|one| one as usize);
        checker.holds(
            start == at && start + length <= next && next > at && next <= text.len(),
            "a step that leaves bytes out",
        );
        if text[..next].ends_with(b"\n") && start + length < next {
            let mut early = [0; 3];
            let reply = archive::sdf_record(&text[..next], at, &mut early);
            checker.holds(reply == 0 && early == span, "a record that depends on what follows");
        }
        at = next;
    }
    record(checker, &text, at, 3);
}

fn items(checker: &mut Checker, random: &mut Random) {
    let text = random_record(random);
    for name in NAMES {
        let room = if random.once_in(12) { random.below(3) } else { 2 };
        item(checker, &text, name.as_bytes(), room);
    }
}
