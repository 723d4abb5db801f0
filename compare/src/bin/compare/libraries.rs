//! Library decks: the example and each refusal, sweeps over positions, kinds, lengths, cuts and bytes.

use crate::archive;
use crate::checker::Checker;
use opinion::library::read_library;
use opinion::make::library_specimens::{libraries, TWO_PRODUCTS};
use opinion::refusal::Refusal;
use opinion::walk::{sheet_bytes, Walk};

pub const KINDS: [usize; 2] = [3, 4];

pub fn run(checker: &mut Checker) {
    specimens(checker);
    buffers(checker);
    positions(checker);
    cuts_and_bytes(checker);
}

/// A question with room for one sheet and for the position.
pub fn ask(deck: &[u8], kind: usize, position: usize) -> Walk<'_> {
    Walk { deck, kind, position, room: sheet_bytes(kind), entries: 1 }
}

/// All calls that a library deck takes, with room enough, and those of decks of another form.
pub fn whole_library(checker: &mut Checker, deck: &[u8]) {
    checker.library_count(deck, 1);
    for kind in KINDS {
        checker.library_step(ask(deck, kind, 0));
        checker.library_step(ask(deck, kind, 1));
        checker.library_run(Walk { room: 3 * sheet_bytes(kind), ..ask(deck, kind, 0) });
    }
    other_forms(checker, deck);
}

/// A library deck is not composed and not judged: 12 at its last record.
pub fn other_forms(checker: &mut Checker, deck: &[u8]) {
    checker.judge(deck);
    checker.compose(deck, 5);
    checker.compose_six(deck, 6);
    checker.write_sheet(deck, 40);
    checker.write_six(deck, 44);
    checker.placed_distance(deck, [1, 1, 1, 1], 1);
}

/// The second opinion must say what is written by hand, and the library what the second opinion says.
fn specimens(checker: &mut Checker) {
    checker.case("a library of two products", |checker| {
        whole_library(checker, &TWO_PRODUCTS);
        let kind_five = 12 + 256 * 32;
        let told = [archive::judge(&TWO_PRODUCTS), archive::compose(&TWO_PRODUCTS, &mut [0; 5])];
        checker.holds(told == [kind_five; 2], "a library is composed or judged");
    });
    for specimen in libraries() {
        checker.case(specimen.name, |checker| {
            let by_hand = Some(Refusal { number: specimen.number, place: specimen.place });
            let found = read_library(&specimen.deck).err();
            checker.holds(found == by_hand, "the second opinion is not what was written by hand");
            whole_library(checker, &specimen.deck);
        });
    }
}

/// Outputs of every length about what is needed, with good and with refused decks, before and at the end.
fn buffers(checker: &mut Checker) {
    let (good, refused, long) = (TWO_PRODUCTS.to_vec(), TWO_PRODUCTS[..52].to_vec(), vec![0; 32_769]);
    for room in 0..=140 {
        checker.case(format!("products' sheets into {room} bytes"), |checker| {
            for deck in [&good, &refused, &long] {
                checker.library_count(deck, room % 4);
                for (kind, position) in [(3, 0), (4, 0), (3, 1), (4, 1), (3, 2), (4, 2)] {
                    for entries in 0..=2 {
                        let walk = Walk { room, entries, ..ask(deck, kind, position) };
                        checker.library_step(walk);
                        checker.library_run(walk);
                    }
                }
            }
        });
    }
}

/// Positions at, about and far past the count, and every sort of kind.
fn positions(checker: &mut Checker) {
    let far = [2, 3, 255, 256, 4_095, 4_096, 65_536, 1 << 32, (1 << 32) + 1, usize::MAX - 1, usize::MAX];
    for position in [0, 1].into_iter().chain(far) {
        checker.case(format!("the product at {position}"), |checker| {
            for kind in [0, 1, 2, 3, 4, 5, 255, 256, 259, 260, (1 << 32) + 4, usize::MAX] {
                let walk = Walk { room: 100, ..ask(&TWO_PRODUCTS, kind, position) };
                checker.library_step(walk);
                checker.library_run(walk);
            }
        });
    }
}

/// The example cut at every length, followed by up to 50 bytes more, and with each byte given every value.
fn cuts_and_bytes(checker: &mut Checker) {
    for length in 0..TWO_PRODUCTS.len() + 50 {
        checker.case(format!("a library deck brought to {length} bytes"), |checker| {
            let mut cut = TWO_PRODUCTS.to_vec();
            cut.resize(length, 0);
            whole_library(checker, &cut);
        });
    }
    for at in 0..TWO_PRODUCTS.len() {
        checker.case(format!("byte {at} of a library deck changed"), |checker| {
            for value in 0..=255 {
                let mut changed = TWO_PRODUCTS;
                changed[at] = value;
                checker.library_count(&changed, 1);
                checker.library_run(Walk { room: 200, ..ask(&changed, 4, 0) });
                checker.judge(&changed);
            }
        });
    }
}
