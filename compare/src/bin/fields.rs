//! The six fields of decks without a sheet, by the second opinion: each molecule is written out atom by atom and searched.
//!
//!     fields DECK ..
//!
//! One line a deck: the name, `: `, and the fields with commas between them, or the refusal.

use opinion::answers::compose_six;
use opinion::molecule::Measurer;
use std::fs;
use std::io;

fn main() -> io::Result<()> {
    let measurer = &mut Measurer::default();
    for name in std::env::args().skip(1) {
        match compose_six(measurer, &fs::read(&name)?, 6) {
            Ok(fields) => println!("{name}: {}", fields.map(|field| field.to_string()).join(",")),
            Err(refusal) => println!("{name}: refused {} at {}", refusal.number, refusal.place),
        }
    }
    Ok(())
}
