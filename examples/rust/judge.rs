//! Judges the deck on standard input; the exit status is 0 for accepted, 1 for differs, 2 for the rest.
//! From the root of the repository, after `make`:
//!     rustc -O examples/rust/judge.rs -L native=target/staticlib -l static=tteuyomal -o target/judge-rust
//!     target/judge-rust < DECK
use std::io::{self, Read, Write};
use std::process::ExitCode;

extern "C" {
    fn tteuyomal_judge(deck: *const u8, deck_len: usize) -> u64;
}

fn main() -> ExitCode {
    match judge() {
        Ok(status) => ExitCode::from(status),
        Err(fault) => {
            eprintln!("judge: {fault}");
            ExitCode::from(2)
        }
    }
}

fn judge() -> io::Result<u8> {
    let mut deck = Vec::new();
    io::stdin().read_to_end(&mut deck)?;
    // safe: the library only reads the bytes that are lent to it, and only during the call
    let reply = unsafe { tteuyomal_judge(deck.as_ptr(), deck.len()) };
    let (status, line) = match (reply % 256, reply / 256) {
        (0, _) => (0, String::from("accepted")),
        (255, field) => (1, format!("differs {field}")),
        (number, place) => (2, format!("refused {number} at {place}")),
    };
    writeln!(io::stdout(), "{line}")?;
    Ok(status)
}
