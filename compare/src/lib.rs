//! A second opinion on decks and blocks, written from document 01 alone, and the makers of decks to ask it about.
//!
//! It shares nothing with the library under test: it reads decks by its own code, writes the whole molecule out and
//! searches it from every atom. It is meant to be plain, not fast.

pub mod answers;
pub mod balaban;
pub mod block;
pub mod claims;
pub mod count_sets;
pub mod deck;
pub mod documents;
pub mod fraction;
pub mod graph;
pub mod library;
pub mod line;
pub mod make;
pub mod matched;
pub mod molecule;
pub mod molfile;
pub mod neighbours;
pub mod polynomial;
pub mod queues;
pub mod ranking;
pub mod refusal;
pub mod sdf;
pub mod shares;
pub mod szeged;
pub mod walk;

#[cfg(test)]
mod tests;
