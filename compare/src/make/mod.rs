//! Makers of blocks and decks: named shapes, random ones, damaged ones, and one for each refusal number.

pub mod blocks;
pub mod claims;
pub mod damage;
pub mod damage_bytes;
pub mod damage_library;
pub mod decks;
pub mod libraries;
pub mod library_specimens;
pub mod matchings;
pub mod molfiles;
pub mod neighbours;
pub mod plan;
pub mod random;
pub mod relisted;
pub mod sdf;
pub mod shapes;
pub mod specimens;
