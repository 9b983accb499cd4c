//! Tries a library against the Rust files: seeded calls of every kind, each compared in full.

pub mod digest;
pub mod draw;
pub mod files;
pub mod held;
pub mod kinds;
pub mod problems;
pub mod records;
pub mod replay;
pub mod run;
pub mod search;
pub mod sequences;
pub mod stored;
pub mod table;
pub mod tallies;
