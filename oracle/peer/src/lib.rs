//! The C interface over the Rust files: what a library under test must look like from outside.
//! It serves to try the comparison, sound or with a slip.

mod interface;
mod lent;

pub use interface::{INTERFACE, Lender, Library, library};
