//! The Rust files, built with a stand-in by docs/RULES.md for what they lean on, and the
//! full answer that a public operation owes: the rules' refusals around their arithmetic.

extern crate self as reference;

pub mod call;
pub mod certain;
pub mod check;
pub mod day;
pub mod ground;
pub mod search;
pub mod settle;
pub mod shape;
pub mod stand_in;
pub mod strict;
pub mod suspect;
pub mod tally;
pub mod triangle;

include!(concat!(env!("OUT_DIR"), "/tree.rs"));

pub use kernels::Rust;
pub use plain::kernels::Rust as PlainRust;

/// The toolchain that this was built with.
pub const TOOLCHAIN: &str = env!("TOOLCHAIN");

/// Whether this library's sums start at -0, as docs/RULES.md has it.
pub fn sums_start_at_minus_zero() -> bool {
    std::iter::empty::<f64>().sum::<f64>().to_bits() == (-0.0f64).to_bits()
}
