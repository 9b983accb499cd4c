//! A safe face of libgritstrut: the day's balance of a plant, and constrained least squares beneath it. What the library
//! promises is proved; this crate is not. It needs no other crate and no operating system, but an allocator.
//!
//! Names are those of libitofin where they are the same thing: [`nnls`], [`lsei`], [`MatRef`], [`Failure`], [`Hessian`] and
//! [`subproblem`]. A program that has these takes the proved ones by changing an import. Residual norms are not computed, and
//! sizes have limits (include/gritstrut.h).
//!
//! Two generators feed a header, two vessels draw from it, and 10 more goes out than comes in:
//!
//! ```
//! use gritstrut::Day;
//!
//! let day = Day {
//!     values: &[1200.0, 790.0, 1310.0, 700.0],
//!     spreads: &[10.0, 10.0, 20.0, 5.0],
//!     balances: &[1.0, 1.0, -1.0, -1.0],
//!     nonnegative: true,
//!     ..Day::default()
//! };
//! let settled = day.settle()?;
//! assert!((settled.volumes[2] - 1297.2).abs() < 1e-9 && settled.bound < 1e-6);
//! # Ok::<(), gritstrut::Failure>(())
//! ```
//!
//! Every operation is a method of a [`Workspace`], which can be kept; the functions without one make their own.
#![no_std]
#![deny(missing_docs, unsafe_op_in_unsafe_fn)]
#![forbid(clippy::undocumented_unsafe_blocks)]

extern crate alloc;

mod day;
mod failure;
mod ffi;
mod hessian;
mod lsq;
mod mend;
pub mod report;
mod search;
mod step;
pub mod subproblem;
mod workspace;

pub use day::{Day, Readings, Reconciled, Settled, Suspected};
pub use failure::Failure;
pub use hessian::Hessian;
pub use lsq::{ldp, lsei, lsi, nnls, Lsq, MatRef, Nnls};
pub use mend::{mend, Mended, Reason};
pub use report::report;
pub use search::{Aim, Ending, Question, Search, Slopes, State};
pub use step::{Checked, Constraint, Part, Problem, Report, Stage, Step, Test, Verdict};
pub use subproblem::ConstraintKind;
pub use workspace::Workspace;

/// The version of the library that was linked: 10000 * first + 100 * second + third.
///
/// ```
/// assert!(gritstrut::version() >= 300);
/// ```
pub fn version() -> u32 {
    // SAFETY: it takes nothing and reads nothing.
    unsafe { ffi::gritstrut_version() }
}
