//! The strict step's own test, a second reading of docs/RULES.md, "The strict step".

use crate::call::{Call, Edge};
use crate::shape::{Op, REPORT};
use crate::tally::NOWHERE;

/// The places of the bounds among a step's inputs.
const BOUNDS: [usize; 2] = [5, 6];

/// A bound is a number, or open the way it faces: -infinity below, +infinity above.
pub fn bounded(lower: f64, upper: f64) -> bool {
    let open = [f64::NEG_INFINITY, f64::INFINITY];
    [lower, upper].into_iter().zip(open).all(|(bound, open)| bound.is_finite() || bound == open)
}

/// The variables whose bounds are not taken; the step takes all.
pub fn wrong(call: &Call, bounded: impl Fn(f64, f64) -> bool) -> Vec<usize> {
    if call.op != Op::StrictStep {
        return vec![];
    }
    let [lower, upper] = BOUNDS.map(|at| &call.inputs[at]);
    let sides = lower.iter().zip(upper).enumerate();
    sides.filter(|(_, (low, high))| !bounded(**low, **high)).map(|(at, _)| at).collect()
}

/// The report that comes with 15: the number and the variable in the exact stage's place.
pub fn report<E: Edge>(call: &Call) -> [u32; REPORT] {
    [15, E::variable(&wrong(call, E::bounded)) as u32, 0, NOWHERE, 0, 0]
}
