//! Kinds for the strict step: bounds that it takes and that it refuses, each fault at each place.

use super::spoiled::{bad_kind, bad_length, bad_report, bad_width, bad_workspace, spoilt};
use super::step::{LOWER, UPPER, of};
use super::{Row, Share};
use crate::draw::{Draw, Palette, SPECIAL, spell};
use crate::table::Aim::{Number, Relaxed};
use reference::call::Call;
use reference::shape::Op;

pub const ROWS: [Row; 3] = [
    ("both bounds", Share::All(24 * 24), &[Number(0), Number(6), Number(15)], both_bounds),
    ("two variables", Share::All(4096), &[Number(0), Number(6), Number(15)], two_variables),
    ("open both ways", Share::Weight(12), &[Number(0), Relaxed], |_, _, draw| {
        let mut call = of(draw, Palette::Smooth);
        for at in 0..call.sizes[0] {
            if draw.one_in(2) {
                call.inputs[LOWER][at] = f64::NEG_INFINITY;
            }
            if draw.one_in(2) {
                call.inputs[UPPER][at] = f64::INFINITY;
            }
        }
        call
    }),
];

/// Rows with a bound that is refused, alone, among others, and beside what is tested before it.
pub const BAD: [Row; 3] = [
    ("bad bound", Share::Weight(16), &[Number(15)], |op, _, draw| spoilt(op, draw, &[bad_bound])),
    ("bad bounds", Share::Weight(10), &[Number(15)], |op, _, draw| {
        let mut call = spoilt(op, draw, &[bad_bound]);
        for _ in 0..draw.between(1, 8) {
            bad_bound(&mut call, draw);
        }
        call
    }),
    (
        "bad bound, more",
        Share::Weight(12),
        &[Number(2), Number(3), Number(4), Number(14)],
        |op, _, draw| {
            let others = [bad_width, bad_width, bad_kind, bad_length, bad_report, bad_workspace];
            let other = draw.pick(&others);
            let mut call = spoilt(op, draw, &[bad_bound]);
            other(&mut call, draw);
            call
        },
    ),
];

/// One variable under every pair of special bounds.
fn both_bounds(_: Op, index: u64, draw: &mut Draw) -> Call {
    let one = |at: u64| vec![f64::from_bits(SPECIAL[at as usize % SPECIAL.len()])];
    let gradient = vec![draw.pick(&[-1.0, 0.0, 1.0])];
    let (lower, upper) = (one(index / 24), one(index % 24));
    let inputs = vec![vec![1.0], gradient, vec![], vec![], vec![], lower, upper];
    Call::new(Op::StrictStep, &[1, 0], inputs)
}

/// Two variables whose four bounds are a number, a NaN or an infinity each.
fn two_variables(_: Op, index: u64, draw: &mut Draw) -> Call {
    let letters =
        [-2.0, 3.0, f64::NAN, f64::INFINITY, f64::NEG_INFINITY, -0.0, f64::MAX, -f64::NAN];
    let bounds = spell(index, &letters, 4);
    let factor = vec![1.0, 0.0, draw.pick(&[0.0, 0.5]), 2.0];
    let gradient = vec![draw.smooth(), draw.smooth()];
    let (lower, upper) = (bounds[..2].to_vec(), bounds[2..].to_vec());
    let inputs = vec![factor, gradient, vec![], vec![], vec![], lower, upper];
    Call::new(Op::StrictStep, &[2, 0], inputs)
}

/// A NaN of either sign, a lower +infinity or an upper -infinity.
fn bad_bound(call: &mut Call, draw: &mut Draw) {
    let (side, facing) = draw.pick(&[(LOWER, f64::INFINITY), (UPPER, f64::NEG_INFINITY)]);
    let at = draw.below(call.inputs[side].len());
    call.inputs[side][at] = draw.pick(&[f64::NAN, -f64::NAN, facing, facing]);
}
