//! Kinds for the root, the sum and the norm.

use super::parts::{in_columns, units};
use super::{Row, Share};
use crate::draw::{Draw, Palette, SPECIAL, specials, spell};
use crate::table::Aim::{Moved, Nan, Number};
use reference::call::Call;
use reference::shape::Op;

const LETTERS: u64 = SPECIAL.len() as u64;

pub const SQRT: [Row; 3] = [
    ("special", Share::All(LETTERS), &[Number(0), Nan], |op, index, _| {
        list(op, vec![f64::from_bits(SPECIAL[index as usize])])
    }),
    ("bits", Share::Weight(2), &[Number(0), Nan], |op, _, draw| {
        list(op, draw.reals(Palette::Bits, 1))
    }),
    ("squares", Share::Weight(2), &[Number(0)], |op, _, draw| {
        let root = 1.0 + draw.fraction();
        let root = f64::from_bits(root.to_bits() & !0x3ff_ffff | (draw.bits() & 0x1));
        let nearby = (root * root).to_bits() + draw.below(5) as u64 - 2;
        list(op, vec![f64::from_bits(nearby) * draw.power(-1070, 1000)])
    }),
];

pub const LISTS: [Row; 7] = [
    ("short special", Share::All(1 + LETTERS + LETTERS * LETTERS), &[Number(0), Nan], short),
    ("smooth", Share::Weight(3), &[Number(0)], |op, _, draw| drawn(op, draw, Palette::Smooth)),
    ("whole", Share::Weight(2), &[Number(0)], |op, _, draw| drawn(op, draw, Palette::Whole)),
    ("zeros", Share::Weight(2), &[Number(0)], |op, _, draw| {
        let len = draw.below(6);
        let zeros = (0..len).map(|_| draw.pick(&[0.0, -0.0, -0.0, -0.0])).collect();
        list(op, zeros)
    }),
    ("wide", Share::Weight(3), &[Number(0)], |op, _, draw| drawn(op, draw, Palette::Wide)),
    ("vast", Share::Weight(3), &[Number(0)], |op, _, draw| drawn(op, draw, Palette::Vast)),
    ("bits", Share::Weight(2), &[Number(0), Nan], |op, _, draw| drawn(op, draw, Palette::Bits)),
];

pub const NORM: [Row; 5] = [
    ("specials", Share::Weight(2), &[Number(0), Nan], |op, _, draw| {
        let len = draw.below(5);
        list(op, draw.reals(Palette::Special, len))
    }),
    ("units", Share::Weight(4), &[Number(0), Moved], |op, _, draw| {
        let palette = draw.pick(&[Palette::Smooth, Palette::Whole, Palette::Signs]);
        let mut call = drawn(op, draw, palette);
        let units = units(draw, call.inputs[0].len());
        in_columns(&mut call.inputs[0], &units);
        call
    }),
    ("edge of squares", Share::Weight(3), &[Number(0), Moved], |op, _, draw| {
        let (from, to) = draw.pick(&[(-560, -470), (-515, -505), (500, 515)]);
        magnified(op, draw, from, to)
    }),
    ("edge of range", Share::Weight(3), &[Number(0), Moved], |op, _, draw| {
        let (from, to) = draw.pick(&[(-1074, -1015), (-1074, -1060), (1015, 1023), (-1074, 1023)]);
        magnified(op, draw, from, to)
    }),
    ("chained", Share::Weight(2), &[Number(0)], |op, _, draw| list(op, chained(draw))),
];

fn list(op: Op, values: Vec<f64>) -> Call {
    let mut call = Call::new(op, &[], vec![values]);
    call.work = [0, 0];
    call
}

fn drawn(op: Op, draw: &mut Draw, palette: Palette) -> Call {
    let len = if draw.one_in(50) { draw.below(3000) } else { draw.size(0, 70) };
    let values = draw.reals(palette, len);
    list(op, values)
}

/// A list whose entries have magnitudes between two powers of two.
fn magnified(op: Op, draw: &mut Draw, from: i32, to: i32) -> Call {
    let mut call = drawn(op, draw, Palette::Smooth);
    call.inputs[0].iter_mut().for_each(|value| *value *= draw.power(from, to));
    call
}

/// A list whose first square is rounded at 2^-1074 once the largest entry is brought between 1 and
/// 2, and whose next ones make of that rounding one of the last place, up to the sum: at each level
/// the sum is half a place of an odd square, or less, and what follows the square fills the sum up
/// to the next level. So the norm hangs on where the scale brings the largest entry.
fn chained(draw: &mut Draw) -> Vec<f64> {
    let mut half = -1024;
    let mut values = vec![(1.0 - draw.between(1, 6) as f64 * 2f64.powi(-53)) * 2f64.powi(half / 2)];
    while half < -52 {
        let (square, rest) = filled(draw, half);
        values.extend([square, rest]);
        half += 54;
    }
    values.push(last(draw));
    let scale = draw.power(-500, 1000);
    values.iter().map(|value| (value * scale).copysign(draw.smooth())).collect()
}

/// Two numbers whose squares add up to one place of 2^(half + 1) below 2^(half + 54), the first of
/// them rounded to an odd count of places and the second exact.
fn filled(draw: &mut Draw, half: i32) -> (f64, f64) {
    loop {
        let rest = draw.between(1, 1 << 25) as u64;
        let square = ((1u64 << 53) - 1 - 2 * rest * rest) as f64 * 2f64.powi(half + 1);
        let root = square.sqrt();
        if root * root == square {
            return (root, rest as f64 * 2f64.powi(half / 2 + 1));
        }
    }
}

/// A number between 1 and 2 whose square has an odd last place that shows in the root.
fn last(draw: &mut Draw) -> f64 {
    loop {
        let value = 2.0 - draw.fraction() / 2.0;
        let square = value * value;
        if square.to_bits() % 2 == 1 && square.sqrt() != square.next_up().sqrt() {
            return value;
        }
    }
}

/// Every list of at most two special values.
fn short(op: Op, index: u64, _: &mut Draw) -> Call {
    let (len, index) = match index {
        0 => (0, 0),
        _ if index <= LETTERS => (1, index - 1),
        _ => (2, index - 1 - LETTERS),
    };
    list(op, spell(index, &specials(), len))
}
