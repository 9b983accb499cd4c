//! Kinds for the step.

use super::parts::{huge, in_columns, in_rows, product, put_row, strew, tiny, units};
use super::{Row, Share};
use crate::draw::{Draw, Palette, SPECIAL, spell};
use crate::table::Aim::{Blocked, Moved, Nan, Number, Place, Ranked, Relaxed, Stages};
use reference::call::{Call, WIDTHS};
use reference::shape::Op;
use std::cmp::Ordering;

/// The places of the slices in a call.
const FACTOR: usize = 0;
const GRADIENT: usize = 1;
const VALUES: usize = 2;
const JACOBIAN: usize = 4;
pub const LOWER: usize = 5;
pub const UPPER: usize = 6;

pub const ROWS: [Row; 37] = [
    ("every size", Share::All(16 * 17 * 8), &[Number(0), Relaxed], |_, index, draw| {
        let at = index / 8;
        posed(draw, (at / 17) as usize + 1, (at % 17) as usize, Palette::Smooth)
    }),
    ("one free", Share::All(12 * 12 * 12 * 12), &[Number(0), Number(5), Number(6), Nan], one_free),
    ("one by one", Share::All(2 * 6561), &[Number(0), Number(6), Relaxed], one_by_one),
    ("smooth", Share::Weight(8), &[Number(0), Blocked], |_, _, draw| of(draw, Palette::Smooth)),
    ("whole", Share::Weight(8), &[Number(0), Relaxed, Blocked], |_, _, draw| {
        of(draw, Palette::Whole)
    }),
    ("loose", Share::Weight(6), &[Number(0), Number(6), Relaxed], |_, _, draw| {
        loose(draw, Palette::Whole)
    }),
    ("signs", Share::Weight(4), &[Number(0), Relaxed], |_, _, draw| loose(draw, Palette::Signs)),
    ("at rest", Share::Weight(5), &[Number(0)], at_rest),
    ("above the diagonal", Share::Weight(6), &[Number(0), Relaxed, Stages(5, 0)], above),
    ("incompatible", Share::Weight(6), &[Relaxed], incompatible),
    ("dependent", Share::Weight(5), &[Relaxed, Stages(11, 0), Place(11)], dependent),
    ("entered twice", Share::Weight(6), &[Stages(11, 0), Place(11)], entered_twice),
    ("twice and crossed", Share::Weight(4), &[Stages(11, 6), Stages(11, 7)], |_, _, draw| {
        let mut call = entered_twice(Op::Step, 0, draw);
        cross(draw, &mut call);
        call
    }),
    ("twice and singular", Share::Weight(4), &[Stages(11, 5), Place(5)], |_, _, draw| {
        let mut call = entered_twice(Op::Step, 0, draw);
        flatten(draw, &mut call);
        call
    }),
    ("two balances", Share::All(3 * 6561), &[Stages(11, 0), Stages(11, 6)], balances),
    ("crowded", Share::Weight(4), &[Relaxed, Stages(11, 0), Stages(11, 6), Place(11)], crowded),
    ("violated", Share::Weight(5), &[Relaxed], violated),
    ("crossed bounds", Share::Weight(4), &[Number(6), Stages(6, 6), Stages(6, 7)], crossed),
    ("open sides", Share::Weight(5), &[Number(0)], open),
    ("singular", Share::Weight(4), &[Number(5), Stages(5, 5), Place(5)], singular),
    ("wide", Share::Weight(4), &[Number(0)], |_, _, draw| of(draw, Palette::Wide)),
    ("tiny", Share::Weight(3), &[Number(0)], |_, _, draw| scaled(draw, tiny)),
    ("huge", Share::Weight(3), &[Number(0)], |_, _, draw| scaled(draw, huge)),
    ("units", Share::Weight(5), &[Number(0), Moved, Ranked], in_units),
    ("one special", Share::Weight(6), &[Number(0), Nan, Relaxed], |_, _, draw| strewn(draw, 1)),
    ("some special", Share::Weight(4), &[Number(0), Nan], |_, _, draw| strewn(draw, 4)),
    ("specials", Share::Weight(3), &[Number(0)], |_, _, draw| loose(draw, Palette::Special)),
    ("bits", Share::Weight(3), &[Number(5)], |_, _, draw| loose(draw, Palette::Bits)),
    ("one band", Share::All(3 * 2401), &[Number(0), Relaxed], one_band),
    ("two bands", Share::All(4 * 729), &[Number(0), Relaxed], two_bands),
    ("bands", Share::Weight(12), &[Number(0), Relaxed, Blocked], |_, _, draw| {
        let palette = draw.pick(&[Palette::Smooth, Palette::Smooth, Palette::Whole]);
        banded(draw, palette, wide_enough)
    }),
    ("narrow bands", Share::Weight(8), &[Number(0), Relaxed], |_, _, draw| {
        let palette = draw.pick(&[Palette::Smooth, Palette::Whole]);
        banded(draw, palette, any_width)
    }),
    ("bands beside balances", Share::Weight(6), &[Number(0), Stages(11, 0)], |_, _, draw| {
        let mut call = entered_twice(Op::Step, 0, draw);
        to_bands(draw, &mut call, wide_enough);
        call
    }),
    ("bands violated", Share::Weight(8), &[Relaxed], |_, _, draw| {
        let mut call = violated(Op::Step, 0, draw);
        to_bands(draw, &mut call, any_width);
        call
    }),
    ("sixteen bands", Share::Weight(8), &[Number(0), Relaxed, Blocked], sixteen_bands),
    ("bands, loose", Share::Weight(8), &[Number(0), Number(6), Relaxed], |_, _, draw| {
        let palette = draw.pick(&[Palette::Whole, Palette::Signs, Palette::Wide]);
        let mut call = loose(draw, palette);
        to_bands(draw, &mut call, any_width);
        call
    }),
    ("bands, special", Share::Weight(8), &[Number(0), Nan], |_, _, draw| {
        let mut call = strewn(draw, 3);
        to_bands(draw, &mut call, any_width);
        call
    }),
];

/// Turns most inequalities into bands, of widths by their values.
fn to_bands(draw: &mut Draw, call: &mut Call, width: fn(&mut Draw, f64) -> f64) {
    for at in 0..call.sizes[1] {
        if call.kinds[at] == 1 && !draw.one_in(4) {
            call.kinds[at] = 2;
            call.inputs[WIDTHS][at] = width(draw, call.inputs[VALUES][at]);
        }
    }
}

/// A model that one drawn step fulfils, with bands.
fn banded(draw: &mut Draw, palette: Palette, width: fn(&mut Draw, f64) -> f64) -> Call {
    let mut call = of(draw, palette);
    to_bands(draw, &mut call, width);
    call
}

/// A width about as large as the value, or beyond it.
fn wide_enough(draw: &mut Draw, value: f64) -> f64 {
    let about = value.abs() * draw.pick(&[0.5, 1.0, 1.0, 2.0, 4.0]) + draw.pick(&[0.0, 1.0, 3.0]);
    if about.is_finite() { about } else { 1.0 }
}

/// Any width: none, next to none, small, large, the largest.
fn any_width(draw: &mut Draw, value: f64) -> f64 {
    let few = [0.0, -0.0, f64::MIN_POSITIVE, 5e-324, 1e-12, 0.1, 1.0, 2.0, 1e6, 1e300, f64::MAX];
    if draw.one_in(3) { wide_enough(draw, value) } else { draw.pick(&few) }
}

/// One variable, one band, over short lists of values.
fn one_band(_: Op, index: u64, draw: &mut Draw) -> Call {
    let letters = [-2.0, -1.0, -0.0, 0.0, 0.5, 2.0, 3.0];
    let values = spell(index / 3, &letters, 4);
    let width = [0.0, 1.0, 3.0][(index % 3) as usize];
    let one = |value: f64| vec![value];
    let (low, high) = draw.pick(&[(f64::NEG_INFINITY, f64::INFINITY), (-1.0, 1.0), (-5.0, 0.25)]);
    let diagonal = draw.pick(&[1.0, 2.0]);
    let inputs = vec![
        one(diagonal),
        one(values[0]),
        one(values[1]),
        one(width),
        one(values[2]),
        one(low.min(values[3])),
        one(high),
    ];
    let mut call = Call::new(Op::Step, &[1, 1], inputs);
    call.kinds = vec![2];
    call
}

/// Two constraints on one variable, a band before or behind another constraint.
fn two_bands(_: Op, index: u64, draw: &mut Draw) -> Call {
    let kinds = [[2, 2], [2, 1], [0, 2], [1, 2]][(index % 4) as usize];
    let values = spell(index / 4, &[-1.0, 0.0, 2.0], 6);
    let widths = vec![draw.pick(&[0.0, 0.5, 1.0, 4.0]), draw.pick(&[0.0, 0.5, 1.0, 4.0])];
    let inputs = vec![
        vec![draw.pick(&[1.0, 2.0])],
        vec![values[0]],
        values[1..3].to_vec(),
        widths,
        values[3..5].to_vec(),
        vec![draw.pick(&[f64::NEG_INFINITY, values[5] - 2.0])],
        vec![f64::INFINITY],
    ];
    let mut call = Call::new(Op::Step, &[1, 2], inputs);
    call.kinds = kinds.to_vec();
    call
}

/// The most rows: sixteen bands, and sides of sixteen variables that are all closed.
fn sixteen_bands(_: Op, _: u64, draw: &mut Draw) -> Call {
    let mut call = posed(draw, 16, 16, Palette::Smooth);
    call.kinds = vec![2; 16];
    for at in 0..16 {
        call.inputs[WIDTHS][at] = wide_enough(draw, call.inputs[VALUES][at]);
        let middle = draw.smooth();
        call.inputs[LOWER][at] = middle - 4.0 * draw.fraction();
        call.inputs[UPPER][at] = middle + 4.0 * draw.fraction();
    }
    call
}

/// Every slice of a palette.
fn loose(draw: &mut Draw, palette: Palette) -> Call {
    let sizes = [draw.size(1, 16), draw.size(0, 16)];
    let lengths = Op::Step.lengths(&sizes).inputs;
    let inputs = lengths.into_iter().map(|len| draw.reals(palette, len)).collect();
    let mut call = Call::new(Op::Step, &sizes, inputs);
    call.kinds = (0..sizes[1]).map(|_| draw.pick(&[0, 1, 1])).collect();
    call
}

/// A lower factor with a sound diagonal; what is above it is +0.
fn factor(draw: &mut Draw, n: usize, palette: Palette) -> Vec<f64> {
    let diagonal = |draw: &mut Draw| match palette {
        Palette::Whole => draw.pick(&[1.0, 2.0]),
        _ => 0.5 + draw.fraction(),
    };
    let mut l = draw.reals(palette, n * n);
    for (at, entry) in l.iter_mut().enumerate() {
        match (at / n).cmp(&(at % n)) {
            Ordering::Less => *entry = 0.0,
            Ordering::Equal => *entry = diagonal(draw),
            Ordering::Greater => {}
        }
    }
    l
}

/// Widths that no constraint reads: anything.
fn unread(draw: &mut Draw, m: usize) -> Vec<f64> {
    draw.reals(Palette::Special, m)
}

/// A model that one drawn step fulfils, but for equalities past the variables.
fn posed(draw: &mut Draw, n: usize, m: usize, palette: Palette) -> Call {
    let l = factor(draw, n, palette);
    let (gradient, jacobian) = (draw.reals(palette, n), draw.reals(palette, m * n));
    let whole = palette == Palette::Whole;
    let point = draw.reals(if whole { Palette::Whole } else { Palette::Smooth }, n);
    let slack = |draw: &mut Draw| {
        if whole { draw.below(3) as f64 } else { draw.fraction() }
    };
    let kinds: Vec<u8> = (0..m).map(|_| draw.pick(&[0, 1, 1])).collect();
    let values = product(&jacobian, n, &point);
    let values = values
        .iter()
        .zip(&kinds)
        .map(|(reached, &kind)| if kind == 0 { -reached } else { slack(draw) - reached });
    let values = values.collect();
    let side = |draw: &mut Draw, open: f64| {
        if draw.one_in(3) { open } else { open.signum() * slack(draw) }
    };
    let lower = point.iter().map(|d| d + side(draw, f64::NEG_INFINITY)).collect();
    let upper = point.iter().map(|d| d + side(draw, f64::INFINITY)).collect();
    let widths = unread(draw, m);
    let inputs = vec![l, gradient, values, widths, jacobian, lower, upper];
    let mut call = Call::new(Op::Step, &[n, m], inputs);
    call.kinds = kinds;
    call
}

pub fn of(draw: &mut Draw, palette: Palette) -> Call {
    let (n, m) = (draw.size(1, 16), draw.size(0, 16));
    posed(draw, n, m, palette)
}

fn scaled(draw: &mut Draw, scale: fn(&mut Draw, &mut [Vec<f64>])) -> Call {
    let mut call = of(draw, Palette::Smooth);
    let one = draw.below(call.inputs.len());
    scale(draw, &mut call.inputs[one..=one]);
    call
}

/// Variables in units (their bounds in the inverse ones), constraints in theirs.
fn in_units(_: Op, _: u64, draw: &mut Draw) -> Call {
    let mut call = of(draw, Palette::Smooth);
    let n = call.sizes[0];
    let units = units(draw, n);
    for (at, entry) in call.inputs[FACTOR].iter_mut().enumerate() {
        *entry *= units[at / n];
    }
    in_columns(&mut call.inputs[GRADIENT], &units);
    in_columns(&mut call.inputs[JACOBIAN], &units);
    for side in [LOWER, UPPER] {
        call.inputs[side].iter_mut().zip(&units).for_each(|(bound, unit)| *bound /= unit);
    }
    let (values, jacobian) = call.inputs.split_at_mut(JACOBIAN);
    in_rows(draw, &mut jacobian[0], &mut values[VALUES]);
    call
}

fn strewn(draw: &mut Draw, places: usize) -> Call {
    let mut call = of(draw, Palette::Smooth);
    strew(draw, &mut call.inputs, places);
    call
}

/// A gradient and values of zeros of both signs, bounds that are zeros or open.
fn at_rest(_: Op, _: u64, draw: &mut Draw) -> Call {
    let (n, m) = (draw.size(1, 4), draw.size(0, 4));
    let palette = draw.pick(&[Palette::Smooth, Palette::Whole]);
    let mut call = posed(draw, n, m, palette);
    for (side, open) in
        [(GRADIENT, 0.0), (VALUES, 0.0), (LOWER, -f64::INFINITY), (UPPER, f64::INFINITY)]
    {
        call.inputs[side].iter_mut().for_each(|value| *value = draw.pick(&[0.0, -0.0, open]));
    }
    call
}

/// One variable, no constraint: factor, gradient and bounds over a dozen special values.
fn one_free(_: Op, index: u64, _: &mut Draw) -> Call {
    let letters: Vec<f64> = [0, 1, 2, 3, 4, 5, 6, 9, 13, 16, 22, 23]
        .into_iter()
        .map(|at: usize| f64::from_bits(SPECIAL[at]))
        .collect();
    let values = spell(index, &letters, 4);
    let one = |at: usize| vec![values[at]];
    let inputs = vec![one(0), one(1), vec![], vec![], vec![], one(2), one(3)];
    Call::new(Op::Step, &[1, 0], inputs)
}

/// One variable, one constraint, over short lists of values.
fn one_by_one(_: Op, index: u64, draw: &mut Draw) -> Call {
    let letters = [-1.0, -0.0, 2.0];
    let values = spell(index / 2, &letters, 6);
    let one = |at: usize| vec![values[at]];
    let far = draw.pick(&[f64::INFINITY, f64::NEG_INFINITY, f64::NAN, 1.0, 2.0]);
    let lower = if draw.one_in(2) { vec![-f64::INFINITY] } else { one(4) };
    let upper = if draw.one_in(2) { vec![far] } else { one(5) };
    let diagonal = vec![draw.pick(&[1.0, 2.0, values[0]])];
    let inputs = vec![diagonal, one(1), one(2), unread(draw, 1), one(3), lower, upper];
    let mut call = Call::new(Op::Step, &[1, 1], inputs);
    call.kinds = vec![(index % 2) as u8];
    call
}

/// Values above the factor's diagonal: the exact problem reads them, the relaxed one does not.
fn above(_: Op, _: u64, draw: &mut Draw) -> Call {
    let n = draw.size(2, 16);
    let m = draw.size(0, 16);
    let mut call = posed(draw, n, m, Palette::Smooth);
    let palette = draw.pick(&[Palette::Smooth, Palette::Smooth, Palette::Whole, Palette::Special]);
    for at in (0..n * n).filter(|at| at % n > at / n) {
        call.inputs[FACTOR][at] = draw.real(palette);
    }
    call
}

/// Two equalities on one row that differ in their values.
fn incompatible(_: Op, _: u64, draw: &mut Draw) -> Call {
    let (n, m) = (draw.size(1, 16), draw.size(2, 16));
    let palette = draw.pick(&[Palette::Smooth, Palette::Whole]);
    let mut call = posed(draw, n, m, palette);
    let (from, to) = (draw.below(m - 1), m - 1);
    call.inputs[JACOBIAN].copy_within(from * n..(from + 1) * n, to * n);
    (call.kinds[from], call.kinds[to]) = (0, draw.pick(&[0, 1]));
    call.inputs[VALUES][to] = call.inputs[VALUES][from] - draw.fraction() * draw.power(-10, 10);
    call
}

/// Equalities that stand twice and agree.
fn dependent(_: Op, _: u64, draw: &mut Draw) -> Call {
    let (n, m) = (draw.size(1, 16), draw.size(2, 16));
    let palette = draw.pick(&[Palette::Smooth, Palette::Whole]);
    let mut call = posed(draw, n, m, palette);
    let (from, to) = (draw.below(m - 1), m - 1);
    call.inputs[JACOBIAN].copy_within(from * n..(from + 1) * n, to * n);
    (call.kinds[from], call.kinds[to]) = (0, 0);
    call.inputs[VALUES][to] = call.inputs[VALUES][from];
    call
}

/// Balances among inequalities, one of them entered twice, or its opposite or a multiple, with the
/// value that agrees.
fn entered_twice(_: Op, _: u64, draw: &mut Draw) -> Call {
    let n = draw.size(2, 16);
    let m = draw.between(2, 16.min(n + 4));
    let palette = draw.pick(&[Palette::Smooth, Palette::Whole, Palette::Signs]);
    let mut call = posed(draw, n, m, palette);
    let from = draw.below(m);
    let to = (from + draw.between(1, m - 1)) % m;
    let factor = draw.pick(&[1.0, 1.0, 1.0, -1.0, 2.0]);
    put_row(&mut call.inputs[JACOBIAN], n, from, to, factor);
    call.inputs[VALUES][to] = factor * call.inputs[VALUES][from];
    (call.kinds[from], call.kinds[to]) = (0, 0);
    call
}

/// Two constraints on one variable, over short lists of values: the second or both are equalities.
fn balances(_: Op, index: u64, draw: &mut Draw) -> Call {
    let letters = [-1.0, 0.0, 2.0];
    let values = spell(index / 3, &letters, 8);
    let kinds = [[0, 0], [1, 0], [0, 1]][(index % 3) as usize];
    let one = |at: usize| vec![values[at]];
    let upper = vec![draw.pick(&[f64::INFINITY, values[7]])];
    let diagonal = vec![draw.pick(&[1.0, 2.0, 0.0])];
    let (sides, rows) = (values[1..3].to_vec(), values[3..5].to_vec());
    let inputs = vec![diagonal, one(0), sides, unread(draw, 2), rows, one(5), upper];
    let mut call = Call::new(Op::Step, &[1, 2], inputs);
    call.kinds = kinds.to_vec();
    call
}

/// More equalities than variables.
fn crowded(_: Op, _: u64, draw: &mut Draw) -> Call {
    let n = draw.between(1, 8);
    let m = draw.between(n + 1, 16);
    let mut call = posed(draw, n, m, Palette::Smooth);
    call.kinds = vec![0; m];
    if draw.one_in(2) {
        call.inputs[VALUES] = draw.reals(Palette::Smooth, m);
    }
    call
}

/// Inequalities that the bounds keep from being met, with values of either sign.
fn violated(_: Op, _: u64, draw: &mut Draw) -> Call {
    let (n, m) = (draw.size(1, 16), draw.size(1, 16));
    let mut call = posed(draw, n, m, Palette::Smooth);
    call.kinds = vec![1; m];
    for (lower, upper) in [(-0.1, 0.1); 16].into_iter().take(n) {
        call.inputs[LOWER].push(lower * draw.fraction());
        call.inputs[UPPER].push(upper * draw.fraction());
    }
    call.inputs[LOWER].drain(..n);
    call.inputs[UPPER].drain(..n);
    for value in &mut call.inputs[VALUES] {
        *value = draw.pick(&[-0.0, 0.0, 1.0, -1.0, -3.0]) * (1.0 + draw.fraction());
    }
    call
}

/// A lower bound above its upper.
fn crossed(_: Op, _: u64, draw: &mut Draw) -> Call {
    let palette = draw.pick(&[Palette::Smooth, Palette::Whole]);
    let mut call = of(draw, palette);
    cross(draw, &mut call);
    call
}

fn cross(draw: &mut Draw, call: &mut Call) {
    let at = draw.below(call.sizes[0]);
    let middle = draw.smooth();
    call.inputs[LOWER][at] = middle + draw.fraction();
    call.inputs[UPPER][at] = middle - draw.fraction();
}

/// Nonfinite bounds of every sort on both sides.
fn open(_: Op, _: u64, draw: &mut Draw) -> Call {
    let mut call = of(draw, Palette::Smooth);
    for side in [LOWER, UPPER] {
        for bound in &mut call.inputs[side] {
            if draw.one_in(2) {
                *bound = draw.pick(&[f64::INFINITY, f64::NEG_INFINITY, f64::NAN, -f64::NAN]);
            }
        }
    }
    call
}

/// A factor with a diagonal entry that is zero or next to it.
fn singular(_: Op, _: u64, draw: &mut Draw) -> Call {
    let palette = draw.pick(&[Palette::Smooth, Palette::Whole]);
    let mut call = of(draw, palette);
    flatten(draw, &mut call);
    call
}

fn flatten(draw: &mut Draw, call: &mut Call) {
    let n = call.sizes[0];
    let at = draw.below(n) * (n + 1);
    call.inputs[FACTOR][at] = draw.pick(&[0.0, -0.0, 1e-17, 1e-300]);
}
