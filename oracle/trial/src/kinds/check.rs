//! Kinds for the check.

use super::parts::{huge, product, rescale, strew, tiny};
use super::{Row, Share, own};
use crate::draw::{Draw, Palette, spell};
use crate::table::Aim::{Number, Verdict};
use reference::Rust;
use reference::call::{Call, Sound, answer};
use reference::check::{D, LOWERS, MULTIPLIERS, TOLERANCE, UPPERS, measured};
use reference::shape::Op;

/// The grid of whole problems: all their sums are exact.
const LEAST: f64 = 1.0 / 1_048_576.0;

pub const ROWS: &[Row] = &[
    ("every size", Share::All(16 * 17 * 4), &[Verdict(0)], |_, index, draw| {
        let at = (index / 4) as usize;
        Draft::plausible(draw, at / 17 + 1, at % 17).finish(draw)
    }),
    ("plausible", Share::Weight(8), &[Verdict(0)], |_, _, draw| any(draw).finish(draw)),
    ("stationarity alone", Share::Weight(5), &[Verdict(1)], |_, _, draw| alone(draw, 1)),
    ("residual alone", Share::Weight(5), &[Verdict(2)], |_, _, draw| alone(draw, 2)),
    ("violation alone", Share::Weight(5), &[Verdict(3)], |_, _, draw| alone(draw, 3)),
    ("sign alone", Share::Weight(5), &[Verdict(4)], |_, _, draw| alone(draw, 4)),
    ("product alone", Share::Weight(5), &[Verdict(5)], |_, _, draw| alone(draw, 5)),
    ("several", Share::Weight(10), &ALL, several),
    ("at the tolerance", Share::Weight(10), &ALL, edges),
    ("next to it", Share::Weight(10), &ALL, measured_edges),
    ("next to a ceiling", Share::Weight(5), &[Verdict(0), Verdict(3)], ceilings),
    ("least values", Share::All(4 * 6 * 9 * 9 * 9), &ALL, least),
    (
        "steps of the Rust",
        Share::Weight(10),
        &[Verdict(0), Verdict(1), Verdict(3), Verdict(5)],
        solved,
    ),
    ("smooth", Share::Weight(6), &[Verdict(1), Verdict(3), Verdict(4)], |_, _, draw| {
        drawn(draw, Palette::Smooth)
    }),
    ("wide", Share::Weight(4), &[Verdict(1)], |_, _, draw| drawn(draw, Palette::Wide)),
    ("huge tolerance", Share::Weight(6), &[Verdict(0), Verdict(1), Verdict(4)], endless),
    ("one special", Share::Weight(8), &ALL, |_, _, draw| strewn(draw, 1)),
    ("some special", Share::Weight(6), &[Verdict(1), Number(10), Number(14)], |_, _, draw| {
        strewn(draw, 6)
    }),
    ("any bits", Share::Weight(3), &[Number(10), Number(14)], |_, _, draw| {
        drawn(draw, Palette::Bits)
    }),
];

/// Yes, and every test that fails first.
const ALL: [crate::table::Aim; 6] =
    [Verdict(0), Verdict(1), Verdict(2), Verdict(3), Verdict(4), Verdict(5)];

/// A problem and a step of whole numbers, but for the gradient and the tolerance.
struct Draft {
    n: usize,
    m: usize,
    factor: Vec<f64>,
    kinds: Vec<u8>,
    values: Vec<f64>,
    widths: Vec<f64>,
    jacobian: Vec<f64>,
    lower: Vec<f64>,
    upper: Vec<f64>,
    d: Vec<f64>,
    multipliers: Vec<f64>,
    lowers: Vec<f64>,
    uppers: Vec<f64>,
}

/// A small whole number.
fn whole(draw: &mut Draw) -> f64 {
    draw.real(Palette::Whole)
}

/// A whole number from 0 on.
fn count(draw: &mut Draw, from: usize) -> f64 {
    draw.between(from, 3) as f64
}

impl Draft {
    /// A step that passes all tests without a tolerance.
    fn plausible(draw: &mut Draw, n: usize, m: usize) -> Self {
        let mut factor = draw.reals(Palette::Whole, n * n);
        let above = draw.pick(&[Palette::Whole, Palette::Special, Palette::Bits]);
        (0..n * n).filter(|at| at % n > at / n).for_each(|at| factor[at] = draw.real(above));
        let mut draft = Self {
            n,
            m,
            factor,
            kinds: (0..m).map(|_| draw.pick(&[0, 1, 1, 2])).collect(),
            values: vec![0.0; m],
            widths: draw.reals(Palette::Special, m),
            jacobian: draw.reals(Palette::Whole, m * n),
            lower: vec![0.0; n],
            upper: vec![0.0; n],
            d: draw.reals(Palette::Whole, n),
            multipliers: vec![0.0; m],
            lowers: vec![0.0; n],
            uppers: vec![0.0; n],
        };
        (0..m).for_each(|j| draft.settle(draw, j));
        for i in 0..n {
            draft.close(draw, i, true);
            draft.close(draw, i, false);
        }
        draft
    }

    /// a'd of constraint j.
    fn reached(&self, j: usize) -> f64 {
        product(&self.jacobian, self.n, &self.d)[j]
    }

    /// Gives constraint j this margin and multiplier: of a ceiling where asked.
    fn put(&mut self, j: usize, ceiling: bool, margin: f64, multiplier: f64) {
        let reached = self.reached(j);
        if ceiling {
            self.values[j] = self.widths[j] - reached - margin;
            self.multipliers[j] = -multiplier;
        } else {
            self.values[j] = margin - reached;
            self.multipliers[j] = multiplier;
        }
    }

    /// A margin and a multiplier that agree: one of them is zero.
    fn pair(draw: &mut Draw) -> (f64, f64) {
        match draw.one_in(2) {
            true => (0.0, count(draw, 0)),
            false => (count(draw, 1), draw.pick(&[0.0, -0.0])),
        }
    }

    /// A constraint of its kind that holds.
    fn settle(&mut self, draw: &mut Draw, j: usize) {
        let (margin, multiplier) = Self::pair(draw);
        match self.kinds[j] {
            0 => {
                let free = whole(draw);
                self.put(j, false, 0.0, free);
            }
            1 => self.put(j, false, margin, multiplier),
            _ => {
                self.widths[j] = margin + count(draw, 0);
                let ceiling = draw.one_in(2);
                self.put(j, ceiling, margin, multiplier);
            }
        }
    }

    /// A side that is open, with any multiplier, or holds.
    fn close(&mut self, draw: &mut Draw, i: usize, lower: bool) {
        let (margin, multiplier) = match draw.one_in(3) {
            true => (
                draw.pick(&[f64::INFINITY, f64::NEG_INFINITY, f64::NAN]),
                draw.real(Palette::Special),
            ),
            false => Self::pair(draw),
        };
        self.bound(i, lower, margin, multiplier);
    }

    fn bound(&mut self, i: usize, lower: bool, margin: f64, multiplier: f64) {
        if lower {
            (self.lower[i], self.lowers[i]) = (self.d[i] - margin, multiplier);
        } else {
            (self.upper[i], self.uppers[i]) = (self.d[i] + margin, multiplier);
        }
    }

    /// Some inequality with this margin and multiplier: a floor, a band's floor or ceiling, or a side.
    fn put_somewhere(&mut self, draw: &mut Draw, margin: f64, multiplier: f64) {
        let (j, i) = (draw.below(self.m.max(1)), draw.below(self.n));
        let free = multiplier >= 0.0;
        match draw.below(5) {
            0 if self.m > 0 => {
                self.kinds[j] = 1;
                self.put(j, false, margin, multiplier);
            }
            1 | 2 if self.m > 0 && free => {
                let ceiling = draw.one_in(2);
                self.kinds[j] = 2;
                self.widths[j] = margin.abs() + count(draw, 0);
                self.put(j, ceiling, margin, multiplier);
            }
            at => self.bound(i, at % 2 == 0, margin, multiplier),
        }
    }

    /// Lets a test be at so much over the tolerance.
    fn strain(&mut self, draw: &mut Draw, test: u32, by: f64) {
        let sign = draw.pick(&[1.0, -1.0]);
        match test {
            2 if self.m > 0 => {
                let j = draw.below(self.m);
                let free = whole(draw);
                self.kinds[j] = 0;
                self.put(j, false, sign * by, free);
            }
            3 => self.put_somewhere(draw, -by, 0.0),
            4 => {
                let multiplier = -draw.pick(&[1.0, 2.0, LEAST]);
                self.put_somewhere(draw, 0.0, multiplier);
            }
            5 => {
                let (margin, multiplier) =
                    draw.pick(&[(by, 1.0), (1.0, by), (2.0, by / 2.0), (-by, 1.0)]);
                self.put_somewhere(draw, margin, multiplier);
            }
            _ => {}
        }
    }

    /// The gradient with which each slope is the one given.
    fn gradient(&self, slopes: &[f64]) -> Vec<f64> {
        let (n, m) = (self.n, self.m);
        let halfway =
            |k: usize| -> f64 { (k..n).map(|i| self.factor[i * n + k] * self.d[i]).sum() };
        let one = |i: usize| {
            let bent: f64 = (0..=i).map(|k| self.factor[i * n + k] * halfway(k)).sum();
            let terms: f64 = (0..m).map(|j| self.jacobian[j * n + i] * self.multipliers[j]).sum();
            let side =
                |bound: f64, multiplier: f64| if bound.is_finite() { multiplier } else { 0.0 };
            let sides = side(self.lower[i], self.lowers[i]) - side(self.upper[i], self.uppers[i]);
            slopes[i] - bent + terms + sides
        };
        (0..n).map(one).collect()
    }

    fn with(self, slopes: &[f64], tolerance: f64) -> Call {
        let gradient = self.gradient(slopes);
        let inputs = vec![
            self.factor,
            gradient,
            self.values,
            self.widths,
            self.jacobian,
            self.lower,
            self.upper,
            self.d,
            self.multipliers,
            self.lowers,
            self.uppers,
            vec![tolerance],
        ];
        let mut call = Call::new(Op::Check, &[self.n, self.m], inputs);
        call.kinds = self.kinds;
        call
    }

    fn finish(self, draw: &mut Draw) -> Call {
        let tolerance = draw.pick(&[0.0, -0.0, LEAST, 0.5, 1e-300, f64::INFINITY]);
        let slopes = vec![0.0; self.n];
        self.with(&slopes, tolerance)
    }
}

fn any(draw: &mut Draw) -> Draft {
    let (n, m) = (draw.size(1, 16), draw.size(0, 16));
    Draft::plausible(draw, n, m)
}

/// A tolerance on the grid.
fn some_tolerance(draw: &mut Draw) -> f64 {
    draw.pick(&[0.0, LEAST, 1.0 / 1024.0, 0.5, 1.0, 2.0])
}

/// A plausible step on which these tests are at so much over the tolerance each.
fn strained(draw: &mut Draw, tests: &[u32], tolerance: f64, over: &[f64]) -> Call {
    let (n, m) = (draw.size(1, 16), draw.size(1, 16));
    let mut draft = Draft::plausible(draw, n, m);
    let mut slopes = vec![0.0; n];
    for &test in tests {
        let by = tolerance + draw.pick(over);
        if test == 1 {
            let (i, sign) = (draw.below(n), draw.pick(&[1.0, -1.0]));
            slopes[i] = sign * by;
        }
        draft.strain(draw, test, by);
    }
    draft.with(&slopes, tolerance)
}

/// One test fails.
fn alone(draw: &mut Draw, test: u32) -> Call {
    let tolerance = some_tolerance(draw);
    strained(draw, &[test], tolerance, &[LEAST, 1.0, 0.5])
}

/// Some tests fail, or nearly, and a test on several rows.
fn several(_: Op, _: u64, draw: &mut Draw) -> Call {
    let tests: Vec<u32> = (0..draw.between(2, 5)).map(|_| draw.between(1, 5) as u32).collect();
    let tolerance = some_tolerance(draw);
    strained(draw, &tests, tolerance, &[LEAST, 1.0, 0.0])
}

/// A test or two at the tolerance, next below it and next above it on the grid.
fn edges(_: Op, _: u64, draw: &mut Draw) -> Call {
    let tests: Vec<u32> = (0..draw.between(1, 2)).map(|_| draw.between(1, 5) as u32).collect();
    let tolerance = some_tolerance(draw);
    let below = if tolerance > 0.0 { -LEAST } else { 0.0 };
    strained(draw, &tests, tolerance, &[0.0, 0.0, LEAST, below])
}

/// Rounded problems whose tolerance is a value that a test holds against it, or a neighbour.
fn measured_edges(_: Op, _: u64, draw: &mut Draw) -> Call {
    let mut call = match draw.one_in(3) {
        true => solved(Op::Check, 0, draw),
        false => drawn(draw, Palette::Smooth),
    };
    for at in [MULTIPLIERS, LOWERS, UPPERS] {
        if draw.below(4) > 0 {
            call.inputs[at].iter_mut().for_each(|value| *value = value.abs());
        }
    }
    let values: Vec<f64> = measured(&call).into_iter().filter(|value| *value >= 0.0).collect();
    let largest = values.iter().copied().fold(0.0, f64::max);
    let value = if draw.one_in(3) && !values.is_empty() { draw.pick(&values) } else { largest };
    call.inputs[TOLERANCE][0] =
        draw.pick(&[value, value, value.next_down().max(0.0), value.next_up()]);
    call
}

/// Bands whose ceilings are passed by more than anything else: the tolerance is the largest of these
/// violations, or a neighbour, so that the rounding of a ceiling's margin decides.
fn ceilings(_: Op, _: u64, draw: &mut Draw) -> Call {
    let (n, m) = (draw.size(1, 16), draw.size(1, 16));
    let lengths = Op::Check.lengths(&[n, m]).inputs;
    let inputs = lengths.iter().map(|&len| draw.reals(Palette::Smooth, len)).collect();
    let mut call = Call::new(Op::Check, &[n, m], inputs);
    call.kinds = vec![2; m];
    call.inputs[0].iter_mut().for_each(|entry| *entry /= 4096.0);
    call.inputs[D].iter_mut().for_each(|d| *d *= 300.0);
    call.inputs[3].iter_mut().for_each(|width| *width = 4.0 * draw.fraction());
    for (j, reached) in product(&call.inputs[4], n, &call.inputs[D]).into_iter().enumerate() {
        call.inputs[2][j] = call.inputs[3][j] + 10.0 + 10.0 * draw.fraction() - reached;
    }
    for (at, value) in [(5, f64::NEG_INFINITY), (6, f64::INFINITY), (MULTIPLIERS, 0.0)] {
        call.inputs[at].fill(value);
    }
    let largest = measured(&call).into_iter().fold(0.0, f64::max);
    call.inputs[TOLERANCE][0] = draw.pick(&[largest, largest.next_down()]);
    call
}

/// One variable at rest and one constraint: gradient, value, width and multipliers over the least
/// values, and tolerances next to these.
fn least(_: Op, index: u64, draw: &mut Draw) -> Call {
    let letters = [0.0, -0.0, 5e-324, -5e-324, 1e-323, -1e-323, 1.0, -1.0, f64::NAN];
    let [a, b, c] = spell(index, &letters, 3)[..] else { unreachable!("three letters") };
    let rest = index / 729;
    let tolerance = [0.0, -0.0, 5e-324, 1.0][(rest % 4) as usize];
    let (mut kind, mut gradient, mut value, mut multiplier) = (1, 0.0, 0.0, 0.0);
    let (mut lower, mut side) = (f64::NEG_INFINITY, a);
    match rest / 4 % 6 {
        0 => (gradient, value) = (a, b.abs()),
        1 => (kind, value, multiplier) = (0, a, b),
        2 => (value, multiplier) = (a, b),
        3 => (lower, side) = (-a, b),
        4 => (kind, value, multiplier) = (2, a, b),
        _ => (gradient, lower, side) = (a, -b, c),
    }
    let width = if c >= 0.0 { c } else { 0.0 };
    let upper = draw.pick(&[f64::INFINITY, f64::NAN, 1.0]);
    let one = |x: f64| vec![x];
    let inputs = vec![
        one(1.0),
        one(gradient),
        one(value),
        one(width),
        one(0.0),
        one(lower),
        one(upper),
        one(0.0),
        one(multiplier),
        one(side),
        one(0.0),
        one(tolerance),
    ];
    let mut call = Call::new(Op::Check, &[1, 1], inputs);
    call.kinds = vec![kind];
    call
}

/// The Rust's own step, with multipliers of sides from its slopes.
fn solved(_: Op, _: u64, draw: &mut Draw) -> Call {
    let rows = own(Op::Step);
    let row = rows[draw.below(rows.len())];
    let index = match row.1 {
        Share::All(count) => draw.below(count as usize) as u64,
        Share::Weight(_) => draw.bits() >> 32,
    };
    let step = (row.3)(Op::Step, index, draw);
    let (n, m) = (step.sizes[0], step.sizes[1]);
    let outputs = answer::<Rust, Sound>(&step).outputs;
    let [d, multipliers] = match &outputs[..] {
        [d, multipliers] => [d.clone(), multipliers.clone()],
        _ => [draw.reals(Palette::Smooth, n), draw.reals(Palette::Smooth, m)],
    };
    let mut inputs = step.inputs.clone();
    let tolerance = draw.pick(&[0.0, 1e-15, 1e-12, 1e-9, 1e-6, 1e-3]);
    inputs.extend([d, multipliers, vec![0.0; n], vec![0.0; n], vec![tolerance]]);
    let mut call = Call::new(Op::Check, &[n, m], inputs);
    call.kinds = step.kinds;
    if m == call.kinds.len() {
        from_slopes(&mut call);
    }
    call
}

/// What is left of a slope goes to the side that can take it.
fn from_slopes(call: &mut Call) {
    let (n, m) = (call.sizes[0], call.sizes[1]);
    let inputs = &call.inputs;
    let halfway = |k: usize| -> f64 { (k..n).map(|i| inputs[0][i * n + k] * inputs[7][i]).sum() };
    let one = |i: usize| -> f64 {
        let bent: f64 = (0..=i).map(|k| inputs[0][i * n + k] * halfway(k)).sum();
        let terms: f64 = (0..m).map(|j| inputs[4][j * n + i] * inputs[MULTIPLIERS][j]).sum();
        bent + inputs[1][i] - terms
    };
    let slopes: Vec<f64> = (0..n).map(one).collect();
    for (i, slope) in slopes.into_iter().enumerate() {
        if slope > 0.0 && call.inputs[5][i].is_finite() {
            call.inputs[LOWERS][i] = slope;
        } else if slope < 0.0 && call.inputs[6][i].is_finite() {
            call.inputs[UPPERS][i] = -slope;
        }
    }
}

/// Everything of a palette, with widths that are such.
fn drawn(draw: &mut Draw, palette: Palette) -> Call {
    let (n, m) = (draw.size(1, 16), draw.size(0, 16));
    let lengths = Op::Check.lengths(&[n, m]).inputs;
    let inputs: Vec<Vec<f64>> = lengths.iter().map(|&len| draw.reals(palette, len)).collect();
    let mut call = Call::new(Op::Check, &[n, m], inputs);
    call.kinds = (0..m).map(|_| draw.pick(&[0, 1, 1, 2])).collect();
    if palette != Palette::Bits {
        call.inputs[3].iter_mut().for_each(|width| *width = width.abs());
        call.inputs[TOLERANCE][0] = 4.0 * draw.fraction();
        for (at, open) in [(5, f64::NEG_INFINITY), (6, f64::INFINITY)] {
            call.inputs[at].iter_mut().for_each(|bound| {
                if draw.one_in(3) {
                    *bound = open
                }
            });
        }
    }
    call
}

/// A tolerance that admits all numbers, or nearly, and values that leave them.
fn endless(_: Op, _: u64, draw: &mut Draw) -> Call {
    let mut call = any(draw).finish(draw);
    match draw.below(4) {
        0 => huge(draw, &mut call.inputs[..TOLERANCE]),
        1 => tiny(draw, &mut call.inputs[..TOLERANCE]),
        2 => rescale(draw, &mut call.inputs[..TOLERANCE], 900, 1023),
        _ => strew(draw, &mut call.inputs[..TOLERANCE], 2),
    }
    call.inputs[3].iter_mut().for_each(|width| {
        if !width.is_finite() {
            *width = 1.0
        }
    });
    call.inputs[TOLERANCE][0] = draw.pick(&[f64::INFINITY, f64::INFINITY, f64::MAX]);
    call
}

/// Special values in places of a plausible call, or of one that is nearly so.
fn strewn(draw: &mut Draw, places: usize) -> Call {
    let mut call = match draw.one_in(2) {
        true => any(draw).finish(draw),
        false => edges(Op::Check, 0, draw),
    };
    strew(draw, &mut call.inputs, places);
    call
}
