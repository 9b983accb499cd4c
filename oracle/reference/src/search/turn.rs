//! What a turn of the search works out between its questions, by docs/RULES.md.

use super::machine::{Iterate, Line, Point, Reading};
use super::slip::Slip;
use super::{CENTRAL, Ending};
use crate::Rust;
use crate::call::Kernels;
use crate::tally;

/// A relaxation of so much is all of it.
const ALL: f64 = 1.0 - 1e-8;

/// Trials after the first one.
pub(super) const BACKTRACKS: u32 = 10;

/// A step of a turn.
struct Step {
    d: Vec<f64>,
    multipliers: Vec<f64>,
    relaxation: f64,
}

/// How a turn begins: the run ends, or there is a line to search along.
pub(super) enum Opening {
    Over(Ending, Iterate),
    Along(Iterate, Line),
}

/// A sum of products, from -0 on.
fn dot(one: &[f64], two: &[f64]) -> f64 {
    one.iter().zip(two).map(|(one, two)| one * two).sum()
}

/// The larger of two, of which a NaN gives way.
fn larger(one: f64, two: f64) -> f64 {
    if one.is_nan() || one < two { two } else { one }
}

/// A number clipped into an interval.
pub(super) fn clip(low: f64, high: f64, x: f64) -> f64 {
    match x {
        _ if x < low => low,
        _ if high < x => high,
        _ => x,
    }
}

/// The identity, row by row.
pub(super) fn identity(n: usize) -> Vec<f64> {
    (0..n * n).map(|at| if at / n == at % n { 1.0 } else { 0.0 }).collect()
}

/// Whether all numbers are finite.
pub(super) fn finite(values: &[f64]) -> bool {
    values.iter().all(|value| value.is_finite())
}

impl Reading {
    /// A point with each coordinate clipped into its bounds.
    pub(super) fn clipped(&self, x: &[f64]) -> Vec<f64> {
        let bounds = self.setup.lower.iter().zip(&self.setup.upper);
        bounds.zip(x).map(|((&low, &high), &x)| clip(low, high, x)).collect()
    }

    fn violations(&self, values: &[f64]) -> Vec<f64> {
        let one = |(&kind, &c): (&u8, &f64)| match kind {
            0 => c.abs(),
            _ if c < 0.0 => -c,
            _ => 0.0,
        };
        self.setup.kinds.iter().zip(&values[1..]).map(one).collect()
    }

    fn largest_violation(&self, values: &[f64]) -> f64 {
        self.violations(values).into_iter().fold(0.0, larger)
    }

    pub(super) fn merit(&self, penalties: &[f64], values: &[f64]) -> f64 {
        values[0] + dot(penalties, &self.violations(values))
    }

    /// Begins a turn: factor, step, the test for standing still, penalties and the line.
    pub(super) fn open(&self, mut iterate: Iterate) -> Opening {
        let n = self.setup.n;
        let factor = Rust::cholesky(n, &iterate.b).unwrap_or_else(|| {
            iterate = self.reset(&iterate);
            identity(n)
        });
        let Some(step) = self.step(&factor, &iterate) else {
            return Opening::Over(Ending::Infeasible, iterate);
        };
        if step.relaxation >= ALL {
            if self.slip == Slip::MultipliersOfInfeasible {
                iterate.multipliers = step.multipliers;
            }
            return Opening::Over(Ending::Infeasible, iterate);
        }
        iterate.multipliers = step.multipliers.clone();
        if self.is_still(&iterate, &step) {
            return Opening::Over(Ending::Converged, iterate);
        }
        raise_penalties(&mut iterate.penalties, &iterate.multipliers);
        let line = self.line(&iterate, step);
        Opening::Along(iterate, line)
    }

    /// The step of docs/RULES.md with a factor; none where it is refused.
    fn step(&self, factor: &[f64], iterate: &Iterate) -> Option<Step> {
        let (n, at) = (self.setup.n, &iterate.point);
        let less_x = |bounds: &[f64]| bounds.iter().zip(&at.x).map(|(b, x)| b - x).collect();
        let inputs = [
            factor.to_vec(),
            iterate.slopes[..n].to_vec(),
            at.values[1..].to_vec(),
            iterate.slopes[n..].to_vec(),
            less_x(&self.setup.lower),
            less_x(&self.setup.upper),
        ];
        tally::take();
        let (solution, relaxation) = Rust::step(&self.setup.kinds, &inputs).ok()?;
        Some(Step { d: solution.x, multipliers: solution.multipliers, relaxation })
    }

    fn is_still(&self, iterate: &Iterate, step: &Step) -> bool {
        let products = step.multipliers.iter().zip(&iterate.point.values[1..]);
        let slack: f64 = products.map(|(multiplier, c)| (multiplier * c).abs()).sum();
        let change = dot(&iterate.slopes[..self.setup.n], &step.d).abs() + slack;
        let violation = self.largest_violation(&iterate.point.values);
        change < self.setup.ftol && violation < self.setup.ftol
    }

    fn line(&self, iterate: &Iterate, step: Step) -> Line {
        let (penalties, values) = (&iterate.penalties, &iterate.point.values);
        let reduced = (1.0 - step.relaxation) * dot(penalties, &self.violations(values));
        let slope = dot(&iterate.slopes[..self.setup.n], &step.d) - reduced;
        Line { merit: self.merit(penalties, values), slope, alpha: 1.0, d: step.d }
    }

    /// The point at alpha, clipped into the bounds.
    pub(super) fn along(&self, iterate: &Iterate, line: &Line) -> Vec<f64> {
        let x = iterate.point.x.iter().zip(&line.d).map(|(x, d)| x + line.alpha * d);
        self.clipped(&x.collect::<Vec<f64>>())
    }

    /// B is the identity again; penalties and multipliers stay.
    pub(super) fn reset(&self, iterate: &Iterate) -> Iterate {
        let mut iterate = iterate.clone();
        iterate.b = identity(self.setup.n);
        iterate.fresh = true;
        if self.slip == Slip::ResetClearsMultipliers {
            iterate.multipliers.fill(0.0);
        }
        iterate
    }

    /// The iterate at a new point, with B updated.
    pub(super) fn moved(&self, old: &Iterate, point: Point, slopes: Vec<f64>) -> Iterate {
        let less = |one: &[f64], two: &[f64]| -> Vec<f64> {
            one.iter().zip(two).map(|(one, two)| one - two).collect()
        };
        let s = less(&point.x, &old.point.x);
        let [new, before] =
            [&slopes, &old.slopes].map(|slopes| self.lagrangian(slopes, &old.multipliers));
        let b = Rust::update(self.setup.n, &old.b, &s, &less(&new, &before));
        Iterate { point, slopes, b, fresh: false, ..old.clone() }
    }

    /// g - A'multipliers, constraint by constraint.
    fn lagrangian(&self, slopes: &[f64], multipliers: &[f64]) -> Vec<f64> {
        let (gradient, jacobian) = slopes.split_at(self.setup.n);
        let mut slope = gradient.to_vec();
        for (row, multiplier) in jacobian.chunks(self.setup.n).zip(multipliers) {
            slope.iter_mut().zip(row).for_each(|(slope, entry)| *slope -= multiplier * entry);
        }
        slope
    }

    /// The objective moved by less than the tolerance, and the violation is below it.
    pub(super) fn is_settled(&self, old: &Iterate, new: &Point) -> bool {
        let change = (new.values[0] - old.point.values[0]).abs();
        change < self.setup.ftol && self.largest_violation(&new.values) < self.setup.ftol
    }

    /// How far a coordinate is moved.
    pub(super) fn move_of(&self, x: f64) -> f64 {
        let central = self.setup.scheme == CENTRAL && self.slip == Slip::CentralMove;
        let relative = if central { f64::EPSILON.cbrt() } else { 2f64.powi(-26) };
        relative * larger(x.abs(), 1.0)
    }
}

/// Each penalty becomes the larger of |multiplier| and its mean with that.
fn raise_penalties(penalties: &mut [f64], multipliers: &[f64]) {
    for (penalty, multiplier) in penalties.iter_mut().zip(multipliers) {
        let size = multiplier.abs();
        *penalty = larger(size, (*penalty + size) / 2.0);
    }
}

impl Line {
    /// Whether a merit at alpha has decreased by a tenth of what the slope predicts.
    pub(super) fn accepts(&self, merit: f64) -> bool {
        let falling = if self.slope < 0.0 { self.slope } else { 0.0 };
        merit <= self.merit + 0.1 * self.alpha * falling
    }

    /// The next alpha after a merit at this one.
    pub(super) fn shorter(&self, merit: f64) -> f64 {
        let alpha = self.alpha;
        let curvature = (merit - self.merit - self.slope * alpha) / (alpha * alpha);
        let least = -self.slope / (2.0 * curvature);
        let (low, high) = (0.1 * alpha, 0.5 * alpha);
        if least.is_finite() { clip(low, high, least) } else { high }
    }
}
