//! The step of an SQP iteration, and the check of steps.

use alloc::vec;
use alloc::vec::Vec;

use crate::ffi::Tally;
use crate::{ffi, Failure, Workspace};

/// What a constraint asks of the step d, of its row a and value c.
#[derive(Debug, Clone, Copy, PartialEq)]
pub enum Constraint {
    /// a'd + c = 0
    Equality,
    /// a'd + c >= 0
    Floor,
    /// 0 <= a'd + c <= the width
    Band(f64),
}

/// The problem of a step: the least d'Bd / 2 + g'd, `B = L L'`, of 1 to 16 variables, under up to 16 constraints and bounds.
#[derive(Debug, Clone, Copy, PartialEq)]
pub struct Problem<'a> {
    /// L, row by row, with +0 above the diagonal.
    pub factor: &'a [f64],
    /// g.
    pub gradient: &'a [f64],
    /// What each constraint asks.
    pub constraints: &'a [Constraint],
    /// The value of each constraint.
    pub values: &'a [f64],
    /// A row for each constraint.
    pub jacobian: &'a [f64],
    /// Lower bounds, `-inf` where open.
    pub lower: &'a [f64],
    /// Upper bounds, `+inf` where open.
    pub upper: &'a [f64],
}

/// How a stage of a step ended.
#[derive(Debug, Clone, Copy, PartialEq, Eq)]
pub struct Stage {
    /// Nothing where it was solved, or was not tried.
    pub failure: Option<Failure>,
}

/// What a step tells beside its answer.
#[derive(Debug, Clone, Copy, PartialEq, Eq)]
pub struct Report {
    /// The problem as stated. A dependent equality is counted among the equalities alone.
    pub exact: Stage,
    /// The relaxed problem.
    pub relaxed: Stage,
    /// Rounds of NNLS in both.
    pub rounds: usize,
    /// QR factorings in both.
    pub factorings: usize,
}

/// A step.
#[derive(Debug, Clone, PartialEq)]
pub struct Step {
    /// The step d.
    pub d: Vec<f64>,
    /// One multiplier for each constraint; a band's is its floor's less its ceiling's.
    pub multipliers: Vec<f64>,
    /// 0 where the problem was solved as stated, else the share by which its constraints were relaxed.
    pub relaxation: f64,
    /// How it came about.
    pub report: Report,
}

/// A test of the check.
#[derive(Debug, Clone, Copy, PartialEq, Eq)]
pub enum Test {
    /// A variable's slope.
    Stationarity,
    /// An equality's residual.
    Residual,
    /// An inequality's violation.
    Violation,
    /// A multiplier below zero.
    Sign,
    /// The product of multiplier and margin.
    Product,
}

/// The row on which a test failed first.
#[derive(Debug, Clone, Copy, PartialEq, Eq)]
pub enum Part {
    /// A variable's stationarity.
    Variable(usize),
    /// An equality, a floor, or a band's floor.
    Constraint(usize),
    /// A band's ceiling.
    Ceiling(usize),
    /// A variable's lower side.
    Lower(usize),
    /// A variable's upper side.
    Upper(usize),
}

/// The verdict on a step.
#[derive(Debug, Clone, Copy, PartialEq, Eq)]
pub enum Verdict {
    /// All five tests hold.
    Yes,
    /// The first test that fails, and where.
    No(Test, Part),
}

/// A step from anywhere, to be checked.
#[derive(Debug, Clone, Copy, PartialEq)]
pub struct Checked<'a> {
    /// The step d.
    pub d: &'a [f64],
    /// The multipliers of the constraints.
    pub multipliers: &'a [f64],
    /// The multipliers of the lower sides; of open ones they are not read.
    pub lower_multipliers: &'a [f64],
    /// The multipliers of the upper sides.
    pub upper_multipliers: &'a [f64],
}

/// The kinds and widths of constraints as the C interface takes them.
fn split(constraints: &[Constraint]) -> (Vec<u8>, Vec<f64>) {
    let each = constraints.iter().map(|constraint| match *constraint {
        Constraint::Equality => (0, 0.0),
        Constraint::Floor => (1, 0.0),
        Constraint::Band(width) => (2, width),
    });
    each.unzip()
}

fn stage(number: u32, place: u32) -> Stage {
    Stage { failure: (number != 0).then(|| Failure::of(number, place)) }
}

impl Workspace {
    /// See [`Problem::solve`]; `is_strict` tells whether bounds that mean nothing are refused, else they are open.
    pub(crate) fn step(&mut self, problem: &Problem<'_>, is_strict: bool) -> Result<Step, Failure> {
        let call = if is_strict { ffi::gritstrut_strict_step } else { ffi::gritstrut_step };
        let (kinds, widths) = split(problem.constraints);
        let Problem { factor, gradient, values, jacobian, lower, upper, .. } = *problem;
        let (n, m) = (gradient.len(), kinds.len());
        let (mut d, mut multipliers) = (vec![0.0; n], vec![0.0; m]);
        let (mut relaxation, mut report, mut tally) = (0.0, [0; 6], Tally::default());
        // SAFETY: every pointer comes from a slice and goes with its length, and no two written slices are one.
        #[rustfmt::skip]
        let number = unsafe {
            call(
                n, m, factor.as_ptr(), factor.len(), gradient.as_ptr(), gradient.len(), kinds.as_ptr(), kinds.len(),
                values.as_ptr(), values.len(), widths.as_ptr(), widths.len(), jacobian.as_ptr(), jacobian.len(),
                lower.as_ptr(), lower.len(), upper.as_ptr(), upper.len(), d.as_mut_ptr(), d.len(),
                multipliers.as_mut_ptr(), multipliers.len(), &mut relaxation, report.as_mut_ptr(), report.len(),
                &mut tally, self.w.as_mut_ptr(), self.w.len(), self.iw.as_mut_ptr(), self.iw.len(),
            )
        };
        let [exact_number, exact_place, relaxed_number, relaxed_place, rounds, factorings] = report;
        Failure::unless_done(number, if number == 15 { exact_place } else { relaxed_place })?;
        let (exact, relaxed) = (stage(exact_number, exact_place), stage(relaxed_number, relaxed_place));
        let report = Report { exact, relaxed, rounds: rounds as usize, factorings: factorings as usize };
        Ok(Step { d, multipliers, relaxation, report })
    }

    /// See [`Problem::check`].
    pub fn check(&mut self, problem: &Problem<'_>, step: &Checked<'_>, tolerance: f64) -> Result<Verdict, Failure> {
        let (kinds, widths) = split(problem.constraints);
        let Problem { factor, gradient, values, jacobian, lower, upper, .. } = *problem;
        let (lowers, uppers) = (step.lower_multipliers, step.upper_multipliers);
        let mut verdict = [0; 3];
        // SAFETY: as for the step.
        #[rustfmt::skip]
        let number = unsafe {
            ffi::gritstrut_check(
                gradient.len(), kinds.len(), factor.as_ptr(), factor.len(), gradient.as_ptr(), gradient.len(),
                kinds.as_ptr(), kinds.len(), values.as_ptr(), values.len(), widths.as_ptr(), widths.len(),
                jacobian.as_ptr(), jacobian.len(), lower.as_ptr(), lower.len(), upper.as_ptr(), upper.len(),
                step.d.as_ptr(), step.d.len(), step.multipliers.as_ptr(), step.multipliers.len(),
                lowers.as_ptr(), lowers.len(), uppers.as_ptr(), uppers.len(), tolerance,
                verdict.as_mut_ptr(), verdict.len(), self.w.as_mut_ptr(), self.w.len(),
                self.iw.as_mut_ptr(), self.iw.len(),
            )
        };
        Failure::unless_done(number, 0)?;
        let index = verdict[2] as usize;
        let part = match verdict[1] {
            0 => Part::Variable(index),
            1 => Part::Constraint(index),
            2 => Part::Ceiling(index),
            3 => Part::Lower(index),
            _ => Part::Upper(index),
        };
        Ok(match verdict[0] {
            0 => Verdict::Yes,
            1 => Verdict::No(Test::Stationarity, part),
            2 => Verdict::No(Test::Residual, part),
            3 => Verdict::No(Test::Violation, part),
            4 => Verdict::No(Test::Sign, part),
            _ => Verdict::No(Test::Product, part),
        })
    }
}

impl Problem<'_> {
    /// The step. A bound that is NaN, a lower one of +infinity and an upper one of -infinity are refused.
    pub fn solve(&self) -> Result<Step, Failure> {
        self.solve_in(&mut Workspace::new())
    }

    /// The step, in workspaces that are kept.
    pub fn solve_in(&self, work: &mut Workspace) -> Result<Step, Failure> {
        work.step(self, true)
    }

    /// Whether a step from anywhere is plausible.
    pub fn check(&self, step: &Checked<'_>, tolerance: f64) -> Result<Verdict, Failure> {
        Workspace::new().check(self, step, tolerance)
    }

    /// The multipliers of a step's lower and upper sides, which the step does not give: what its own leave of the slope, for
    /// the side that can take it. Slices of other lengths than the problem's count as zeros.
    pub fn sides(&self, d: &[f64], multipliers: &[f64]) -> (Vec<f64>, Vec<f64>) {
        let n = self.gradient.len();
        let at = |list: &[f64], i: usize| list.get(i).copied().unwrap_or(0.0);
        let factor = |i: usize, k: usize| at(self.factor, i * n + k);
        let half: Vec<f64> = (0..n).map(|k| (k..n).map(|i| factor(i, k) * at(d, i)).sum()).collect();
        let slope = |i: usize| {
            let curved: f64 = (0..=i).map(|k| factor(i, k) * half[k]).sum();
            let held: f64 = multipliers.iter().enumerate().map(|(j, held)| at(self.jacobian, j * n + i) * held).sum();
            self.gradient[i] + curved - held
        };
        let side = |i: usize, sign: f64, bound: f64| {
            if sign * slope(i) > 0.0 && bound.is_finite() {
                sign * slope(i)
            } else {
                0.0
            }
        };
        let lowers = (0..n).map(|i| side(i, 1.0, at(self.lower, i))).collect();
        let uppers = (0..n).map(|i| side(i, -1.0, at(self.upper, i))).collect();
        (lowers, uppers)
    }
}
