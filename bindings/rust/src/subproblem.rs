//! The quadratic subproblem of one SQP iteration, by the names that libitofin has for it: a program that has
//! `subproblem::{Linearization, solve}` takes the proved step by importing these instead.
//!
//! ```
//! use gritstrut::subproblem::{solve, ConstraintKind, Linearization};
//!
//! // The corrections of four meters around a header that is 2.6 short, weighed by their spreads.
//! let l = [1.0, 0.0, 0.0, 0.0, 0.0, 1.0, 0.0, 0.0, 0.0, 0.0, 0.5, 0.0, 0.0, 0.0, 0.0, 2.0];
//! let model = Linearization {
//!     gradient: &[0.0; 4],
//!     values: &[-2.6],
//!     jacobian: &[1.0, 1.0, -1.0, -1.0],
//!     kinds: &[ConstraintKind::Eq],
//!     lower: &[f64::NEG_INFINITY; 4],
//!     upper: &[f64::INFINITY; 4],
//! };
//! let step = solve(&l, &model)?;
//! assert!((step.d[2] + 1.664).abs() < 1e-12 && step.relaxation == 0.0);
//! # Ok::<(), gritstrut::Failure>(())
//! ```

use alloc::vec::Vec;

use crate::{Constraint, Failure, Problem, Workspace};

/// The form of a constraint.
#[derive(Debug, Clone, Copy, PartialEq, Eq)]
pub enum ConstraintKind {
    /// Wanted zero.
    Eq,
    /// Wanted at least zero.
    Ineq,
}

/// The first-order model of the problem at the current iterate.
#[derive(Debug, Clone, Copy)]
pub struct Linearization<'a> {
    /// The objective's gradient.
    pub gradient: &'a [f64],
    /// The constraints' values.
    pub values: &'a [f64],
    /// The constraints' Jacobian, a row for each.
    pub jacobian: &'a [f64],
    /// The form of each constraint.
    pub kinds: &'a [ConstraintKind],
    /// The lower step bounds; one that is not finite is open.
    pub lower: &'a [f64],
    /// The upper step bounds; one that is not finite is open.
    pub upper: &'a [f64],
}

/// A solution of the subproblem.
#[derive(Debug, Clone)]
pub struct Step {
    /// The search direction.
    pub d: Vec<f64>,
    /// One multiplier for each constraint, in constraint order.
    pub multipliers: Vec<f64>,
    /// Zero where the subproblem was solved as stated, one where no step reduces the linearized violation at all.
    pub relaxation: f64,
}

/// Solves the subproblem for the Cholesky factor `l` of `B`, lower-triangular and row-major.
pub fn solve(l: &[f64], model: &Linearization<'_>) -> Result<Step, Failure> {
    solve_in(l, model, &mut Workspace::new())
}

/// The same, in workspaces that are kept.
pub fn solve_in(l: &[f64], model: &Linearization<'_>, work: &mut Workspace) -> Result<Step, Failure> {
    let Linearization { gradient, values, jacobian, kinds, lower, upper } = *model;
    let form = |kind: &ConstraintKind| match kind {
        ConstraintKind::Eq => Constraint::Equality,
        ConstraintKind::Ineq => Constraint::Floor,
    };
    let constraints: Vec<Constraint> = kinds.iter().map(form).collect();
    let problem = Problem { factor: l, gradient, constraints: &constraints, values, jacobian, lower, upper };
    let step = work.step(&problem, false)?;
    Ok(Step { d: step.d, multipliers: step.multipliers, relaxation: step.relaxation })
}
