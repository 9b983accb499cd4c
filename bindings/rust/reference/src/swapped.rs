//! The Rust's own loop, in which an import was changed, answers as it did: on every problem of Hock and Schittkowski that the
//! oracle has, the end, the point, the value and the multipliers are the same, bit for bit.

use std::convert::Infallible;

use crate::ground::{Minimize, MinimizeError, Objective, Termination};
use crate::problem::{Bounds, Common, Problem, SlsqpOptions};
use crate::slsqp::minimize;
use gritstrut::ConstraintKind;
use reference::Rust;
use reference::call::Kernels;
use reference::search::{Ending, Functions, Setup, TOLD, same};
use trial::search::hock::{Hock, PROBLEMS};

impl crate::ground::Allowance for Common {
    fn evaluations(&self) -> Option<usize> {
        self.maxfev
    }
}

/// A problem as the loop asks about it.
struct Asked<'a>(&'a Hock);

impl Objective for Asked<'_> {
    type Error = Infallible;

    fn value(&mut self, x: &[f64]) -> Result<f64, Infallible> {
        Ok(self.0.value(0, x))
    }

    fn gradient(&mut self, x: &[f64], out: &mut [f64]) -> Result<bool, Infallible> {
        out.iter_mut().enumerate().for_each(|(i, slope)| *slope = self.0.slope(0, i, x));
        Ok(true)
    }

    fn constraint_count(&self) -> usize {
        self.0.kinds.len()
    }

    fn constraint_kind(&self, j: usize) -> ConstraintKind {
        if self.0.kinds[j] == 0 { ConstraintKind::Eq } else { ConstraintKind::Ineq }
    }

    fn constraint(&mut self, j: usize, x: &[f64]) -> Result<f64, Infallible> {
        Ok(self.0.value(1 + j, x))
    }

    fn constraint_jacobian(&mut self, j: usize, x: &[f64], row: &mut [f64]) -> Result<bool, Infallible> {
        row.iter_mut().enumerate().for_each(|(i, slope)| *slope = self.0.slope(1 + j, i, x));
        Ok(true)
    }

    fn reaches(&self, _: &[f64]) -> bool {
        true
    }
}

const BUDGET: usize = 300;
const FTOL: f64 = 1e-8;

/// The loop over gritstrut's step.
fn swapped(hock: &Hock) -> Minimize {
    let bounds = Bounds { lower: hock.lower.to_vec(), upper: hock.upper.to_vec() };
    let problem = Problem { x0: hock.start.to_vec(), bounds: Some(bounds) };
    let common = Common { maxfev: Some(BUDGET), maxiter: None, tol: None };
    match minimize(&mut Asked(hock), &problem, &SlsqpOptions { ftol: Some(FTOL) }, &common) {
        Ok(found) => found,
        Err(MinimizeError::Objective(never)) => match never {},
    }
}

#[test]
fn the_loop_answers_as_before() {
    let mut converged = 0;
    for hock in PROBLEMS {
        let setup = Setup {
            n: hock.start.len(),
            m: hock.kinds.len(),
            kinds: hock.kinds.to_vec(),
            lower: hock.lower.to_vec(),
            upper: hock.upper.to_vec(),
            ftol: FTOL,
            scheme: TOLD,
        };
        let (before, now) = (Rust::search(&setup, hock.start, BUDGET, &hock), swapped(hock));
        let ending = match now.status {
            Termination::Converged(_) => Ending::Converged,
            Termination::Infeasible => Ending::Infeasible,
            Termination::Nonfinite => Ending::Nonfinite,
            Termination::Exhausted => Ending::Exhausted,
        };
        assert_eq!(ending, before.ending, "problem {}", hock.number);
        assert!(same(&now.x, &before.report.x), "problem {}: {:?}, {:?}", hock.number, now.x, before.report.x);
        assert!(same(&[now.f], &before.report.values[..1]), "problem {}", hock.number);
        let multipliers = now.multipliers.unwrap_or_else(|| vec![0.0; setup.m]);
        assert!(same(&multipliers, &before.report.multipliers), "problem {}", hock.number);
        converged += u32::from(ending == Ending::Converged);
    }
    println!("{} problems, {converged} converged", PROBLEMS.len());
    assert!(converged > 40);
}
