//! The arithmetic of the Rust files beside this module, behind the public operations.

use super::lsq::householder::Qr;
use super::lsq::lsei::{Lsq, ldp, lsei, lsi};
use super::lsq::nnls::nnls;
use super::problem::{Bounds, Common, Problem, SlsqpOptions};
use super::slsqp::hessian::Hessian;
use super::slsqp::minimize;
use super::slsqp::subproblem::{Linearization, solve};
use reference::call::{Factored, Kernels, Solution};
use reference::ground::{Allowance, MinimizeError, Termination, kept};
use reference::search::tape::Tape;
use reference::search::{Ending, Functions, Report, Setup, Transcript};
use reference::stand_in::{ConstraintKind, Failure, MatRef};

/// The Rust files.
pub struct Rust;

fn matrix(data: &[f64], rows: usize, cols: usize) -> MatRef<'_> {
    MatRef { data, rows, cols, stride: cols }
}

fn solution(lsq: Lsq) -> Solution {
    Solution { x: lsq.x, multipliers: lsq.multipliers }
}

impl Allowance for Common {
    fn evaluations(&self) -> Option<usize> {
        self.maxfev
    }
}

fn ending(status: Termination) -> Ending {
    match status {
        Termination::Converged(_) => Ending::Converged,
        Termination::Infeasible => Ending::Infeasible,
        Termination::Exhausted => Ending::Exhausted,
        Termination::Nonfinite => Ending::Nonfinite,
    }
}

impl Kernels for Rust {
    fn qr(m: usize, n: usize, a: &[f64]) -> Factored {
        let qr = Qr::factor(matrix(a, m, n));
        let steps = m.min(n);
        let (mut u, mut b) = (vec![0.0; steps * m], vec![0.0; steps]);
        for (k, (vector, divisor)) in qr.reflectors().enumerate() {
            u[k * m + k..(k + 1) * m].copy_from_slice(vector);
            b[k] = divisor;
        }
        let perm = qr.perm().iter().map(|&j| j as u32).collect();
        Factored { rank: qr.rank(), r: qr.triangle().to_vec(), perm, u, b }
    }

    fn nnls(m: usize, n: usize, a: &[f64], b: &[f64]) -> Result<(Vec<f64>, usize), Failure> {
        nnls(matrix(a, m, n), b).map(|found| (found.x, found.iterations))
    }

    fn ldp(m: usize, n: usize, g: &[f64], h: &[f64]) -> Result<Solution, Failure> {
        ldp(matrix(g, m, n), h).map(solution)
    }

    fn lsi(sizes: &[usize], inputs: &[Vec<f64>]) -> Result<Solution, Failure> {
        let (n, me, mg) = (sizes[0], sizes[1], sizes[2]);
        let (e, g) = (matrix(&inputs[0], me, n), matrix(&inputs[2], mg, n));
        lsi(e, &inputs[1], g, &inputs[3]).map(solution)
    }

    fn lsei(sizes: &[usize], inputs: &[Vec<f64>]) -> Result<Solution, Failure> {
        let (n, mc, me, mg) = (sizes[0], sizes[1], sizes[2], sizes[3]);
        let c = matrix(&inputs[0], mc, n);
        let e = matrix(&inputs[2], me, n);
        let g = matrix(&inputs[4], mg, n);
        lsei(c, &inputs[1], e, &inputs[3], g, &inputs[5]).map(solution)
    }

    fn identity(n: usize) -> Vec<f64> {
        Hessian::identity(n).entries().to_vec()
    }

    fn times(n: usize, b: &[f64], v: &[f64]) -> Vec<f64> {
        Hessian::of(b.to_vec(), n).times(v)
    }

    fn cholesky(n: usize, b: &[f64]) -> Option<Vec<f64>> {
        Hessian::of(b.to_vec(), n).cholesky()
    }

    fn update(n: usize, b: &[f64], s: &[f64], y: &[f64]) -> Vec<f64> {
        let mut hessian = Hessian::of(b.to_vec(), n);
        hessian.update(s, y);
        hessian.entries().to_vec()
    }

    fn step(kinds: &[u8], inputs: &[Vec<f64>]) -> Result<(Solution, f64), Failure> {
        let form = |&kind: &u8| match kind {
            0 => ConstraintKind::Eq,
            _ => ConstraintKind::Ineq,
        };
        let kinds: Vec<ConstraintKind> = kinds.iter().map(form).collect();
        let model = Linearization {
            gradient: &inputs[1],
            values: &inputs[2],
            jacobian: &inputs[3],
            kinds: &kinds,
            lower: &inputs[4],
            upper: &inputs[5],
        };
        let step = solve(&inputs[0], &model)?;
        let solution = Solution { x: step.d, multipliers: step.multipliers };
        Ok((solution, step.relaxation))
    }

    fn search(setup: &Setup, x: &[f64], budget: usize, functions: &dyn Functions) -> Transcript {
        let bounds = Bounds { lower: setup.lower.clone(), upper: setup.upper.clone() };
        let problem = Problem { x0: x.to_vec(), bounds: Some(bounds) };
        let options = SlsqpOptions { ftol: Some(setup.ftol) };
        let common = Common { maxfev: Some(budget), ..Common::default() };
        let mut tape = Tape::new(setup, functions);
        let found = match minimize(&mut tape, &problem, &options, &common) {
            Ok(found) => found,
            Err(MinimizeError::Objective(never)) => match never {},
        };
        let values = [found.f].into_iter().chain(kept()).collect();
        let multipliers = found.multipliers.unwrap_or_else(|| vec![0.0; setup.m]);
        let report = Report { x: found.x, values, multipliers };
        Transcript { asked: tape.asked, ending: ending(found.status), report }
    }
}
