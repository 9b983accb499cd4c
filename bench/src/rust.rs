//! The Rust, as published.

use crate::lsq::householder::Qr;
use crate::lsq::nnls::Nnls;
use crate::problem::{Bounds, Common, Problem, SlsqpOptions};
use crate::problems::{Matrix, Step, Valves};
use crate::slsqp::subproblem::{self, Linearization};
use reference::call::Kernels;
use reference::ground::{Allowance, Objective};
use reference::stand_in::{ConstraintKind, Failure, MatRef};

fn matrix(p: &Matrix) -> MatRef<'_> {
    MatRef { data: &p.a, rows: p.m, cols: p.n, stride: p.n }
}

pub fn step(p: &Step) -> Result<subproblem::Step, Failure> {
    let kinds: Vec<ConstraintKind> = p
        .kinds
        .iter()
        .map(|&k| if k == 0 { ConstraintKind::Eq } else { ConstraintKind::Ineq })
        .collect();
    let model = Linearization {
        gradient: &p.gradient,
        values: &p.values,
        jacobian: &p.jacobian,
        kinds: &kinds,
        lower: &p.lower,
        upper: &p.upper,
    };
    subproblem::solve(&p.factor, &model)
}

pub fn nnls(p: &Matrix) -> Result<Nnls, Failure> {
    crate::lsq::nnls::nnls(matrix(p), &p.b)
}

pub fn qr(p: &Matrix) -> usize {
    Qr::factor(matrix(p)).rank()
}

pub fn norm(x: &[f64]) -> f64 {
    reference::stand_in::norm(x.iter().copied())
}

/// How many factorings a step takes, by the copy of the Rust that the oracle counts in.
pub fn factorings_of_step(p: &Step) -> u32 {
    let inputs = [&p.factor, &p.gradient, &p.values, &p.jacobian, &p.lower, &p.upper];
    reference::tally::take();
    let _ = reference::Rust::step(&p.kinds, &inputs.map(Vec::clone));
    reference::tally::take().total().factorings
}

/// How many factorings nonnegative least squares takes.
pub fn factorings_of_nnls(p: &Matrix) -> u32 {
    reference::tally::take();
    let _ = reference::Rust::nnls(p.m, p.n, &p.a, &p.b);
    reference::tally::take().total().factorings
}

impl Allowance for Common {
    fn evaluations(&self) -> Option<usize> {
        self.maxfev
    }
}

/// Valves as the Rust asks about them, with how many values and slopes it asked for.
struct Asked<'a> {
    valves: &'a Valves,
    told: bool,
    count: usize,
}

impl Asked<'_> {
    fn slopes(&mut self, function: usize, x: &[f64], out: &mut [f64]) -> bool {
        if self.told {
            self.count += out.len();
            let slope = |variable| self.valves.slope(function, variable, x);
            out.iter_mut().enumerate().for_each(|(variable, out)| *out = slope(variable));
        }
        self.told
    }

    fn at(&mut self, function: usize, x: &[f64]) -> f64 {
        self.count += 1;
        self.valves.value(function, x)
    }
}

type Never<T> = Result<T, std::convert::Infallible>;

impl Objective for Asked<'_> {
    type Error = std::convert::Infallible;

    fn value(&mut self, x: &[f64]) -> Never<f64> {
        Ok(self.at(0, x))
    }

    fn gradient(&mut self, x: &[f64], out: &mut [f64]) -> Never<bool> {
        Ok(self.slopes(0, x, out))
    }

    fn constraint_count(&self) -> usize {
        self.valves.demands.len()
    }

    fn constraint_kind(&self, j: usize) -> ConstraintKind {
        if j == 0 { ConstraintKind::Eq } else { ConstraintKind::Ineq }
    }

    fn constraint(&mut self, j: usize, x: &[f64]) -> Never<f64> {
        Ok(self.at(1 + j, x))
    }

    fn constraint_jacobian(&mut self, j: usize, x: &[f64], row: &mut [f64]) -> Never<bool> {
        Ok(self.slopes(1 + j, x, row))
    }

    fn reaches(&self, _: &[f64]) -> bool {
        true
    }
}

/// A whole search by the Rust's loop: the openings, and how many numbers it was told.
pub fn search(p: &Valves, scheme: u32) -> (Vec<f64>, usize) {
    let n = p.sizes.len();
    let bounds = Some(Bounds { lower: vec![0.0; n], upper: vec![1.0; n] });
    let problem = Problem { x0: p.set_points.clone(), bounds };
    let options = SlsqpOptions { ftol: Some(crate::library::FTOL) };
    let common = Common { maxfev: Some(crate::library::BUDGET as usize), ..Common::default() };
    let mut asked = Asked { valves: p, told: scheme == 0, count: 0 };
    let found = crate::looped::minimize(&mut asked, &problem, &options, &common);
    (found.expect("an outcome").x, asked.count)
}
