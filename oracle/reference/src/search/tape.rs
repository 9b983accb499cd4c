//! The questions that the Rust's loop asks, grouped as the machine asks them: all values of a point
//! are one, and all slopes there.

use super::{Functions, Question, Setup, TOLD, same};
use crate::ground::Objective;
use crate::stand_in::ConstraintKind;
use std::convert::Infallible;

/// An objective that answers by given functions and records what it is asked.
pub struct Tape<'a> {
    setup: &'a Setup,
    functions: &'a dyn Functions,
    pub asked: Vec<Question>,
    /// Functions of the last question that were not asked for yet.
    open: usize,
    /// Values at moved points that come next.
    moves: usize,
}

impl<'a> Tape<'a> {
    pub fn new(setup: &'a Setup, functions: &'a dyn Functions) -> Self {
        Self { setup, functions, asked: vec![], open: 0, moves: 0 }
    }

    /// A question of all functions begins with the objective.
    fn begin(&mut self, question: Question) {
        assert_eq!(self.open, 0, "a question was left open before {question:?}");
        self.asked.push(question);
        self.open = self.setup.m;
    }

    /// A question of all functions goes on with constraint j, at the same point.
    fn go_on(&mut self, j: usize, x: &[f64]) {
        let at = match self.asked.last() {
            Some(Question::Values(at) | Question::Slopes(at)) => at,
            _ => panic!("constraint {j} belongs to no question"),
        };
        assert!(same(at, x) && self.open + j == self.setup.m, "constraint {j} is asked apart");
        self.open -= 1;
    }

    /// One function's value at a moved point. Where that is out of reach the run ends: a value that
    /// is not finite makes it do so.
    fn single(&mut self, function: usize, x: &[f64]) -> f64 {
        let reached = self.reaches(x);
        self.moves -= 1;
        if !reached {
            return f64::NAN;
        }
        self.asked.push(Question::Single(function, x.to_vec()));
        self.functions.value(function, x)
    }

    fn slopes(&self, function: usize, x: &[f64], out: &mut [f64]) {
        for (variable, slope) in out.iter_mut().enumerate() {
            *slope = self.functions.slope(function, variable, x);
        }
    }
}

impl Objective for Tape<'_> {
    type Error = Infallible;

    fn value(&mut self, x: &[f64]) -> Result<f64, Infallible> {
        if self.moves > 0 {
            return Ok(self.single(0, x));
        }
        self.begin(Question::Values(x.to_vec()));
        Ok(self.functions.value(0, x))
    }

    fn gradient(&mut self, x: &[f64], out: &mut [f64]) -> Result<bool, Infallible> {
        let told = self.setup.scheme == TOLD;
        if told {
            self.begin(Question::Slopes(x.to_vec()));
            self.slopes(0, x, out);
        } else {
            self.moves = self.setup.n;
        }
        Ok(told)
    }

    fn constraint_count(&self) -> usize {
        self.setup.m
    }

    fn constraint_kind(&self, j: usize) -> ConstraintKind {
        if self.setup.kinds[j] == 0 { ConstraintKind::Eq } else { ConstraintKind::Ineq }
    }

    fn constraint(&mut self, j: usize, x: &[f64]) -> Result<f64, Infallible> {
        if self.moves > 0 {
            return Ok(self.single(1 + j, x));
        }
        self.go_on(j, x);
        Ok(self.functions.value(1 + j, x))
    }

    fn constraint_jacobian(
        &mut self,
        j: usize,
        x: &[f64],
        row: &mut [f64],
    ) -> Result<bool, Infallible> {
        let told = self.setup.scheme == TOLD;
        if told {
            self.go_on(j, x);
            self.slopes(1 + j, x, row);
        } else {
            self.moves = self.setup.n;
        }
        Ok(told)
    }

    fn reaches(&self, x: &[f64]) -> bool {
        self.moves == 0 || x[self.setup.n - self.moves].is_finite()
    }
}
