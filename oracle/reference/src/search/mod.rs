//! The search: its problem, what it asks, how it ends; the Rust's own run as a tape of questions;
//! and a second reading of docs/RULES.md, "The search".

pub mod call;
mod machine;
pub mod page;
pub mod slip;
pub mod tape;
mod turn;

pub use call::{Begin, Outcome, begin, tell};
pub use machine::{Reading, State};
pub use slip::{SLIPS, Slip};

/// Where slopes come from: they are told, or are forward or central differences.
pub const TOLD: usize = 0;
pub const FORWARD: usize = 1;
pub const CENTRAL: usize = 2;

/// The problem of a search.
#[derive(Debug, Clone)]
pub struct Setup {
    pub n: usize,
    pub m: usize,
    pub kinds: Vec<u8>,
    pub lower: Vec<f64>,
    pub upper: Vec<f64>,
    pub ftol: f64,
    pub scheme: usize,
}

/// The functions of a problem: 0 is the objective, 1 + j constraint j.
pub trait Functions {
    fn value(&self, function: usize, x: &[f64]) -> f64;
    fn slope(&self, function: usize, variable: usize, x: &[f64]) -> f64;

    /// What a question is told.
    fn told(&self, setup: &Setup, question: &Question) -> Vec<f64> {
        let functions = 0..=setup.m;
        match question {
            Question::Values(x) => functions.map(|function| self.value(function, x)).collect(),
            Question::Slopes(x) => functions
                .flat_map(|function| (0..setup.n).map(move |variable| (function, variable)))
                .map(|(function, variable)| self.slope(function, variable, x))
                .collect(),
            Question::Single(function, x) => vec![self.value(*function, x)],
        }
    }
}

/// What is asked: all values at a point, all slopes there, or one function's value at a moved point.
#[derive(Debug, Clone)]
pub enum Question {
    Values(Vec<f64>),
    Slopes(Vec<f64>),
    Single(usize, Vec<f64>),
}

impl Question {
    /// How many numbers it is to be told.
    pub fn wants(&self, setup: &Setup) -> usize {
        match self {
            Question::Values(_) => 1 + setup.m,
            Question::Slopes(_) => (1 + setup.m) * setup.n,
            Question::Single(..) => 1,
        }
    }

    /// What costs one of the budget.
    pub fn costs(&self) -> bool {
        matches!(self, Question::Values(_) | Question::Single(0, _))
    }

    /// Whether the other asks the same, bit for bit, any NaN for any NaN.
    pub fn same(&self, other: &Question) -> bool {
        match (self, other) {
            (Question::Values(one), Question::Values(two)) => same(one, two),
            (Question::Slopes(one), Question::Slopes(two)) => same(one, two),
            (Question::Single(one, x), Question::Single(two, y)) => one == two && same(x, y),
            _ => false,
        }
    }
}

/// Whether two lists have the same bits, any NaN for any NaN.
pub fn same(one: &[f64], two: &[f64]) -> bool {
    let alike =
        |(one, two): (&f64, &f64)| one.to_bits() == two.to_bits() || (one.is_nan() && two.is_nan());
    one.len() == two.len() && one.iter().zip(two).all(alike)
}

/// How a run ends.
#[derive(Debug, Clone, Copy, PartialEq, Eq)]
pub enum Ending {
    Converged,
    Infeasible,
    Exhausted,
    Nonfinite,
}

/// Every ending, in the order of its phases.
pub const ENDINGS: [Ending; 4] =
    [Ending::Converged, Ending::Infeasible, Ending::Exhausted, Ending::Nonfinite];

/// The last accepted point with its values, and the multipliers of the last step.
#[derive(Debug, Clone, Default)]
pub struct Report {
    pub x: Vec<f64>,
    pub values: Vec<f64>,
    pub multipliers: Vec<f64>,
}

/// The questions of a run, and how it ended. The Rust keeps no constraints' values of a start that
/// is not finite: those of its report are then missing.
#[derive(Debug, Clone)]
pub struct Transcript {
    pub asked: Vec<Question>,
    pub ending: Ending,
    pub report: Report,
}

impl Transcript {
    /// What another run does otherwise, if anything.
    pub fn apart(&self, other: &Transcript) -> Option<String> {
        let questions = self.asked.iter().zip(&other.asked);
        if let Some(at) = questions.clone().position(|(one, two)| !one.same(two)) {
            let (owed, found) = (&self.asked[at], &other.asked[at]);
            return Some(format!("question {at}: owed {owed:?}, found {found:?}"));
        }
        let ends = |run: &Transcript| format!("{} questions, {:?}", run.asked.len(), run.ending);
        if ends(self) != ends(other) {
            return Some(format!("owed {}, found {}", ends(self), ends(other)));
        }
        self.report.apart(&other.report)
    }
}

impl Report {
    fn apart(&self, other: &Report) -> Option<String> {
        let known = self.values.len().min(other.values.len());
        let parts = [
            ("x", &self.x[..], &other.x[..]),
            ("values", &self.values[..known], &other.values[..known]),
            ("multipliers", &self.multipliers[..], &other.multipliers[..]),
        ];
        let (name, owed, found) = parts.into_iter().find(|(_, one, two)| !same(one, two))?;
        Some(format!("{name}: owed {owed:?}, found {found:?}"))
    }
}
