//! Stands in for what the search's loop leans on and the documents lack: an objective, its counters,
//! how a run ends and what it reports. Only what `slsqp/mod.rs`, `finite_difference.rs` and
//! `problem.rs` need to be built and run: evaluations have a limit, and iterations have none.

use crate::stand_in::ConstraintKind;
use std::cell::RefCell;
use std::error::Error;

/// What is minimized, with its constraints.
pub trait Objective {
    type Error: Error + 'static;
    fn value(&mut self, x: &[f64]) -> Result<f64, Self::Error>;
    /// Writes the gradient, or says that it is not supplied.
    fn gradient(&mut self, x: &[f64], out: &mut [f64]) -> Result<bool, Self::Error>;
    fn constraint_count(&self) -> usize;
    fn constraint_kind(&self, j: usize) -> ConstraintKind;
    fn constraint(&mut self, j: usize, x: &[f64]) -> Result<f64, Self::Error>;
    /// Writes a row of the Jacobian, or says that it is not supplied.
    fn constraint_jacobian(
        &mut self,
        j: usize,
        x: &[f64],
        row: &mut [f64],
    ) -> Result<bool, Self::Error>;
    /// Whether a point may be asked about at all: docs/RULES.md looks at a moved coordinate before.
    fn reaches(&self, x: &[f64]) -> bool;
}

/// How a run converged.
#[derive(Debug, Clone, Copy, PartialEq, Eq)]
pub enum Converged {
    FTol,
}

/// How a run ended.
#[derive(Debug, Clone, Copy, PartialEq, Eq)]
pub enum Termination {
    Converged(Converged),
    Infeasible,
    Nonfinite,
    Exhausted,
}

/// Why a run stops before its loop ends it.
#[derive(Debug)]
pub enum Halt<E: Error + 'static> {
    Terminated(Termination),
    Failed(MinimizeError<E>),
}

/// Why there is no outcome.
#[derive(Debug)]
pub enum MinimizeError<E: Error + 'static> {
    Objective(E),
}

/// How many objective values a run may cost.
pub trait Allowance {
    fn evaluations(&self) -> Option<usize>;
}

/// What a run has cost: one for each objective value.
#[derive(Debug, Default)]
pub struct Counters {
    allowed: Option<usize>,
    values: usize,
    gradients: usize,
    iterations: usize,
}

impl Counters {
    pub fn new(common: &impl Allowance) -> Self {
        Self { allowed: common.evaluations(), ..Self::default() }
    }

    pub fn value<O: Objective>(
        &mut self,
        objective: &mut O,
        x: &[f64],
    ) -> Result<f64, Halt<O::Error>> {
        if !objective.reaches(x) {
            return Err(Halt::Terminated(Termination::Nonfinite));
        }
        if self.allowed.is_some_and(|allowed| self.values >= allowed) {
            return Err(Halt::Terminated(Termination::Exhausted));
        }
        self.values += 1;
        objective.value(x).map_err(|error| Halt::Failed(MinimizeError::Objective(error)))
    }

    pub fn gradient<O: Objective>(
        &mut self,
        objective: &mut O,
        x: &[f64],
        out: &mut [f64],
    ) -> Result<bool, Halt<O::Error>> {
        let supplied = objective.gradient(x, out);
        supplied.map_err(|error| Halt::Failed(MinimizeError::Objective(error)))
    }

    pub fn charge_gradient(&mut self) {
        self.gradients += 1;
    }

    pub fn end_iteration<O: Objective>(
        &mut self,
        _: &mut O,
        _: &[f64],
        _: f64,
    ) -> Result<(), Halt<O::Error>> {
        self.iterations += 1;
        Ok(())
    }

    pub fn nit(&self) -> usize {
        self.iterations
    }

    pub fn nfev(&self) -> usize {
        self.values
    }

    pub fn njev(&self) -> usize {
        self.gradients
    }
}

/// The outcome of a run.
#[derive(Debug)]
pub struct Minimize {
    pub x: Vec<f64>,
    pub f: f64,
    pub status: Termination,
    pub message: String,
    pub multipliers: Option<Vec<f64>>,
}

impl Minimize {
    pub fn new(x: Vec<f64>, f: f64, _: usize, _: usize, _: usize, status: Termination) -> Self {
        Self { x, f, status, message: String::new(), multipliers: None }
    }

    pub fn with_multipliers(self, multipliers: Vec<f64>) -> Self {
        Self { multipliers: Some(multipliers), ..self }
    }
}

thread_local! {
    static KEPT: RefCell<Vec<f64>> = const { RefCell::new(vec![]) };
}

/// Keeps the constraints' values of the last accepted point, which the outcome does not hold.
pub fn keep(values: &[f64]) {
    KEPT.with(|kept| *kept.borrow_mut() = values.to_vec());
}

/// The values that were kept; none where the start's were never known.
pub fn kept() -> Vec<f64> {
    KEPT.with(|kept| kept.take())
}

/// What the Rust's tests of a problem refuse.
#[derive(Debug, Clone, Copy, PartialEq, Eq)]
pub enum InvalidInput {
    EmptyX0,
    NonfiniteX0 { index: usize },
    BoundsLength { expected: usize, found: usize },
    NanBound { index: usize },
    BoundsOrder { index: usize },
    InfeasibleBound { index: usize },
    NotPositive { option: &'static str },
    NotFinitePositive { option: &'static str },
    NotFiniteNonnegative { option: &'static str },
    SimplexPointCount { expected: usize, found: usize },
    SimplexPointLength { point: usize, expected: usize, found: usize },
    NonfiniteSimplex { point: usize, index: usize },
    Unsupported { method: &'static str, option: &'static str },
}

/// Options of other methods, which `problem.rs` names.
macro_rules! other_options {
    ($($name:ident)*) => {
        $(#[derive(Debug, Clone, Default, PartialEq)]
        pub struct $name;

        impl $name {
            pub fn validate<P>(&self, _: &P) -> Result<(), InvalidInput> {
                Ok(())
            }
        })*
    };
}

other_options! {
    DifferentialEvolutionOptions
    FireflyOptions
    HybridSimulatedAnnealingOptions
    ParticleSwarmOptions
}
