//! The search: the whole iteration around the step, as a machine that asks and is told.

use alloc::vec;
use alloc::vec::Vec;

use crate::{ffi, ConstraintKind, Failure, Workspace};

const MACHINE: usize = 1024;
const WORDS: usize = 32;
const X: usize = 48;
const MULTIPLIERS: usize = 96;
const VALUES: usize = 128;
const POINT: usize = 976;
const ASKED: usize = 0;
const AFTER: usize = 5;
const VARIABLES: usize = 8;
const CONSTRAINTS: usize = 9;

/// Where slopes come from.
#[derive(Debug, Clone, Copy, PartialEq, Eq)]
pub enum Slopes {
    /// They are asked for.
    Told,
    /// Forward differences, of single values that are asked for.
    Forward,
    /// Central ones.
    Central,
}

/// What a search looks for: the least of function 0, with function 1 + j as constraint j asks, within the bounds.
#[derive(Debug, Clone, Copy, PartialEq)]
pub struct Aim<'a> {
    /// The start, of 1 to 16 variables.
    pub x0: &'a [f64],
    /// The form of each constraint, up to 16.
    pub kinds: &'a [ConstraintKind],
    /// Lower bounds; none at all where it is empty.
    pub lower: &'a [f64],
    /// Upper bounds; none at all where it is empty.
    pub upper: &'a [f64],
    /// Convergence is told below this.
    pub ftol: f64,
    /// The most objective values, up to 10,000.
    pub budget: u32,
    /// Where slopes come from.
    pub slopes: Slopes,
}

/// What is asked.
#[derive(Debug, Clone, Copy, PartialEq)]
pub enum Question<'a> {
    /// All values at a point: the objective's, then each constraint's.
    Values(&'a [f64]),
    /// All slopes at a point: 1 + m rows of n, the gradient first.
    Slopes(&'a [f64]),
    /// The value of one function at a point.
    Value(usize, &'a [f64]),
}

/// How a run has ended.
#[derive(Debug, Clone, Copy, PartialEq, Eq)]
pub enum Ending {
    /// Within ftol.
    Converged,
    /// No step, or one that relaxes all.
    Infeasible,
    /// An objective value is due, and none is left.
    Exhausted,
    /// A number that is not finite.
    Nonfinite,
}

/// Where a search stands.
#[derive(Debug, Clone, Copy, PartialEq)]
pub enum State<'a> {
    /// A question stands.
    Asks(Question<'a>),
    /// The run is over.
    Ended(Ending),
}

/// All that a search knows: it may be cloned, and gone on with twice.
///
/// ```
/// use gritstrut::{Aim, ConstraintKind, Ending, Search, Slopes};
///
/// let aim = Aim {
///     x0: &[2.0, 0.0],
///     kinds: &[ConstraintKind::Ineq],
///     lower: &[0.0, 0.0],
///     upper: &[],
///     ftol: 1e-9,
///     budget: 200,
///     slopes: Slopes::Central,
/// };
/// let value = |function: usize, x: &[f64]| match function {
///     0 => (x[0] - 1.0).powi(2) + (x[1] - 2.5).powi(2),
///     _ => x[0] - 2.0 * x[1] + 2.0,
/// };
/// let mut search = Search::begin(&aim)?;
/// assert_eq!(search.run(value, |_, _, _| unreachable!())?, Ending::Converged);
/// assert!((search.x()[0] - 1.4).abs() < 1e-6 && (search.x()[1] - 1.7).abs() < 1e-6);
/// # Ok::<(), gritstrut::Failure>(())
/// ```
#[derive(Debug, Clone, PartialEq)]
pub struct Search {
    machine: Vec<f64>,
    words: [u32; WORDS],
}

impl Search {
    /// Begins a search. A start that is not finite begins none: its run would be over.
    pub fn begin(aim: &Aim<'_>) -> Result<Self, Failure> {
        let (n, m) = (aim.x0.len(), aim.kinds.len());
        let kinds: Vec<u8> = aim.kinds.iter().map(|kind| u8::from(*kind == ConstraintKind::Ineq)).collect();
        let open = |given: &[f64], bound: f64| if given.is_empty() { vec![bound; n] } else { given.to_vec() };
        let (lower, upper) = (open(aim.lower, f64::NEG_INFINITY), open(aim.upper, f64::INFINITY));
        let scheme = match aim.slopes {
            Slopes::Told => 0,
            Slopes::Forward => 1,
            Slopes::Central => 2,
        };
        let mut search = Self { machine: vec![0.0; MACHINE], words: [0; WORDS] };
        let (mut place, mut work) = (0, Workspace::new());
        // SAFETY: every pointer comes from a slice and goes with its length, and no two written slices are one.
        #[rustfmt::skip]
        let number = unsafe {
            ffi::gritstrut_search_begin(
                n, m, kinds.as_ptr(), kinds.len(), lower.as_ptr(), lower.len(), upper.as_ptr(), upper.len(),
                aim.x0.as_ptr(), n, aim.ftol, aim.budget, scheme, search.machine.as_mut_ptr(), MACHINE,
                search.words.as_mut_ptr(), WORDS, &mut place,
                work.w.as_mut_ptr(), work.w.len(), work.iw.as_mut_ptr(), work.iw.len(),
            )
        };
        Failure::unless_done(number, place)?;
        Ok(search)
    }

    fn variables(&self) -> usize {
        self.words[VARIABLES] as usize
    }

    fn constraints(&self) -> usize {
        self.words[CONSTRAINTS] as usize
    }

    fn part(&self, from: usize, count: usize) -> &[f64] {
        &self.machine[from..from + count]
    }

    /// What is asked, or how the run has ended.
    pub fn state(&self) -> State<'_> {
        let x = self.part(POINT, self.variables());
        match self.words[ASKED] {
            1 | 2 => State::Asks(Question::Values(x)),
            3 => State::Asks(Question::Slopes(x)),
            4 | 5 => State::Asks(Question::Value(self.constraints() - self.words[AFTER] as usize, x)),
            6 => State::Ended(Ending::Converged),
            7 => State::Ended(Ending::Infeasible),
            8 => State::Ended(Ending::Exhausted),
            _ => State::Ended(Ending::Nonfinite),
        }
    }

    /// Tells the answer to the question that stands. A number that is not finite ends the run, and is no failure.
    pub fn tell(&mut self, told: &[f64], work: &mut Workspace) -> Result<(), Failure> {
        // SAFETY: as above.
        #[rustfmt::skip]
        let number = unsafe {
            ffi::gritstrut_search_tell(
                told.as_ptr(), told.len(), self.machine.as_mut_ptr(), MACHINE, self.words.as_mut_ptr(), WORDS,
                work.w.as_mut_ptr(), work.w.len(), work.iw.as_mut_ptr(), work.iw.len(),
            )
        };
        match Failure::unless_done(number, 0) {
            Err(Failure::Nonfinite) => Ok(()),
            other => other,
        }
    }

    /// Answers questions until the run is over. `value` gives a function at a point; `slopes` writes its slopes, and is asked
    /// only where they are told.
    pub fn run(
        &mut self,
        mut value: impl FnMut(usize, &[f64]) -> f64,
        mut slopes: impl FnMut(usize, &[f64], &mut [f64]),
    ) -> Result<Ending, Failure> {
        let (mut work, mut told) = (Workspace::new(), Vec::new());
        let functions = 0..1 + self.constraints();
        loop {
            told.clear();
            match self.state() {
                State::Ended(ending) => return Ok(ending),
                State::Asks(Question::Values(x)) => told.extend(functions.clone().map(|function| value(function, x))),
                State::Asks(Question::Value(function, x)) => told.push(value(function, x)),
                State::Asks(Question::Slopes(x)) => {
                    told.resize((1 + self.constraints()) * x.len(), 0.0);
                    for (function, row) in told.chunks_exact_mut(x.len()).enumerate() {
                        slopes(function, x, row);
                    }
                }
            }
            self.tell(&told, &mut work)?;
        }
    }

    /// The last accepted point.
    pub fn x(&self) -> &[f64] {
        self.part(X, self.variables())
    }

    /// The multipliers of the last step.
    pub fn multipliers(&self) -> &[f64] {
        self.part(MULTIPLIERS, self.constraints())
    }

    /// The values at the last accepted point, the objective's first.
    pub fn values(&self) -> &[f64] {
        self.part(VALUES, 1 + self.constraints())
    }
}
