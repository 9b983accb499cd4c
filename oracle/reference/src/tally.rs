//! What a run of the Rust files passes through: counted by the lines that the build adds.

use std::cell::Cell;

/// More factorings than any call can need; a run that comes here does not end.
const TOO_MANY: u32 = 100_000;

/// The place of a stage that has none.
pub const NOWHERE: u32 = u32::MAX;

/// How a stage ended: 0 where it answered or was not tried, else why it was refused, and the place
/// where rank was lost.
#[derive(Debug, Clone, Copy, PartialEq, Eq)]
pub struct Stage {
    pub number: u32,
    pub place: u32,
}

/// A stage that was not refused.
const PASSED: Stage = Stage { number: 0, place: NOWHERE };

impl Default for Stage {
    fn default() -> Self {
        PASSED
    }
}

/// What a stage took.
#[derive(Debug, Clone, Copy, Default, PartialEq, Eq)]
pub struct Spent {
    /// Rounds of NNLS, a refused one not among them.
    pub rounds: u32,
    /// Calls of `factor`, those on no columns too.
    pub factorings: u32,
}

const NOTHING: Spent = Spent { rounds: 0, factorings: 0 };

/// The counts of one run. Of a step the first stage is the exact problem and the second the relaxed
/// one; everything else has one stage.
#[derive(Debug, Clone, Copy, Default)]
pub struct Tally {
    /// How the stages that were refused ended, in their order.
    pub stages: [Stage; 2],
    /// What the stages took.
    pub spent: [Spent; 2],
    /// Solves repeated after a blocking column left.
    pub blocks: u32,
    /// Blocking ratios that were NaN.
    pub nan_ratios: u32,
    /// Relaxed problems.
    pub relaxed: u32,
}

impl Tally {
    /// What both stages took.
    pub fn total(&self) -> Spent {
        let [first, second] = self.spent;
        Spent {
            rounds: first.rounds + second.rounds,
            factorings: first.factorings + second.factorings,
        }
    }

    /// The last refusal by rank; none is a stage that passed.
    pub fn short(&self) -> Stage {
        let mut refused = self.stages.into_iter().rev();
        refused.find(|stage| stage.place != NOWHERE).unwrap_or(PASSED)
    }
}

thread_local! {
    static TALLY: Cell<Tally> = const {
        Cell::new(Tally {
            stages: [PASSED; 2],
            spent: [NOTHING; 2],
            blocks: 0,
            nan_ratios: 0,
            relaxed: 0,
        })
    };
}

thread_local! {
    static NAN_FIRST: Cell<bool> = const { Cell::new(false) };
}

/// Sets whether a NaN ratio ranks before every number, as the Rust has it where a machine gives
/// its NaNs the sign bit; docs/RULES.md has it after every number, and that is how a thread starts.
pub fn rank_nan_first(first: bool) {
    NAN_FIRST.with(|cell| cell.set(first));
}

fn raise(raised: impl Fn(&mut Tally)) -> Tally {
    TALLY.with(|cell| {
        let mut tally = cell.get();
        raised(&mut tally);
        cell.set(tally);
        tally
    })
}

/// The stage that is run: 1 in a relaxed problem, else 0.
fn running(tally: &Tally) -> usize {
    usize::from(tally.relaxed > 0)
}

/// The counts so far.
pub fn so_far() -> Tally {
    TALLY.with(Cell::get)
}

/// Answers the counts so far and starts again from none.
pub fn take() -> Tally {
    TALLY.with(Cell::take)
}

/// Counts one call of `factor`.
pub fn factoring() {
    let tally = raise(|tally| tally.spent[running(tally)].factorings += 1);
    assert!(tally.total().factorings < TOO_MANY, "the run does not end");
}

/// Counts one round of NNLS, where it ends.
pub fn round() {
    raise(|tally| tally.spent[running(tally)].rounds += 1);
}

/// Counts one solve repeated after a blocking column left.
pub fn block() {
    raise(|tally| tally.blocks += 1);
}

/// Counts one relaxed problem.
pub fn relaxed() {
    raise(|tally| tally.relaxed += 1);
}

/// Ends the stage that is run with a number that has no place.
pub fn refused(number: u32) {
    raise(|tally| tally.stages[running(tally)] = Stage { number, place: NOWHERE });
}

/// A matrix whose rank can fall short.
#[derive(Debug, Clone, Copy, PartialEq, Eq)]
pub enum Matrix {
    E,
    Equalities,
}

/// Ends the stage that is run where the rank of a matrix falls short. The Rust says `RankDeficient`
/// of E and of the equality matrix alike; here, and nowhere else, the second is read as 11. What is
/// factored there is C', so its columns are the equalities.
pub fn lost(of: Matrix, standing: usize) {
    let number = match of {
        Matrix::E => 5,
        Matrix::Equalities => 11,
    };
    raise(|tally| tally.stages[running(tally)] = Stage { number, place: standing as u32 });
}

/// Passes a blocking candidate on; a NaN ratio is counted and given the sign with which the
/// order of the Rust is the one that is set: the rules', but for a search.
pub fn ratio(candidate: (usize, f64)) -> (usize, f64) {
    if !candidate.1.is_nan() {
        return candidate;
    }
    raise(|tally| tally.nan_ratios += 1);
    let sign = if NAN_FIRST.with(Cell::get) { -1.0 } else { 1.0 };
    (candidate.0, f64::NAN.copysign(sign))
}

/// What a turn of the search passes through.
#[derive(Debug, Clone, Copy, PartialEq, Eq)]
pub enum Turn {
    /// B had no factor.
    Unfactored,
    /// The step was done by relaxation.
    Relaxed,
    /// No trial was accepted on a used B, which was reset.
    Reset,
    /// The last trial was taken though it was not accepted.
    Taken,
    /// The step changes nothing within the tolerance.
    Still,
    /// The objective moved by less than the tolerance.
    Settled,
}

/// How many ways of a turn are counted.
pub const TURNS: usize = 6;

thread_local! {
    static WAYS: Cell<[u32; TURNS]> = const { Cell::new([0; TURNS]) };
}

/// Counts a turn that passes.
pub fn pass(turn: Turn) {
    WAYS.with(|cell| {
        let mut counts = cell.get();
        counts[turn as usize] += 1;
        cell.set(counts);
    });
}

/// Answers what turns have passed through and starts again from none.
pub fn passed() -> [u32; TURNS] {
    WAYS.with(Cell::take)
}
