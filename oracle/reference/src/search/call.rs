//! The two calls of the search: the tests before them, in their order, and what they leave.

use super::machine::{Reading, State};
use super::page::{FLOATS, Page, WORDS};
use super::slip::Slip;
use super::{Ending, Setup};
use crate::shape::WORKSPACES;
use crate::strict;

/// What `begin` is given.
#[derive(Debug, Clone)]
pub struct Begin {
    pub n: usize,
    pub m: usize,
    pub kinds: Vec<u8>,
    pub lower: Vec<f64>,
    pub upper: Vec<f64>,
    pub x: Vec<f64>,
    pub ftol: f64,
    pub budget: u32,
    pub scheme: u32,
}

/// What a call owes: its number, the variable with 15, the slices where it writes them, and whether
/// it clears the workspaces.
#[derive(Debug, Clone, Default)]
pub struct Outcome {
    pub number: u32,
    pub variable: Option<u32>,
    pub page: Option<Page>,
    pub clears: bool,
}

impl Begin {
    /// A run of a problem.
    pub fn new(setup: &Setup, x: &[f64], budget: u32) -> Self {
        let Setup { n, m, kinds, lower, upper, ftol, scheme } = setup.clone();
        let scheme = scheme as u32;
        Self { n, m, kinds, lower, upper, x: x.to_vec(), ftol, budget, scheme }
    }

    /// The problem that is begun.
    pub fn setup(&self) -> Setup {
        let Self { n, m, kinds, lower, upper, ftol, scheme, .. } = self.clone();
        Setup { n, m, kinds, lower, upper, ftol, scheme: scheme as usize }
    }

    /// The first variable, or the last by a slip, whose bounds are none.
    fn unbounded(&self, slip: Slip) -> Option<u32> {
        let sides = self.lower.iter().zip(&self.upper);
        let mut wrong = sides.zip(0..).filter(|((low, high), _)| !strict::bounded(**low, **high));
        let found = if slip == Slip::LastVariable { wrong.last() } else { wrong.next() };
        found.map(|(_, at)| at)
    }

    /// Whether a test is passed.
    fn passes(&self, test: u32, lent: &Lent, slip: Slip) -> bool {
        let kind_most = if slip == Slip::BandTaken { 2 } else { 1 };
        let crossed = |(low, high): (&f64, &f64)| match slip {
            Slip::EqualBoundsCrossed => high <= low,
            _ => high < low,
        };
        match test {
            1 => self.sizes_fit(lent.schemes, slip),
            2 => self.lengths_fit(lent),
            3 => lent.has_room(),
            4 => self.kinds.iter().all(|&kind| kind <= kind_most),
            10 => self.is_tolerance(slip),
            15 => self.unbounded(slip).is_none(),
            _ => !self.lower.iter().zip(&self.upper).any(crossed),
        }
    }

    fn sizes_fit(&self, schemes: u32, slip: Slip) -> bool {
        let most = if slip == Slip::BudgetPastMost { 10_001 } else { 10_000 };
        let sizes = (1..=16).contains(&self.n) && self.m <= 16;
        sizes && self.budget <= most && (self.scheme < schemes || slip == Slip::AnyScheme)
    }

    fn lengths_fit(&self, lent: &Lent) -> bool {
        let bounds = [&self.lower, &self.upper, &self.x];
        let given = bounds.into_iter().all(|slice| slice.len() == self.n);
        given && self.kinds.len() == self.m && lent.machine == [FLOATS, WORDS]
    }

    fn is_tolerance(&self, slip: Slip) -> bool {
        match slip {
            Slip::NanTolerance => self.ftol.is_nan() || self.ftol >= 0.0,
            Slip::ZeroTolerance => self.ftol > 0.0,
            Slip::InfiniteTolerance => (0.0..f64::INFINITY).contains(&self.ftol),
            _ => self.ftol >= 0.0,
        }
    }
}

/// The lengths of what a call is lent: the machine's slices and the workspaces; and how many schemes
/// are served.
#[derive(Debug, Clone, Copy)]
pub struct Lent {
    pub machine: [usize; 2],
    pub work: [usize; 2],
    pub schemes: u32,
}

impl Lent {
    fn has_room(&self) -> bool {
        self.work[0] >= WORKSPACES[0] && self.work[1] >= WORKSPACES[1]
    }
}

/// The order of the tests of `begin`.
fn order(slip: Slip) -> [u32; 7] {
    match slip {
        Slip::LengthsBeforeSizes => [2, 1, 3, 4, 10, 15, 16],
        Slip::RoomBeforeLengths => [1, 3, 2, 4, 10, 15, 16],
        Slip::KindsBeforeRoom => [1, 2, 4, 3, 10, 15, 16],
        Slip::ToleranceBeforeKinds => [1, 2, 3, 10, 4, 15, 16],
        Slip::BoundsBeforeTolerance => [1, 2, 3, 4, 15, 10, 16],
        Slip::OrderBeforeBounds => [1, 2, 3, 4, 10, 16, 15],
        _ => [1, 2, 3, 4, 10, 15, 16],
    }
}

/// What `begin` owes.
pub fn begin(call: &Begin, lent: &Lent, slip: Slip) -> Outcome {
    let failed = order(slip).into_iter().find(|&test| !call.passes(test, lent, slip));
    if let Some(number) = failed {
        let variable = call.unbounded(slip).filter(|_| number == 15);
        return Outcome { number, variable, ..Outcome::default() };
    }
    let reading = Reading { setup: call.setup(), slip };
    let state = reading.start(&call.x, call.budget);
    settled(&reading, &state, Page::blank(&reading.setup), slip != Slip::BeginKeeps)
}

/// What `tell` owes, on the slices as they are.
pub fn tell(told: &[f64], floats: &[f64], words: &[u32], work: [usize; 2], slip: Slip) -> Outcome {
    let refused = |number: u32| Outcome { number, ..Outcome::default() };
    let lent = Lent { machine: [floats.len(), words.len()], work, schemes: 3 };
    if lent.machine != [FLOATS, WORDS] {
        return refused(2);
    }
    let page = Page::of(floats, words);
    let standing = page.read(slip);
    let wanted = standing.as_ref().and_then(|(reading, state)| reading.question(state));
    let setup = standing.as_ref().map(|(reading, _)| &reading.setup);
    let wants = wanted.as_ref().zip(setup).map(|(question, setup)| question.wants(setup));
    let long = wants.is_none_or(|wants| wants == told.len());
    if !long && slip != Slip::RoomBeforeAnswer {
        return refused(2);
    }
    match (standing, wants) {
        _ if !lent.has_room() => refused(3),
        _ if !long => refused(2),
        (Some((reading, state)), Some(_)) => {
            let clears = !reading.keeps(&state);
            settled(&reading, &reading.told(state, told), page, clears)
        }
        _ => refused(18),
    }
}

/// A state written, and its number.
fn settled(reading: &Reading, state: &State, mut page: Page, clears: bool) -> Outcome {
    page.write(reading, state);
    let nonfinite = matches!(state, State::Ended(Ending::Nonfinite, _));
    let number = if nonfinite && reading.slip != Slip::NonfiniteDone { 17 } else { 0 };
    let clears = clears && !(nonfinite && reading.slip == Slip::NonfiniteKeeps);
    Outcome { number, variable: None, page: Some(page), clears }
}
