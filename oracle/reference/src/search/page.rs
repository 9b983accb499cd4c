//! The machine's two slices: what stands where, by `crates/search/specs/Layout.antt`.

use super::machine::{Arrival, Iterate, Line, Point, Reading, State};
use super::slip::Slip;
use super::turn::BACKTRACKS;
use super::{ENDINGS, Question, Report, Setup};

/// How many f64 and u32 a machine is.
pub const FLOATS: usize = 1024;
pub const WORDS: usize = 32;

/// Places of the f64.
const FTOL: usize = 0;
const ALPHA: usize = 1;
const RAISED: usize = 4;
pub const LOWER: usize = 16;
pub const UPPER: usize = 32;
pub const X: usize = 48;
const D: usize = 64;
const PENALTIES: usize = 80;
pub const MULTIPLIERS: usize = 96;
const NEW_X: usize = 112;
pub const VALUES: usize = 128;
const NEW_VALUES: usize = 152;
const SLOPES: usize = 176;
const NEW_SLOPES: usize = 448;
pub const B: usize = 720;
pub const ASKED: usize = 976;

/// The new values and all behind them.
const REST: (usize, usize) = (NEW_VALUES, FLOATS);

/// Places of the u32: the first seven are the state's.
pub const SIZES: usize = 8;
pub const KINDS: usize = 16;

/// The slices of a machine, and which of the f64 were written.
#[derive(Debug, Clone)]
pub struct Page {
    pub floats: Vec<f64>,
    pub words: Vec<u32>,
    pub written: Vec<bool>,
}

impl Page {
    /// Slices as they were.
    pub fn of(floats: &[f64], words: &[u32]) -> Self {
        let written = vec![false; floats.len()];
        Self { floats: floats.to_vec(), words: words.to_vec(), written }
    }

    /// Slices that hold a problem and else nothing.
    pub fn blank(setup: &Setup) -> Self {
        let mut page = Self::of(&[0.0; FLOATS], &[0; WORDS]);
        page.written.fill(true);
        page.lay(FTOL, &[setup.ftol]);
        page.lay(LOWER, &setup.lower);
        page.lay(UPPER, &setup.upper);
        let sizes = [setup.n, setup.m, setup.scheme].map(|size| size as u32);
        page.words[SIZES..SIZES + 3].copy_from_slice(&sizes);
        let kinds = page.words[KINDS..].iter_mut().zip(&setup.kinds);
        kinds.for_each(|(word, &kind)| *word = u32::from(kind));
        page
    }

    fn lay(&mut self, at: usize, values: &[f64]) {
        self.floats[at..at + values.len()].copy_from_slice(values);
        self.written[at..at + values.len()].fill(true);
    }

    fn part(&self, at: usize, count: usize) -> Vec<f64> {
        self.floats[at..at + count].to_vec()
    }

    /// Whether the words are those of a machine, whatever its phase.
    fn is_machine(&self) -> bool {
        let u = &self.words;
        let (n, m) = (u[SIZES], u[SIZES + 1]);
        let sizes = (1..=16).contains(&n) && m <= 16 && u[SIZES + 2] <= 2;
        let counts = u[1] <= 10_000 && u[2] <= BACKTRACKS && u[3] <= 1 && u[4] <= 1;
        sizes && counts && u[5] <= m && u[6] < n && self.kinds().iter().all(|&kind| kind <= 1)
    }

    fn kinds(&self) -> &[u32] {
        &self.words[KINDS..KINDS + self.words[SIZES + 1].min(16) as usize]
    }

    /// The problem and the state that stand here, if the words are those of a machine.
    pub fn read(&self, slip: Slip) -> Option<(Reading, State)> {
        if !self.is_machine() {
            return None;
        }
        let [n, m, scheme] = [0, 1, 2].map(|at| self.words[SIZES + at] as usize);
        let setup = Setup {
            n,
            m,
            kinds: self.kinds().iter().map(|&kind| kind as u8).collect(),
            lower: self.part(LOWER, n),
            upper: self.part(UPPER, n),
            ftol: self.floats[FTOL],
            scheme,
        };
        let state = self.state(&setup)?;
        Some((Reading { setup, slip }, state))
    }

    fn state(&self, setup: &Setup) -> Option<State> {
        let (n, left) = (setup.n, self.words[1]);
        Some(match self.words[0] {
            1 => State::Starting(left, self.part(NEW_X, n)),
            2 => State::Trying(left, self.iterate(setup), self.line(n), self.words[2]),
            3 => State::Sloping(left, self.arrival(setup, 0, None)),
            phase @ (4 | 5) => {
                let function = setup.m - self.words[5] as usize;
                let known = function * n + n - 1 - self.words[6] as usize;
                let raised = (phase == 5).then_some(self.floats[RAISED]);
                State::Moving(left, self.arrival(setup, known, raised))
            }
            phase @ 6..=9 => State::Ended(ENDINGS[phase as usize - 6], Report::default()),
            _ => return None,
        })
    }

    fn point(&self, setup: &Setup, x: usize, values: usize) -> Point {
        Point { x: self.part(x, setup.n), values: self.part(values, 1 + setup.m) }
    }

    fn iterate(&self, setup: &Setup) -> Iterate {
        Iterate {
            point: self.point(setup, X, VALUES),
            slopes: self.part(SLOPES, (1 + setup.m) * setup.n),
            b: self.part(B, setup.n * setup.n),
            fresh: self.words[3] == 1,
            penalties: self.part(PENALTIES, setup.m),
            multipliers: self.part(MULTIPLIERS, setup.m),
        }
    }

    fn line(&self, n: usize) -> Line {
        let [alpha, merit, slope] = [0, 1, 2].map(|at| self.floats[ALPHA + at]);
        Line { d: self.part(D, n), merit, slope, alpha }
    }

    fn arrival(&self, setup: &Setup, known: usize, raised: Option<f64>) -> Arrival {
        Arrival {
            from: (self.words[4] == 1).then(|| self.iterate(setup)),
            point: self.point(setup, NEW_X, NEW_VALUES),
            known: self.part(NEW_SLOPES, known),
            raised,
        }
    }

    /// Writes a state: what is reported of it, the parts that it uses, its words, and the point that
    /// it asks about.
    pub fn write(&mut self, reading: &Reading, state: &State) {
        if let Some(report) = reading.reported(state) {
            self.lay(X, &report.x);
            self.lay(VALUES, &report.values);
            self.lay(MULTIPLIERS, &report.multipliers);
        }
        match state {
            State::Ended(..) => self.empty(reading.slip),
            State::Starting(_, x) => self.lay(NEW_X, x),
            State::Trying(_, iterate, line, _) => {
                self.lay_iterate(iterate);
                self.lay(D, &line.d);
                self.lay(ALPHA, &[line.alpha, line.merit, line.slope]);
            }
            State::Sloping(_, arrival) | State::Moving(_, arrival) => self.lay_arrival(arrival),
        }
        self.words[..7].copy_from_slice(&seven(&reading.setup, state));
        let Some(question) = reading.question(state) else { return };
        let (Question::Values(x) | Question::Slopes(x) | Question::Single(_, x)) = question;
        self.lay(ASKED, &x);
    }

    /// All but the problem and the report.
    fn empty(&mut self, slip: Slip) {
        let emptied = match slip {
            Slip::NotEmptied => &[][..],
            Slip::PenaltiesNotEmptied => &[(ALPHA, LOWER), (D, PENALTIES), (NEW_X, VALUES), REST],
            _ => &[(ALPHA, LOWER), (D, MULTIPLIERS), (NEW_X, VALUES), REST],
        };
        for &(from, to) in emptied {
            self.lay(from, &vec![0.0; to - from]);
        }
    }

    fn lay_iterate(&mut self, iterate: &Iterate) {
        self.lay(SLOPES, &iterate.slopes);
        self.lay(B, &iterate.b);
        self.lay(PENALTIES, &iterate.penalties);
    }

    fn lay_arrival(&mut self, arrival: &Arrival) {
        if let Some(iterate) = &arrival.from {
            self.lay_iterate(iterate);
        }
        self.lay(NEW_X, &arrival.point.x);
        self.lay(NEW_VALUES, &arrival.point.values);
        self.lay(NEW_SLOPES, &arrival.known);
        if let Some(raised) = arrival.raised {
            self.lay(RAISED, &[raised]);
        }
    }
}

/// The seven words of a state.
fn seven(setup: &Setup, state: &State) -> [u32; 7] {
    let flags = |arrival: &Arrival| {
        let from = arrival.from.as_ref();
        [from.is_some_and(|iterate| iterate.fresh), from.is_some()].map(u32::from)
    };
    match state {
        State::Ended(ending, _) => [6 + *ending as u32, 0, 0, 0, 0, 0, 0],
        State::Starting(left, _) => [1, *left, 0, 0, 0, 0, 0],
        State::Trying(left, iterate, _, again) => {
            [2, *left, *again, u32::from(iterate.fresh), 1, 0, 0]
        }
        State::Sloping(left, arrival) => {
            let [fresh, taken] = flags(arrival);
            [3, *left, 0, fresh, taken, 0, 0]
        }
        State::Moving(left, arrival) => {
            let ([fresh, taken], (function, variable)) = (flags(arrival), arrival.next(setup.n));
            let phase = if arrival.raised.is_some() { 5 } else { 4 };
            let [functions, variables] =
                [setup.m - function, setup.n - 1 - variable].map(|count| count as u32);
            [phase, *left, 0, fresh, taken, functions, variables]
        }
    }
}
