//! The search as a machine, by docs/RULES.md: what each answer makes of a state.

use super::slip::Slip;
use super::turn::{BACKTRACKS, Opening, finite};
use super::{CENTRAL, Ending, Question, Report, Setup, TOLD};

/// A problem, and how its rules are read.
pub struct Reading {
    pub setup: Setup,
    pub slip: Slip,
}

/// A point and what was told of it.
#[derive(Debug, Clone)]
pub struct Point {
    pub x: Vec<f64>,
    pub values: Vec<f64>,
}

/// The accepted point, with all that the next turn needs.
#[derive(Debug, Clone)]
pub struct Iterate {
    pub point: Point,
    pub slopes: Vec<f64>,
    pub b: Vec<f64>,
    pub fresh: bool,
    pub penalties: Vec<f64>,
    pub multipliers: Vec<f64>,
}

/// The line that is searched, and how far along.
#[derive(Debug, Clone)]
pub struct Line {
    pub d: Vec<f64>,
    pub merit: f64,
    pub slope: f64,
    pub alpha: f64,
}

/// Slopes are wanted at a point: `from` is the iterate that it follows, none at the start. By
/// differences `known` are those that are worked out, and `raised` the value above, where only the
/// one below is still to come.
#[derive(Debug, Clone)]
pub struct Arrival {
    pub from: Option<Iterate>,
    pub point: Point,
    pub known: Vec<f64>,
    pub raised: Option<f64>,
}

/// Where a run stands, and what is left of its budget.
#[derive(Debug, Clone)]
pub enum State {
    Ended(Ending, Report),
    Starting(u32, Vec<f64>),
    /// With so many trials after this one.
    Trying(u32, Iterate, Line, u32),
    Sloping(u32, Arrival),
    Moving(u32, Arrival),
}

impl Iterate {
    fn report(&self) -> Report {
        let Point { x, values } = self.point.clone();
        Report { x, values, multipliers: self.multipliers.clone() }
    }
}

impl Arrival {
    /// The function and the variable of the slope that comes next.
    pub fn next(&self, n: usize) -> (usize, usize) {
        (self.known.len() / n, self.known.len() % n)
    }
}

impl Reading {
    fn blank(&self, point: &Point) -> Report {
        let Point { x, values } = point.clone();
        Report { x, values, multipliers: vec![0.0; self.setup.m] }
    }

    fn report(&self, arrival: &Arrival) -> Report {
        arrival.from.as_ref().map_or_else(|| self.blank(&arrival.point), Iterate::report)
    }

    /// A point of which nothing was told.
    fn unknown(&self, x: &[f64]) -> Report {
        self.blank(&Point { x: x.to_vec(), values: vec![f64::NAN; 1 + self.setup.m] })
    }

    /// What is reported in a state, at the end and before, if anything is.
    pub fn reported(&self, state: &State) -> Option<Report> {
        match state {
            State::Ended(_, report) => Some(report.clone()),
            State::Starting(_, x) => {
                (self.slip != Slip::StartUnreported).then(|| self.unknown(x))
            }
            State::Trying(_, iterate, ..) => Some(iterate.report()),
            State::Sloping(_, arrival) | State::Moving(_, arrival) => {
                let known = arrival.from.is_some() || self.slip != Slip::SlopesUnreported;
                known.then(|| self.report(arrival))
            }
        }
    }

    /// A run begins at a start.
    pub fn start(&self, x: &[f64], budget: u32) -> State {
        let clipped = self.clipped(x);
        let looked_at = if self.slip == Slip::StartClippedFirst { &clipped[..] } else { x };
        let report = self.unknown(&clipped);
        match budget {
            0 if self.slip == Slip::BudgetBeforeStart => State::Ended(Ending::Exhausted, report),
            _ if !finite(looked_at) => State::Ended(Ending::Nonfinite, report),
            0 => State::Ended(Ending::Exhausted, report),
            _ => State::Starting(budget - 1, clipped),
        }
    }

    /// What a state becomes when it is told numbers.
    pub fn told(&self, state: State, told: &[f64]) -> State {
        match state {
            State::Ended(..) => state,
            State::Starting(left, x) => {
                let point = Point { x, values: told.to_vec() };
                let mut report = self.blank(&point);
                if self.slip == Slip::FirstValuesLost {
                    report.values.fill(f64::NAN);
                }
                let arrival = Arrival { from: None, point, known: vec![], raised: None };
                self.if_finite(told, report, || self.want_slopes(left, arrival))
            }
            State::Trying(left, iterate, line, again) => {
                self.tried(left, iterate, line, again, told)
            }
            State::Sloping(left, arrival) => {
                let report = self.report(&arrival);
                let looked_at = match self.slip {
                    Slip::JacobianUnseen => &told[..self.setup.n],
                    _ => told,
                };
                self.if_finite(looked_at, report, || self.arrive(left, arrival, told.to_vec()))
            }
            State::Moving(left, arrival) => {
                let report = self.report(&arrival);
                self.if_finite(told, report, || self.differ(left, arrival, told[0]))
            }
        }
    }

    fn if_finite(&self, told: &[f64], report: Report, next: impl FnOnce() -> State) -> State {
        if finite(told) { next() } else { State::Ended(Ending::Nonfinite, report) }
    }

    fn tried(
        &self,
        left: u32,
        iterate: Iterate,
        mut line: Line,
        again: u32,
        told: &[f64],
    ) -> State {
        let point = Point { x: self.along(&iterate, &line), values: told.to_vec() };
        if !finite(told) {
            let report = match self.slip {
                Slip::TrialReported => {
                    Report { x: point.x, values: point.values, ..iterate.report() }
                }
                _ => iterate.report(),
            };
            return State::Ended(Ending::Nonfinite, report);
        }
        let merit = self.merit(&iterate.penalties, told);
        if !line.accepts(merit) {
            line.alpha = line.shorter(merit);
            if again > 0 {
                return self.try_again(left, iterate, line, again - 1);
            }
            if !iterate.fresh {
                return self.turn(left, self.reset(&iterate));
            }
        }
        let arrival = Arrival { from: Some(iterate), point, known: vec![], raised: None };
        self.want_slopes(left, arrival)
    }

    fn try_again(&self, left: u32, iterate: Iterate, line: Line, again: u32) -> State {
        match left {
            0 => State::Ended(Ending::Exhausted, iterate.report()),
            _ => State::Trying(left - 1, iterate, line, again),
        }
    }

    fn turn(&self, left: u32, iterate: Iterate) -> State {
        match self.open(iterate) {
            Opening::Over(ending, iterate) => State::Ended(ending, iterate.report()),
            Opening::Along(iterate, line) => self.try_again(left, iterate, line, BACKTRACKS),
        }
    }

    fn arrive(&self, left: u32, arrival: Arrival, slopes: Vec<f64>) -> State {
        let Arrival { from, point, .. } = arrival;
        let Some(old) = from else {
            return self.turn(left, self.first(point, slopes));
        };
        let settled = self.is_settled(&old, &point);
        let new = self.moved(&old, point, slopes);
        match settled {
            true => State::Ended(Ending::Converged, new.report()),
            false => self.turn(left, new),
        }
    }

    fn first(&self, point: Point, slopes: Vec<f64>) -> Iterate {
        let (b, none) = (super::turn::identity(self.setup.n), vec![0.0; self.setup.m]);
        Iterate { point, slopes, b, fresh: true, penalties: none.clone(), multipliers: none }
    }

    fn want_slopes(&self, left: u32, arrival: Arrival) -> State {
        match self.setup.scheme {
            TOLD => State::Sloping(left, arrival),
            _ => self.move_next(left, arrival),
        }
    }

    /// The value of a function at a moved point was told.
    fn differ(&self, left: u32, mut arrival: Arrival, told: f64) -> State {
        let (function, variable) = arrival.next(self.setup.n);
        let x = arrival.point.x[variable];
        let step = self.move_of(x);
        let (value, below, low) = match arrival.raised.take() {
            Some(raised) => (raised, told, x - step),
            None if self.setup.scheme == CENTRAL => {
                arrival.raised = Some(told);
                return self.ask_moved(left, arrival, x - step);
            }
            None => (told, arrival.point.values[function], x),
        };
        let distance = match self.slip {
            Slip::DistanceNotRounded if low == x => step,
            Slip::DistanceNotRounded => 2.0 * step,
            _ => (x + step) - low,
        };
        arrival.known.push((value - below) / distance);
        self.row_done(left, arrival)
    }

    /// The gradient is looked at when it is whole, the Jacobian when all its rows are.
    fn row_done(&self, left: u32, arrival: Arrival) -> State {
        let (known, n, all) =
            (arrival.known.len(), self.setup.n, (1 + self.setup.m) * self.setup.n);
        let whole = match self.slip {
            Slip::SlopesOneByOne => true,
            Slip::RowsOneByOne => known % n == 0,
            Slip::GradientWithAll => known == all,
            _ => known == n || known == all,
        };
        if whole && !finite(&arrival.known) {
            let report = self.report(&arrival);
            return State::Ended(Ending::Nonfinite, report);
        }
        if known == all {
            let slopes = arrival.known.clone();
            return self.arrive(left, arrival, slopes);
        }
        self.move_next(left, arrival)
    }

    fn move_next(&self, left: u32, arrival: Arrival) -> State {
        let (_, variable) = arrival.next(self.setup.n);
        let x = arrival.point.x[variable];
        self.ask_moved(left, arrival, x + self.move_of(x))
    }

    /// A moved coordinate is looked at, and paid for where it is the objective's, before it is asked
    /// about.
    fn ask_moved(&self, left: u32, arrival: Arrival, coordinate: f64) -> State {
        let free = arrival.next(self.setup.n).0 > 0 && self.slip != Slip::ConstraintsCost;
        let reached = coordinate.is_finite() || self.slip == Slip::MovedUnseen;
        let report = self.report(&arrival);
        let ending = match (reached, free, left) {
            (false, false, 0) if self.slip == Slip::BudgetBeforeMove => Ending::Exhausted,
            (false, ..) => Ending::Nonfinite,
            (true, false, 0) => Ending::Exhausted,
            (true, free, _) => return State::Moving(left - u32::from(!free), arrival),
        };
        State::Ended(ending, report)
    }

    /// Whether the answer to a state leaves the workspaces as they were, which is always a slip.
    pub fn keeps(&self, state: &State) -> bool {
        match state {
            State::Ended(..) => false,
            State::Starting(..) => self.slip == Slip::StartKeeps,
            State::Trying(..) => self.slip == Slip::TrialKeeps,
            State::Sloping(..) => self.slip == Slip::SlopesKeep,
            State::Moving(..) => self.slip == Slip::DifferenceKeeps,
        }
    }

    /// What a state asks; one that has ended asks nothing.
    pub fn question(&self, state: &State) -> Option<Question> {
        Some(match state {
            State::Ended(..) => return None,
            State::Starting(_, x) => Question::Values(x.clone()),
            State::Trying(_, iterate, line, _) => Question::Values(self.along(iterate, line)),
            State::Sloping(_, arrival) => Question::Slopes(arrival.point.x.clone()),
            State::Moving(_, arrival) => {
                let (function, variable) = arrival.next(self.setup.n);
                let mut x = arrival.point.x.clone();
                let step = self.move_of(x[variable]);
                let lowered = arrival.raised.is_some();
                x[variable] = if lowered { x[variable] - step } else { x[variable] + step };
                Question::Single(function, x)
            }
        })
    }
}
