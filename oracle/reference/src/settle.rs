//! Settled and certified volumes by docs/RULES.md, "Settled volumes": a second reading over the
//! Rust's LSEI, and over the bound of `certain`.

use crate::call::{Answer, Call, Kernels, Solution};
use crate::certain::{self, Day};
use crate::stand_in::Failure;
use crate::tally;

/// The places of a call's inputs: the tolerance of `settle`, the volumes and multipliers of `certify`.
pub const TOLERANCE: usize = 5;
const VOLUMES: usize = 5;
const MULTIPLIERS: usize = 6;

/// The most equalities that LSEI takes.
const EQUALITIES: usize = 16;

/// A bound up to which LSEI's answer is certain.
pub const NEAR: f64 = 1.0 / 1024.0;

/// How the rules are read: rightly, or with one slip.
#[derive(Debug, Clone, Copy, PartialEq, Eq)]
pub enum Slip {
    None,
    /// A slip of the bound.
    Bound(certain::Slip),
    /// A spread is told before a value.
    SpreadFirst,
    /// A limit is told before a value.
    LimitFirst,
    /// No limit is let go.
    NoneLetGo,
    /// The first limit is let go.
    FirstLetGo,
    /// A balance is let go as a limit is.
    BalanceLetGo,
    /// A floor that is held is not taken.
    FloorNotTaken,
    /// A multiplier below zero is taken.
    BelowZeroTaken,
    /// The smaller bound alone counts.
    BoundAlone,
    /// The larger bound is taken.
    LargerBound,
    /// A certain answer need not be kept.
    NeedNotBeKept,
    /// A certain answer is worked again.
    WorkedAgain,
    /// The bound of what is worked again is that of the first.
    FirstBound,
}

/// Every slip.
pub const SLIPS: [Slip; 19] = [
    Slip::Bound(certain::Slip::RoundedDown),
    Slip::Bound(certain::Slip::GapLeftOut),
    Slip::Bound(certain::Slip::NotSquared),
    Slip::Bound(certain::Slip::BelowZero),
    Slip::Bound(certain::Slip::NanCertain),
    Slip::Bound(certain::Slip::OneMoved),
    Slip::Bound(certain::Slip::NothingMoved),
    Slip::SpreadFirst,
    Slip::LimitFirst,
    Slip::NoneLetGo,
    Slip::FirstLetGo,
    Slip::BalanceLetGo,
    Slip::FloorNotTaken,
    Slip::BelowZeroTaken,
    Slip::BoundAlone,
    Slip::LargerBound,
    Slip::NeedNotBeKept,
    Slip::WorkedAgain,
    Slip::FirstBound,
];

/// The value, then the spread, of the lowest value that is refused; then the lowest limit.
pub fn refused(call: &Call, slip: Slip) -> Option<(u32, u32)> {
    let values = call.inputs[0].iter().zip(&call.inputs[1]).enumerate();
    let mut values = values.map(|(i, (value, spread))| {
        let value = (!value.is_finite()).then_some(12);
        let spread = (!spread.is_finite() || *spread <= 0.0).then_some(13);
        let number = if slip == Slip::SpreadFirst { spread.or(value) } else { value.or(spread) };
        (number, i as u32)
    });
    let least = call.inputs[4].iter().position(|least| !least.is_finite());
    let limit = least.map(|k| (15, k as u32));
    let value = values.find_map(|(number, i)| Some((number?, i)));
    if slip == Slip::LimitFirst { limit.or(value) } else { value.or(limit) }
}

/// Volumes with the witnesses of balances and limits, their bound, and whether they are kept.
#[derive(Clone)]
struct Volumes {
    x: Vec<f64>,
    y: Vec<f64>,
    z: Vec<f64>,
    bound: f64,
    kept: bool,
}

/// A call that is read.
struct Settling<'a> {
    call: &'a Call,
    slip: Slip,
}

impl Settling<'_> {
    fn sizes(&self) -> [usize; 3] {
        [0, 1, 2].map(|at| self.call.sizes[at])
    }

    fn bound_slip(&self) -> certain::Slip {
        if let Slip::Bound(slip) = self.slip { slip } else { certain::Slip::None }
    }

    fn day<'b>(&'b self, x: &'b [f64], y: &'b [f64], z: &'b [f64]) -> Day<'b> {
        let inputs = &self.call.inputs;
        let [values, spreads, balances, limits, least] = [0, 1, 2, 3, 4].map(|at| &inputs[at][..]);
        Day { sizes: self.sizes(), values, spreads, balances, limits, least, x, y, z }
    }

    fn judged(&self, x: Vec<f64>, y: Vec<f64>, z: Vec<f64>) -> Volumes {
        let (day, slip) = (self.day(&x, &y, &z), self.bound_slip());
        let tolerance = self.call.inputs[TOLERANCE][0];
        let (bound, kept) = (day.bound(slip), day.is_kept(tolerance, slip));
        Volumes { x, y, z, bound, kept }
    }

    /// LSEI with these equalities beside the balances, and these inequalities; its refusal with the
    /// place.
    fn solve<K: Kernels>(
        &self,
        held: &[usize],
        limited: bool,
    ) -> Result<Solution, (u32, Option<u32>)> {
        let ([n, m, p], inputs) = (self.sizes(), &self.call.inputs);
        let mut rows = inputs[2].clone();
        held.iter().for_each(|&k| rows.extend(&inputs[3][k * n..(k + 1) * n]));
        let mut sides = vec![0.0; m];
        sides.extend(held.iter().map(|&k| inputs[4][k]));
        let scale = |at: usize| if at / n == at % n { 1.0 / inputs[1][at / n] } else { 0.0 };
        let scales = (0..n * n).map(scale).collect();
        let targets = inputs[0].iter().zip(&inputs[1]).map(|(value, spread)| value / spread);
        let (limits, least) = match limited {
            true => (inputs[3].clone(), inputs[4].clone()),
            false => (vec![], vec![]),
        };
        let sizes = [n, m + held.len(), n, if limited { p } else { 0 }];
        tally::take();
        K::lsei(&sizes, &[rows, sides, scales, targets.collect(), limits, least]).map_err(
            |failure| {
                let short = tally::so_far().short();
                match failure {
                    Failure::RankDeficient => (short.number, Some(short.place)),
                    Failure::Infeasible => (6, None),
                    Failure::IterationCap => (7, None),
                }
            },
        )
    }

    /// Whether limit k is the floor of value i alone.
    fn is_own(&self, k: usize, i: usize) -> bool {
        let n = self.call.sizes[0];
        let row = &self.call.inputs[3][k * n..(k + 1) * n];
        row.iter().enumerate().all(|(j, &c)| c == if j == i { 1.0 } else { 0.0 })
    }

    /// With the limits that hold as equalities; where one is dependent, without it.
    fn again<K: Kernels>(&self, first: &Volumes) -> Option<Volumes> {
        let [n, m, p] = self.sizes();
        let mut held: Vec<usize> = (0..p).filter(|&k| first.z[k] > 0.0).collect();
        if m + held.len() > EQUALITIES {
            return None;
        }
        let solution = loop {
            match self.solve::<K>(&held, false) {
                Ok(solution) => break solution,
                Err((11, Some(place))) if !held.is_empty() => {
                    let place = place as usize;
                    let at = match self.slip {
                        Slip::NoneLetGo => return None,
                        Slip::BalanceLetGo => place.saturating_sub(m),
                        _ if place < m => return None,
                        Slip::FirstLetGo => 0,
                        _ => place - m,
                    };
                    held.remove(at);
                }
                Err(_) => return None,
            }
        };
        let (mut x, mu) = (solution.x, solution.multipliers);
        for i in 0..n {
            if let Some(&k) = held.iter().rev().find(|&&k| self.is_own(k, i))
                && self.slip != Slip::FloorNotTaken
            {
                x[i] = self.call.inputs[4][k];
            }
        }
        let mut z = vec![0.0; p];
        for (t, &k) in held.iter().enumerate() {
            let below = mu[m + t] < 0.0 && self.slip != Slip::BelowZeroTaken;
            z[k] = if below { 0.0 } else { mu[m + t] };
        }
        let mut volumes = self.judged(x, mu[..m].to_vec(), z);
        if self.slip == Slip::FirstBound {
            volumes.bound = first.bound;
        }
        Some(volumes)
    }

    /// Whether the second is taken.
    fn is_better(&self, first: &Volumes, second: &Volumes) -> bool {
        let smaller = match self.slip {
            Slip::LargerBound => first.bound < second.bound,
            _ => second.bound < first.bound,
        };
        match first.kept == second.kept || self.slip == Slip::BoundAlone {
            true => smaller,
            false => second.kept,
        }
    }

    fn is_ordinary(&self, first: &Volumes) -> bool {
        let kept = first.kept || self.slip == Slip::NeedNotBeKept;
        kept && first.bound <= NEAR && self.slip != Slip::WorkedAgain
    }
}

/// What the volumes are settled to.
pub fn settled<K: Kernels>(call: &Call, slip: Slip) -> Answer {
    let settling = Settling { call, slip };
    let m = call.sizes[1];
    let first = match settling.solve::<K>(&[], true) {
        Ok(Solution { x, multipliers }) => {
            settling.judged(x, multipliers[..m].to_vec(), multipliers[m..].to_vec())
        }
        Err((number, place)) => {
            let counts = place.into_iter().collect();
            return Answer { number, counts, ..Answer::default() };
        }
    };
    let second = match settling.is_ordinary(&first) {
        true => None,
        false => settling.again::<K>(&first),
    };
    let taken = second.filter(|second| settling.is_better(&first, second)).unwrap_or(first);
    let outputs = vec![taken.x, [taken.y, taken.z].concat()];
    Answer { outputs, value: Some(taken.bound), ..Answer::default() }
}

/// The bound of a call's own volumes.
pub fn certified(call: &Call, slip: Slip) -> Answer {
    let settling = Settling { call, slip };
    let (y, z) = call.inputs[MULTIPLIERS].split_at(call.sizes[1]);
    let bound = settling.day(&call.inputs[VOLUMES], y, z).bound(settling.bound_slip());
    Answer { value: Some(bound), ..Answer::default() }
}
