//! The tests of meters by docs/RULES.md, "Tests of meters": a second reading in floats, over the
//! Rust's factors of K. The sums are in the order of the rules, and start at -0.

use crate::call::{Answer, Call, Factored, Kernels};

/// How the rules are read: rightly, or with one slip.
#[derive(Debug, Clone, Copy, PartialEq, Eq)]
pub enum Slip {
    None,
    /// The new spread by 1 - share.
    Cancelled,
    /// The test is the correction in spreads.
    InSpreads,
    /// The limit of one degree too many.
    Degree,
    /// A meter that stands still is kept.
    Kept,
    /// The last of equal tests leads.
    LastOfTies,
    /// A NaN agrees, of the misfit and of a test.
    NanAgrees,
    /// A gap that is not finite agrees.
    GapAgrees,
    /// A meter in no balance has the share of the sums.
    NoRule,
    /// An unchecked meter has a test.
    Unchecked,
    /// Groups by the nearest meter that is not told apart, not the lowest.
    Nearest,
    /// Marks where the meters agree too.
    MarksAgreed,
    /// Suspects within 5 of the largest square.
    Narrow,
    /// Gaps with their own sign.
    Sign,
    /// Gaps not permuted.
    Order,
    /// A test of exactly 3 disagrees.
    Strict,
    /// A spread is tested before a value.
    SpreadFirst,
}

/// Every slip.
pub const SLIPS: [Slip; 16] = [
    Slip::Cancelled,
    Slip::InSpreads,
    Slip::Degree,
    Slip::Kept,
    Slip::LastOfTies,
    Slip::NanAgrees,
    Slip::GapAgrees,
    Slip::NoRule,
    Slip::Unchecked,
    Slip::Nearest,
    Slip::MarksAgreed,
    Slip::Narrow,
    Slip::Sign,
    Slip::Order,
    Slip::Strict,
    Slip::SpreadFirst,
];

/// The 95 % limits of chi-square by degrees of freedom.
pub const LIMITS: [f64; 17] = [
    0.0, 3.841, 5.991, 7.815, 9.488, 11.070, 12.592, 14.067, 15.507, 16.919, 18.307, 19.675,
    21.026, 22.362, 23.685, 24.996, 26.296,
];

/// A smaller share is none.
pub const TINY: f64 = 1.0 / 1_048_576.0;

/// Freedom, first, agree and explained.
pub type Finding = [u32; 4];

fn sum(terms: impl Iterator<Item = f64>) -> f64 {
    terms.fold(-0.0, |total, term| total + term)
}

/// The lowest meter that is refused, with its number.
pub fn refused(call: &Call, slip: Slip) -> Option<(u32, u32)> {
    let meters = call.inputs[0].iter().zip(&call.inputs[1]).enumerate();
    let mut faults = meters.map(|(i, (value, spread))| {
        let value = (!value.is_finite()).then_some(12);
        let spread = (!spread.is_finite() || *spread <= 0.0).then_some(13);
        let number = if slip == Slip::SpreadFirst { spread.or(value) } else { value.or(spread) };
        (number, i as u32)
    });
    faults.find_map(|(number, meter)| Some((number?, meter)))
}

/// A vector under the first reflectors.
fn turned(factored: &Factored, n: usize, mut v: Vec<f64>) -> Vec<f64> {
    for k in 0..factored.rank {
        let u = &factored.u[k * n..(k + 1) * n];
        let along = sum((k..n).map(|i| u[i] * v[i]));
        if along != 0.0 {
            let scale = along / factored.b[k];
            (k..n).for_each(|i| v[i] += scale * u[i]);
        }
    }
    v
}

/// What is known of the meters.
struct Meters<'a> {
    n: usize,
    m: usize,
    values: &'a [f64],
    spreads: &'a [f64],
    balances: &'a [f64],
    still: Vec<bool>,
    slip: Slip,
}

impl Meters<'_> {
    fn weight(&self, i: usize, k: usize) -> f64 {
        let kept = !self.still[i] || self.slip == Slip::Kept;
        if kept { self.spreads[i] * self.balances[k * self.n + i] } else { 0.0 }
    }

    fn gap(&self, k: usize) -> f64 {
        sum((0..self.n).map(|i| self.balances[k * self.n + i] * self.values[i]))
    }

    /// y, from the factors of K.
    fn scaled_gaps(&self, factored: &Factored) -> Vec<f64> {
        let place = |t: usize| match self.slip {
            Slip::Order => t,
            _ => factored.perm[t] as usize,
        };
        let mut y: Vec<f64> = vec![];
        for t in 0..factored.rank {
            let gap = self.gap(place(t));
            let side = if self.slip == Slip::Sign { gap } else { -gap };
            let head = sum((0..t).map(|j| factored.r[j * self.m + t] * y[j]));
            y.push((side - head) / factored.r[t * self.m + t]);
        }
        y
    }

    fn share(&self, i: usize, seen: &[f64]) -> f64 {
        let outside = (0..self.m).all(|k| self.weight(i, k) == 0.0);
        if outside && self.slip != Slip::NoRule {
            return 0.0;
        }
        sum(seen.iter().map(|x| x * x))
    }

    fn new_spread(&self, i: usize, share: f64, unseen: &[f64]) -> f64 {
        let left = match self.slip {
            Slip::Cancelled => 1.0 - share,
            _ => sum(unseen.iter().map(|x| x * x)),
        };
        if self.still[i] || left == 0.0 { 0.0 } else { self.spreads[i] * left.sqrt() }
    }
}

/// What the tests come to.
pub fn tested<K: Kernels>(call: &Call, slip: Slip) -> Answer {
    let (n, m) = (call.sizes[0], call.sizes[1]);
    let still = call.kinds.iter().map(|&mark| mark == 1).collect();
    let [values, spreads, balances] = [0, 1, 2].map(|at| &call.inputs[at][..]);
    let meters = Meters { n, m, values, spreads, balances, still, slip };
    let k: Vec<f64> = (0..n * m).map(|at| meters.weight(at / m, at % m)).collect();
    let factored = K::qr(n, m, &k);
    let (r, y) = (factored.rank, meters.scaled_gaps(&factored));
    let unit = |i: usize| (0..n).map(|j| if i == j { 1.0 } else { 0.0 }).collect();
    let q: Vec<Vec<f64>> = (0..n).map(|i| turned(&factored, n, unit(i))).collect();
    let shares: Vec<f64> = (0..n).map(|i| meters.share(i, &q[i][..r])).collect();
    let spread = |i: usize| meters.new_spread(i, shares[i], &q[i][r..]);
    let spreads: Vec<f64> = (0..n).map(spread).collect();
    let checked = |i: usize| slip == Slip::Unchecked || !(shares[i] < TINY);
    let test = |i: usize| {
        let correction = sum((0..r).map(|k| q[i][k] * y[k]));
        match slip {
            _ if !checked(i) => 0.0,
            Slip::InSpreads => correction,
            _ => correction / shares[i].sqrt(),
        }
    };
    let tests: Vec<f64> = (0..n).map(test).collect();
    let squares: Vec<f64> =
        (0..n).map(|i| if checked(i) { tests[i] * tests[i] } else { -1.0 }).collect();
    let (mut first, mut largest) = (0, -1.0);
    for (i, &square) in squares.iter().enumerate() {
        let ahead = if slip == Slip::LastOfTies { square >= largest } else { square > largest };
        if ahead && checked(i) {
            (first, largest) = (i, square);
        }
    }
    let misfit = sum(y.iter().map(|x| x * x));
    let within = |square: &f64| match slip {
        Slip::Strict => *square < 9.0,
        Slip::NanAgrees => !(*square > 9.0),
        _ => *square <= 9.0,
    };
    let fits = match slip {
        Slip::NanAgrees => !(misfit > LIMITS[r]),
        _ => misfit <= LIMITS[r],
    };
    let finite = slip == Slip::GapAgrees || (0..m).all(|k| meters.gap(k).is_finite());
    let agree = r > 0 && fits && squares.iter().all(within) && finite;
    let less = if slip == Slip::Degree { r } else { r.saturating_sub(1) };
    let explained = r == 1 || misfit - largest <= LIMITS[less];
    let tied = |i: usize, j: usize| {
        let both = sum((0..r).map(|k| q[i][k] * q[j][k]));
        checked(i) && checked(j) && both * both >= 0.99 * (shares[i] * shares[j])
    };
    let group = |i: usize| match slip {
        Slip::Nearest => (0..i).rev().find(|&j| tied(i, j)).unwrap_or(i),
        _ => (0..i).find(|&j| tied(i, j)).unwrap_or(i),
    };
    let apart = if slip == Slip::Narrow { 5.0 } else { 6.0 };
    let mark = |i: usize| match i {
        _ if (agree && slip != Slip::MarksAgreed) || !checked(i) => 0,
        i if tied(i, first) => 2,
        i => u32::from(squares[i] >= largest - apart),
    };
    Answer {
        outputs: vec![[shares.clone(), spreads, tests.clone()].concat()],
        words: (0..n).map(|i| group(i) as u32).collect(),
        seconds: (0..n).map(mark).collect(),
        found: Some([r as u32, first as u32, u32::from(agree), u32::from(explained)]),
        value: Some(misfit),
        ..Answer::default()
    }
}
