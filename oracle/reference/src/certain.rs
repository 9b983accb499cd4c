//! The bound and what is kept by docs/RULES.md, "Certainty": a second reading in floats, in the
//! order of the rules.

/// How the bound is read: rightly, or with one slip.
#[derive(Debug, Clone, Copy, PartialEq, Eq)]
pub enum Slip {
    None,
    /// A sum is rounded down.
    RoundedDown,
    /// What a limit is above its least is left out.
    GapLeftOut,
    /// A spread for its square.
    NotSquared,
    /// A witness below zero is taken.
    BelowZero,
    /// Where a number is not finite, the bound is 0.
    NanCertain,
    /// A product by 1 or -1 is moved.
    OneMoved,
    /// A sum with nothing is moved.
    NothingMoved,
}

/// A day's numbers, volumes and witnesses.
pub struct Day<'a> {
    pub sizes: [usize; 3],
    pub values: &'a [f64],
    pub spreads: &'a [f64],
    pub balances: &'a [f64],
    pub limits: &'a [f64],
    pub least: &'a [f64],
    pub x: &'a [f64],
    pub y: &'a [f64],
    pub z: &'a [f64],
}

/// From one float to another.
type Interval = (f64, f64);

const LINE: Interval = (f64::NEG_INFINITY, f64::INFINITY);

fn up(x: f64) -> f64 {
    if x.is_nan() { f64::INFINITY } else { x.next_up() }
}

fn down(x: f64) -> f64 {
    -up(-x)
}

fn larger(x: f64, y: f64) -> f64 {
    match x.partial_cmp(&y) {
        Some(std::cmp::Ordering::Less) => y,
        Some(_) => x,
        None => f64::INFINITY,
    }
}

fn smaller(x: f64, y: f64) -> f64 {
    -larger(-x, -y)
}

fn point(x: f64) -> Interval {
    if x.is_finite() { (x, x) } else { LINE }
}

fn minus(a: Interval, b: Interval) -> Interval {
    (down(a.0 + -b.1), up(a.1 + -b.0))
}

fn times(a: Interval, b: Interval) -> Interval {
    let [p, q, r, s] = [a.0 * b.0, a.0 * b.1, a.1 * b.0, a.1 * b.1];
    (down(smaller(smaller(p, q), smaller(r, s))), up(larger(larger(p, q), larger(r, s))))
}

fn size(a: Interval) -> f64 {
    larger(-a.0, a.1)
}

fn quotient_up(x: f64, d: f64) -> f64 {
    if d > 0.0 && d < f64::INFINITY { up(x / d) } else { f64::INFINITY }
}

impl Slip {
    fn plus(self, a: Interval, b: Interval) -> Interval {
        if a == (0.0, 0.0) && self != Slip::NothingMoved {
            return b;
        }
        if b == (0.0, 0.0) && self != Slip::NothingMoved {
            return a;
        }
        (down(a.0 + b.0), up(a.1 + b.1))
    }

    fn product(self, x: f64, y: f64) -> Interval {
        let p = x * y;
        if !p.is_finite() {
            return LINE;
        }
        match x {
            _ if x == 0.0 || y == 0.0 => (0.0, 0.0),
            1.0 if self != Slip::OneMoved => (y, y),
            -1.0 if self != Slip::OneMoved => (-y, -y),
            _ => (down(p), up(p)),
        }
    }

    fn add_up(self, x: f64, y: f64) -> f64 {
        if self == Slip::RoundedDown { down(x + y) } else { up(x + y) }
    }

    fn sum_up(self, terms: impl Iterator<Item = f64>) -> f64 {
        terms.fold(0.0, |total, term| self.add_up(total, term))
    }

    fn within(self, pairs: impl Iterator<Item = (f64, f64)>) -> Interval {
        pairs.fold(point(0.0), |total, (x, y)| self.plus(total, self.product(x, y)))
    }

    fn row(self, n: usize, j: usize, rows: &[f64], x: &[f64]) -> Interval {
        self.within((0..n).map(|i| (rows[j * n + i], x[i])))
    }
}

impl Day<'_> {
    fn is_told(&self, slip: Slip) -> bool {
        let lists = [self.values, self.balances, self.limits, self.least, self.x, self.y, self.z];
        let positive = self.spreads.iter().all(|&s| s > 0.0 && s < f64::INFINITY);
        let signed = slip == Slip::BelowZero || self.z.iter().all(|&z| z >= 0.0);
        positive && signed && lists.into_iter().flatten().all(|value| value.is_finite())
    }

    /// The square of what volume i leaves unexplained.
    fn fit(&self, i: usize, slip: Slip) -> f64 {
        let ([n, m, p], s) = (self.sizes, self.spreads[i]);
        let balances = slip.within((0..m).map(|j| (self.balances[j * n + i], self.y[j])));
        let limits = slip.within((0..p).map(|k| (self.limits[k * n + i], self.z[k])));
        let square = if slip == Slip::NotSquared { point(s) } else { slip.product(s, s) };
        let correction = minus(point(self.x[i]), point(self.values[i]));
        let left = minus(correction, times(square, slip.plus(balances, limits)));
        let u = quotient_up(size(left), s);
        up(u * u)
    }

    fn open(&self, j: usize, slip: Slip) -> f64 {
        let sum = slip.row(self.sizes[0], j, self.balances, self.x);
        up(size(point(self.y[j])) * size(sum))
    }

    fn slack(&self, k: usize, slip: Slip) -> f64 {
        let sum = slip.row(self.sizes[0], k, self.limits, self.x);
        let above = minus(sum, point(self.least[k])).1;
        let gap = if slip == Slip::GapLeftOut { 0.0 } else { larger(above, 0.0) };
        if self.z[k] >= 0.0 || slip == Slip::BelowZero {
            up(self.z[k] * gap)
        } else {
            f64::INFINITY
        }
    }

    /// B.
    pub fn bound(&self, slip: Slip) -> f64 {
        if !self.is_told(slip) {
            return if slip == Slip::NanCertain { 0.0 } else { f64::INFINITY };
        }
        let [n, m, p] = self.sizes;
        let fit = slip.sum_up((0..n).map(|i| self.fit(i, slip)));
        let open = slip.sum_up((0..m).map(|j| self.open(j, slip)));
        let slack = slip.sum_up((0..p).map(|k| self.slack(k, slip)));
        let sum = slip.add_up(fit, slip.add_up(slip.add_up(open, open), slack));
        let twice = slip.add_up(sum, sum);
        up(slip.add_up(twice, twice).sqrt())
    }

    /// Whether balances and limits are kept within a tolerance.
    pub fn is_kept(&self, tolerance: f64, slip: Slip) -> bool {
        let [n, m, p] = self.sizes;
        let closes = |j: usize| size(slip.row(n, j, self.balances, self.x)) <= tolerance;
        let keeps = |k: usize| {
            let sum = slip.row(n, k, self.limits, self.x);
            minus(point(self.least[k]), sum).1 <= tolerance
        };
        (0..m).all(closes) && (0..p).all(keeps)
    }
}
