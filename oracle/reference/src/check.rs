//! The check by docs/RULES.md, "The check": five tests on a step, and the first that fails with its
//! row.

use crate::call::Call;

/// How many entries a verdict has.
pub const VERDICT: usize = 3;

/// The places among a call's inputs of what a step's call does not have: the step, the multipliers of
/// constraints, lower sides and upper sides, and the tolerance, one entry.
pub const D: usize = 7;
pub const MULTIPLIERS: usize = 8;
pub const LOWERS: usize = 9;
pub const UPPERS: usize = 10;
pub const TOLERANCE: usize = 11;

/// What the index of a row counts.
#[derive(Debug, Clone, Copy, PartialEq, Eq)]
pub enum Part {
    Variable,
    Constraint,
    Ceiling,
    Lower,
    Upper,
}

/// One slip in the reading of the check, for trying the comparison.
#[derive(Debug, Clone, Copy, PartialEq, Eq)]
pub enum Slip {
    None,
    /// L'd of whole columns.
    UpperColumns,
    /// L times that of whole rows.
    UpperRows,
    /// A value at the tolerance fails.
    OwnValueRefused,
    /// A NaN passes.
    NanPasses,
    /// The last failed row is named.
    LastRow,
    /// Open sides have products.
    OpenProducts,
    /// Open sides take part in stationarity.
    OpenSlopes,
    /// Multipliers may be below zero by the tolerance.
    LenientSigns,
    /// Residuals count by value.
    SignedResiduals,
    /// Violations count by magnitude.
    Magnitudes,
    /// Products count by value.
    SignedProducts,
    /// Equalities' multipliers are tested.
    EqualitySigns,
    /// Equalities have products.
    EqualityProducts,
    /// The margin of a ceiling is w less that of its floor.
    CeilingOfFloor,
    /// A band's floor has the whole multiplier.
    WholeMultiplier,
    /// A band's ceiling has the whole multiplier, turned.
    TurnedMultiplier,
    /// A ceiling is named as its constraint.
    CeilingUnnamed,
    /// A band counts as a floor.
    NoCeilings,
    /// Products come before signs.
    ProductsFirst,
    /// Sides come before constraints.
    SidesFirst,
    /// Upper sides come before lower ones.
    UpperFirst,
    /// The gradient is added last.
    GradientLast,
    /// The upper multiplier is added before the lower is taken away.
    UpperMultiplierFirst,
    /// Multipliers of sides have each other's sign.
    SidesExchanged,
    /// Sums run from right to left.
    Backwards,
    /// An equality is counted among the equalities.
    EqualityCounted,
    /// The tolerance is taken times two.
    TwiceTheTolerance,
}

/// Every slip.
pub const SLIPS: [Slip; 27] = [
    Slip::UpperColumns,
    Slip::UpperRows,
    Slip::OwnValueRefused,
    Slip::NanPasses,
    Slip::LastRow,
    Slip::OpenProducts,
    Slip::OpenSlopes,
    Slip::LenientSigns,
    Slip::SignedResiduals,
    Slip::Magnitudes,
    Slip::SignedProducts,
    Slip::EqualitySigns,
    Slip::EqualityProducts,
    Slip::CeilingOfFloor,
    Slip::WholeMultiplier,
    Slip::TurnedMultiplier,
    Slip::CeilingUnnamed,
    Slip::NoCeilings,
    Slip::ProductsFirst,
    Slip::SidesFirst,
    Slip::UpperFirst,
    Slip::GradientLast,
    Slip::UpperMultiplierFirst,
    Slip::SidesExchanged,
    Slip::Backwards,
    Slip::EqualityCounted,
    Slip::TwiceTheTolerance,
];

/// Whether a tolerance is one: -0 and +infinity are.
pub fn is_tolerance(tolerance: f64) -> bool {
    !tolerance.is_nan() && (tolerance > 0.0 || tolerance == 0.0)
}

/// A row: its name, its multiplier and its margin.
struct Row {
    name: (Part, usize),
    multiplier: f64,
    margin: f64,
}

/// A call's parts by their names.
struct Problem<'a> {
    n: usize,
    m: usize,
    call: &'a Call,
    slip: Slip,
}

impl<'a> Problem<'a> {
    fn list(&self, at: usize) -> &'a [f64] {
        &self.call.inputs[at]
    }

    fn sum(&self, terms: Vec<f64>) -> f64 {
        let mut total = -0.0;
        let backwards = self.slip == Slip::Backwards;
        for at in 0..terms.len() {
            total += terms[if backwards { terms.len() - 1 - at } else { at }];
        }
        total
    }

    /// L L'd.
    fn bent(&self) -> Vec<f64> {
        let (n, l, d) = (self.n, self.list(0), self.list(D));
        let whole = |slip: Slip, from: usize| if self.slip == slip { 0 } else { from };
        let column =
            |k: usize| (whole(Slip::UpperColumns, k)..n).map(|i| l[i * n + k] * d[i]).collect();
        let halfway: Vec<f64> = (0..n).map(|k| self.sum(column(k))).collect();
        let end = |i: usize| if self.slip == Slip::UpperRows { n } else { i + 1 };
        let row = |i: usize| (0..end(i)).map(|k| l[i * n + k] * halfway[k]).collect();
        (0..n).map(|i| self.sum(row(i))).collect()
    }

    /// The slope of each variable.
    fn slopes(&self) -> Vec<Row> {
        let (n, gradient, a, l) = (self.n, self.list(1), self.list(4), self.list(MULTIPLIERS));
        let bent = self.bent();
        let open = self.slip == Slip::OpenSlopes;
        let slope = |i: usize| {
            let terms = self.sum((0..self.m).map(|j| a[j * n + i] * l[j]).collect());
            let mut v = match self.slip {
                Slip::GradientLast => bent[i] - terms + gradient[i],
                _ => bent[i] + gradient[i] - terms,
            };
            let mut sides = vec![(5, LOWERS, -1.0), (6, UPPERS, 1.0)];
            if self.slip == Slip::UpperMultiplierFirst {
                sides.reverse();
            }
            for (bound, multipliers, sign) in sides {
                let sign = if self.slip == Slip::SidesExchanged { -sign } else { sign };
                if open || self.list(bound)[i].is_finite() {
                    v += sign * self.list(multipliers)[i];
                }
            }
            v
        };
        (0..n)
            .map(|i| Row { name: (Part::Variable, i), multiplier: 0.0, margin: slope(i) })
            .collect()
    }

    /// a'd + c of a constraint, or of a band's ceiling (-a)'d + (w - c).
    fn value(&self, j: usize, ceiling: bool) -> f64 {
        let (n, a, c, d) = (self.n, self.list(4), self.list(2)[j], self.list(D));
        let row = &a[j * n..(j + 1) * n];
        let sign = if ceiling && self.slip != Slip::CeilingOfFloor { -1.0 } else { 1.0 };
        let reached = self.sum(row.iter().zip(d).map(|(a, d)| sign * a * d).collect());
        let width = self.list(3)[j];
        match (ceiling, self.slip) {
            (false, _) => reached + c,
            (true, Slip::CeilingOfFloor) => width - (reached + c),
            (true, _) => reached + (width - c),
        }
    }

    fn equalities(&self) -> Vec<Row> {
        let places = (0..self.m).filter(|&j| self.call.kinds[j] == 0).enumerate();
        let row = |(count, j): (usize, usize)| {
            let index = if self.slip == Slip::EqualityCounted { count } else { j };
            let multiplier = self.list(MULTIPLIERS)[j];
            Row { name: (Part::Constraint, index), multiplier, margin: self.value(j, false) }
        };
        places.map(row).collect()
    }

    /// The positive part of a band's multiplier, and the negative one.
    fn parts(&self, l: f64) -> [f64; 2] {
        if l.is_nan() {
            return [l; 2];
        }
        match self.slip {
            Slip::WholeMultiplier => [l, (-l).max(0.0)],
            Slip::TurnedMultiplier => [l.max(0.0), -l],
            _ => [l.max(0.0), (-l).max(0.0)],
        }
    }

    /// The rows of constraint j as a floor or a band; with a slip those of an equality too.
    fn floors(&self, j: usize, equalities: bool) -> Vec<Row> {
        let (kind, l) = (self.call.kinds[j], self.list(MULTIPLIERS)[j]);
        let floor = |multiplier: f64| Row {
            name: (Part::Constraint, j),
            multiplier,
            margin: self.value(j, false),
        };
        match kind {
            0 if !equalities => vec![],
            0 | 1 => vec![floor(l)],
            _ if self.slip == Slip::NoCeilings => vec![floor(l)],
            _ => {
                let [positive, negative] = self.parts(l);
                let part = if self.slip == Slip::CeilingUnnamed {
                    Part::Constraint
                } else {
                    Part::Ceiling
                };
                let margin = self.value(j, true);
                vec![floor(positive), Row { name: (part, j), multiplier: negative, margin }]
            }
        }
    }

    /// The sides of variable i; with a slip the open ones too.
    fn sides(&self, i: usize, open: bool) -> Vec<Row> {
        let (lower, upper, d) = (self.list(5)[i], self.list(6)[i], self.list(D)[i]);
        let mut rows = vec![];
        if open || lower.is_finite() {
            let multiplier = self.list(LOWERS)[i];
            rows.push(Row { name: (Part::Lower, i), multiplier, margin: d - lower });
        }
        if open || upper.is_finite() {
            let multiplier = self.list(UPPERS)[i];
            rows.push(Row { name: (Part::Upper, i), multiplier, margin: upper - d });
        }
        if self.slip == Slip::UpperFirst {
            rows.reverse();
        }
        rows
    }

    fn inequalities(&self, test: u32) -> Vec<Row> {
        let equalities =
            matches!((self.slip, test), (Slip::EqualitySigns, 4) | (Slip::EqualityProducts, 5));
        let open = self.slip == Slip::OpenProducts && test == 5;
        let constraints = (0..self.m).flat_map(|j| self.floors(j, equalities));
        let sides = (0..self.n).flat_map(|i| self.sides(i, open));
        match self.slip {
            Slip::SidesFirst => sides.chain(constraints).collect(),
            _ => constraints.chain(sides).collect(),
        }
    }

    /// Whether a value is at most the tolerance; a NaN is not.
    fn admits(&self, value: f64) -> bool {
        let tolerance = self.list(TOLERANCE)[0];
        match self.slip {
            Slip::OwnValueRefused => value < tolerance,
            Slip::NanPasses => value.is_nan() || value <= tolerance,
            Slip::TwiceTheTolerance => value <= 2.0 * tolerance,
            _ => value <= tolerance,
        }
    }

    fn holds(&self, test: u32, row: &Row) -> bool {
        let (l, v) = (row.multiplier, row.margin);
        match (test, self.slip) {
            (2, Slip::SignedResiduals) => self.admits(v),
            (5, Slip::SignedProducts) => self.admits(l * v),
            (3, Slip::Magnitudes) => self.admits(v.abs()),
            (4, Slip::LenientSigns) => self.admits(-l),
            (4, Slip::NanPasses) => !(l < 0.0),
            (1 | 2, _) => self.admits(v.abs()),
            (3, _) => self.admits(-v),
            (4, _) => l >= 0.0,
            _ => self.admits((l * v).abs()),
        }
    }
}

/// The verdict on a call that no test refuses: test, part and index, all 0 with yes.
pub fn verdict(call: &Call, slip: Slip) -> Vec<u32> {
    let problem = Problem { n: call.sizes[0], m: call.sizes[1], call, slip };
    let order = if slip == Slip::ProductsFirst { [1, 2, 3, 5, 4] } else { [1, 2, 3, 4, 5] };
    for test in order {
        let rows = match test {
            1 => problem.slopes(),
            2 => problem.equalities(),
            _ => problem.inequalities(test),
        };
        let mut failed = rows.iter().filter(|row| !problem.holds(test, row));
        let found = if slip == Slip::LastRow { failed.last() } else { failed.next() };
        if let Some(Row { name: (part, index), .. }) = found {
            return vec![test, *part as u32, *index as u32];
        }
    }
    vec![0; VERDICT]
}

/// What the tests but the fourth hold against the tolerance, in their order.
pub fn measured(call: &Call) -> Vec<f64> {
    let problem = Problem { n: call.sizes[0], m: call.sizes[1], call, slip: Slip::None };
    let mut values: Vec<f64> = problem.slopes().iter().map(|row| row.margin.abs()).collect();
    values.extend(problem.equalities().iter().map(|row| row.margin.abs()));
    let rows = problem.inequalities(3);
    values.extend(rows.iter().map(|row| -row.margin));
    values.extend(rows.iter().map(|row| (row.multiplier * row.margin).abs()));
    values
}
