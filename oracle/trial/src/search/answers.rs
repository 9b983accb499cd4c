//! Functions to answer a search by: quadratics, valve curves, answers drawn from the point's bits,
//! and answers that are made worse on the way.

use crate::draw::{Draw, Palette};
use reference::search::Functions;
use reference::shape::Op;

/// Functions that a thread may hold.
pub type Answers = Box<dyn Functions + Send + Sync>;

/// A stream that depends on a point's bits, any NaN for any NaN, and on what is asked there.
fn stream(seed: u64, what: usize, x: &[f64]) -> Draw {
    let bits = x.iter().map(|x| if x.is_nan() { u64::MAX } else { x.to_bits() });
    let mixed = bits.fold(seed, |mixed, bits| {
        (mixed ^ bits).wrapping_mul(0x9e37_79b9_7f4a_7c15).rotate_left(29)
    });
    Draw::new(mixed, Op::Step, "", what as u64)
}

/// A slope's number among all that can be asked at a point.
fn slope_number(function: usize, variable: usize) -> usize {
    32 + 16 * function + variable
}

/// Quadratics with diagonal curvature: half of the curvatures times the squares, a row times x, and
/// a constant, for each function.
pub struct Quadratics {
    pub curvatures: Vec<Vec<f64>>,
    pub rows: Vec<Vec<f64>>,
    pub constants: Vec<f64>,
}

impl Functions for Quadratics {
    fn value(&self, function: usize, x: &[f64]) -> f64 {
        let terms = self.curvatures[function].iter().zip(&self.rows[function]).zip(x);
        let sum: f64 = terms.map(|((c, r), x)| 0.5 * c * x * x + r * x).sum();
        sum + self.constants[function]
    }

    fn slope(&self, function: usize, variable: usize, x: &[f64]) -> f64 {
        self.curvatures[function][variable] * x[variable] + self.rows[function][variable]
    }
}

/// Valves of equal percentage: at the opening x a valve passes its size times rangeability to the
/// power x - 1. The objective is the weighted distance from the set points, each constraint a sum of
/// flows less a demand.
pub struct Valves {
    pub sizes: Vec<f64>,
    pub ranges: Vec<f64>,
    pub set_points: Vec<f64>,
    pub branches: Vec<Vec<f64>>,
    pub demands: Vec<f64>,
}

impl Valves {
    fn flow(&self, at: usize, x: f64) -> f64 {
        self.sizes[at] * (self.ranges[at].ln() * (x - 1.0)).exp()
    }
}

impl Functions for Valves {
    fn value(&self, function: usize, x: &[f64]) -> f64 {
        if function == 0 {
            return x.iter().zip(&self.set_points).map(|(x, set)| (x - set) * (x - set)).sum();
        }
        let branch = self.branches[function - 1].iter().zip(x).enumerate();
        let flow: f64 = branch.map(|(at, (share, &x))| share * self.flow(at, x)).sum();
        flow - self.demands[function - 1]
    }

    fn slope(&self, function: usize, variable: usize, x: &[f64]) -> f64 {
        let at = x[variable];
        match function {
            0 => 2.0 * (at - self.set_points[variable]),
            _ => {
                let share = self.branches[function - 1][variable];
                share * self.flow(variable, at) * self.ranges[variable].ln()
            }
        }
    }
}

/// Finite numbers of a palette, by the point's bits alone.
pub struct Hashed {
    pub seed: u64,
    pub palette: Palette,
}

impl Hashed {
    fn number(&self, what: usize, x: &[f64]) -> f64 {
        let mut draw = stream(self.seed, what, x);
        loop {
            let number = draw.real(self.palette);
            if number.is_finite() {
                return number;
            }
        }
    }
}

impl Functions for Hashed {
    fn value(&self, function: usize, x: &[f64]) -> f64 {
        self.number(function, x)
    }

    fn slope(&self, function: usize, variable: usize, x: &[f64]) -> f64 {
        self.number(slope_number(function, variable), x)
    }
}

/// How answers are made worse.
#[derive(Debug, Clone, Copy)]
pub enum Spoil {
    /// Noise of a size is added.
    Noise(f64),
    /// Slopes are multiplied, values are not.
    Slopes(f64),
    /// All is multiplied.
    Scale(f64),
    /// One answer in so many is not finite.
    Nonfinite(usize),
    /// One slope in so many is not finite.
    NonfiniteSlopes(usize),
}

/// Answers of other functions, made worse.
pub struct Spoilt {
    pub inner: Answers,
    pub seed: u64,
    pub spoil: Spoil,
}

impl Spoilt {
    fn spoilt(&self, number: f64, what: usize, x: &[f64]) -> f64 {
        let mut draw = stream(self.seed, what, x);
        let is_slope = what >= slope_number(0, 0);
        match self.spoil {
            Spoil::Noise(size) => number + size * draw.smooth(),
            Spoil::Slopes(factor) if is_slope => number * factor,
            Spoil::Slopes(_) => number,
            Spoil::Scale(factor) => number * factor,
            Spoil::NonfiniteSlopes(_) if !is_slope => number,
            Spoil::Nonfinite(one_in) | Spoil::NonfiniteSlopes(one_in) => {
                let none = draw.pick(&[f64::NAN, f64::INFINITY, f64::NEG_INFINITY]);
                if draw.one_in(one_in) { none } else { number }
            }
        }
    }
}

impl Functions for Spoilt {
    fn value(&self, function: usize, x: &[f64]) -> f64 {
        self.spoilt(self.inner.value(function, x), function, x)
    }

    fn slope(&self, function: usize, variable: usize, x: &[f64]) -> f64 {
        let slope = self.inner.slope(function, variable, x);
        self.spoilt(slope, slope_number(function, variable), x)
    }
}
