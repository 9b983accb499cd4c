//! Numbers with a slope along one variable, so that a formula gives its derivatives too.

use std::ops::{Add, Div, Mul, Neg, Sub};

/// A value and its slope.
#[derive(Debug, Clone, Copy)]
pub struct Dual {
    pub value: f64,
    pub slope: f64,
}

impl Dual {
    fn new(value: f64, slope: f64) -> Self {
        Self { value, slope }
    }

    /// A point, and the slopes along one of its variables; along none they are all zero.
    pub fn point(x: &[f64], along: Option<usize>) -> Vec<Dual> {
        let slope = |at: usize| if along == Some(at) { 1.0 } else { 0.0 };
        x.iter().enumerate().map(|(at, &value)| Dual::new(value, slope(at))).collect()
    }

    pub fn powi(self, power: i32) -> Self {
        let slope = f64::from(power) * self.value.powi(power - 1) * self.slope;
        Self::new(self.value.powi(power), slope)
    }

    pub fn exp(self) -> Self {
        let value = self.value.exp();
        Self::new(value, value * self.slope)
    }

    pub fn ln(self) -> Self {
        Self::new(self.value.ln(), self.slope / self.value)
    }

    pub fn sin(self) -> Self {
        Self::new(self.value.sin(), self.value.cos() * self.slope)
    }

    pub fn cos(self) -> Self {
        Self::new(self.value.cos(), -self.value.sin() * self.slope)
    }
}

impl From<f64> for Dual {
    fn from(value: f64) -> Self {
        Self::new(value, 0.0)
    }
}

impl Neg for Dual {
    type Output = Dual;
    fn neg(self) -> Dual {
        Dual::new(-self.value, -self.slope)
    }
}

impl Add for Dual {
    type Output = Dual;
    fn add(self, other: Dual) -> Dual {
        Dual::new(self.value + other.value, self.slope + other.slope)
    }
}

impl Sub for Dual {
    type Output = Dual;
    fn sub(self, other: Dual) -> Dual {
        Dual::new(self.value - other.value, self.slope - other.slope)
    }
}

impl Mul for Dual {
    type Output = Dual;
    fn mul(self, other: Dual) -> Dual {
        let slope = self.slope * other.value + self.value * other.slope;
        Dual::new(self.value * other.value, slope)
    }
}

impl Div for Dual {
    type Output = Dual;
    fn div(self, other: Dual) -> Dual {
        let value = self.value / other.value;
        Dual::new(value, (self.slope - value * other.slope) / other.value)
    }
}

/// An operation of a dual and a number, either way round.
macro_rules! with_number {
    ($($operation:ident $method:ident)*) => {
        $(impl $operation<f64> for Dual {
            type Output = Dual;
            fn $method(self, other: f64) -> Dual {
                self.$method(Dual::from(other))
            }
        }

        impl $operation<Dual> for f64 {
            type Output = Dual;
            fn $method(self, other: Dual) -> Dual {
                Dual::from(self).$method(other)
            }
        })*
    };
}

with_number!(Add add Sub sub Mul mul Div div);
