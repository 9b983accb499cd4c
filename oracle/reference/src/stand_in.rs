//! Stands in for the file that the documents lack: docs/RULES.md's rules for `MatRef`, `Failure`,
//! `norm` and the kinds of constraint, and nothing else.

/// A matrix by reference: entry (i, j) is `data[i * stride + j]`.
#[derive(Debug, Clone, Copy)]
pub struct MatRef<'a> {
    pub data: &'a [f64],
    pub rows: usize,
    pub cols: usize,
    pub stride: usize,
}

impl MatRef<'_> {
    /// Entry (i, j).
    pub fn at(&self, i: usize, j: usize) -> f64 {
        self.data[i * self.stride + j]
    }
}

/// Why a problem has no answer.
#[derive(Debug, Clone, Copy, PartialEq, Eq)]
pub enum Failure {
    RankDeficient,
    Infeasible,
    IterationCap,
}

/// The form of a constraint.
#[derive(Debug, Clone, Copy, PartialEq, Eq)]
pub enum ConstraintKind {
    Eq,
    Ineq,
}

/// The norm: NaN if an entry is NaN, else +infinity if one is infinite, else +0 if all are zero.
/// Otherwise each entry, scaled by the power of two that brings the largest magnitude to at least 1
/// and below 2, is squared, and the root of the sum is scaled back.
pub fn norm(values: impl Iterator<Item = f64> + Clone) -> f64 {
    if values.clone().any(f64::is_nan) {
        return f64::NAN;
    }
    if values.clone().any(f64::is_infinite) {
        return f64::INFINITY;
    }
    if values.clone().all(|value| value == 0.0) {
        return 0.0;
    }
    let largest = values.clone().map(f64::abs).fold(0.0, f64::max);
    let power = exponent(largest);
    let sum: f64 = values.map(|value| scaled(value, -power)).map(|value| value * value).sum();
    scaled(sum.sqrt(), power)
}

/// The plain norm, the root of the sum of the squares as they come: what the norm was before, held
/// beside it to count the calls in which the two part.
pub fn plain_norm(values: impl Iterator<Item = f64>) -> f64 {
    values.map(|value| value * value).sum::<f64>().sqrt()
}

/// The power with 2^power <= value < 2^(power + 1), for a finite value above zero.
fn exponent(value: f64) -> i32 {
    let bits = value.to_bits();
    match (bits >> 52) as i32 {
        0 => -1011 - bits.leading_zeros() as i32,
        biased => biased - 1023,
    }
}

/// The value times 2^power, rounded once. Above 1023, where 2^power is no f64, it takes two
/// products, and both are exact: so large a power only brings a subnormal up to 2 at most.
fn scaled(value: f64, power: i32) -> f64 {
    if power > 1023 { value * two_to(1023) * two_to(power - 1023) } else { value * two_to(power) }
}

/// 2^power, for a power from -1074 to 1023.
fn two_to(power: i32) -> f64 {
    if power < -1022 {
        f64::from_bits(1 << (power + 1074))
    } else {
        f64::from_bits(((power + 1023) as u64) << 52)
    }
}
