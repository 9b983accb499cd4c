//! Parts that the kinds are made of: matrices, products, repeated lines, strewn values.

use crate::draw::{Draw, Palette};

/// A sum of so many outer products: a matrix of at most that rank.
pub fn low_rank(
    draw: &mut Draw,
    palette: Palette,
    rows: usize,
    cols: usize,
    rank: usize,
) -> Vec<f64> {
    let (left, right) = (draw.reals(palette, rows * rank), draw.reals(palette, rank * cols));
    let entry =
        |i: usize, j: usize| (0..rank).map(|k| left[i * rank + k] * right[k * cols + j]).sum();
    (0..rows).flat_map(|i| (0..cols).map(move |j| (i, j))).map(|(i, j)| entry(i, j)).collect()
}

/// The product of a row-major matrix with a vector.
pub fn product(a: &[f64], cols: usize, x: &[f64]) -> Vec<f64> {
    if cols == 0 {
        return vec![];
    }
    a.chunks_exact(cols).map(|row| row.iter().zip(x).map(|(a, x)| a * x).sum()).collect()
}

/// Puts some columns over others, or their opposites.
pub fn repeat_columns(draw: &mut Draw, a: &mut [f64], rows: usize, cols: usize) {
    for _ in 0..cols.div_ceil(3) {
        let (from, to) = (draw.below(cols), draw.below(cols));
        let sign = draw.pick(&[1.0, 1.0, -1.0]);
        for i in 0..rows {
            a[i * cols + to] = sign * a[i * cols + from];
        }
    }
}

/// Puts a multiple of a column over another; over itself for one that stays or vanishes.
pub fn put_column(a: &mut [f64], cols: usize, from: usize, to: usize, factor: f64) {
    for row in a.chunks_exact_mut(cols) {
        row[to] = factor * row[from];
    }
}

/// Puts a multiple of a row over another.
pub fn put_row(a: &mut [f64], cols: usize, from: usize, to: usize, factor: f64) {
    for j in 0..cols {
        a[to * cols + j] = factor * a[from * cols + j];
    }
}

/// Puts some rows over others, each with its right-hand side.
pub fn repeat_rows(draw: &mut Draw, a: &mut [f64], rhs: &mut [f64]) {
    let rows = rhs.len();
    if rows < 2 {
        return;
    }
    let cols = a.len() / rows;
    for _ in 0..rows.div_ceil(3) {
        let (from, to) = (draw.below(rows), draw.below(rows));
        a.copy_within(from * cols..(from + 1) * cols, to * cols);
        rhs[to] = rhs[from];
    }
}

/// Puts special values in so many places of the slices.
pub fn strew(draw: &mut Draw, inputs: &mut [Vec<f64>], places: usize) {
    let total: usize = inputs.iter().map(Vec::len).sum();
    for _ in 0..if total == 0 { 0 } else { places } {
        let mut place = draw.below(total);
        for input in inputs.iter_mut() {
            if place < input.len() {
                input[place] = draw.real(Palette::Special);
                break;
            }
            place -= input.len();
        }
    }
}

/// Scales every slice by a power of two of its own.
pub fn rescale(draw: &mut Draw, inputs: &mut [Vec<f64>], from: i32, to: i32) {
    for input in inputs {
        let scale = draw.power(from, to);
        input.iter_mut().for_each(|value| *value *= scale);
    }
}

/// Tiny scales: from where squares still count down to subnormals.
pub fn tiny(draw: &mut Draw, inputs: &mut [Vec<f64>]) {
    let most = draw.pick(&[-480, -560, -1070]);
    rescale(draw, inputs, most, -440);
}

/// Huge scales: from where squares are still finite to the end of the range.
pub fn huge(draw: &mut Draw, inputs: &mut [Vec<f64>]) {
    let most = draw.pick(&[500, 515, 1023]);
    rescale(draw, inputs, 440, most);
}

/// So many units between 1e-300 and 1e300: one for all, some near one another, or each its own.
pub fn units(draw: &mut Draw, count: usize) -> Vec<f64> {
    let middle = draw.between(0, 1960) as i32 - 980;
    let spread = draw.pick(&[0, 0, 15, 2000]);
    let unit =
        |draw: &mut Draw| draw.power((middle - spread).max(-996), (middle + spread).min(996));
    (0..count).map(|_| unit(draw)).collect()
}

/// Puts each column of a row-major matrix into its unit.
pub fn in_columns(a: &mut [f64], units: &[f64]) {
    a.iter_mut().zip(units.iter().cycle()).for_each(|(value, unit)| *value *= unit);
}

/// Puts each row, and its right-hand side, into a unit of its own, or none.
pub fn in_rows(draw: &mut Draw, a: &mut [f64], rhs: &mut [f64]) {
    if rhs.is_empty() || draw.one_in(2) {
        return;
    }
    let (cols, units) = (a.len() / rhs.len(), units(draw, rhs.len()));
    a.iter_mut().enumerate().for_each(|(at, value)| *value *= units[at / cols]);
    in_columns(rhs, &units);
}
