//! A square matrix and its lower triangle, row by row.

/// How many numbers n rows of a triangle have.
pub fn count(n: usize) -> usize {
    n * (n + 1) / 2
}

/// The lower triangle of an n by n matrix.
pub fn packed(n: usize, square: &[f64]) -> Vec<f64> {
    (0..n).flat_map(|i| (0..=i).map(move |j| i * n + j)).map(|at| square[at]).collect()
}

/// The matrix that a triangle stands for: above the diagonal each entry is its mirror's.
pub fn unpacked(n: usize, triangle: &[f64]) -> Vec<f64> {
    let entry = |i: usize, j: usize| triangle[count(i.max(j)) + i.min(j)];
    (0..n * n).map(|at| entry(at / n, at % n)).collect()
}
