//! Nonnegative least squares, least distance programming, LSI and LSEI.

use alloc::vec;
use alloc::vec::Vec;

use crate::{ffi, Failure, Workspace};

/// A matrix by reference: entry (i, j) is `data[i * stride + j]`.
#[derive(Debug, Clone, Copy, PartialEq)]
pub struct MatRef<'a> {
    /// The entries, row by row.
    pub data: &'a [f64],
    /// How many rows.
    pub rows: usize,
    /// How many columns.
    pub cols: usize,
    /// How far one row is from the next.
    pub stride: usize,
}

impl<'a> MatRef<'a> {
    /// A matrix whose rows stand one after the other.
    pub fn new(data: &'a [f64], rows: usize, cols: usize) -> Self {
        Self { data, rows, cols, stride: cols }
    }

    /// No rows of so many columns.
    pub fn none(cols: usize) -> Self {
        Self::new(&[], 0, cols)
    }

    /// The rows one after the other: as they are, or copied.
    fn dense<'b>(&'b self, room: &'b mut Vec<f64>) -> Result<&'b [f64], Failure> {
        let count = self.rows.checked_mul(self.cols).ok_or(Failure::Size)?;
        if self.stride == self.cols {
            return self.data.get(..count).ok_or(Failure::Length);
        }
        for i in 0..self.rows {
            let from = i.checked_mul(self.stride).ok_or(Failure::Size)?;
            let to = from.checked_add(self.cols).ok_or(Failure::Size)?;
            room.extend_from_slice(self.data.get(from..to).ok_or(Failure::Length)?);
        }
        Ok(room)
    }
}

/// A solution of `min ||A x - b||` with `x >= 0`.
#[derive(Debug, Clone, PartialEq)]
pub struct Nnls {
    /// The solution.
    pub x: Vec<f64>,
    /// Rounds: passes that took a column in.
    pub iterations: usize,
    /// QR factorings.
    pub factorings: usize,
}

/// A constrained least squares solution. The multipliers list the equalities first, then the inequalities.
#[derive(Debug, Clone, PartialEq)]
pub struct Lsq {
    /// The solution.
    pub x: Vec<f64>,
    /// One multiplier for each constraint.
    pub multipliers: Vec<f64>,
}

impl Workspace {
    /// See [`nnls`].
    pub fn nnls(&mut self, a: MatRef<'_>, b: &[f64]) -> Result<Nnls, Failure> {
        let mut room = Vec::new();
        let dense = a.dense(&mut room)?;
        let mut x = vec![0.0; a.cols];
        let (mut rounds, mut factorings) = (0, 0);
        let limit = a.cols.saturating_mul(3);
        // SAFETY: every pointer comes from a slice and goes with its length, and no two written slices are one.
        #[rustfmt::skip]
        let number = unsafe {
            ffi::gritstrut_nnls(
                a.rows, a.cols, limit, dense.as_ptr(), dense.len(), b.as_ptr(), b.len(), x.as_mut_ptr(), x.len(),
                &mut rounds, &mut factorings, self.w.as_mut_ptr(), self.w.len(), self.iw.as_mut_ptr(), self.iw.len(),
            )
        };
        Failure::unless_done(number, 0)?;
        Ok(Nnls { x, iterations: rounds as usize, factorings: factorings as usize })
    }

    /// See [`ldp`].
    pub fn ldp(&mut self, g: MatRef<'_>, h: &[f64]) -> Result<Lsq, Failure> {
        let mut room = Vec::new();
        let dense = g.dense(&mut room)?;
        let (mut x, mut multipliers) = (vec![0.0; g.cols], vec![0.0; g.rows]);
        // SAFETY: as for NNLS.
        #[rustfmt::skip]
        let number = unsafe {
            ffi::gritstrut_ldp(
                g.rows, g.cols, dense.as_ptr(), dense.len(), h.as_ptr(), h.len(), x.as_mut_ptr(), x.len(),
                multipliers.as_mut_ptr(), multipliers.len(),
                self.w.as_mut_ptr(), self.w.len(), self.iw.as_mut_ptr(), self.iw.len(),
            )
        };
        Failure::unless_done(number, 0)?;
        Ok(Lsq { x, multipliers })
    }

    /// See [`lsi`].
    pub fn lsi(&mut self, e: MatRef<'_>, f: &[f64], g: MatRef<'_>, h: &[f64]) -> Result<Lsq, Failure> {
        let (mut first, mut second) = (Vec::new(), Vec::new());
        let (e_dense, g_dense) = (e.dense(&mut first)?, g.dense(&mut second)?);
        let (mut x, mut multipliers) = (vec![0.0; e.cols], vec![0.0; g.rows]);
        let mut place = 0;
        // SAFETY: as for NNLS.
        #[rustfmt::skip]
        let number = unsafe {
            ffi::gritstrut_lsi(
                e.cols, e.rows, g.rows, e_dense.as_ptr(), e_dense.len(), f.as_ptr(), f.len(),
                g_dense.as_ptr(), g_dense.len(), h.as_ptr(), h.len(), x.as_mut_ptr(), x.len(),
                multipliers.as_mut_ptr(), multipliers.len(), &mut place,
                self.w.as_mut_ptr(), self.w.len(), self.iw.as_mut_ptr(), self.iw.len(),
            )
        };
        Failure::unless_done(number, place)?;
        Ok(Lsq { x, multipliers })
    }

    /// See [`lsei`].
    pub fn lsei(
        &mut self,
        c: MatRef<'_>,
        d: &[f64],
        e: MatRef<'_>,
        f: &[f64],
        g: MatRef<'_>,
        h: &[f64],
    ) -> Result<Lsq, Failure> {
        let (mut first, mut second, mut third) = (Vec::new(), Vec::new(), Vec::new());
        let (c_dense, e_dense, g_dense) = (c.dense(&mut first)?, e.dense(&mut second)?, g.dense(&mut third)?);
        let (mut x, mut multipliers) = (vec![0.0; e.cols], vec![0.0; c.rows.saturating_add(g.rows)]);
        let mut place = 0;
        // SAFETY: as for NNLS.
        #[rustfmt::skip]
        let number = unsafe {
            ffi::gritstrut_lsei(
                e.cols, c.rows, e.rows, g.rows, c_dense.as_ptr(), c_dense.len(), d.as_ptr(), d.len(),
                e_dense.as_ptr(), e_dense.len(), f.as_ptr(), f.len(), g_dense.as_ptr(), g_dense.len(),
                h.as_ptr(), h.len(), x.as_mut_ptr(), x.len(), multipliers.as_mut_ptr(), multipliers.len(), &mut place,
                self.w.as_mut_ptr(), self.w.len(), self.iw.as_mut_ptr(), self.iw.len(),
            )
        };
        Failure::unless_done(number, place)?;
        Ok(Lsq { x, multipliers })
    }
}

/// Solves `min ||A x - b||` with `x >= 0`; up to 18 rows and 66 columns.
///
/// ```
/// use gritstrut::{nnls, MatRef};
/// let found = nnls(MatRef::new(&[1.0, 0.0, 0.0, 1.0], 2, 2), &[3.0, -4.0])?;
/// assert_eq!(found.x, [3.0, 0.0]);
/// # Ok::<(), gritstrut::Failure>(())
/// ```
pub fn nnls(a: MatRef<'_>, b: &[f64]) -> Result<Nnls, Failure> {
    Workspace::new().nnls(a, b)
}

/// Solves LDP, `min ||x||` with `G x >= h`; up to 66 rows and 17 columns.
pub fn ldp(g: MatRef<'_>, h: &[f64]) -> Result<Lsq, Failure> {
    Workspace::new().ldp(g, h)
}

/// Solves LSI, `min ||E x - f||` with `G x >= h`; up to 17 unknowns, 17 rows of E and 66 inequalities.
pub fn lsi(e: MatRef<'_>, f: &[f64], g: MatRef<'_>, h: &[f64]) -> Result<Lsq, Failure> {
    Workspace::new().lsi(e, f, g, h)
}

/// Solves LSEI, `min ||E x - f||` with `C x = d` and `G x >= h`; as [`lsi`], and up to 16 equalities.
///
/// ```
/// use gritstrut::{lsei, Failure, MatRef};
/// let (c, e) = (MatRef::new(&[1.0, 1.0, 2.0, 2.0], 2, 2), MatRef::new(&[1.0, 0.0, 0.0, 1.0], 2, 2));
/// let found = lsei(c, &[2.0, 4.0], e, &[3.0, 0.0], MatRef::none(2), &[]);
/// assert!(matches!(found, Err(Failure::Dependent { .. })));
/// ```
pub fn lsei(c: MatRef<'_>, d: &[f64], e: MatRef<'_>, f: &[f64], g: MatRef<'_>, h: &[f64]) -> Result<Lsq, Failure> {
    Workspace::new().lsei(c, d, e, f, g, h)
}
