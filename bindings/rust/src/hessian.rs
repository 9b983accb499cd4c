//! The approximation of the Hessian.

use alloc::vec;
use alloc::vec::Vec;

use crate::{ffi, Failure, Workspace};

/// A dense symmetric approximation `B` of 1 to 16 variables, row by row.
///
/// ```
/// let mut b = gritstrut::Hessian::identity(2);
/// b.update(&[1.0, 0.0], &[4.0, 0.0]);
/// assert_eq!(b.times(&[1.0, 1.0]), [4.0, 1.0]);
/// assert_eq!(b.cholesky().unwrap(), [2.0, 0.0, 0.0, 1.0]);
/// ```
#[derive(Debug, Clone, PartialEq)]
pub struct Hessian {
    b: Vec<f64>,
    n: usize,
}

/// What a call of the right lengths cannot be refused by.
fn sound(number: u32) {
    if number != 0 {
        panic!("{}", Failure::of(number, 0));
    }
}

impl Hessian {
    /// The identity of dimension `n`, from 1 to 16.
    ///
    /// # Panics
    ///
    /// If `n` is not from 1 to 16.
    pub fn identity(n: usize) -> Self {
        assert!((1..=16).contains(&n), "B has 1 to 16 variables");
        let (mut b, mut work) = (vec![0.0; n * n], Workspace::new());
        // SAFETY: every pointer comes from a slice and goes with its length, and no two written slices are one.
        #[rustfmt::skip]
        sound(unsafe {
            ffi::gritstrut_identity(
                n, b.as_mut_ptr(), b.len(), work.w.as_mut_ptr(), work.w.len(), work.iw.as_mut_ptr(), work.iw.len(),
            )
        });
        Self { b, n }
    }

    /// The entries, row by row.
    pub fn entries(&self) -> &[f64] {
        &self.b
    }

    /// The product `B v`.
    ///
    /// # Panics
    ///
    /// If `v` has another length than `B`.
    pub fn times(&self, v: &[f64]) -> Vec<f64> {
        let (mut out, mut work) = (vec![0.0; self.n], Workspace::new());
        // SAFETY: as above.
        #[rustfmt::skip]
        sound(unsafe {
            ffi::gritstrut_times(
                self.n, self.b.as_ptr(), self.b.len(), v.as_ptr(), v.len(), out.as_mut_ptr(), out.len(),
                work.w.as_mut_ptr(), work.w.len(), work.iw.as_mut_ptr(), work.iw.len(),
            )
        });
        out
    }

    /// The lower-triangular factor `L` of `B = L L'`, row by row, or `None` where `B` is not numerically positive definite.
    pub fn cholesky(&self) -> Option<Vec<f64>> {
        let (mut l, mut work) = (vec![0.0; self.b.len()], Workspace::new());
        // SAFETY: as above.
        #[rustfmt::skip]
        let number = unsafe {
            ffi::gritstrut_cholesky(
                self.n, self.b.as_ptr(), self.b.len(), l.as_mut_ptr(), l.len(),
                work.w.as_mut_ptr(), work.w.len(), work.iw.as_mut_ptr(), work.iw.len(),
            )
        };
        (number == 0).then_some(l)
    }

    /// The damped update by the step `s` and the change `y` in the gradient of the Lagrangian.
    ///
    /// # Panics
    ///
    /// If `s` or `y` has another length than `B`.
    pub fn update(&mut self, s: &[f64], y: &[f64]) {
        let mut work = Workspace::new();
        // SAFETY: as above.
        #[rustfmt::skip]
        sound(unsafe {
            ffi::gritstrut_update(
                self.n, self.b.as_mut_ptr(), self.b.len(), s.as_ptr(), s.len(), y.as_ptr(), y.len(),
                work.w.as_mut_ptr(), work.w.len(), work.iw.as_mut_ptr(), work.iw.len(),
            )
        });
    }
}
