//! The least-squares solver inside NLopt's SLSQP, through bench/nlopt.c.

use crate::problems;

#[rustfmt::skip]
unsafe extern "C" {
    fn peer_step(
        n: i32, m: i32, meq: i32, l: *mut f64, g: *mut f64, a: *mut f64, c: *mut f64,
        lower: *mut f64, upper: *mut f64, x: *mut f64, y: *mut f64, w: *mut f64, jw: *mut i32,
    ) -> i32;
    fn peer_nnls(
        m: i32, n: i32, a: *const f64, b: *const f64, x: *mut f64, w: *mut f64, jw: *mut i32,
    ) -> i32;
}

/// What NLopt's functions work in, and where their answer comes.
pub struct Room {
    pub x: Vec<f64>,
    y: Vec<f64>,
    w: Vec<f64>,
    jw: Vec<i32>,
}

impl Room {
    pub fn new() -> Self {
        Room { x: vec![0.0; 66], y: vec![0.0; 128], w: vec![0.0; 8192], jw: vec![0; 128] }
    }
}

/// A step in the form that NLopt keeps it in between its iterations, so that no time goes into
/// turning one form into the other.
pub struct Step {
    n: usize,
    m: usize,
    equalities: usize,
    l: Vec<f64>,
    g: Vec<f64>,
    a: Vec<f64>,
    c: Vec<f64>,
    lower: Vec<f64>,
    upper: Vec<f64>,
}

/// B = L L' as unit triangle and diagonal, packed by columns, and one place for a weight.
fn packed(factor: &[f64], n: usize) -> Vec<f64> {
    let mut l = Vec::new();
    for j in 0..n {
        let diagonal = factor[j * n + j];
        l.push(diagonal * diagonal);
        l.extend((j + 1..n).map(|i| factor[i * n + j] / diagonal));
    }
    l.push(0.0);
    l
}

impl Step {
    pub fn new(p: &problems::Step) -> Self {
        let (n, m) = (p.gradient.len(), p.values.len());
        let one_more = |list: &[f64]| [list, &[0.0]].concat();
        let order: Vec<usize> =
            [0, 1].iter().flat_map(|&k| (0..m).filter(move |&j| p.kinds[j] == k)).collect();
        let mut a: Vec<f64> =
            (0..n).flat_map(|i| order.iter().map(move |&j| p.jacobian[j * n + i])).collect();
        a.resize(m.max(1) * (n + 1), 0.0);
        Step {
            n,
            m,
            equalities: p.kinds.iter().filter(|&&k| k == 0).count(),
            l: packed(&p.factor, n),
            g: one_more(&p.gradient),
            a,
            c: one_more(&order.iter().map(|&j| p.values[j]).collect::<Vec<f64>>()),
            lower: one_more(&p.lower),
            upper: one_more(&p.upper),
        }
    }

    /// Whether the step was found; it is then the first n entries of the room's x.
    pub fn solve(&mut self, room: &mut Room) -> bool {
        let Room { x, y, w, jw } = room;
        #[rustfmt::skip]
        let mode = unsafe {
            peer_step(
                self.n as i32, self.m as i32, self.equalities as i32, self.l.as_mut_ptr(),
                self.g.as_mut_ptr(), self.a.as_mut_ptr(), self.c.as_mut_ptr(),
                self.lower.as_mut_ptr(), self.upper.as_mut_ptr(),
                x.as_mut_ptr(), y.as_mut_ptr(), w.as_mut_ptr(), jw.as_mut_ptr(),
            )
        };
        mode == 1
    }
}

/// A matrix by columns, as NLopt has it.
pub fn by_columns(p: &problems::Matrix) -> problems::Matrix {
    let a = (0..p.n).flat_map(|j| (0..p.m).map(move |i| p.a[i * p.n + j])).collect();
    problems::Matrix { a, ..p.clone() }
}

/// Whether nonnegative least squares on a matrix by columns was done; x is in the room.
pub fn nnls(p: &problems::Matrix, room: &mut Room) -> bool {
    let Room { x, w, jw, .. } = room;
    let (m, n) = (p.m as i32, p.n as i32);
    let mode = unsafe {
        peer_nnls(m, n, p.a.as_ptr(), p.b.as_ptr(), x.as_mut_ptr(), w.as_mut_ptr(), jw.as_mut_ptr())
    };
    mode == 1
}
