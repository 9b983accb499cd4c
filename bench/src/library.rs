//! The library, through its C interface, in workspaces that are lent again and again.

use crate::problems::{Matrix, Step, Valves};

#[rustfmt::skip]
unsafe extern "C" {
    fn gritstrut_sqrt(x: f64) -> f64;
    fn gritstrut_norm(x: *const f64, x_len: usize) -> f64;
    fn gritstrut_qr(
        m: usize, n: usize, a: *const f64, a_len: usize, r: *mut f64, r_len: usize,
        perm: *mut u32, perm_len: usize, u: *mut f64, u_len: usize, b: *mut f64, b_len: usize,
        rank: *mut u32, w: *mut f64, w_len: usize, iw: *mut u32, iw_len: usize,
    ) -> u32;
    fn gritstrut_nnls(
        m: usize, n: usize, k: usize, a: *const f64, a_len: usize, b: *const f64, b_len: usize,
        x: *mut f64, x_len: usize, rounds: *mut u32, factorings: *mut u32,
        w: *mut f64, w_len: usize, iw: *mut u32, iw_len: usize,
    ) -> u32;
    fn gritstrut_times(
        n: usize, b: *const f64, b_len: usize, v: *const f64, v_len: usize,
        out: *mut f64, out_len: usize, w: *mut f64, w_len: usize, iw: *mut u32, iw_len: usize,
    ) -> u32;
    fn gritstrut_cholesky(
        n: usize, b: *const f64, b_len: usize, l: *mut f64, l_len: usize,
        w: *mut f64, w_len: usize, iw: *mut u32, iw_len: usize,
    ) -> u32;
    fn gritstrut_identity(
        n: usize, b: *mut f64, b_len: usize, w: *mut f64, w_len: usize, iw: *mut u32, iw_len: usize,
    ) -> u32;
    fn gritstrut_update(
        n: usize, b: *mut f64, b_len: usize, s: *const f64, s_len: usize,
        y: *const f64, y_len: usize, w: *mut f64, w_len: usize, iw: *mut u32, iw_len: usize,
    ) -> u32;
    fn gritstrut_packed_times(
        n: usize, b: *const f64, b_len: usize, v: *const f64, v_len: usize,
        out: *mut f64, out_len: usize, w: *mut f64, w_len: usize, iw: *mut u32, iw_len: usize,
    ) -> u32;
    fn gritstrut_packed_cholesky(
        n: usize, b: *const f64, b_len: usize, l: *mut f64, l_len: usize,
        w: *mut f64, w_len: usize, iw: *mut u32, iw_len: usize,
    ) -> u32;
    fn gritstrut_packed_identity(
        n: usize, b: *mut f64, b_len: usize, w: *mut f64, w_len: usize, iw: *mut u32, iw_len: usize,
    ) -> u32;
    fn gritstrut_packed_update(
        n: usize, b: *mut f64, b_len: usize, s: *const f64, s_len: usize,
        y: *const f64, y_len: usize, w: *mut f64, w_len: usize, iw: *mut u32, iw_len: usize,
    ) -> u32;
    fn gritstrut_step(
        n: usize, m: usize, factor: *const f64, factor_len: usize,
        gradient: *const f64, gradient_len: usize, kinds: *const u8, kinds_len: usize,
        values: *const f64, values_len: usize, widths: *const f64, widths_len: usize,
        jacobian: *const f64, jacobian_len: usize,
        lower: *const f64, lower_len: usize, upper: *const f64, upper_len: usize,
        d: *mut f64, d_len: usize, multipliers: *mut f64, multipliers_len: usize,
        relaxation: *mut f64, report: *mut u32, report_len: usize, tally: *mut [u64; 2],
        w: *mut f64, w_len: usize, iw: *mut u32, iw_len: usize,
    ) -> u32;
    fn gritstrut_check(
        n: usize, m: usize, factor: *const f64, factor_len: usize,
        gradient: *const f64, gradient_len: usize, kinds: *const u8, kinds_len: usize,
        values: *const f64, values_len: usize, widths: *const f64, widths_len: usize,
        jacobian: *const f64, jacobian_len: usize,
        lower: *const f64, lower_len: usize, upper: *const f64, upper_len: usize,
        d: *const f64, d_len: usize, multipliers: *const f64, multipliers_len: usize,
        lowers: *const f64, lowers_len: usize, uppers: *const f64, uppers_len: usize,
        tolerance: f64, verdict: *mut u32, verdict_len: usize,
        w: *mut f64, w_len: usize, iw: *mut u32, iw_len: usize,
    ) -> u32;
    fn gritstrut_search_begin(
        n: usize, m: usize, kinds: *const u8, kinds_len: usize,
        lower: *const f64, lower_len: usize, upper: *const f64, upper_len: usize,
        x: *const f64, x_len: usize, ftol: f64, budget: u32, scheme: u32,
        machine: *mut f64, machine_len: usize, words: *mut u32, words_len: usize, place: *mut u32,
        w: *mut f64, w_len: usize, iw: *mut u32, iw_len: usize,
    ) -> u32;
    fn gritstrut_search_tell(
        told: *const f64, told_len: usize, machine: *mut f64, machine_len: usize,
        words: *mut u32, words_len: usize, w: *mut f64, w_len: usize, iw: *mut u32, iw_len: usize,
    ) -> u32;
}

/// The tolerance and the budget of a search.
pub const FTOL: f64 = 1e-9;
pub const BUDGET: u32 = 2_000;

pub fn root(x: f64) -> f64 {
    unsafe { gritstrut_sqrt(x) }
}

pub fn norm(x: &[f64]) -> f64 {
    unsafe { gritstrut_norm(x.as_ptr(), x.len()) }
}

/// The workspaces, and buffers for every output; the first holds d of a step, x of NNLS, R of QR.
pub struct Lent {
    w: Vec<f64>,
    iw: Vec<u32>,
    pub first: Vec<f64>,
    second: Vec<f64>,
    third: Vec<f64>,
    index: Vec<u32>,
    /// Rounds and factorings of all steps so far.
    pub tally: [u64; 2],
}

impl Lent {
    pub fn new() -> Self {
        let room = || vec![0.0; 18 * 66];
        Lent {
            w: vec![0.0; 8192],
            iw: vec![0; 512],
            first: room(),
            second: room(),
            third: room(),
            index: vec![0; 66],
            tally: [0; 2],
        }
    }

    /// The multipliers of a step of so many constraints.
    pub fn second(&self, m: usize) -> &[f64] {
        &self.second[..m]
    }

    /// The verdict on a step.
    pub fn check(&mut self, p: &Step, d: &[f64], multipliers: &[f64], lowers: &[f64], uppers: &[f64], tolerance: f64) -> [u32; 3] {
        let (widths, mut verdict) = (&p.values, [0; 3]);
        #[rustfmt::skip]
        let number = unsafe {
            gritstrut_check(
                p.gradient.len(), p.values.len(), p.factor.as_ptr(), p.factor.len(),
                p.gradient.as_ptr(), p.gradient.len(), p.kinds.as_ptr(), p.kinds.len(),
                p.values.as_ptr(), p.values.len(), widths.as_ptr(), widths.len(),
                p.jacobian.as_ptr(), p.jacobian.len(),
                p.lower.as_ptr(), p.lower.len(), p.upper.as_ptr(), p.upper.len(),
                d.as_ptr(), d.len(), multipliers.as_ptr(), multipliers.len(),
                lowers.as_ptr(), lowers.len(), uppers.as_ptr(), uppers.len(),
                tolerance, verdict.as_mut_ptr(), verdict.len(),
                self.w.as_mut_ptr(), 8192, self.iw.as_mut_ptr(), 512,
            )
        };
        assert_eq!(number, 0, "a check");
        verdict
    }

    pub fn step(&mut self, p: &Step) -> u32 {
        let (mut relaxation, mut report) = (0.0, [0; 6]);
        // no band: the widths are not read
        let widths = &p.values;
        #[rustfmt::skip]
        let number = unsafe {
            gritstrut_step(
                p.gradient.len(), p.values.len(), p.factor.as_ptr(), p.factor.len(),
                p.gradient.as_ptr(), p.gradient.len(), p.kinds.as_ptr(), p.kinds.len(),
                p.values.as_ptr(), p.values.len(), widths.as_ptr(), widths.len(),
                p.jacobian.as_ptr(), p.jacobian.len(),
                p.lower.as_ptr(), p.lower.len(), p.upper.as_ptr(), p.upper.len(),
                self.first.as_mut_ptr(), p.gradient.len(), self.second.as_mut_ptr(), p.values.len(),
                &mut relaxation, report.as_mut_ptr(), report.len(), &mut self.tally,
                self.w.as_mut_ptr(), 8192, self.iw.as_mut_ptr(), 512,
            )
        };
        number
    }

    pub fn nnls(&mut self, p: &Matrix) -> u32 {
        let (mut rounds, mut factorings) = (0, 0);
        #[rustfmt::skip]
        let number = unsafe {
            gritstrut_nnls(
                p.m, p.n, 3 * p.n, p.a.as_ptr(), p.a.len(), p.b.as_ptr(), p.b.len(),
                self.first.as_mut_ptr(), p.n, &mut rounds, &mut factorings,
                self.w.as_mut_ptr(), 8192, self.iw.as_mut_ptr(), 512,
            )
        };
        number
    }

    pub fn qr(&mut self, p: &Matrix) -> usize {
        let (mut rank, steps) = (0, p.m.min(p.n));
        #[rustfmt::skip]
        let number = unsafe {
            gritstrut_qr(
                p.m, p.n, p.a.as_ptr(), p.a.len(), self.first.as_mut_ptr(), p.m * p.n,
                self.index.as_mut_ptr(), p.n, self.second.as_mut_ptr(), steps * p.m,
                self.third.as_mut_ptr(), steps, &mut rank,
                self.w.as_mut_ptr(), 8192, self.iw.as_mut_ptr(), 512,
            )
        };
        if number == 0 { rank as usize } else { 0 }
    }
}

/// B of dimension n in one form, and what its operations are lent.
pub struct Approximation {
    n: usize,
    packed: bool,
    pub b: Vec<f64>,
    out: Vec<f64>,
    w: Vec<f64>,
    iw: Vec<u32>,
}

#[rustfmt::skip]
impl Approximation {
    /// The identity, square or as its lower triangle.
    pub fn new(n: usize, packed: bool) -> Self {
        let entries = if packed { n * (n + 1) / 2 } else { n * n };
        let (b, out, w) = (vec![0.0; entries], vec![0.0; n * n], vec![0.0; 8192]);
        let mut made = Approximation { n, packed, b, out, w, iw: vec![0; 512] };
        assert_eq!(made.reset(), 0);
        made
    }

    pub fn reset(&mut self) -> u32 {
        let call = if self.packed { gritstrut_packed_identity } else { gritstrut_identity };
        unsafe {
            call(self.n, self.b.as_mut_ptr(), self.b.len(),
                self.w.as_mut_ptr(), 8192, self.iw.as_mut_ptr(), 512)
        }
    }

    pub fn times(&mut self, v: &[f64]) -> u32 {
        let call = if self.packed { gritstrut_packed_times } else { gritstrut_times };
        unsafe {
            call(self.n, self.b.as_ptr(), self.b.len(), v.as_ptr(), v.len(),
                self.out.as_mut_ptr(), self.n, self.w.as_mut_ptr(), 8192, self.iw.as_mut_ptr(), 512)
        }
    }

    pub fn cholesky(&mut self) -> u32 {
        let call = if self.packed { gritstrut_packed_cholesky } else { gritstrut_cholesky };
        unsafe {
            call(self.n, self.b.as_ptr(), self.b.len(), self.out.as_mut_ptr(), self.n * self.n,
                self.w.as_mut_ptr(), 8192, self.iw.as_mut_ptr(), 512)
        }
    }

    pub fn update(&mut self, s: &[f64], y: &[f64]) -> u32 {
        let call = if self.packed { gritstrut_packed_update } else { gritstrut_update };
        unsafe {
            call(self.n, self.b.as_mut_ptr(), self.b.len(), s.as_ptr(), s.len(), y.as_ptr(), y.len(),
                self.w.as_mut_ptr(), 8192, self.iw.as_mut_ptr(), 512)
        }
    }
}

/// A search's machine, and what its calls are lent.
pub struct Machine {
    floats: Vec<f64>,
    words: Vec<u32>,
    told: Vec<f64>,
    w: Vec<f64>,
    iw: Vec<u32>,
}

impl Machine {
    pub fn new() -> Self {
        Machine { floats: vec![0.0; 1024], words: vec![0; 32], told: vec![], w: vec![0.0; 8192], iw: vec![0; 512] }
    }

    /// A whole search: how many numbers it was told.
    pub fn search(&mut self, p: &Valves, scheme: u32) -> usize {
        let (mut number, mut count) = (self.begin(p, scheme), 0);
        while number == 0 && self.words[0] < 6 {
            self.answer(p);
            count += self.told.len();
            number = self.tell();
        }
        count
    }

    /// The openings at the end.
    pub fn openings(&self, n: usize) -> &[f64] {
        &self.floats[48..48 + n]
    }

    #[rustfmt::skip]
    fn begin(&mut self, p: &Valves, scheme: u32) -> u32 {
        let ((n, m), mut place) = (p.sizes(), 0);
        let kinds: [u8; 16] = std::array::from_fn(|j| u8::from(j > 0));
        let (lower, upper) = ([0.0; 16], [1.0; 16]);
        unsafe {
            gritstrut_search_begin(
                n, m, kinds.as_ptr(), m, lower.as_ptr(), n, upper.as_ptr(), n,
                p.set_points.as_ptr(), n, FTOL, BUDGET, scheme,
                self.floats.as_mut_ptr(), 1024, self.words.as_mut_ptr(), 32, &mut place,
                self.w.as_mut_ptr(), 8192, self.iw.as_mut_ptr(), 512,
            )
        }
    }

    /// Answers the question that stands.
    fn answer(&mut self, p: &Valves) {
        let (n, m) = p.sizes();
        let x = &self.floats[976..976 + n];
        self.told.clear();
        match self.words[0] {
            1 | 2 => self.told.extend((0..=m).map(|function| p.value(function, x))),
            3 => (0..=m).for_each(|function| {
                self.told.extend((0..n).map(|variable| p.slope(function, variable, x)));
            }),
            _ => self.told.push(p.value(m - self.words[5] as usize, x)),
        }
    }

    #[rustfmt::skip]
    fn tell(&mut self) -> u32 {
        unsafe {
            gritstrut_search_tell(
                self.told.as_ptr(), self.told.len(), self.floats.as_mut_ptr(), 1024,
                self.words.as_mut_ptr(), 32, self.w.as_mut_ptr(), 8192, self.iw.as_mut_ptr(), 512,
            )
        }
    }
}
