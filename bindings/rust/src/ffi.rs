//! The C interface, as include/gritstrut.h declares it.

/// What the tests of meters find of all meters together.
#[repr(C)]
#[derive(Default)]
pub struct Finding {
    pub freedom: u32,
    pub first: u32,
    pub agree: u32,
    pub explained: u32,
}

/// Counts of rounds and factorings.
#[repr(C)]
#[derive(Default)]
pub struct Tally {
    pub rounds: u64,
    pub factorings: u64,
}

#[rustfmt::skip]
extern "C" {
    pub fn gritstrut_version() -> u32;
    pub fn gritstrut_nnls(
        m: usize, n: usize, k: usize, a: *const f64, a_len: usize, b: *const f64, b_len: usize, x: *mut f64,
        x_len: usize, rounds: *mut u32, factorings: *mut u32, w: *mut f64, w_len: usize, iw: *mut u32,
        iw_len: usize,
    ) -> u32;
    pub fn gritstrut_ldp(
        m: usize, n: usize, g: *const f64, g_len: usize, h: *const f64, h_len: usize, x: *mut f64,
        x_len: usize, multipliers: *mut f64, multipliers_len: usize, w: *mut f64, w_len: usize, iw: *mut u32,
        iw_len: usize,
    ) -> u32;
    pub fn gritstrut_lsi(
        n: usize, me: usize, mg: usize, e: *const f64, e_len: usize, f: *const f64, f_len: usize,
        g: *const f64, g_len: usize, h: *const f64, h_len: usize, x: *mut f64, x_len: usize,
        multipliers: *mut f64, multipliers_len: usize, place: *mut u32, w: *mut f64, w_len: usize,
        iw: *mut u32, iw_len: usize,
    ) -> u32;
    pub fn gritstrut_lsei(
        n: usize, mc: usize, me: usize, mg: usize, c: *const f64, c_len: usize, d: *const f64, d_len: usize,
        e: *const f64, e_len: usize, f: *const f64, f_len: usize, g: *const f64, g_len: usize, h: *const f64,
        h_len: usize, x: *mut f64, x_len: usize, multipliers: *mut f64, multipliers_len: usize,
        place: *mut u32, w: *mut f64, w_len: usize, iw: *mut u32, iw_len: usize,
    ) -> u32;
    pub fn gritstrut_reconcile(
        n: usize, m: usize, before: *const u32, before_len: usize, after: *const u32, after_len: usize,
        spreads: *const f64, spreads_len: usize, balances: *const f64, balances_len: usize,
        volumes: *mut f64, volumes_len: usize, named: *mut u8, named_len: usize, place: *mut u32,
        w: *mut f64, w_len: usize, iw: *mut u32, iw_len: usize,
    ) -> u32;
    pub fn gritstrut_mend(
        records: *const u8, records_len: usize, kept: *mut u8, kept_len: usize, reasons: *mut u8, reasons_len: usize,
        totals: *mut u64, totals_len: usize, rollovers: *mut u64, rollovers_len: usize, kept_bytes: *mut usize,
        meters: *mut u32,
    ) -> u32;
    pub fn gritstrut_report(
        sheet: *const u8, sheet_len: usize, report: *mut u8, report_len: usize, count: *mut usize,
    ) -> u32;
    pub fn gritstrut_settle(
        n: usize, m: usize, p: usize, values: *const f64, values_len: usize, spreads: *const f64,
        spreads_len: usize, balances: *const f64, balances_len: usize, limits: *const f64, limits_len: usize,
        least: *const f64, least_len: usize, tolerance: f64, settled: *mut f64, settled_len: usize,
        multipliers: *mut f64, multipliers_len: usize, bound: *mut f64, place: *mut u32, w: *mut f64,
        w_len: usize, iw: *mut u32, iw_len: usize,
    ) -> u32;
    pub fn gritstrut_certify(
        n: usize, m: usize, p: usize, values: *const f64, values_len: usize, spreads: *const f64,
        spreads_len: usize, balances: *const f64, balances_len: usize, limits: *const f64, limits_len: usize,
        least: *const f64, least_len: usize, settled: *const f64, settled_len: usize,
        multipliers: *const f64, multipliers_len: usize, bound: *mut f64, place: *mut u32, w: *mut f64,
        w_len: usize, iw: *mut u32, iw_len: usize,
    ) -> u32;
    pub fn gritstrut_suspect(
        n: usize, m: usize, values: *const f64, values_len: usize, spreads: *const f64, spreads_len: usize,
        balances: *const f64, balances_len: usize, still: *const u8, still_len: usize, numbers: *mut f64,
        numbers_len: usize, groups: *mut u32, groups_len: usize, marks: *mut u32, marks_len: usize,
        misfit: *mut f64, finding: *mut Finding, place: *mut u32, w: *mut f64, w_len: usize, iw: *mut u32,
        iw_len: usize,
    ) -> u32;
    pub fn gritstrut_identity(
        n: usize, b: *mut f64, b_len: usize, w: *mut f64, w_len: usize, iw: *mut u32, iw_len: usize,
    ) -> u32;
    pub fn gritstrut_times(
        n: usize, b: *const f64, b_len: usize, v: *const f64, v_len: usize, out: *mut f64, out_len: usize,
        w: *mut f64, w_len: usize, iw: *mut u32, iw_len: usize,
    ) -> u32;
    pub fn gritstrut_cholesky(
        n: usize, b: *const f64, b_len: usize, l: *mut f64, l_len: usize, w: *mut f64, w_len: usize,
        iw: *mut u32, iw_len: usize,
    ) -> u32;
    pub fn gritstrut_update(
        n: usize, b: *mut f64, b_len: usize, s: *const f64, s_len: usize, y: *const f64, y_len: usize,
        w: *mut f64, w_len: usize, iw: *mut u32, iw_len: usize,
    ) -> u32;
    pub fn gritstrut_strict_step(
        n: usize, m: usize, factor: *const f64, factor_len: usize, gradient: *const f64, gradient_len: usize,
        kinds: *const u8, kinds_len: usize, values: *const f64, values_len: usize, widths: *const f64,
        widths_len: usize, jacobian: *const f64, jacobian_len: usize, lower: *const f64, lower_len: usize,
        upper: *const f64, upper_len: usize, d: *mut f64, d_len: usize, multipliers: *mut f64,
        multipliers_len: usize, relaxation: *mut f64, report: *mut u32, report_len: usize, tally: *mut Tally,
        w: *mut f64, w_len: usize, iw: *mut u32, iw_len: usize,
    ) -> u32;
    pub fn gritstrut_step(
        n: usize, m: usize, factor: *const f64, factor_len: usize, gradient: *const f64, gradient_len: usize,
        kinds: *const u8, kinds_len: usize, values: *const f64, values_len: usize, widths: *const f64,
        widths_len: usize, jacobian: *const f64, jacobian_len: usize, lower: *const f64, lower_len: usize,
        upper: *const f64, upper_len: usize, d: *mut f64, d_len: usize, multipliers: *mut f64,
        multipliers_len: usize, relaxation: *mut f64, report: *mut u32, report_len: usize, tally: *mut Tally,
        w: *mut f64, w_len: usize, iw: *mut u32, iw_len: usize,
    ) -> u32;
    pub fn gritstrut_check(
        n: usize, m: usize, factor: *const f64, factor_len: usize, gradient: *const f64, gradient_len: usize,
        kinds: *const u8, kinds_len: usize, values: *const f64, values_len: usize, widths: *const f64,
        widths_len: usize, jacobian: *const f64, jacobian_len: usize, lower: *const f64, lower_len: usize,
        upper: *const f64, upper_len: usize, d: *const f64, d_len: usize, multipliers: *const f64,
        multipliers_len: usize, lower_multipliers: *const f64, lower_multipliers_len: usize,
        upper_multipliers: *const f64, upper_multipliers_len: usize, tolerance: f64, verdict: *mut u32,
        verdict_len: usize, w: *mut f64, w_len: usize, iw: *mut u32, iw_len: usize,
    ) -> u32;
    pub fn gritstrut_search_begin(
        n: usize, m: usize, kinds: *const u8, kinds_len: usize, lower: *const f64, lower_len: usize,
        upper: *const f64, upper_len: usize, x: *const f64, x_len: usize, ftol: f64, budget: u32,
        scheme: u32, machine: *mut f64, machine_len: usize, words: *mut u32, words_len: usize,
        place: *mut u32, w: *mut f64, w_len: usize, iw: *mut u32, iw_len: usize,
    ) -> u32;
    pub fn gritstrut_search_tell(
        told: *const f64, told_len: usize, machine: *mut f64, machine_len: usize, words: *mut u32,
        words_len: usize, w: *mut f64, w_len: usize, iw: *mut u32, iw_len: usize,
    ) -> u32;
}
