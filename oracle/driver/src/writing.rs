//! The library's problem files, held to docs/RULES.md and read back.

use crate::arguments::Arguments;
use crate::linked::LIBRARY;
use std::time::Instant;
use trial::problems::{NUMBERS, Pad, Problem, problems};

#[cfg(linked = "gritstrut_write_problem")]
mod symbols {
    #[allow(clippy::too_many_arguments)]
    unsafe extern "C" {
        pub fn gritstrut_write_problem(
            n: usize,
            m: usize,
            factor: *const u64,
            factor_len: usize,
            gradient: *const u64,
            gradient_len: usize,
            kinds: *const u8,
            kinds_len: usize,
            values: *const u64,
            values_len: usize,
            widths: *const u64,
            widths_len: usize,
            jacobian: *const u64,
            jacobian_len: usize,
            lower: *const u64,
            lower_len: usize,
            upper: *const u64,
            upper_len: usize,
            out: *mut u8,
            out_len: usize,
            written: *mut usize,
            place: *mut u32,
            w: *mut f64,
            w_len: usize,
            iw: *mut u32,
            iw_len: usize,
        ) -> u32;
    }
}

/// Calls the library.
#[cfg(linked = "gritstrut_write_problem")]
fn write(problem: &Problem, pad: Pad) -> u32 {
    let [factor, gradient, values, widths, jacobian, lower, upper] = &problem.bits;
    unsafe {
        symbols::gritstrut_write_problem(
            problem.n,
            problem.m,
            factor.as_ptr(),
            factor.len(),
            gradient.as_ptr(),
            gradient.len(),
            problem.kinds.as_ptr(),
            problem.kinds.len(),
            values.as_ptr(),
            values.len(),
            widths.as_ptr(),
            widths.len(),
            jacobian.as_ptr(),
            jacobian.len(),
            lower.as_ptr(),
            lower.len(),
            upper.as_ptr(),
            upper.len(),
            pad.out.as_mut_ptr(),
            pad.out.len(),
            pad.written,
            pad.place,
            pad.w.as_mut_ptr(),
            pad.w.len(),
            pad.iw.as_mut_ptr(),
            pad.iw.len(),
        )
    }
}

#[cfg(not(linked = "gritstrut_write_problem"))]
fn write(_: &Problem, _: Pad) -> u32 {
    99
}

/// Compares calls that write problem files.
pub fn compare(arguments: &Arguments) -> Result<bool, String> {
    let (calls, seed) = (arguments.value("calls", 100_000)?, arguments.value("seed", 1)?);
    println!("library: {LIBRARY}");
    let start = Instant::now();
    let found = problems(&write, calls, seed);
    println!("seed {seed}, {calls} calls in {:.1} s, by number:", start.elapsed().as_secs_f64());
    NUMBERS.iter().for_each(|&at| println!("{at:>6} {:>8}", found.numbers[at as usize]));
    println!("{} records, the longest file {} bytes", found.records, found.longest);
    let [all, same] = found.neighbours;
    println!(
        "{all} files of problems with one bit changed, {same} the same by a width that is none"
    );
    if let Some((index, apart)) = &found.first {
        println!("first difference in call {index}: {}", apart.join(", "));
    }
    let missed = NUMBERS.iter().filter(|&&at| found.numbers[at as usize] == 0).count();
    println!("differences: {}; numbers never reached: {missed}", found.different);
    Ok(found.different == 0 && missed == 0)
}
