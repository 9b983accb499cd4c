//! The library's search, held to the Rust's own run and to docs/RULES.md.

use crate::arguments::Arguments;
use crate::linked::LIBRARY;
use std::time::Instant;
use trial::search::calls::Machine;
use trial::search::{Counts, Plan, SCHEMES, missed, name, searches, total};

#[cfg(linked = "gritstrut_search_tell")]
mod library {
    use trial::search::calls::{Given, Machine, Pad};

    #[allow(clippy::too_many_arguments)]
    unsafe extern "C" {
        fn gritstrut_search_begin(
            n: usize,
            m: usize,
            kinds: *const u8,
            kinds_len: usize,
            lower: *const f64,
            lower_len: usize,
            upper: *const f64,
            upper_len: usize,
            x: *const f64,
            x_len: usize,
            ftol: f64,
            budget: u32,
            scheme: u32,
            machine: *mut f64,
            machine_len: usize,
            words: *mut u32,
            words_len: usize,
            place: *mut u32,
            w: *mut f64,
            w_len: usize,
            iw: *mut u32,
            iw_len: usize,
        ) -> u32;
        fn gritstrut_search_tell(
            told: *const f64,
            told_len: usize,
            machine: *mut f64,
            machine_len: usize,
            words: *mut u32,
            words_len: usize,
            w: *mut f64,
            w_len: usize,
            iw: *mut u32,
            iw_len: usize,
        ) -> u32;
    }

    /// The library under test.
    pub struct Library;

    impl Machine for Library {
        fn begin(&self, given: &Given, pad: Pad) -> u32 {
            unsafe {
                gritstrut_search_begin(
                    given.n,
                    given.m,
                    given.kinds.as_ptr(),
                    given.kinds.len(),
                    given.lower.as_ptr(),
                    given.lower.len(),
                    given.upper.as_ptr(),
                    given.upper.len(),
                    given.x.as_ptr(),
                    given.x.len(),
                    given.ftol,
                    given.budget,
                    given.scheme,
                    pad.floats.as_mut_ptr(),
                    pad.floats.len(),
                    pad.words.as_mut_ptr(),
                    pad.words.len(),
                    pad.variable,
                    pad.w.as_mut_ptr(),
                    pad.w.len(),
                    pad.iw.as_mut_ptr(),
                    pad.iw.len(),
                )
            }
        }

        fn tell(&self, told: &[f64], pad: Pad) -> u32 {
            unsafe {
                gritstrut_search_tell(
                    told.as_ptr(),
                    told.len(),
                    pad.floats.as_mut_ptr(),
                    pad.floats.len(),
                    pad.words.as_mut_ptr(),
                    pad.words.len(),
                    pad.w.as_mut_ptr(),
                    pad.w.len(),
                    pad.iw.as_mut_ptr(),
                    pad.iw.len(),
                )
            }
        }
    }
}

/// The search under test, and whose it is.
#[cfg(linked = "gritstrut_search_tell")]
fn under_test() -> (&'static dyn Machine, &'static str) {
    (&library::Library, "the library's")
}

/// The second reading itself stands in for a library that has no search.
#[cfg(not(linked = "gritstrut_search_tell"))]
fn under_test() -> (&'static dyn Machine, &'static str) {
    use reference::search::Slip;
    (&trial::search::calls::Read(Slip::None), "the second reading's own")
}

/// Prints the table of kinds.
fn print(rows: &[Counts]) {
    let heads = [
        "runs", "rust", "calls", "convrgd", "infeas", "exhaust", "nonfin", "unfact", "relaxed",
        "reset", "taken", "still", "settled", "17", "18", "differ",
    ];
    let line = |name: &str, columns: Vec<String>| {
        let columns: String = columns.iter().map(|column| format!("{column:>9}")).collect();
        println!("{name:<18}{columns}");
    };
    line("kind", heads.map(str::to_string).to_vec());
    for (kind, row) in rows.iter().enumerate() {
        let Counts { runs, with_rust, calls, ends, ways, numbers, different, .. } = *row;
        let counts = [runs, with_rust, calls].into_iter().chain(ends).chain(ways);
        let counts = counts.chain([numbers[17], numbers[18], different]);
        let shown = |count: u64| if count == 0 { ".".into() } else { count.to_string() };
        line(name(kind), counts.map(shown).collect());
    }
}

/// Compares runs of the search.
pub fn compare(arguments: &Arguments) -> Result<bool, String> {
    let plan = Plan {
        runs: arguments.value("runs", 14_000)?,
        seed: arguments.value("seed", 1)?,
        threads: arguments.value("threads", 1)?,
        schemes: arguments.value("schemes", SCHEMES)?,
    };
    let (machine, whose) = under_test();
    println!("toolchain: {}", reference::TOOLCHAIN);
    println!("library: {LIBRARY}; the search is {whose}");
    let start = Instant::now();
    let (rows, differences) = searches(machine, &plan);
    let time = start.elapsed().as_secs_f64();
    print(&rows);
    for one in &differences {
        println!("differs: {} {}", one.kind, one.index);
        one.found.iter().take(4).for_each(|line| println!("    {line}"));
    }
    let missed = missed(&rows);
    missed.iter().for_each(|aim| println!("never reached: {aim}"));
    let Counts { runs, with_rust, calls, questions, different, .. } = total(&rows);
    println!(
        "seed {}, {runs} runs in {time:.1} s: {calls} calls, {questions} questions",
        plan.seed
    );
    println!("compared with the Rust: {with_rust} runs");
    println!("differences: {different}; aims never reached: {}", missed.len());
    Ok(different == 0 && missed.is_empty())
}
