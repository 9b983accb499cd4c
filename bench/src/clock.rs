//! Times of this thread's own work, so that what else the machine does counts little.

#[repr(C)]
struct Timespec {
    seconds: i64,
    nanoseconds: i64,
}

/// Linux's number for the processor time of the calling thread.
const CLOCK_THREAD_CPUTIME_ID: i32 = 3;

unsafe extern "C" {
    fn clock_gettime(clock: i32, time: *mut Timespec) -> i32;
}

fn now() -> f64 {
    let mut time = Timespec { seconds: 0, nanoseconds: 0 };
    let status = unsafe { clock_gettime(CLOCK_THREAD_CPUTIME_ID, &mut time) };
    assert_eq!(status, 0, "no clock of the thread's processor time");
    time.seconds as f64 + 1e-9 * time.nanoseconds as f64
}

pub fn seconds(run: &mut dyn FnMut() -> usize) -> f64 {
    let start = now();
    std::hint::black_box(run());
    now() - start
}

/// The value that the given share of the list lies below.
pub fn quantile(list: &[f64], share: f64) -> f64 {
    let mut sorted = list.to_vec();
    sorted.sort_by(f64::total_cmp);
    sorted[((sorted.len() - 1) as f64 * share) as usize]
}

/// Median seconds of each side over interleaved runs, and how far the ratios of the first side
/// to the second within one run spread: the middle half of them, as a share of the median one.
pub fn medians(sides: &mut [crate::sets::Side], runs: usize) -> (Vec<f64>, f64) {
    let mut times = vec![vec![0.0; runs]; sides.len()];
    for run in 0..runs {
        for turn in 0..sides.len() {
            // Another side begins each time, so that none always finds the caches of the same one.
            let at = (run + turn) % sides.len();
            times[at][run] = seconds(&mut sides[at].run);
        }
    }
    let ratios: Vec<f64> = times[0].iter().zip(&times[1]).map(|(a, b)| a / b).collect();
    let spread = (quantile(&ratios, 0.75) - quantile(&ratios, 0.25)) / quantile(&ratios, 0.5);
    (times.iter().map(|list| quantile(list, 0.5)).collect(), spread)
}
