//! Tries the comparison of searches: the right reading has no difference, every slip of it is told,
//! and so is what a library leaves besides; and the published least values are reached.

use reference::Rust;
use reference::call::Kernels;
use reference::search::{Ending, SLIPS, Setup, Slip};
use trial::search::calls::{Given, Machine, Pad, Read};
use trial::search::hock::{Hock, PROBLEMS};
use trial::search::{Plan, first_difference, missed, searches, total};

const PLAN: Plan = Plan { runs: 5_600, seed: 1, threads: 1, schemes: 3 };

/// Problems whose published least value the Rust does not come to: it ends in another local minimum
/// (2, 16, 20, 33), comes near a solution that is not regular (13), or stands where the equalities'
/// slopes depend on each other (61).
const ELSEWHERE: [u32; 6] = [2, 13, 16, 20, 33, 61];

#[test]
fn the_rules_reading_has_no_difference() {
    let (rows, differences) = searches(&Read(Slip::None), &PLAN);
    assert!(differences.is_empty(), "{differences:?}");
    assert!(missed(&rows).is_empty(), "{:?}", missed(&rows));
    assert_eq!(total(&rows).runs, PLAN.runs);
}

#[test]
fn every_slip_is_told() {
    for &(slip, name) in SLIPS {
        assert!(first_difference(&Read(slip), &PLAN).is_some(), "{name}");
    }
}

/// The right reading, with something touched before it.
struct Touched(fn(&mut Pad));

impl Machine for Touched {
    fn begin(&self, given: &Given, mut pad: Pad) -> u32 {
        (self.0)(&mut pad);
        Read(Slip::None).begin(given, pad)
    }

    fn tell(&self, told: &[f64], mut pad: Pad) -> u32 {
        (self.0)(&mut pad);
        Read(Slip::None).tell(told, pad)
    }
}

#[test]
fn what_is_left_besides_is_told() {
    let touched: [fn(&mut Pad); 6] = [
        |pad| *pad.variable = 0,
        |pad| pad.w.fill(0.0),
        |pad| pad.iw.fill(0),
        |pad| pad.floats[1023] = 0.5,
        |pad| pad.words[31] = 77,
        |pad| pad.floats[600] = f64::from_bits(pad.floats[600].to_bits() ^ 1),
    ];
    for (at, touch) in touched.into_iter().enumerate() {
        assert!(first_difference(&Touched(touch), &PLAN).is_some(), "{at}");
    }
}

/// The value that the Rust ends with, where it converges.
fn found(hock: &'static Hock) -> Option<f64> {
    let setup = Setup {
        n: hock.start.len(),
        m: hock.kinds.len(),
        kinds: hock.kinds.to_vec(),
        lower: hock.lower.to_vec(),
        upper: hock.upper.to_vec(),
        ftol: 1e-7,
        scheme: 0,
    };
    let run = Rust::search(&setup, hock.start, 2_000, &hock);
    (run.ending == Ending::Converged).then_some(run.report.values[0])
}

#[test]
fn published_least_values_are_reached() {
    let near = |found: f64, least: f64| (found - least).abs() <= 1e-5 * least.abs().max(1.0);
    let missed = PROBLEMS.iter().filter(|hock| !found(hock).is_some_and(|f| near(f, hock.least)));
    let missed: Vec<(u32, Option<f64>, f64)> =
        missed.map(|hock| (hock.number, found(hock), hock.least)).collect();
    let numbers: Vec<u32> = missed.iter().map(|one| one.0).collect();
    assert_eq!(numbers, ELSEWHERE, "{missed:?}");
}
