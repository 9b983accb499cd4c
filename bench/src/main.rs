//! Times the library, the Rust and NLopt on the same inputs, in one process, in turn.
//!
//!     bench                      every set: medians over interleaved runs, and their ratios
//!     bench growth               the same for steps with 0 to 16 active rows
//!     bench forms                B as its lower triangle beside the square, both ours
//!     bench scan                 what a factoring of a step takes, and the most that its sizes allow
//!     bench search               whole searches, our machine beside the Rust's loop
//!     bench accuracy             error and violation of steps whose bounds are far away, and the check
//!     bench names [growth]       each set, a side that does it and the number of calls
//!     bench count SET WHO N      one side goes through one set N times, for an instruction count
//!     bench nnls FILE            writes the NNLS problems and our answers, for SciPy

mod accuracy;
mod clock;
mod library;
#[cfg(nlopt)]
mod nlopt;
mod problems;
mod rust;
mod sets;

use sets::Planned;

include!(concat!(env!("OUT_DIR"), "/tree.rs"));

/// Runs of each side; the sides take turns.
const RUNS: usize = 101;

/// One row: microseconds for one call of each side, and ours as a share of the others'.
fn row(plan: &Planned) {
    let (name, mut set) = (&plan.name, (plan.make)());
    let told: Vec<usize> = set.sides.iter_mut().map(|side| (side.run)()).collect();
    assert_eq!(told[0], told[1], "{name}: the library and the Rust differ");
    let (medians, spread) = clock::medians(&mut set.sides, RUNS);
    let each = 1e6 / set.calls as f64;
    let shown = |value: Option<f64>, digits: usize| value.map_or("-".into(), |v| format!("{v:.digits$}"));
    let peer = medians.get(2);
    println!(
        "{:<23} {:>5} {:>6} {:>7} {:>10} {:>10} {:>10} {:>9} {:>9} {:>6.1}% {:>8}",
        name,
        set.calls,
        told[0],
        set.factorings.map_or("-".into(), |(most, _)| most.to_string()),
        shown(Some(medians[0] * each), 3),
        shown(Some(medians[1] * each), 3),
        shown(peer.map(|peer| peer * each), 3),
        shown(Some(medians[0] / medians[1]), 2),
        shown(peer.map(|peer| medians[0] / peer), 2),
        100.0 * spread,
        set.away.map_or("-".into(), |away| format!("{away:.0e}")),
    );
}

fn table(sets: Vec<Planned>) {
    println!(
        "{:<23} {:>5} {:>6} {:>7} {:>10} {:>10} {:>10} {:>9} {:>9} {:>7} {:>8}",
        "set", "calls", "done", "factor", "ours, us", "Rust, us", "NLopt, us", "ours/Rust", "ours/NL", "spread", "NL away"
    );
    sets.iter().for_each(row);
}

/// The two forms of B: microseconds for one call of each, and the ratio.
fn forms(sets: Vec<Planned>) {
    println!("{:<15} {:>10} {:>10} {:>13} {:>7}", "set", "packed, us", "square, us", "packed/square", "spread");
    for plan in sets {
        let mut set = (plan.make)();
        let told: Vec<usize> = set.sides.iter_mut().map(|side| (side.run)()).collect();
        assert_eq!(told[0], told[1], "{}: the forms differ", plan.name);
        let (medians, spread) = clock::medians(&mut set.sides, RUNS);
        let each = 1e6 / set.calls as f64;
        let (packed, square) = (medians[0] * each, medians[1] * each);
        let (name, ratio, spread) = (&plan.name, packed / square, 100.0 * spread);
        println!("{name:<15} {packed:>10.3} {square:>10.3} {ratio:>13.2} {spread:>6.1}%");
    }
}

/// Steps of ours: microseconds for a step and for a factoring, the bound on factorings, and the milliseconds that so many take.
fn scan(sets: Vec<Planned>) {
    println!("{:<23} {:>9} {:>10} {:>13} {:>7} {:>13}", "set", "step, us", "factorings", "factoring, us", "bound", "at bound, ms");
    for plan in sets {
        let mut set = (plan.make)();
        let (Some((_, factorings)), Some(bound)) = (set.factorings, set.bound) else { continue };
        let times: Vec<f64> = (0..RUNS).map(|_| clock::seconds(&mut set.sides[0].run)).collect();
        let (time, calls) = (1e6 * clock::quantile(&times, 0.5), set.calls as f64);
        let (each, one, mean) = (time / calls, time / f64::from(factorings), f64::from(factorings) / calls);
        let (name, most) = (&plan.name, 1e-3 * one * bound as f64);
        println!("{name:<23} {each:>9.2} {mean:>10.1} {one:>13.3} {bound:>7} {most:>13.2}");
    }
}

fn names(sets: Vec<Planned>) {
    for plan in sets {
        let set = (plan.make)();
        set.sides.iter().for_each(|side| println!("{}\t{}\t{}", plan.name, side.who, set.calls));
    }
}

fn count(name: &str, who: &str, times: usize) {
    let plan = sets::all().into_iter().chain(sets::growth()).find(|plan| plan.name == name);
    let set = (plan.expect("a set of that name").make)();
    let mut side = set.sides.into_iter().find(|side| side.who == who).expect("ours, rust or nlopt");
    let told: usize = (0..times).map(|_| (side.run)()).sum();
    println!("{name}, {who}: {times} times {} calls, {told} done", set.calls);
}

/// Three words (count, m, n), then a, b and our x of each problem; all little-endian.
fn write_nnls(file: &str) -> std::io::Result<()> {
    let (problems, mut lent) = (sets::least_squares_problems(), library::Lent::new());
    let mut bytes = Vec::new();
    for word in [problems.len(), problems[0].m, problems[0].n] {
        bytes.extend((word as u64).to_le_bytes());
    }
    for p in &problems {
        assert_eq!(lent.nnls(p), 0);
        for value in p.a.iter().chain(&p.b).chain(&lent.first[..p.n]) {
            bytes.extend(value.to_le_bytes());
        }
    }
    std::fs::write(file, bytes)
}

fn main() {
    let words: Vec<String> = std::env::args().skip(1).collect();
    let words: Vec<&str> = words.iter().map(String::as_str).collect();
    match words[..] {
        [] => table(sets::all()),
        ["growth"] => table(sets::growth()),
        ["forms"] => forms(sets::forms()),
        ["scan"] => scan(sets::all()),
        ["search"] => table(sets::whole()),
        ["accuracy"] => accuracy::table(),
        ["names"] => names(sets::all()),
        ["names", "growth"] => names(sets::growth()),
        ["count", name, who, times] => count(name, who, times.parse().expect("a number")),
        ["nnls", file] => write_nnls(file).expect("the file written"),
        _ => panic!("see the first lines of bench/src/main.rs"),
    }
}
