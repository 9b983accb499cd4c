//! What a step loses where a bound is far away, counted in spreads: ours, the Rust's and NLopt's, on
//! problems whose answer is known; and what the check says of our step.

use crate::library::Lent;
#[cfg(nlopt)]
use crate::nlopt;
use crate::problems::Step;
use crate::rust;

/// The check's tolerances.
const TOLERANCES: [f64; 3] = [1e-9, 1e-6, 1e-3];

/// A problem, its answer, and the spread of each variable.
struct Case {
    problem: Step,
    exact: Vec<f64>,
    spreads: Vec<f64>,
}

/// Variables of these spreads, free of bounds and constraints.
fn free(spreads: &[f64]) -> Step {
    let n = spreads.len();
    let entry = |at: usize| if at / n == at % n { 1.0 / spreads[at / n] } else { 0.0 };
    Step {
        factor: (0..n * n).map(entry).collect(),
        gradient: vec![0.0; n],
        kinds: vec![],
        values: vec![],
        jacobian: vec![],
        lower: vec![f64::NEG_INFINITY; n],
        upper: vec![f64::INFINITY; n],
    }
}

/// One variable whose floor is z away.
fn floor(z: f64) -> Case {
    let mut problem = free(&[1.0]);
    problem.lower[0] = z;
    Case { problem, exact: vec![z], spreads: vec![1.0] }
}

/// One variable that the gradient pulls z away, and that a ceiling keeps at 0.3.
fn pulled(z: f64) -> Case {
    let mut problem = free(&[1.0]);
    problem.gradient[0] = -z;
    problem.upper[0] = 0.3;
    Case { problem, exact: vec![0.3], spreads: vec![1.0] }
}

/// Four meters around a header, two in and two out, that comes to `off`.
fn header(off: f64) -> Case {
    let spreads = [1.0, 1.0, 2.0, 0.5];
    let mut problem = free(&spreads);
    problem.kinds = vec![0];
    problem.jacobian = vec![1.0, 1.0, -1.0, -1.0];
    problem.values = vec![off];
    Case { problem, exact: vec![], spreads: spreads.to_vec() }
}

/// The header, which closes, with the floor of the last meter z of its spreads away: the others share
/// that by their spreads.
fn header_floor(z: f64) -> Case {
    let mut case = header(0.0);
    let (s, last) = (case.spreads.clone(), z * case.spreads[3]);
    let rest: f64 = s[..3].iter().map(|s| s * s).sum();
    case.problem.lower[3] = last;
    case.exact = vec![last * s[0] * s[0] / rest, last * s[1] * s[1] / rest, -last * s[2] * s[2] / rest, last];
    case
}

/// The header off by three of the first meter's spreads, with floors z spreads below each flow: none
/// of them holds.
fn header_idle(z: f64) -> Case {
    let mut case = header(3.0);
    let (s, signs) = (case.spreads.clone(), [1.0, 1.0, -1.0, -1.0]);
    let all: f64 = s.iter().map(|s| s * s).sum();
    case.exact = (0..4).map(|i| -3.0 * signs[i] * s[i] * s[i] / all).collect();
    case.problem.lower = s.iter().map(|s| -z * s).collect();
    case
}

/// Four meters, of which the first is in no balance: the second and the third are alike by one balance, and but for the
/// fourth by another, so these two alone hold the fourth at zero, where its floor is. The two that are alike are z spreads
/// of the third apart, and share that by their spreads; nothing else moves.
fn pinned(z: f64) -> Case {
    let spreads = [40.0, 40.0, 10.0, 0.5];
    let mut problem = free(&spreads);
    let off = 10.0 * z;
    problem.kinds = vec![0, 0];
    problem.jacobian = vec![0.0, -1.0, 1.0, -1.0, 0.0, -1.0, 1.0, 0.0];
    problem.values = vec![-off, -off];
    problem.lower = vec![-1338.0, f64::NEG_INFINITY, f64::NEG_INFINITY, 0.0];
    Case { problem, exact: vec![0.0, -off * 1600.0 / 1700.0, off * 100.0 / 1700.0, 0.0], spreads: spreads.to_vec() }
}

/// The largest error, and the largest violation of a bound or of the header, in spreads.
fn measured(case: &Case, d: &[f64]) -> (f64, f64) {
    let (p, s) = (&case.problem, &case.spreads);
    let largest = |values: Vec<f64>| values.into_iter().fold(0.0, f64::max);
    let n = s.len();
    let error = largest((0..n).map(|i| (d[i] - case.exact[i]).abs() / s[i]).collect());
    let below = |i: usize| (p.lower[i] - d[i]).max(d[i] - p.upper[i]) / s[i];
    let mut violations: Vec<f64> = (0..n).map(below).collect();
    for (row, value) in p.jacobian.chunks(n).zip(&p.values) {
        let sum: f64 = row.iter().zip(d).map(|(a, d)| a * d).sum();
        violations.push((sum + value).abs());
    }
    (error, largest(violations))
}

/// The multipliers of the sides that a step's own do not have: what is left of each slope, for the
/// side that can take it.
fn sides(p: &Step, d: &[f64], multipliers: &[f64]) -> [Vec<f64>; 2] {
    let n = d.len();
    let halfway = |k: usize| -> f64 { (k..n).map(|i| p.factor[i * n + k] * d[i]).sum() };
    let slope = |i: usize| -> f64 {
        let bent: f64 = (0..=i).map(|k| p.factor[i * n + k] * halfway(k)).sum();
        let terms: f64 = multipliers.iter().enumerate().map(|(j, l)| p.jacobian[j * n + i] * l).sum();
        bent + p.gradient[i] - terms
    };
    let slopes: Vec<f64> = (0..n).map(slope).collect();
    let lower = (0..n).map(|i| if p.lower[i].is_finite() { slopes[i].max(0.0) } else { 0.0 });
    let upper = (0..n).map(|i| if p.upper[i].is_finite() { (-slopes[i]).max(0.0) } else { 0.0 });
    [lower.collect(), upper.collect()]
}

fn shown(number: u32, values: (f64, f64)) -> String {
    match number {
        0 => format!("{:>9.1e} {:>9.1e}", values.0, values.1),
        _ => format!("{:>9} {:>9}", "refused", number),
    }
}

#[cfg(nlopt)]
fn peer(case: &Case) -> String {
    let mut room = nlopt::Room::new();
    match nlopt::Step::new(&case.problem).solve(&mut room) {
        true => shown(0, measured(case, &room.x[..case.spreads.len()])),
        false => format!("{:>9} {:>9}", "refused", "-"),
    }
}

#[cfg(not(nlopt))]
fn peer(_: &Case) -> String {
    format!("{:>9} {:>9}", "-", "-")
}

/// One line: the distance, error and violation of ours, whether the Rust's has the same bits, NLopt's,
/// and the test that the check names at each tolerance.
fn line(name: &str, z: f64, case: &Case) {
    let (n, m) = (case.spreads.len(), case.problem.values.len());
    let mut lent = Lent::new();
    let number = lent.step(&case.problem);
    let d = lent.first[..n].to_vec();
    let same = match rust::step(&case.problem) {
        Ok(step) => number == 0 && step.d.iter().zip(&d).all(|(a, b)| a.to_bits() == b.to_bits()),
        Err(_) => number != 0,
    };
    let multipliers = lent.second(m).to_vec();
    let verdicts = TOLERANCES.map(|tolerance| {
        if number != 0 {
            return "-".to_string();
        }
        let [lower, upper] = sides(&case.problem, &d, &multipliers);
        let verdict = lent.check(&case.problem, &d, &multipliers, &lower, &upper, tolerance);
        if verdict[0] == 0 { "yes".into() } else { verdict[0].to_string() }
    });
    let ours = shown(number, measured(case, &d));
    let same = if same { "same" } else { "OTHER" };
    println!("{name:<12} {z:>9.3e}  {ours}  {same:>5}  {}  {}", peer(case), verdicts.join(" "));
}

/// Every family at distances from 1 to 1e8, four to a power of ten; and single cases.
pub fn table() {
    println!(
        "{:<12} {:>9}  {:>9} {:>9}  {:>5}  {:>9} {:>9}  check at {}",
        "family", "distance", "ours err", "ours viol", "Rust", "NL err", "NL viol", TOLERANCES.map(|t| format!("{t:e}")).join(" ")
    );
    type Family = (&'static str, fn(f64) -> Case);
    let families: [Family; 5] =
        [("floor", floor), ("pulled", pulled), ("header", header_floor), ("idle", header_idle), ("pinned", pinned)];
    for (name, make) in families {
        for k in 0..=32 {
            let z = 10f64.powf(f64::from(k) / 4.0);
            line(name, z, &make(z));
        }
    }
    single("lower 1e5", &floor(1e5));
    single("gradient -1e6, upper 0.3", &pulled(1e6));
    single("gradient -1e7, upper 0.3", &pulled(1e7));
    let mut steep = free(&[1e-200]);
    steep.gradient[0] = 1e200;
    single("factor 1e200", &Case { problem: steep, exact: vec![-1e-200], spreads: vec![1e-200] });
}

/// One case in words.
fn single(name: &str, case: &Case) {
    let mut lent = Lent::new();
    let number = lent.step(&case.problem);
    let d = lent.first[0];
    if number != 0 {
        println!("{name}: refused {number}, right is {}", case.exact[0]);
        return;
    }
    let [lower, upper] = sides(&case.problem, &[d], &[]);
    let verdict = lent.check(&case.problem, &[d], &[], &lower, &upper, 1e-6);
    println!("{name}: d = {d}, right is {}; the check at 1e-6: test {}, part {}, index {}", case.exact[0], verdict[0], verdict[1], verdict[2]);
}
