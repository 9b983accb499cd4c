//! Four meters around one header: what comes in from two generators goes out to two vessels.
//!
//!     cargo run --example meters
//!
//! The corrections of the measured flows are the least squares, each weighed by its meter's spread, such that the corrected
//! flows balance and none is below zero. examples/meters.c is the same in C.

use gritstrut::{Checked, Constraint, Failure, Problem, Verdict};

pub fn report() -> Result<String, Failure> {
    let names = ["generator A", "generator B", "vessel 1", "vessel 2"];
    let measured = [120.4, 79.1, 131.9, 70.2];
    let spread = [1.0, 1.0, 2.0, 0.5];
    let header = [1.0, 1.0, -1.0, -1.0];

    let mut factor = [0.0; 16];
    for i in 0..4 {
        factor[i * 4 + i] = 1.0 / spread[i];
    }
    let balance = header.iter().zip(&measured).fold(0.0, |sum, (sign, flow)| sum + sign * flow);
    let problem = Problem {
        factor: &factor,
        gradient: &[0.0; 4],
        constraints: &[Constraint::Equality],
        values: &[balance],
        jacobian: &header,
        lower: &measured.map(|flow| -flow),
        upper: &[f64::INFINITY; 4],
    };
    let step = problem.solve()?;
    // A step can come out although a balance stands twice; its place counts the equalities alone.
    if let Some(Failure::Dependent { equality }) = step.report.exact.failure {
        return Ok(format!("balance {equality} follows from the other balances: was one entered twice?\n"));
    }
    let mut text = format!("{:<12} {:>10} {:>10}\n", "meter", "measured", "corrected");
    let mut left = 0.0;
    for i in 0..4 {
        text += &format!("{:<12} {:>10.3} {:>10.3}\n", names[i], measured[i], measured[i] + step.d[i]);
        left += header[i] * (measured[i] + step.d[i]);
    }
    let (multiplier, relaxation) = (step.multipliers[0], step.relaxation);
    text += &format!("header: {balance:.3} before, {left:.3} after; multiplier {multiplier:.6}, relaxation {relaxation:.3}\n");
    let (lowers, uppers) = problem.sides(&step.d, &step.multipliers);
    let checked =
        Checked { d: &step.d, multipliers: &step.multipliers, lower_multipliers: &lowers, upper_multipliers: &uppers };
    Ok(match problem.check(&checked, 1e-6)? {
        Verdict::Yes => text + "the check: yes\n",
        Verdict::No(test, part) => text + &format!("the check: no, {test:?} of {part:?}\n"),
    })
}

#[allow(dead_code)]
fn main() {
    match report() {
        Ok(text) => print!("{text}"),
        Err(failure) => println!("refused {}: {failure}", failure.number()),
    }
}
