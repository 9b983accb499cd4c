//! Two valves of equal percentage feed a nitrogen header: which openings and which pressure in the header meet a demand of
//! 520 m3/h, leave each compressor its least flow, and lie nearest to their set points? examples/valves.c is the same in C.
//!
//!     cargo run --example valves

use gritstrut::{Aim, ConstraintKind, Ending, Failure, Search, Slopes};

const SET_POINTS: [f64; 3] = [0.60, 0.55, 6.0];
const SIZES: [f64; 2] = [900.0, 700.0];
const SUPPLIES: [f64; 2] = [8.0, 7.2];
const LEAST: [f64; 2] = [150.0, 190.0];
const DEMAND: f64 = 520.0;
const RANGE: f64 = 50.0;

fn flow(valve: usize, x: &[f64]) -> f64 {
    SIZES[valve] * RANGE.powf(x[valve] - 1.0) * (SUPPLIES[valve] - x[2]).sqrt()
}

fn flow_slope(valve: usize, variable: usize, x: &[f64]) -> f64 {
    match variable {
        2 => -0.5 * flow(valve, x) / (SUPPLIES[valve] - x[2]),
        _ if variable == valve => RANGE.ln() * flow(valve, x),
        _ => 0.0,
    }
}

/// Function 0 is the distance from the set points, 1 the balance, 2 and 3 the spare flows.
fn value(function: usize, x: &[f64]) -> f64 {
    match function {
        0 => x.iter().zip(&SET_POINTS).map(|(x, point)| (x - point) * (x - point)).sum(),
        1 => flow(0, x) + flow(1, x) - DEMAND,
        _ => flow(function - 2, x) - LEAST[function - 2],
    }
}

fn slopes(function: usize, x: &[f64], row: &mut [f64]) {
    for (i, slope) in row.iter_mut().enumerate() {
        *slope = match function {
            0 => 2.0 * (x[i] - SET_POINTS[i]),
            1 => flow_slope(0, i, x) + flow_slope(1, i, x),
            _ => flow_slope(function - 2, i, x),
        };
    }
}

pub fn find(scheme: Slopes) -> Result<(Ending, Vec<f64>), Failure> {
    let aim = Aim {
        x0: &SET_POINTS,
        kinds: &[ConstraintKind::Eq, ConstraintKind::Ineq, ConstraintKind::Ineq],
        lower: &[0.05, 0.05, 5.5],
        upper: &[1.0, 1.0, 6.5],
        ftol: 1e-9,
        budget: 200,
        slopes: scheme,
    };
    let mut search = Search::begin(&aim)?;
    let ending = search.run(value, slopes)?;
    Ok((ending, search.x().to_vec()))
}

#[allow(dead_code)]
fn main() {
    match find(Slopes::Told) {
        Ok((ending, x)) => println!("{ending:?}: openings {:.4} and {:.4}, header at {:.4} bar", x[0], x[1], x[2]),
        Err(failure) => println!("refused {}: {failure}", failure.number()),
    }
}
