//! The day's reconciliation by docs/RULES.md, "The day": the tests of the meters, the problem that
//! LSEI is handed, and the marks.

use crate::call::{Call, Edge};

/// The largest reading of a totaliser.
pub const LARGEST: u32 = 999_999;

/// A reading as the inputs of a call hold it: a float whose bits are the number.
pub fn stored(reading: u32) -> f64 {
    f64::from_bits(u64::from(reading))
}

/// The reading that an input holds.
pub fn reading(value: f64) -> u32 {
    value.to_bits() as u32
}

/// New minus old, plus 1,000,000 where that is below zero.
pub fn volume(old: u32, new: u32) -> f64 {
    let difference = f64::from(new) - f64::from(old);
    if difference < 0.0 { difference + 1e6 } else { difference }
}

/// Why a meter is refused: 12 for a reading, then 13 for its spread.
pub fn fault(old: u32, new: u32, spread: f64) -> Option<u32> {
    if old.max(new) > LARGEST {
        return Some(12);
    }
    (!spread.is_finite() || spread <= 0.0).then_some(13)
}

/// Whether a meter is named.
pub fn is_named(volume: f64) -> bool {
    volume < 0.0 || volume.is_nan()
}

/// Old and new reading and spread of each meter.
fn meters(call: &Call) -> Vec<(u32, u32, f64)> {
    let readings = call.inputs[0].iter().zip(&call.inputs[1]).zip(&call.inputs[2]);
    readings.map(|((&old, &new), &spread)| (reading(old), reading(new), spread)).collect()
}

/// The lowest meter that is refused, with its number.
pub fn refused<E: Edge>(call: &Call) -> Option<(u32, u32)> {
    let meters = meters(call).into_iter().enumerate();
    let mut faults = meters.map(|(i, (old, new, spread))| (E::fault(old, new, spread), i as u32));
    faults.find_map(|(number, meter)| Some((number?, meter)))
}

/// The n by n matrix with these values on its diagonal.
fn diagonal(values: &[f64]) -> Vec<f64> {
    let n = values.len();
    let entry = |at: usize| if at / n == at % n { values[at / n] } else { 0.0 };
    (0..n * n).map(entry).collect()
}

/// LSEI's sizes and inputs.
pub fn problem<E: Edge>(call: &Call) -> (Vec<usize>, Vec<Vec<f64>>) {
    let (n, m, meters) = (call.sizes[0], call.sizes[1], meters(call));
    let scales: Vec<f64> = meters.iter().map(|meter| E::scale(meter.2)).collect();
    let target = |&(old, new, spread): &(u32, u32, f64)| E::target(E::volume(old, new), spread);
    let targets = meters.iter().map(target).collect();
    let floors = diagonal(&vec![1.0; n]);
    let balances = call.inputs[3].clone();
    let inputs = vec![balances, vec![0.0; m], diagonal(&scales), targets, floors, vec![0.0; n]];
    (vec![n, m, n, n], inputs)
}
