//! The rules' days worked by hand, held against the reference.

use reference::Rust;
use reference::call::{Answer, Call, Sound, answer};
use reference::day::stored;
use reference::shape::Op;

fn day(before: &[u32], after: &[u32], spreads: &[f64], balances: &[f64], m: usize) -> Answer {
    let readings = |values: &[u32]| values.iter().map(|&value| stored(value)).collect();
    let inputs = vec![readings(before), readings(after), spreads.to_vec(), balances.to_vec()];
    answer::<Rust, Sound>(&Call::new(Op::Reconcile, &[before.len(), m], inputs))
}

/// Done, with volumes of these bits and these marks.
fn holds(found: &Answer, volumes: &[u64], marks: &[u32]) {
    assert_eq!((found.number, &found.counts[..], &found.words[..]), (0, &[][..], marks));
    let bits: Vec<u64> = found.outputs[0].iter().map(|value| value.to_bits()).collect();
    assert_eq!((found.outputs.len(), &bits[..]), (1, volumes));
}

/// Refused with a number at a place.
fn refuses(found: &Answer, number: u32, place: u32) {
    assert_eq!((found.number, &found.counts[..]), (number, &[place][..]));
    assert!(found.outputs.is_empty() && found.words.is_empty());
}

#[test]
fn volumes() {
    holds(&day(&[999_990], &[10], &[2.0], &[], 0), &[20f64.to_bits()], &[0]);
    holds(&day(&[7], &[7], &[2.0], &[], 0), &[(-0f64).to_bits()], &[0]);
    holds(&day(&[], &[], &[], &[], 0), &[], &[]);
}

#[test]
fn balances() {
    let ones = [1.0, 1.0];
    let three_to_four = day(&[999_980, 0], &[30, 100], &ones, &[3.0, -4.0], 1);
    holds(&three_to_four, &[80f64.to_bits(), 60f64.to_bits()], &[0, 0]);
    let none = day(&[0, 0], &[3, 5], &ones, &ones, 1);
    holds(&none, &[0x3ccc_48c6_001f_0ac1, 0xbccc_48c6_001f_0ac1], &[0, 1]);
    let header = day(
        &[431_250, 999_710, 20_000, 750_300],
        &[432_450, 500, 21_310, 751_000],
        &[10.0, 10.0, 20.0, 5.0],
        &[1.0, 1.0, -1.0, -1.0],
        1,
    );
    let owed = [
        0x4092_cccc_cccc_ccca,
        0x4088_c999_9999_9998,
        0x4094_44cc_cccc_cccb,
        0x4085_d999_9999_999a,
    ];
    holds(&header, &owed, &[0; 4]);
}

#[test]
fn refusals() {
    refuses(&day(&[], &[], &[], &[], 1), 11, 0);
    refuses(&day(&[0, 0], &[3, 5], &[1.0, 1.0], &[1.0, -1.0, 1.0, -1.0], 2), 11, 1);
    let amiss = |first| day(&[1, 1_000_000, 1], &[2, 2, 2], &[first, 0.0, f64::NAN], &[], 0);
    refuses(&amiss(1.0), 12, 1);
    refuses(&amiss(-1.0), 13, 0);
    refuses(&day(&[0], &[999_999], &[f64::INFINITY], &[], 0), 13, 0);
}
