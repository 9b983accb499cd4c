//! The reading of the tests of meters: plants worked by hand, and that every slip of it is told by
//! the calls.

use reference::Rust;
use reference::call::{Answer, Call};
use reference::shape::Op;
use reference::suspect::{SLIPS, Slip, refused, tested};
use reference::tally;
use trial::kinds::{Share, of};

/// Calls of each kind in which a slip has to be told.
const EACH: u64 = 1_500;

fn call(n: usize, m: usize, values: &[f64], spreads: &[f64], balances: &[f64]) -> Call {
    let inputs = [values, spreads, balances].map(<[f64]>::to_vec).to_vec();
    Call::new(Op::Suspect, &[n, m], inputs)
}

fn told(call: &Call, slip: Slip) -> Answer {
    tally::take();
    match refused(call, slip) {
        Some((number, meter)) => Answer { number, counts: vec![meter], ..Answer::default() },
        None => tested::<Rust>(call, slip),
    }
}

#[test]
fn plants_by_hand() {
    // One meter in one balance: it must be zero, and is off by two spreads.
    let one = told(&call(1, 1, &[4.0], &[2.0], &[1.0]), Slip::None);
    assert_eq!(one.outputs, [[1.0, 0.0, -2.0]]);
    assert_eq!((one.value, one.found), (Some(4.0), Some([1, 0, 0, 1])));
    assert_eq!((one.words, one.seconds), (vec![0], vec![2]));
    // Two that must be equal, of spreads 3 and 4, are 5 apart: one spread of the difference.
    let two = told(&call(2, 1, &[105.0, 100.0], &[3.0, 4.0], &[1.0, -1.0]), Slip::None);
    let close = |x: f64, y: f64| (x - y).abs() < 1e-14;
    let owed = [0.36, 0.64, 2.4, 2.4, -1.0, 1.0];
    assert!(two.outputs[0].iter().zip(owed).all(|(&x, y)| close(x, y)), "{two:?}");
    assert!(close(two.value.unwrap_or(0.0), 1.0));
    assert_eq!(two.found.map(|found| found[2]), Some(1));
    assert_eq!((two.words, two.seconds), (vec![0, 0], vec![0, 0]));
    // No balance: nothing is checked.
    let none = told(&call(1, 0, &[4.0], &[2.0], &[]), Slip::None);
    assert_eq!((none.outputs, none.found), (vec![vec![0.0, 2.0, 0.0]], Some([0, 0, 0, 0])));
}

#[test]
fn slips_are_told() {
    for slip in SLIPS {
        let found = of(Op::Suspect).iter().filter(|kind| !kind.is_spoiled()).any(|kind| {
            let most = match kind.share {
                Share::All(count) => count.min(EACH),
                Share::Weight(_) => EACH,
            };
            (0..most)
                .map(|index| kind.call(1, index * 7).0)
                .any(|call| !told(&call, slip).same(&told(&call, Slip::None)))
        });
        assert!(found, "{slip:?} is not told");
    }
}
