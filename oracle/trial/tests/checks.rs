//! The reading of the check: cases worked by hand, and that every slip of it is told by the calls.

use reference::call::Call;
use reference::check::{SLIPS, Slip, verdict};
use reference::shape::Op;
use trial::kinds::{Share, of};

/// Calls of each kind in which a slip has to be told.
const EACH: u64 = 4_000;

/// One variable, factor 2, and one constraint d + c of a kind: the step d with its multipliers.
fn one(kind: u8, [gradient, value, width]: [f64; 3], bounds: [f64; 2], step: [f64; 4]) -> Vec<u32> {
    let one = |x: f64| vec![x];
    let [d, multiplier, lower, upper] = step;
    let mut inputs = [2.0, gradient, value, width, 1.0, bounds[0], bounds[1]].map(one).to_vec();
    inputs.extend([d, multiplier, lower, upper, 0.5].map(one));
    let mut call = Call::new(Op::Check, &[1, 1], inputs);
    call.kinds = vec![kind];
    verdict(&call, Slip::None)
}

#[test]
fn cases_by_hand() {
    let open = [f64::NEG_INFINITY, f64::INFINITY];
    let nan = f64::NAN;
    // The slope is 4 d + gradient - multiplier: at d = 1, with -4, it is what the multiplier leaves.
    assert_eq!(one(0, [-4.0, -1.0, nan], open, [1.0, 0.5, nan, nan]), [0, 0, 0]);
    assert_eq!(one(0, [-4.0, -1.0, nan], open, [1.0, -0.75, nan, nan]), [1, 0, 0]);
    assert_eq!(one(0, [-4.0, -1.75, nan], open, [1.0, 0.0, nan, nan]), [2, 1, 0]);
    assert_eq!(one(1, [-4.0, -1.5, nan], open, [1.0, 0.0, nan, nan]), [0, 0, 0]);
    assert_eq!(one(1, [-4.0, -1.75, nan], open, [1.0, 0.0, nan, nan]), [3, 1, 0]);
    assert_eq!(one(1, [-4.0, -1.0, nan], open, [1.0, -0.25, nan, nan]), [4, 1, 0]);
    assert_eq!(one(1, [-2.0, -0.75, nan], open, [1.0, 2.0, nan, nan]), [0, 0, 0]);
    assert_eq!(one(1, [-2.0, -0.5, nan], open, [1.0, 2.0, nan, nan]), [5, 1, 0]);
    // A band from 0 to 3: its ceiling is at d = 2.
    assert_eq!(one(2, [-10.0, 1.0, 3.0], open, [2.0, -2.0, nan, nan]), [0, 0, 0]);
    assert_eq!(one(2, [-12.0, 1.0, 3.0], open, [3.0, 0.0, nan, nan]), [3, 2, 0]);
    assert_eq!(one(2, [-6.0, 1.0, 3.0], open, [1.0, -2.0, nan, nan]), [5, 2, 0]);
    // Sides: the lower one at d = 1 takes the slope, the upper one is far.
    assert_eq!(one(1, [0.0, 0.0, nan], [1.0, 9.0], [1.0, 0.0, 4.0, 0.0]), [0, 0, 0]);
    assert_eq!(one(1, [0.0, 0.0, nan], [1.0, 9.0], [1.0, 0.0, 4.25, 0.25]), [5, 4, 0]);
    assert_eq!(one(1, [-4.0, 0.0, nan], [2.0, 9.0], [1.0, 0.0, 0.0, 0.0]), [3, 3, 0]);
    assert_eq!(one(1, [-8.0, 0.0, nan], [0.0, 2.0], [2.0, 0.0, -0.0, -0.5]), [4, 4, 0]);
    assert_eq!(one(1, [-4.0, 0.0, nan], [0.0, nan], [1.0, 0.0, nan, 0.0]), [1, 0, 0]);
}

#[test]
fn a_ceiling_is_its_row() {
    let kinds = of(Op::Check);
    let kind = kinds.iter().find(|kind| kind.name == "next to a ceiling").expect("that kind");
    let calls: Vec<Call> = (0..1_000).map(|index| kind.call(1, index).0).collect();
    let told = calls
        .iter()
        .filter(|call| verdict(call, Slip::CeilingOfFloor) != verdict(call, Slip::None));
    let count = told.count();
    assert!(count > 100, "{count} of 1,000");
}

#[test]
fn slips_are_told() {
    for slip in SLIPS {
        let told = of(Op::Check).iter().filter(|kind| !kind.is_spoiled()).any(|kind| {
            let most = match kind.share {
                Share::All(count) => count.min(EACH),
                Share::Weight(_) => EACH,
            };
            (0..most).map(|index| kind.call(1, index * 7).0).any(|call| {
                let fits = call.lengths() == Op::Check.lengths(&call.sizes);
                fits && call.kinds.iter().all(|&kind| kind <= 2)
                    && verdict(&call, slip) != verdict(&call, Slip::None)
            })
        });
        assert!(told, "{slip:?} is not told");
    }
}
