//! The reading of settled volumes: days worked by hand, and that every slip of it is told by the
//! calls.

use reference::Rust;
use reference::call::{Answer, Call};
use reference::settle::{SLIPS, Slip, certified, refused, settled};
use reference::shape::Op;
use reference::tally;
use trial::kinds::{Share, of};

/// Calls of each kind in which a slip has to be told.
const EACH: u64 = 1_500;

fn call(sizes: [usize; 3], inputs: [&[f64]; 5]) -> Call {
    let mut inputs = inputs.map(<[f64]>::to_vec).to_vec();
    inputs.push(vec![1e-3]);
    Call::new(Op::Settle, &sizes, inputs)
}

fn told(call: &Call, slip: Slip) -> Answer {
    tally::take();
    match refused(call, slip) {
        Some((number, place)) => Answer { number, counts: vec![place], ..Answer::default() },
        None if call.op == Op::Settle => settled::<Rust>(call, slip),
        None => certified(call, slip),
    }
}

fn identity(n: usize) -> Vec<f64> {
    (0..n * n).map(|at| if at / n == at % n { 1.0 } else { 0.0 }).collect()
}

#[test]
fn days_by_hand() {
    let close = |x: &[f64], y: &[f64]| x.iter().zip(y).all(|(x, y)| (x - y).abs() < 1e-6);
    // A meter that two balances pin to zero, beside one in none.
    let vent = call(
        [4, 2, 4],
        [
            &[1338.0, 5681.0, 5680.0, 0.0],
            &[40.0, 40.0, 10.0, 0.5],
            &[0.0, -1.0, 1.0, -1.0, 0.0, -1.0, 1.0, 0.0],
            &identity(4),
            &[0.0; 4],
        ],
    );
    let vent = told(&vent, Slip::None);
    let right = [1338.0, 5680.058823529412, 5680.058823529412, 0.0];
    assert!(close(&vent.outputs[0], &right) && vent.value < Some(1e-6), "{vent:?}");
    // One balance stated twice, with coefficients whose rounding hides it.
    let row = [0.2, -5.7, 6.2];
    let twice = call(
        [3, 2, 3],
        [
            &[470.0, 3532.0, 3232.0],
            &[47.0, 353.0, 323.0],
            &[row, row].concat(),
            &identity(3),
            &[0.0; 3],
        ],
    );
    assert!(told(&twice, Slip::None).value > Some(1.0));
    // A floor 1e5 spreads away; and what is settled is certified with the same bound.
    let mut distant = call(
        [3, 1, 3],
        [&[1000.0, 0.0, 3000.0], &[0.02; 3], &[1.0, -1.0, -1.0], &identity(3), &[0.0; 3]],
    );
    let owed = told(&distant, Slip::None);
    assert!(close(&owed.outputs[0], &[2000.0, 0.0, 2000.0]) && owed.value < Some(1e-9), "{owed:?}");
    distant.inputs.truncate(5);
    distant.inputs.extend(owed.outputs);
    let back = told(&Call::new(Op::Certify, &[3, 1, 3], distant.inputs), Slip::None);
    assert_eq!(back.value, owed.value);
}

#[test]
fn slips_are_told() {
    let kinds = [of(Op::Settle), of(Op::Certify)].concat();
    for slip in SLIPS {
        let found = kinds.iter().filter(|kind| !kind.is_spoiled()).any(|kind| {
            let most = match kind.share {
                Share::All(count) => count.min(EACH),
                Share::Weight(_) => EACH,
            };
            (0..most)
                .map(|index| kind.call(1, index * 7).0)
                .any(|call| !told(&call, slip).same(&told(&call, Slip::None)))
        });
        assert!(found, "{slip:?} is not told");
    }
}
