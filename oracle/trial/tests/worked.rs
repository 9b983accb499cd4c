//! The rules' cases worked by hand, held against the reference and its reading of records.

use reference::Rust;
use reference::call::{Answer, Call, Sound, answer};
use reference::shape::Op;
use reference::tally::NOWHERE;
use trial::records::{Slip, owed};

fn call(op: Op, sizes: &[usize], inputs: &[&[f64]]) -> Call {
    Call::new(op, sizes, inputs.iter().map(|values| values.to_vec()).collect())
}

fn answered(op: Op, sizes: &[usize], inputs: &[&[f64]]) -> Answer {
    answer::<Rust, Sound>(&call(op, sizes, inputs))
}

fn bits(values: &[f64]) -> Vec<u64> {
    values.iter().map(|value| value.to_bits()).collect()
}

/// The outputs by their bits, and the counts.
fn holds(found: &Answer, outputs: &[&[f64]], counts: &[u32]) {
    assert_eq!(found.number, 0);
    let held: Vec<_> = found.outputs.iter().map(|values| bits(values)).collect();
    let owed: Vec<_> = outputs.iter().map(|values| bits(values)).collect();
    assert_eq!((held, &found.counts[..]), (owed, counts));
}

#[test]
fn nnls() {
    let solve = |m, n, k, a: &[f64], b: &[f64]| answered(Op::Nnls, &[m, n, k], &[a, b]);
    holds(&solve(1, 1, 3, &[1.0], &[2.0]), &[&[2.0]], &[1, 1]);
    assert_eq!(solve(1, 1, 0, &[1.0], &[2.0]).number, 7);
    holds(&solve(1, 1, 0, &[1.0], &[-2.0]), &[&[0.0]], &[0, 0]);
    holds(&solve(1, 2, 6, &[1.0, 1.0], &[2.0]), &[&[0.0, 2.0]], &[1, 1]);
    holds(&solve(1, 0, 0, &[], &[2.0]), &[&[]], &[0, 0]);
    assert_eq!(solve(1, 1, 4, &[1.0], &[2.0]).number, 1);
}

#[test]
fn ldp() {
    assert_eq!(answered(Op::Ldp, &[1, 1], &[&[0.0], &[1.0]]).number, 6);
}

#[test]
fn hessian() {
    let cholesky = |b: &[f64]| answered(Op::Cholesky, &[2], &[b]);
    holds(&cholesky(&[4.0, 2.0, 2.0, 5.0]), &[&[2.0, 0.0, 1.0, 2.0]], &[]);
    assert_eq!(cholesky(&[1.0, 2.0, 2.0, 1.0]).number, 8);
    let identity = answered(Op::Identity, &[16], &[]).outputs[0].clone();
    holds(&answered(Op::Cholesky, &[16], &[&identity]), &[&identity], &[]);
    assert_eq!(answered(Op::Identity, &[17], &[]).number, 1);
    let update = |s: f64| answered(Op::Update, &[1], &[&[1.0], &[s], &[4.0]]);
    holds(&update(2.0), &[&[2.0]], &[]);
    holds(&update(0.0), &[&[1.0]], &[]);
    assert!(update(f64::NAN).outputs[0][0].is_nan());
}

#[test]
fn workspaces() {
    let mut call = call(Op::Ldp, &[1, 1], &[&[1.0], &[1.0]]);
    call.work = [8191, 512];
    assert_eq!(answer::<Rust, Sound>(&call).number, 3);
    call.work = [8192, 512];
    assert_eq!(answer::<Rust, Sound>(&call).number, 0);
}

#[test]
fn two_equalities_on_one_variable() {
    let none: &[f64] = &[0.0, 0.0];
    let inputs: [&[f64]; 7] =
        [&[1.0], &[1.0], none, none, none, &[f64::NEG_INFINITY], &[f64::INFINITY]];
    let found = answered(Op::Step, &[1, 2], &inputs);
    assert_eq!((found.number, found.tally.relaxed), (0, 1));
    assert_eq!(found.words[..4], [11, 0, 0, NOWHERE]);
}

/// LSI on columns of which the first is twice the second, a third that is nothing, and too few rows.
#[test]
fn place_of_a_column() {
    let place = |n, me, e: &[f64]| {
        let f = vec![1.0; me];
        let found = answered(Op::Lsi, &[n, me, 0], &[e, &f, &[], &[]]);
        (found.number, found.counts)
    };
    assert_eq!(place(2, 2, &[2.0, 1.0, 2.0, 1.0]), (5, vec![1]));
    assert_eq!(place(2, 2, &[1.0, 2.0, 1.0, 2.0]), (5, vec![0]));
    assert_eq!(place(3, 3, &[1.0, 0.0, 0.0, 0.0, 0.0, 2.0, 0.0, 0.0, 0.0]), (5, vec![1]));
    assert_eq!(place(2, 1, &[1.0, 2.0]), (5, vec![0]));
    assert_eq!(place(2, 0, &[]), (5, vec![0]));
    assert_eq!(place(1, 1, &[f64::NAN]), (5, vec![0]));
    assert_eq!(place(2, 2, &[1.0, 0.0, 0.0, 1.0]), (0, vec![]));
}

/// LSEI on equalities that stand twice, or are more than the variables, and on E below them.
#[test]
fn place_of_an_equality() {
    let place = |n, mc, c: &[f64], e: &[f64]| {
        let (me, d) = (e.len().checked_div(n).unwrap_or(0), vec![1.0; mc]);
        let f = vec![1.0; me];
        let found = answered(Op::Lsei, &[n, mc, me, 0], &[c, &d, e, &f, &[], &[]]);
        (found.number, found.counts)
    };
    let unit = [1.0, 0.0, 0.0, 1.0];
    assert_eq!(place(2, 2, &[1.0, 1.0, 1.0, 1.0], &unit), (11, vec![1]));
    assert_eq!(place(2, 2, &[1.0, 1.0, 2.0, 2.0], &unit), (11, vec![0]));
    assert_eq!(place(1, 2, &[1.0, 1.0], &[1.0]), (11, vec![1]));
    assert_eq!(place(0, 1, &[], &[]), (11, vec![0]));
    assert_eq!(place(2, 1, &[1.0, 0.0], &[1.0, 0.0, 1.0, 0.0]), (5, vec![0]));
    assert_eq!(place(2, 1, &[1.0, 0.0], &unit), (0, vec![]));
}

/// What a step says of itself: an unconstrained one factors C', of no columns, and E; a balance that
/// stands twice after an inequality is counted among the equalities; and both stages can fail.
#[test]
fn reports() {
    let open = [[f64::NEG_INFINITY; 2], [f64::INFINITY; 2]];
    let report = |kinds: &[u8], values: &[f64], jacobian: &[f64], factor: &[f64]| {
        let inputs: [&[f64]; 7] =
            [factor, &[1.0, 1.0], values, values, jacobian, &open[0], &open[1]];
        let mut call = call(Op::Step, &[2, kinds.len()], &inputs);
        call.kinds = kinds.to_vec();
        let found = answer::<Rust, Sound>(&call);
        (found.number, found.words)
    };
    let unit = [1.0, 0.0, 0.0, 1.0];
    assert_eq!(report(&[], &[], &[], &unit), (0, vec![0, NOWHERE, 0, NOWHERE, 0, 2]));
    let jacobian = [1.0, 0.0, 1.0, 1.0, 1.0, 1.0];
    let (number, words) = report(&[1, 0, 0], &[1.0, 0.0, 0.0], &jacobian, &unit);
    assert_eq!((number, &words[..4]), (0, &[11, 1, 0, NOWHERE][..]));
    let (number, words) = report(&[1, 0, 0], &[1.0, 0.0, 0.0], &jacobian, &[1.0, 0.0, 0.0, 0.0]);
    assert_eq!((number, words), (5, vec![11, 1, 5, 1, 0, 2]));
    let mut call = call(Op::Step, &[1, 0], &[&[1.0], &[1.0], &[], &[], &[], &[0.0], &[1.0]]);
    for (words, number) in [(5, 2), (6, 0), (7, 2), (0, 2)] {
        call.words = words;
        assert_eq!(answer::<Rust, Sound>(&call).number, number);
    }
    (call.words, call.work[0]) = (5, 8191);
    assert_eq!(answer::<Rust, Sound>(&call).number, 2);
    call.sizes[0] = 17;
    assert_eq!(answer::<Rust, Sound>(&call).number, 1);
}

/// A band of one variable: its floor, its ceiling, neither or a width that is none, and that no
/// other constraint reads a width.
#[test]
fn a_band() {
    let found = |kind: u8, value: f64, width: f64, row: f64| {
        let inputs: [&[f64]; 7] =
            [&[1.0], &[1.0], &[value], &[width], &[row], &[f64::NEG_INFINITY], &[f64::INFINITY]];
        let mut call = call(Op::Step, &[1, 1], &inputs);
        call.kinds = vec![kind];
        answer::<Rust, Sound>(&call)
    };
    let held = |value: f64, width: f64, row: f64| found(2, value, width, row).outputs;
    assert_eq!(held(4.0, 8.0, 1.0), [[-1.0], [0.0]]);
    assert_eq!(held(0.25, 4.0, 1.0), [[-0.25], [0.75]]);
    assert_eq!(held(0.0, 0.25, -1.0), [[-0.25], [-0.75]]);
    for width in [f64::NAN, f64::INFINITY, f64::NEG_INFINITY, -1.0, -f64::MIN_POSITIVE] {
        assert_eq!(found(2, 0.0, width, 1.0).number, 14);
        assert_eq!(found(3, 0.0, width, 1.0).number, 4);
        assert!(found(1, 0.0, width, 1.0).same(&found(1, 0.0, 1.0, 1.0)));
        assert!(found(0, 0.0, width, 1.0).same(&found(0, 0.0, 1.0, 1.0)));
    }
    assert_eq!(found(2, 0.0, -0.0, 1.0).number, 0);
}

#[test]
fn record_program() {
    let mut bytes = [0u8; 32];
    (bytes[0], bytes[4], bytes[16]) = (0x44, 1, 0x47);
    bytes[30..].copy_from_slice(&[0xf0, 0x3f]);
    let text = owed(&bytes, Slip::None).0;
    assert_eq!(text, "ok\nrelaxation 0000000000000000\nd 0 bff0000000000000\n");
    assert_eq!(owed(&[], Slip::None).0, "refused 9 at 0\n");
}
