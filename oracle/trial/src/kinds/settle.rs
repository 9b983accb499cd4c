//! Kinds for settled and certified volumes.

use super::parts::{put_row, strew, units};
use super::{Row, Share};
use crate::draw::{Draw, Palette};
use crate::table::Aim::{Certain, Nan, Number, Place, Uncertain};
use reference::Rust;
use reference::call::{Call, Sound, answer};
use reference::settle::TOLERANCE;
use reference::shape::Op;

const VALUES: usize = 0;
const SPREADS: usize = 1;
const BALANCES: usize = 2;
const LIMITS: usize = 3;
const LEAST: usize = 4;

/// Values, balances and limits at most.
const MOST: [usize; 3] = [16, 16, 48];

pub const ROWS: &[Row] = &[
    ("every size", Share::All(17 * 17 * 49), &[Number(0), Number(11)], |op, index, draw| {
        let sizes = [index / (17 * 49), index / 49 % 17, index % 49].map(|size| size as usize);
        let [n, m, p] = sizes;
        let rows = [m * n, p * n].map(|count| draw.reals(Palette::Smooth, count));
        let least = (0..p).map(|_| -20.0 * draw.fraction()).collect();
        let values = (0..n).map(|_| 10.0 * draw.smooth()).collect();
        day(op, draw, sizes, values, rows, least)
    }),
    ("closing", Share::Weight(8), &[Number(0), Certain], |op, _, draw| plant(op, draw)),
    ("idle", Share::Weight(8), &[Number(0), Certain, Uncertain], |op, _, draw| {
        let mut call = plant(op, draw);
        for value in &mut call.inputs[VALUES] {
            *value = if draw.one_in(3) { 0.0 } else { *value };
        }
        call
    }),
    ("pinned", Share::Weight(8), &[Number(0), Certain], pinned),
    ("gross", Share::Weight(8), &[Number(0), Certain, Uncertain], |op, _, draw| gross(op, draw)),
    ("limits hold", Share::Weight(8), &[Number(0), Certain, Uncertain], holding),
    ("far away", Share::Weight(6), &[Number(0), Number(6), Certain], far),
    ("limits contradict", Share::Weight(4), &[Number(0), Number(6)], against),
    ("balance twice", Share::Weight(4), &[Number(0), Number(11), Place(11)], twice),
    ("limit twice", Share::Weight(5), &[Number(0), Certain], |op, index, draw| {
        let mut call = holding(op, index, draw);
        let (n, p) = (call.sizes[0], call.sizes[2]);
        for _ in 0..draw.between(1, 3) {
            let (from, to) = (draw.below(p), draw.below(p));
            put_row(&mut call.inputs[LIMITS], n, from, to, 1.0);
            call.inputs[LEAST][to] = call.inputs[LEAST][from];
        }
        call
    }),
    ("nearly closing", Share::Weight(4), &[Number(0), Uncertain], |op, _, draw| {
        let mut call = plant(op, draw);
        let near = |c: &mut f64| *c *= 1.0 + draw.smooth() * draw.power(-50, -30);
        call.inputs[BALANCES].iter_mut().for_each(near);
        call
    }),
    ("spreads apart", Share::Weight(6), &[Number(0), Certain, Uncertain], |op, _, draw| {
        let mut call = plant(op, draw);
        call.inputs[SPREADS].iter_mut().for_each(|spread| *spread *= draw.power(-15, 15));
        call
    }),
    ("spreads in units", Share::Weight(4), &[Number(0), Number(5)], |op, _, draw| {
        let mut call = plant(op, draw);
        call.inputs[SPREADS] = units(draw, call.sizes[0]);
        call
    }),
    ("tolerances", Share::Weight(5), &[Number(0)], |op, _, draw| {
        let mut call = gross(op, draw);
        let any = draw.power(-50, 10);
        call.inputs[TOLERANCE][0] = draw.pick(&[0.0, -0.0, any, 5e-324, f64::INFINITY]);
        call
    }),
    ("smooth rows", Share::Weight(5), &[Number(0), Certain], |op, _, draw| {
        rows(op, draw, Palette::Smooth)
    }),
    ("whole rows", Share::Weight(5), &[Number(0), Certain], |op, _, draw| {
        rows(op, draw, Palette::Whole)
    }),
    ("wide rows", Share::Weight(4), &[Number(0), Uncertain], |op, _, draw| {
        rows(op, draw, Palette::Wide)
    }),
    ("vast rows", Share::Weight(3), &[Number(0), Uncertain], |op, _, draw| {
        rows(op, draw, Palette::Vast)
    }),
    ("one special", Share::Weight(6), &[Number(0), Nan, Uncertain], |op, _, draw| {
        let mut call = plant(op, draw);
        strew(draw, &mut call.inputs[BALANCES..LEAST], 1);
        call
    }),
    ("value amiss", Share::Weight(4), &[Number(12), Place(12)], |op, _, draw| {
        let mut call = plant(op, draw);
        wrong_value(&mut call, draw);
        call
    }),
    ("spread amiss", Share::Weight(4), &[Number(13), Place(13)], |op, _, draw| {
        let mut call = plant(op, draw);
        wrong_spread(&mut call, draw);
        call
    }),
    ("least amiss", Share::Weight(4), &[Number(15), Place(15)], |op, _, draw| {
        let mut call = plant(op, draw);
        wrong_least(&mut call, draw);
        call
    }),
    ("several amiss", Share::Weight(5), &[Number(12), Number(13), Number(15)], |op, _, draw| {
        let mut call = plant(op, draw);
        for _ in 0..draw.between(1, 3) {
            draw.pick(&[wrong_value, wrong_spread, wrong_least])(&mut call, draw);
        }
        call
    }),
    ("any bits", Share::Weight(4), &[Number(0), Number(5), Number(11)], |op, _, draw| {
        let mut call = rows(op, draw, Palette::Bits);
        call.inputs[VALUES] = draw.reals(Palette::Bits, call.sizes[0]);
        let spreads = draw.reals(Palette::Bits, call.sizes[0]);
        call.inputs[SPREADS] = spreads.into_iter().map(f64::abs).collect();
        call
    }),
];

pub const CERTIFY: &[Row] = &[
    ("settled", Share::Weight(10), &[Number(0), Certain, Uncertain], |_, index, draw| {
        let of = draw.pick(&[
            |op: Op, _: u64, draw: &mut Draw| plant(op, draw),
            |op: Op, _: u64, draw: &mut Draw| gross(op, draw),
            holding,
            pinned,
        ]);
        certifying(of(Op::Settle, index, draw))
    }),
    ("nearly settled", Share::Weight(8), &[Number(0), Uncertain], |_, _, draw| {
        let mut call = certifying(plant(Op::Settle, draw));
        let near = |value: &mut f64| *value *= 1.0 + draw.smooth() * draw.power(-52, -10);
        call.inputs[5..].iter_mut().flatten().for_each(near);
        call
    }),
    ("from anywhere", Share::Weight(6), &[Number(0), Uncertain], |_, index, draw| {
        let mut call = certifying(holding(Op::Settle, index, draw));
        for at in [5, 6] {
            let count = call.inputs[at].len();
            call.inputs[at] = draw.reals(Palette::Smooth, count);
        }
        call
    }),
    ("below zero", Share::Weight(4), &[Number(0), Uncertain], |_, index, draw| {
        let mut call = certifying(holding(Op::Settle, index, draw));
        let at = call.sizes[1] + draw.below(call.sizes[2]);
        call.inputs[6][at] = draw.pick(&[-1.0, -5e-324, -0.0, -1e-12]);
        call
    }),
    ("one special", Share::Weight(6), &[Number(0), Uncertain], |_, _, draw| {
        let mut call = certifying(plant(Op::Settle, draw));
        strew(draw, &mut call.inputs[2..], 1);
        call
    }),
    ("vast", Share::Weight(3), &[Number(0), Uncertain], |_, _, draw| {
        let mut call = certifying(plant(Op::Settle, draw));
        for at in 2..7 {
            let count = call.inputs[at].len();
            call.inputs[at] = draw.reals(Palette::Vast, count);
        }
        call
    }),
    ("several amiss", Share::Weight(5), &[Number(12), Number(13), Number(15)], |_, _, draw| {
        let mut call = certifying(plant(Op::Settle, draw));
        for _ in 0..draw.between(1, 3) {
            draw.pick(&[wrong_value, wrong_spread, wrong_least])(&mut call, draw);
        }
        call
    }),
];

/// A day within a thousandth, with spreads from a tenth to a hundred.
fn day(
    op: Op,
    draw: &mut Draw,
    sizes: [usize; 3],
    values: Vec<f64>,
    rows: [Vec<f64>; 2],
    least: Vec<f64>,
) -> Call {
    let spread = |draw: &mut Draw| match draw.one_in(2) {
        true => draw.pick(&[1.0, 1.0, 2.0, 5.0, 10.0, 0.5, 0.02]),
        false => 0.1 + 100.0 * draw.fraction(),
    };
    let spreads = (0..sizes[0]).map(|_| spread(draw)).collect();
    let [balances, limits] = rows;
    Call::new(op, &sizes, vec![values, spreads, balances, limits, least, vec![1e-3]])
}

/// The identity of dimension n.
fn identity(n: usize) -> Vec<f64> {
    (0..n * n).map(|at| if at / n == at % n { 1.0 } else { 0.0 }).collect()
}

/// Balances that each have a last meter of their own, values that nearly close them, and zero as the
/// only floors.
fn plant(op: Op, draw: &mut Draw) -> Call {
    let n = draw.size(1, 16);
    let m = if n > 1 { draw.below((n / 2).min(6) + 1) } else { 0 };
    let mut balances = vec![0.0; n * m];
    for k in 0..m {
        for i in 0..n - m {
            balances[k * n + i] = draw.pick(&[1.0, -1.0, 0.0, 0.0]);
        }
        balances[k * n + n - m + k] = draw.pick(&[1.0, -1.0]);
    }
    let whole = draw.one_in(2);
    let value = |draw: &mut Draw| match whole {
        true => draw.below(5000) as f64,
        false => draw.fraction() * 5000.0,
    };
    let mut values: Vec<f64> = (0..n).map(|_| value(draw)).collect();
    for k in 0..m {
        let row = &balances[k * n..(k + 1) * n];
        let others: f64 = (0..n - m).map(|i| row[i] * values[i]).sum();
        let own = n - m + k;
        values[own] = (-row[own] * others + 5.0 * draw.smooth()).max(0.0);
    }
    day(op, draw, [n, m, n], values, [balances, identity(n)], vec![0.0; n])
}

/// A value that is off by tens to a hundred thousand of its spreads.
fn gross(op: Op, draw: &mut Draw) -> Call {
    let mut call = plant(op, draw);
    let meter = draw.below(call.sizes[0]);
    let off = call.inputs[SPREADS][meter] * draw.power(3, 17) * draw.pick(&[1.0, -1.0]);
    call.inputs[VALUES][meter] = (call.inputs[VALUES][meter] + off).max(0.0);
    call
}

/// Two balances that leave a meter nothing, beside one in none.
fn pinned(op: Op, _: u64, draw: &mut Draw) -> Call {
    let flow = draw.below(6000) as f64;
    let near = |draw: &mut Draw| flow + draw.below(3) as f64;
    let values = vec![draw.below(6000) as f64, near(draw), near(draw), draw.pick(&[0.0, 0.0, 1.0])];
    let rows = vec![0.0, -1.0, 1.0, -1.0, 0.0, -1.0, 1.0, 0.0];
    day(op, draw, [4, 2, 4], values, [rows, identity(4)], vec![0.0; 4])
}

/// Floors and ceilings of sums, near what the values come to.
fn holding(op: Op, _: u64, draw: &mut Draw) -> Call {
    let mut call = plant(op, draw);
    let n = call.sizes[0];
    for _ in 0..draw.size(1, MOST[2] - n.max(24)) {
        let row: Vec<f64> = (0..n).map(|_| draw.pick(&[1.0, -1.0, 0.0, 0.0])).collect();
        let sum: f64 = row.iter().zip(&call.inputs[VALUES]).map(|(c, v)| c * v).sum();
        call.inputs[LIMITS].extend(row);
        call.inputs[LEAST].push(sum + 30.0 * draw.smooth() - 10.0);
    }
    resized(call)
}

/// The call again, with as many limits as it has, and outputs to them.
fn resized(call: Call) -> Call {
    let sizes = [call.sizes[0], call.sizes[1], call.inputs[LEAST].len()];
    Call::new(call.op, &sizes, call.inputs)
}

/// One floor or ceiling that lies far away.
fn far(op: Op, _: u64, draw: &mut Draw) -> Call {
    let mut call = plant(op, draw);
    let (n, meter) = (call.sizes[0], draw.below(call.sizes[0]));
    let (value, spread) = (call.inputs[VALUES][meter], call.inputs[SPREADS][meter]);
    let sign = draw.pick(&[1.0, -1.0]);
    call.inputs[LIMITS].extend((0..n).map(|i| if i == meter { sign } else { 0.0 }));
    call.inputs[LEAST].push(sign * value + spread * draw.power(0, 24));
    resized(call)
}

/// A floor with a ceiling at or below it.
fn against(op: Op, index: u64, draw: &mut Draw) -> Call {
    let mut call = holding(op, index, draw);
    let (n, last) = (call.sizes[0], call.sizes[2] - 1);
    let row: Vec<f64> = call.inputs[LIMITS][last * n..].iter().map(|c| -c).collect();
    let least = call.inputs[LEAST][last];
    call.inputs[LIMITS].extend(row);
    call.inputs[LEAST].push(-least + draw.pick(&[0.0, 0.0, 1.0, -1.0]));
    resized(call)
}

/// A balance entered twice, or a multiple, or with coefficients that hide it.
fn twice(op: Op, _: u64, draw: &mut Draw) -> Call {
    let mut call = plant(op, draw);
    let (n, m) = (call.sizes[0], call.sizes[1]);
    if draw.one_in(2) {
        let row: Vec<f64> = (0..n).map(|_| draw.between(1, 99) as f64 / 10.0).collect();
        let values = call.inputs.swap_remove(VALUES);
        return day(
            op,
            draw,
            [n, 2, n],
            values,
            [[row.clone(), row].concat(), identity(n)],
            vec![0.0; n],
        );
    }
    if m > 1 {
        let from = draw.below(m);
        let to = (from + draw.between(1, m - 1)) % m;
        put_row(&mut call.inputs[BALANCES], n, from, to, draw.pick(&[1.0, -1.0, 2.0, 0.1]));
    }
    call
}

/// Balances and limits of a palette.
fn rows(op: Op, draw: &mut Draw, palette: Palette) -> Call {
    let n = draw.size(1, MOST[0]);
    let (m, p) = (draw.below(n), draw.size(0, MOST[2]));
    let values = (0..n).map(|_| 100.0 * draw.smooth()).collect();
    let matrices = [m * n, p * n].map(|count| draw.reals(palette, count));
    let least = (0..p).map(|_| 100.0 * draw.smooth() - 80.0).collect();
    day(op, draw, [n, m, p], values, matrices, least)
}

/// The volumes of a day as they are settled, to be certified; where they are refused, its values.
fn certifying(call: Call) -> Call {
    let owed = answer::<Rust, Sound>(&call);
    let (sizes, mut inputs) = (call.sizes, call.inputs);
    inputs.truncate(5);
    match owed.number {
        0 => inputs.extend(owed.outputs),
        _ => inputs.extend([inputs[VALUES].clone(), vec![0.0; sizes[1] + sizes[2]]]),
    }
    Call::new(Op::Certify, &sizes, inputs)
}

/// A value that is not finite.
fn wrong_value(call: &mut Call, draw: &mut Draw) {
    let at = draw.below(call.sizes[0]);
    call.inputs[VALUES][at] = draw.pick(&[f64::NAN, -f64::NAN, f64::INFINITY, f64::NEG_INFINITY]);
}

/// A spread that is not finite and positive.
fn wrong_spread(call: &mut Call, draw: &mut Draw) {
    let amiss = [0.0, -0.0, -1.0, f64::INFINITY, f64::NEG_INFINITY, f64::NAN, -f64::MIN_POSITIVE];
    let at = draw.below(call.sizes[0]);
    call.inputs[SPREADS][at] = draw.pick(&amiss);
}

/// What a limit is at least is not finite.
fn wrong_least(call: &mut Call, draw: &mut Draw) {
    let at = draw.below(call.sizes[2]);
    call.inputs[LEAST][at] = draw.pick(&[f64::NAN, f64::INFINITY, f64::NEG_INFINITY]);
}
