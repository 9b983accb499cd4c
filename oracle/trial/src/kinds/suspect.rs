//! Kinds for the tests of meters.

use super::parts::{low_rank, put_row, strew, units};
use super::{Row, Share};
use crate::draw::{Draw, Palette};
use crate::table::Aim::{Agreed, Marked, Nan, Number, Place};
use reference::call::Call;
use reference::shape::Op;

const VALUES: usize = 0;
const SPREADS: usize = 1;
const BALANCES: usize = 2;

pub const ROWS: &[Row] = &[
    ("every size", Share::All(17 * 17), &[Number(0), Marked], |op, index, draw| {
        let (n, m) = ((index / 17) as usize, (index % 17) as usize);
        let balances = draw.reals(Palette::Smooth, n * m);
        meters(op, draw, n, balances)
    }),
    ("closing", Share::Weight(10), &[Number(0), Agreed], |op, _, draw| closing(op, draw)),
    ("one wrong", Share::Weight(10), &[Number(0), Agreed, Marked], |op, _, draw| {
        let mut call = closing(op, draw);
        let meter = draw.below(call.sizes[0]);
        let off = draw.between(1, 30) as f64 * draw.pick(&[1.0, -1.0]);
        call.inputs[VALUES][meter] += off * call.inputs[SPREADS][meter];
        call
    }),
    ("networks", Share::Weight(6), &[Number(0), Marked], network),
    ("standing still", Share::Weight(8), &[Number(0), Agreed, Marked], still),
    ("still or not", Share::Weight(3), &[Number(0)], |op, _, draw| {
        let mut call = closing(op, draw);
        call.kinds.iter_mut().for_each(|mark| *mark = draw.pick(&[0, 1, 1, 2, 129, 255]));
        call
    }),
    ("not told apart", Share::Weight(8), &[Number(0), Agreed, Marked], alike),
    ("nearly apart", Share::Weight(5), &[Number(0), Agreed, Marked], |op, index, draw| {
        let mut call = alike(op, index, draw);
        let near = |x: &mut f64| *x *= 1.0 + draw.smooth() * draw.power(-8, -1);
        call.inputs[BALANCES].iter_mut().for_each(near);
        call
    }),
    ("in no balance", Share::Weight(6), &[Number(0), Agreed, Marked], outside),
    ("one balance each", Share::Weight(8), &[Number(0), Agreed, Marked], single),
    ("spreads in units", Share::Weight(5), &[Number(0)], |op, _, draw| {
        let mut call = closing(op, draw);
        call.inputs[SPREADS] = units(draw, call.sizes[0]);
        call
    }),
    ("spreads apart", Share::Weight(6), &[Number(0), Agreed, Marked], |op, _, draw| {
        let mut call = closing(op, draw);
        call.inputs[SPREADS].iter_mut().for_each(|spread| *spread *= draw.power(-14, 14));
        call
    }),
    ("balance twice", Share::Weight(4), &[Number(0), Agreed, Marked], |op, index, draw| {
        let mut call = twice(op, index, draw);
        call.inputs[VALUES].iter_mut().for_each(|value| *value += draw.smooth() * 20.0);
        call
    }),
    ("dependent", Share::Weight(4), &[Number(0), Marked], |op, _, draw| {
        let (n, m) = (draw.size(2, 16), draw.between(1, 16));
        let rank = draw.below(n.min(m));
        let palette = draw.pick(&[Palette::Smooth, Palette::Whole]);
        let balances = low_rank(draw, palette, m, n, rank);
        meters(op, draw, n, balances)
    }),
    ("nothing to check", Share::Weight(2), &[Number(0)], |op, _, draw| {
        let (n, m) = (draw.size(0, 16), draw.size(0, 16));
        let balances = draw.reals(Palette::Signs, n * m).into_iter().map(|x| x * 0.0).collect();
        sized(op, draw, n, m, balances)
    }),
    ("wide balances", Share::Weight(4), &[Number(0)], |op, _, draw| {
        balanced(op, draw, Palette::Wide)
    }),
    ("vast balances", Share::Weight(4), &[Number(0), Nan], |op, _, draw| {
        let mut call = balanced(op, draw, Palette::Vast);
        call.inputs[VALUES] = draw.reals(Palette::Vast, call.sizes[0]);
        call
    }),
    ("one special", Share::Weight(5), &[Number(0), Nan, Agreed], |op, _, draw| {
        let mut call = closing(op, draw);
        strew(draw, &mut call.inputs[BALANCES..], 1);
        call
    }),
    ("special balances", Share::Weight(3), &[Number(0), Nan], |op, _, draw| {
        balanced(op, draw, Palette::Special)
    }),
    ("value amiss", Share::Weight(4), &[Number(12), Place(12)], |op, _, draw| {
        let mut call = closing(op, draw);
        wrong_value(&mut call, draw);
        call
    }),
    ("spread amiss", Share::Weight(4), &[Number(13), Place(13)], |op, _, draw| {
        let mut call = closing(op, draw);
        wrong_spread(&mut call, draw);
        call
    }),
    ("meters amiss", Share::Weight(6), &[Number(12), Number(13), Place(12), Place(13)], amiss),
    ("any bits", Share::Weight(4), &[Number(12), Number(13)], |op, _, draw| {
        let (n, m) = (draw.size(1, 16), draw.size(0, 16));
        let balances = draw.reals(Palette::Bits, n * m);
        let mut call = sized(op, draw, n, m, balances);
        call.inputs[VALUES] = draw.reals(Palette::Bits, n);
        call.inputs[SPREADS] = draw.reals(Palette::Bits, n).into_iter().map(f64::abs).collect();
        call
    }),
];

/// Meters of drawn values, with spreads from a tenth to a hundred.
fn sized(op: Op, draw: &mut Draw, n: usize, m: usize, balances: Vec<f64>) -> Call {
    let values = (0..n).map(|_| draw.fraction() * 5000.0).collect();
    let whole = draw.one_in(2);
    let spread = |draw: &mut Draw| match whole {
        true => draw.pick(&[1.0, 1.0, 2.0, 5.0, 10.0, 0.5]),
        false => 0.1 + 100.0 * draw.fraction(),
    };
    let spreads = (0..n).map(|_| spread(draw)).collect();
    Call::new(op, &[n, m], vec![values, spreads, balances])
}

fn meters(op: Op, draw: &mut Draw, n: usize, balances: Vec<f64>) -> Call {
    let m = balances.len().checked_div(n).unwrap_or_else(|| draw.below(17));
    sized(op, draw, n, m, balances)
}

/// Balances that each have a last meter of their own, and values that nearly close them.
fn closing(op: Op, draw: &mut Draw) -> Call {
    let n = draw.size(2, 16);
    let m = draw.between(1, (n / 2).min(6));
    let mut balances = vec![0.0; n * m];
    for k in 0..m {
        for i in 0..n - m {
            balances[k * n + i] = draw.pick(&[1.0, -1.0, 0.0, 0.0, 1.0, 0.5]);
        }
        balances[k * n + n - m + k] = -1.0;
    }
    let mut call = sized(op, draw, n, m, balances);
    for k in 0..m {
        let row = &call.inputs[BALANCES][k * n..(k + 1) * n];
        let total: f64 = (0..n - m).map(|i| row[i] * call.inputs[VALUES][i]).sum();
        call.inputs[VALUES][n - m + k] = total;
    }
    for i in 0..n {
        call.inputs[VALUES][i] += draw.smooth() * call.inputs[SPREADS][i];
    }
    call
}

/// Balances of 1, -1 and 0 on any values.
fn network(op: Op, _: u64, draw: &mut Draw) -> Call {
    let n = draw.size(1, 16);
    let m = draw.below(n.min(6) + 1);
    let balances = (0..m * n).map(|_| draw.pick(&[1.0, -1.0, 0.0, 0.0])).collect();
    sized(op, draw, n, m, balances)
}

/// Some meters at zero, marked; the others nearly close the balances.
fn still(op: Op, _: u64, draw: &mut Draw) -> Call {
    let mut call = closing(op, draw);
    let (n, m) = (call.sizes[0], call.sizes[1]);
    for i in 0..n - m {
        if draw.one_in(3) {
            let gone = std::mem::replace(&mut call.inputs[VALUES][i], 0.0);
            for k in 0..m {
                let moved = call.inputs[BALANCES][k * n + i] * gone;
                call.inputs[VALUES][n - m + k] -= moved;
            }
            call.kinds[i] = 1;
        }
    }
    call
}

/// Several meters with the same coefficients, or multiples.
fn alike(op: Op, _: u64, draw: &mut Draw) -> Call {
    let mut call = closing(op, draw);
    let (n, m) = (call.sizes[0], call.sizes[1]);
    let from = draw.below(n);
    for i in 0..n - m {
        if draw.one_in(2) {
            let factor = draw.pick(&[1.0, 1.0, -1.0, 2.0, 0.3]);
            for k in 0..m {
                call.inputs[BALANCES][k * n + i] = factor * call.inputs[BALANCES][k * n + from];
            }
        }
    }
    call
}

/// Some meters that no balance has, by zeros of both signs.
fn outside(op: Op, _: u64, draw: &mut Draw) -> Call {
    let mut call = closing(op, draw);
    let (n, m) = (call.sizes[0], call.sizes[1]);
    for i in 0..n {
        if draw.one_in(3) {
            for k in 0..m {
                call.inputs[BALANCES][k * n + i] = draw.pick(&[0.0, -0.0]);
            }
        }
    }
    call
}

/// Each meter alone in a balance: its test is its value in spreads, so whole ones tie, and 3 is met.
fn single(op: Op, _: u64, draw: &mut Draw) -> Call {
    let n = draw.size(1, 16);
    let mut balances = vec![0.0; n * n];
    (0..n).for_each(|i| balances[i * n + i] = draw.pick(&[1.0, -1.0, 2.0]));
    let mut call = sized(op, draw, n, n, balances);
    let few = draw.one_in(2);
    for i in 0..n {
        let spread = draw.pick(&[1.0, 2.0, 0.25]);
        let tests =
            if few { [0.0, 0.0, 0.0, 3.0, -3.0, 1.0] } else { [2.0, 3.0, -3.0, 4.0, 3.5, 0.0] };
        let test: f64 = draw.pick(&tests);
        let test = if draw.one_in(8) { f64::from_bits(test.to_bits() + 1) } else { test };
        call.inputs[SPREADS][i] = spread;
        call.inputs[VALUES][i] = test * spread;
    }
    call
}

/// A balance entered twice, or its opposite or a multiple.
fn twice(op: Op, _: u64, draw: &mut Draw) -> Call {
    let mut call = closing(op, draw);
    let (n, m) = (call.sizes[0], call.sizes[1]);
    if m > 1 {
        let from = draw.below(m);
        let to = (from + draw.between(1, m - 1)) % m;
        let factor = draw.pick(&[1.0, 1.0, -1.0, 2.0]);
        put_row(&mut call.inputs[BALANCES], n, from, to, factor);
    }
    call
}

/// Balances of a palette.
fn balanced(op: Op, draw: &mut Draw, palette: Palette) -> Call {
    let (n, m) = (draw.size(1, 16), draw.size(0, 16));
    let balances = draw.reals(palette, n * m);
    sized(op, draw, n, m, balances)
}

/// A value that is not finite.
fn wrong_value(call: &mut Call, draw: &mut Draw) {
    let meter = draw.below(call.sizes[0]);
    call.inputs[VALUES][meter] =
        draw.pick(&[f64::NAN, -f64::NAN, f64::INFINITY, f64::NEG_INFINITY]);
}

/// A spread that is not finite and positive.
fn wrong_spread(call: &mut Call, draw: &mut Draw) {
    let amiss = [0.0, -0.0, -1.0, f64::INFINITY, f64::NEG_INFINITY, f64::NAN, -f64::MIN_POSITIVE];
    let meter = draw.below(call.sizes[0]);
    call.inputs[SPREADS][meter] = draw.pick(&amiss);
}

/// Several meters amiss, one of them in both ways now and then.
fn amiss(op: Op, _: u64, draw: &mut Draw) -> Call {
    let mut call = closing(op, draw);
    for _ in 0..draw.between(2, 4) {
        match draw.one_in(2) {
            true => wrong_value(&mut call, draw),
            false => wrong_spread(&mut call, draw),
        }
    }
    call
}
