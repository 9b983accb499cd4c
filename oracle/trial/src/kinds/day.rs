//! Kinds for the day's reconciliation.

use super::parts::{low_rank, put_row, strew, units};
use super::{Row, Share};
use crate::draw::{Draw, Palette};
use crate::table::Aim::{Blocked, Named, Nan, Number, Place};
use reference::call::Call;
use reference::day::{LARGEST, reading, stored};
use reference::shape::Op;

pub const ROWS: &[Row] = &[
    ("every size", Share::All(17 * 17), &[Number(0), Number(11)], |op, index, draw| {
        let sizes = [(index / 17) as usize, (index % 17) as usize];
        let balances = draw.reals(Palette::Smooth, sizes[0] * sizes[1]);
        day(op, draw, &sizes, balances, near)
    }),
    ("one header", Share::Weight(8), &[Number(0)], header),
    ("networks", Share::Weight(8), &[Number(0), Blocked], network),
    ("rolled over", Share::Weight(6), &[Number(0)], |op, _, draw| networked(op, draw, rolled)),
    ("equal readings", Share::Weight(5), &[Number(0), Named], |op, _, draw| {
        networked(op, draw, equal)
    }),
    ("any readings", Share::Weight(5), &[Number(0), Blocked], |op, _, draw| {
        networked(op, draw, any)
    }),
    ("at the ends", Share::Weight(4), &[Number(0)], |op, _, draw| networked(op, draw, ends)),
    ("no balance", Share::Weight(4), &[Number(0), Number(5), Place(5)], |op, _, draw| {
        let n = draw.size(0, 16);
        let mut call = day(op, draw, &[n, 0], vec![], any);
        call.inputs[2] = units(draw, n);
        call
    }),
    ("spreads in units", Share::Weight(6), &[Number(0), Number(5)], |op, index, draw| {
        let mut call = network(op, index, draw);
        call.inputs[2] = units(draw, call.sizes[0]);
        call
    }),
    ("spreads apart", Share::Weight(4), &[Number(0)], |op, index, draw| {
        let mut call = network(op, index, draw);
        call.inputs[2].iter_mut().for_each(|spread| *spread *= draw.power(-60, 60));
        call
    }),
    ("crossing floors", Share::Weight(6), &[Number(0), Named, Blocked], floors),
    ("balance twice", Share::Weight(5), &[Number(11), Place(11)], twice),
    ("digits lost", Share::All(2), &[Number(0)], |op, index, _| lost(op, index)),
    ("pinned", Share::Weight(4), &[Number(0), Named], pinned),
    ("dependent", Share::Weight(4), &[Number(11), Place(11)], dependent),
    ("too many", Share::Weight(2), &[Number(11), Place(11)], |op, _, draw| {
        let n = draw.between(0, 15);
        let m = draw.between(n + 1, 16);
        let balances = draw.reals(Palette::Smooth, n * m);
        day(op, draw, &[n, m], balances, near)
    }),
    ("smooth balances", Share::Weight(4), &[Number(0)], |op, _, draw| {
        balanced(op, draw, Palette::Smooth)
    }),
    ("wide balances", Share::Weight(3), &[Number(0)], |op, _, draw| {
        balanced(op, draw, Palette::Wide)
    }),
    ("one special", Share::Weight(5), &[Number(0), Number(11), Nan, Named], |op, index, draw| {
        let mut call = network(op, index, draw);
        strew(draw, &mut call.inputs[3..], 1);
        call
    }),
    ("special balances", Share::Weight(3), &[Number(11)], |op, _, draw| {
        balanced(op, draw, Palette::Special)
    }),
    ("reading over", Share::Weight(4), &[Number(12), Place(12)], |op, index, draw| {
        let mut call = network(op, index, draw);
        wrong_reading(&mut call, draw);
        call
    }),
    ("spread amiss", Share::Weight(4), &[Number(13), Place(13)], |op, index, draw| {
        let mut call = network(op, index, draw);
        wrong_spread(&mut call, draw);
        call
    }),
    ("meters amiss", Share::Weight(6), &[Number(12), Number(13), Place(12), Place(13)], amiss),
    ("special spreads", Share::Weight(4), &[Number(0), Number(13)], |op, index, draw| {
        let mut call = network(op, index, draw);
        strew(draw, &mut call.inputs[2..3], 1);
        call
    }),
];

/// Two readings some hundreds apart, over the end now and then.
fn near(draw: &mut Draw) -> (u32, u32) {
    let old = draw.below(LARGEST as usize + 1) as u32;
    (old, (old + draw.below(5000) as u32) % (LARGEST + 1))
}

/// Two readings with the end between them.
fn rolled(draw: &mut Draw) -> (u32, u32) {
    let new = draw.below(LARGEST as usize) as u32;
    (draw.between(new as usize + 1, LARGEST as usize) as u32, new)
}

/// Two readings that are equal, or nearly.
fn equal(draw: &mut Draw) -> (u32, u32) {
    let old = draw.below(LARGEST as usize + 1) as u32;
    (old, if draw.one_in(4) { (old + 1) % (LARGEST + 1) } else { old })
}

/// Any two readings.
fn any(draw: &mut Draw) -> (u32, u32) {
    (draw.below(LARGEST as usize + 1) as u32, draw.below(LARGEST as usize + 1) as u32)
}

/// Readings at the ends.
fn ends(draw: &mut Draw) -> (u32, u32) {
    let end = |draw: &mut Draw| draw.pick(&[0, 0, 1, LARGEST - 1, LARGEST, LARGEST, 500_000]);
    (end(draw), end(draw))
}

/// A day of drawn readings, with spreads from a tenth to a hundred.
fn day(
    op: Op,
    draw: &mut Draw,
    sizes: &[usize; 2],
    balances: Vec<f64>,
    readings: fn(&mut Draw) -> (u32, u32),
) -> Call {
    let pairs: Vec<(u32, u32)> = (0..sizes[0]).map(|_| readings(draw)).collect();
    let old = pairs.iter().map(|pair| stored(pair.0)).collect();
    let new = pairs.iter().map(|pair| stored(pair.1)).collect();
    let whole = draw.one_in(2);
    let spread = |draw: &mut Draw| match whole {
        true => draw.pick(&[1.0, 1.0, 2.0, 5.0, 10.0, 0.5]),
        false => 0.1 + 100.0 * draw.fraction(),
    };
    let spreads = (0..sizes[0]).map(|_| spread(draw)).collect();
    Call::new(op, sizes, vec![old, new, spreads, balances])
}

/// Balances of 1, -1 and 0, fewer than the meters.
fn networked(op: Op, draw: &mut Draw, readings: fn(&mut Draw) -> (u32, u32)) -> Call {
    let n = draw.size(1, 16);
    let m = draw.below(n.min(6));
    let balances = (0..m * n).map(|_| draw.pick(&[1.0, -1.0, 0.0, 0.0])).collect();
    day(op, draw, &[n, m], balances, readings)
}

fn network(op: Op, _: u64, draw: &mut Draw) -> Call {
    networked(op, draw, near)
}

/// One balance of all meters, whose volumes nearly close it.
fn header(op: Op, _: u64, draw: &mut Draw) -> Call {
    let n = draw.size(2, 16);
    let balance: Vec<f64> = (0..n).map(|i| if 2 * i < n { 1.0 } else { -1.0 }).collect();
    let mut call = day(op, draw, &[n, 1], balance, near);
    let middle = draw.below(4000) as u32;
    for i in 0..n {
        let old = reading(call.inputs[0][i]);
        let new = (old + middle + draw.below(20) as u32) % (LARGEST + 1);
        call.inputs[1][i] = stored(new);
    }
    call
}

/// Balances of a palette, fewer than the meters.
fn balanced(op: Op, draw: &mut Draw, palette: Palette) -> Call {
    let n = draw.size(1, 16);
    let m = draw.below(n);
    let balances = draw.reals(palette, n * m);
    day(op, draw, &[n, m], balances, near)
}

/// Balances that drive some volumes to zero: sums of volumes, or one against many.
fn floors(op: Op, _: u64, draw: &mut Draw) -> Call {
    let n = draw.size(2, 16);
    let m = draw.between(1, n.min(4) - 1);
    let against = draw.one_in(2);
    let coefficient = |draw: &mut Draw, j: usize| match against && j > 0 {
        true => -draw.fraction(),
        false => draw.pick(&[1.0, 1.0, 3.0, 0.7]),
    };
    let balances = (0..m * n).map(|at| coefficient(draw, at % n)).collect();
    let readings = draw.pick(&[near as fn(&mut Draw) -> (u32, u32), any, equal]);
    day(op, draw, &[n, m], balances, readings)
}

/// A balance entered twice, or its opposite or a multiple.
fn twice(op: Op, _: u64, draw: &mut Draw) -> Call {
    let n = draw.size(1, 16);
    let m = draw.between(2, n.max(2));
    let balances = (0..m * n).map(|_| draw.pick(&[1.0, -1.0, 0.0])).collect();
    let mut call = day(op, draw, &[n, m], balances, near);
    let from = draw.below(m);
    let to = (from + draw.between(1, m - 1)) % m;
    let factor = draw.pick(&[1.0, 1.0, -1.0, 2.0]);
    put_row(&mut call.inputs[3], n, from, to, factor);
    call
}

/// The two days of docs/ACCURACY.md that close and are wrong (examples/pinned.sheet, examples/twice.sheet).
fn lost(op: Op, index: u64) -> Call {
    let (volumes, spreads, balances): (&[u32], &[f64], &[f64]) = match index {
        0 => (
            &[1338, 5681, 5680, 0],
            &[40.0, 40.0, 10.0, 0.5],
            &[0.0, -1.0, 1.0, -1.0, 0.0, -1.0, 1.0, 0.0],
        ),
        _ => (&[470, 3532, 3232], &[47.0, 353.0, 323.0], &[0.2, -5.7, 6.2, 0.2, -5.7, 6.2]),
    };
    let new = volumes.iter().map(|volume| stored(*volume)).collect();
    let old = volumes.iter().map(|_| stored(0)).collect();
    Call::new(op, &[volumes.len(), 2], vec![old, new, spreads.to_vec(), balances.to_vec()])
}

/// A network with a meter at rest that the balances alone hold at zero: one of them stands twice, with and without it.
fn pinned(op: Op, _: u64, draw: &mut Draw) -> Call {
    let n = draw.size(3, 16);
    let m = draw.between(1, n.min(4) - 1);
    let mut rows: Vec<f64> = (0..m * n).map(|at| if at % n == n - 1 { 0.0 } else { draw.pick(&[1.0, -1.0, 0.0]) }).collect();
    let mut again = rows[..n].to_vec();
    again[n - 1] = draw.pick(&[1.0, -1.0]);
    rows.extend(again);
    let mut call = day(op, draw, &[n, m + 1], rows, near);
    call.inputs[1][n - 1] = call.inputs[0][n - 1];
    call
}

/// Balances of lower rank than they need.
fn dependent(op: Op, _: u64, draw: &mut Draw) -> Call {
    let n = draw.size(2, 16);
    let m = draw.between(1, n);
    let rank = draw.below(m);
    let palette = draw.pick(&[Palette::Smooth, Palette::Whole]);
    let balances = low_rank(draw, palette, m, n, rank);
    day(op, draw, &[n, m], balances, near)
}

/// A reading past the largest, by little or by much.
fn wrong_reading(call: &mut Call, draw: &mut Draw) {
    let over = [LARGEST + 1, LARGEST + 1, LARGEST + 2, 4_000_000, 1 << 31, u32::MAX];
    let (which, meter) = (draw.below(2), draw.below(call.sizes[0]));
    call.inputs[which][meter] = stored(draw.pick(&over));
}

/// A spread that is not finite and positive.
fn wrong_spread(call: &mut Call, draw: &mut Draw) {
    let amiss = [0.0, -0.0, -1.0, f64::INFINITY, f64::NEG_INFINITY, f64::NAN, -f64::MIN_POSITIVE];
    let meter = draw.below(call.sizes[0]);
    call.inputs[2][meter] = draw.pick(&amiss);
}

/// Several meters amiss, one of them in both ways now and then.
fn amiss(op: Op, index: u64, draw: &mut Draw) -> Call {
    let mut call = network(op, index, draw);
    for _ in 0..draw.between(2, 4) {
        match draw.one_in(2) {
            true => wrong_reading(&mut call, draw),
            false => wrong_spread(&mut call, draw),
        }
    }
    call
}
