//! Kinds for the pivoted QR.

use super::parts::{huge, in_columns, in_rows, low_rank, repeat_columns, strew, tiny, units};
use super::{Row, Share};
use crate::draw::{Draw, Palette, specials, spell};
use crate::table::Aim::{Moved, Nan, Number, Ranked};
use reference::call::Call;
use reference::shape::Op;

pub const ROWS: [Row; 19] = [
    ("every size", Share::All(3 * 19 * 67), &[Number(0)], every_size),
    ("one by one", Share::All(26), &[Number(0), Nan], |_, index, _| {
        factor(1, 1, spell(index, &specials(), 1))
    }),
    ("short special", Share::All(2401), &[Number(0), Nan], |_, index, _| {
        factor(2, 2, spell(index, &[0.0, -0.0, 1.0, -2.0, f64::INFINITY, f64::NAN, 1e200], 4))
    }),
    ("smooth", Share::Weight(6), &[Number(0)], |_, _, draw| of(draw, Palette::Smooth)),
    ("whole", Share::Weight(6), &[Number(0)], |_, _, draw| of(draw, Palette::Whole)),
    ("signs", Share::Weight(3), &[Number(0)], |_, _, draw| of(draw, Palette::Signs)),
    ("tied columns", Share::Weight(6), &[Number(0)], |_, _, draw| {
        let (m, n) = (draw.size(1, 18), draw.size(1, 66));
        let mut a = draw.reals(Palette::Whole, m * n);
        repeat_columns(draw, &mut a, m, n);
        factor(m, n, a)
    }),
    ("dependent", Share::Weight(4), &[Number(0)], |_, _, draw| {
        let (m, n) = (draw.size(1, 18), draw.size(1, 66));
        let (palette, rank) =
            (draw.pick(&[Palette::Smooth, Palette::Whole]), draw.below(m.min(n) + 1));
        factor(m, n, low_rank(draw, palette, m, n, rank))
    }),
    ("edge of rank", Share::Weight(4), &[Number(0)], |_, _, draw| edge_of_rank(draw, 1.0)),
    ("edge of rank, scaled", Share::Weight(3), &[Number(0), Moved, Ranked], |_, _, draw| {
        let unit = units(draw, 1)[0];
        edge_of_rank(draw, unit)
    }),
    ("wide", Share::Weight(4), &[Number(0)], |_, _, draw| of(draw, Palette::Wide)),
    ("vast", Share::Weight(2), &[Number(0)], |_, _, draw| of(draw, Palette::Vast)),
    ("tiny", Share::Weight(3), &[Number(0), Moved, Ranked], |_, _, draw| scaled(draw, tiny)),
    ("huge", Share::Weight(3), &[Number(0), Moved, Ranked], |_, _, draw| scaled(draw, huge)),
    ("units", Share::Weight(4), &[Number(0), Moved, Ranked], in_units),
    ("dependent, scaled", Share::Weight(3), &[Number(0), Moved, Ranked], |_, _, draw| {
        let (m, n) = (draw.size(1, 18), draw.size(1, 66));
        let (palette, rank) =
            (draw.pick(&[Palette::Smooth, Palette::Whole]), draw.below(m.min(n) + 1));
        let mut a = low_rank(draw, palette, m, n, rank);
        let unit = units(draw, 1);
        in_columns(&mut a, &unit);
        factor(m, n, a)
    }),
    ("one special", Share::Weight(4), &[Number(0), Nan], |_, _, draw| {
        let mut call = of(draw, Palette::Smooth);
        strew(draw, &mut call.inputs, 1);
        call
    }),
    ("specials", Share::Weight(3), &[Number(0), Nan], |_, _, draw| of(draw, Palette::Special)),
    ("bits", Share::Weight(3), &[Number(0), Nan], |_, _, draw| of(draw, Palette::Bits)),
];

fn factor(m: usize, n: usize, a: Vec<f64>) -> Call {
    Call::new(Op::Qr, &[m, n], vec![a])
}

fn of(draw: &mut Draw, palette: Palette) -> Call {
    let (m, n) = (draw.size(0, 18), draw.size(0, 66));
    let a = draw.reals(palette, m * n);
    factor(m, n, a)
}

fn scaled(draw: &mut Draw, scale: fn(&mut Draw, &mut [Vec<f64>])) -> Call {
    let palette = draw.pick(&[Palette::Smooth, Palette::Whole]);
    let mut call = of(draw, palette);
    scale(draw, &mut call.inputs);
    call
}

/// Columns in units, and rows.
fn in_units(_: Op, _: u64, draw: &mut Draw) -> Call {
    let palette = draw.pick(&[Palette::Smooth, Palette::Whole]);
    let mut call = of(draw, palette);
    let units = units(draw, call.sizes[1]);
    in_columns(&mut call.inputs[0], &units);
    let mut rows = vec![0.0; call.sizes[0]];
    in_rows(draw, &mut call.inputs[0], &mut rows);
    call
}

/// Every size, with three palettes.
fn every_size(_: Op, index: u64, draw: &mut Draw) -> Call {
    let palette = [Palette::Smooth, Palette::Whole, Palette::Signs][(index % 3) as usize];
    let (m, n) = ((index / 3 / 67) as usize, (index / 3 % 67) as usize);
    let a = draw.reals(palette, m * n);
    factor(m, n, a)
}

/// Columns along different axes, the last of them as long as the tolerance, or one step off.
fn edge_of_rank(draw: &mut Draw, unit: f64) -> Call {
    let (m, n) = (draw.size(2, 18), draw.size(2, 66));
    let rank = draw.between(1, m.min(n) - 1);
    let largest = draw.pick(&[1.0, 2.0, 3.0, 0.7]) * unit;
    let tolerance = m.max(n) as f64 * f64::EPSILON * largest;
    let nearby = f64::from_bits(tolerance.to_bits() + draw.below(3) as u64 - 1);
    let mut a = vec![0.0; m * n];
    for k in 0..rank {
        a[k * n + k] = largest;
    }
    a[rank * n + rank] = nearby;
    factor(m, n, a)
}
