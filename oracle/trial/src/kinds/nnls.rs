//! Kinds for NNLS.

use super::parts::{
    huge, in_columns, in_rows, low_rank, product, repeat_columns, strew, tiny, units,
};
use super::{Row, Share};
use crate::draw::{Draw, Palette, specials, spell};
use crate::table::Aim::{Blocked, Moved, NanRatio, Number, Ranked, Rejected};
use reference::Rust;
use reference::call::{Call, Sound, answer};
use reference::shape::Op;
use reference::tally;

pub const ROWS: [Row; 24] = [
    ("every size", Share::All(2 * 19 * 67), &[Number(0)], every_size),
    ("one by one", Share::All(26 * 26), &[Number(0)], |_, index, _| {
        let values = spell(index, &specials(), 2);
        nnls(1, 1, 3, vec![values[0]], vec![values[1]])
    }),
    ("one by two", Share::All(125 * 7), &[Number(0), Number(7)], |_, index, _| {
        let values = spell(index / 7, &[-1.0, -0.0, 0.0, 1.0, 2.0], 3);
        nnls(1, 2, (index % 7) as usize, values[..2].to_vec(), vec![values[2]])
    }),
    ("two by two", Share::All(4096), &[Number(0), Number(7)], |_, index, _| {
        let values = spell(index, &[-1.0, 0.0, 1.0, 2.0], 6);
        nnls(2, 2, [6, 1, 2, 6][(index % 4) as usize], values[..4].to_vec(), values[4..].to_vec())
    }),
    ("smooth", Share::Weight(6), &[Number(0), Blocked], |_, _, draw| of(draw, Palette::Smooth)),
    ("whole", Share::Weight(8), &[Number(0), Blocked, Rejected], |_, _, draw| {
        of(draw, Palette::Whole)
    }),
    ("signs", Share::Weight(4), &[Number(0), Blocked], |_, _, draw| of(draw, Palette::Signs)),
    ("tied columns", Share::Weight(6), &[Number(0), Rejected], tied),
    ("dependent", Share::Weight(6), &[Number(0), Rejected, Blocked], dependent),
    ("blocked", Share::Weight(6), &[Number(0), Blocked], blocked),
    ("tied ratios", Share::Weight(6), &[Number(0), Blocked], tied_ratios),
    ("near columns", Share::Weight(4), &[Number(0), Rejected], near),
    ("limit", Share::Weight(6), &[Number(0), Number(7)], limit),
    ("overflow", Share::Weight(5), &[Number(0), Blocked], |_, _, draw| overflow(draw)),
    ("tied ratios decide", Share::All(TIED.len() as u64), &[Number(0), Blocked], |_, index, _| {
        overflow_numbered(TIED[index as usize])
    }),
    ("nan ratio", Share::Weight(2), &[Number(0), NanRatio], nan_ratio),
    (
        "nan ratio decides",
        Share::All(DECIDING.len() as u64),
        &[Number(0), Number(7), NanRatio],
        |_, index, _| numbered(DECIDING[index as usize]),
    ),
    ("wide", Share::Weight(4), &[Number(0), Blocked], |_, _, draw| of(draw, Palette::Wide)),
    ("tiny", Share::Weight(3), &[Number(0), Moved], |_, _, draw| scaled(draw, tiny)),
    ("huge", Share::Weight(3), &[Number(0)], |_, _, draw| scaled(draw, huge)),
    ("units", Share::Weight(4), &[Number(0), Moved, Ranked, Blocked], in_units),
    ("one special", Share::Weight(4), &[Number(0)], |_, _, draw| {
        let mut call = of(draw, Palette::Smooth);
        strew(draw, &mut call.inputs, 1);
        call
    }),
    ("specials", Share::Weight(3), &[Number(0)], |_, _, draw| of(draw, Palette::Special)),
    ("bits", Share::Weight(3), &[Number(0)], |_, _, draw| of(draw, Palette::Bits)),
];

/// Numbers of overflowing problems in which two columns block with equal ratios and the answer
/// hangs on which is taken, found by holding the Rust against a copy that takes the last.
const TIED: [u64; 16] = [
    1930, 4137, 13_991, 20_928, 35_954, 38_660, 49_563, 49_962, 59_053, 60_817, 60_883, 61_523,
    64_608, 65_875, 69_934, 77_355,
];

/// The overflowing problem of a number.
pub fn overflow_numbered(number: u64) -> Call {
    overflow(&mut Draw::new(0, Op::Nnls, "overflow", number))
}

/// Numbers of coarse problems in which the place of a NaN ratio among numbers decides the answer,
/// the first sixteen of those found among the first ten million by `decides`.
const DECIDING: [u64; 16] = [
    3596, 170_311, 438_694, 467_296, 541_069, 629_009, 639_697, 1_042_598, 1_149_378, 1_157_825,
    1_264_076, 1_349_255, 1_427_402, 1_556_014, 1_992_495, 2_106_452,
];

fn nnls(m: usize, n: usize, k: usize, a: Vec<f64>, b: Vec<f64>) -> Call {
    Call::new(Op::Nnls, &[m, n, k], vec![a, b])
}

fn of(draw: &mut Draw, palette: Palette) -> Call {
    let (m, n) = (draw.size(0, 18), draw.size(0, 66));
    let (a, b) = (draw.reals(palette, m * n), draw.reals(palette, m));
    nnls(m, n, 3 * n, a, b)
}

fn scaled(draw: &mut Draw, scale: fn(&mut Draw, &mut [Vec<f64>])) -> Call {
    let palette = draw.pick(&[Palette::Smooth, Palette::Whole]);
    let mut call = of(draw, palette);
    scale(draw, &mut call.inputs);
    call
}

/// Columns in units, and rows with their right-hand sides.
fn in_units(_: Op, _: u64, draw: &mut Draw) -> Call {
    let palette = draw.pick(&[Palette::Smooth, Palette::Whole]);
    let mut call = of(draw, palette);
    let units = units(draw, call.sizes[1]);
    in_columns(&mut call.inputs[0], &units);
    let (a, b) = call.inputs.split_at_mut(1);
    in_rows(draw, &mut a[0], &mut b[0]);
    call
}

/// Every size, with two palettes.
fn every_size(_: Op, index: u64, draw: &mut Draw) -> Call {
    let palette = [Palette::Smooth, Palette::Whole][(index % 2) as usize];
    let (m, n) = ((index / 2 / 67) as usize, (index / 2 % 67) as usize);
    let (a, b) = (draw.reals(palette, m * n), draw.reals(palette, m));
    nnls(m, n, 3 * n, a, b)
}

/// Columns that repeat others, so that duals tie.
fn tied(_: Op, _: u64, draw: &mut Draw) -> Call {
    let (m, n) = (draw.size(1, 18), draw.size(2, 66));
    let mut a = draw.reals(Palette::Whole, m * n);
    repeat_columns(draw, &mut a, m, n);
    let b = draw.reals(Palette::Whole, m);
    nnls(m, n, 3 * n, a, b)
}

/// A matrix of low rank: columns are tried and put back.
fn dependent(_: Op, _: u64, draw: &mut Draw) -> Call {
    let (m, n) = (draw.size(2, 18), draw.size(2, 40));
    let rank = draw.between(1, m.min(n));
    let palette = draw.pick(&[Palette::Smooth, Palette::Whole]);
    let a = low_rank(draw, palette, m, n, rank);
    let b = draw.reals(palette, m);
    nnls(m, n, 3 * n, a, b)
}

/// Columns that lean the same way, and a right-hand side of mixed signs in them.
fn blocked(_: Op, _: u64, draw: &mut Draw) -> Call {
    let (m, n) = (draw.size(2, 18), draw.size(2, 30));
    let a: Vec<f64> = (0..m * n).map(|_| 1.0 + draw.smooth() * 0.3).collect();
    let x = draw.reals(Palette::Smooth, n);
    let b = product(&a, n, &x);
    nnls(m, n, 3 * n, a, b)
}

/// Columns that differ by a few roundings.
fn near(_: Op, _: u64, draw: &mut Draw) -> Call {
    let (m, n) = (draw.size(2, 18), draw.size(2, 12));
    let base = draw.reals(Palette::Smooth, m);
    let step = draw.power(-54, -20);
    let a: Vec<f64> = (0..m * n).map(|at| base[at / n] + draw.smooth() * step).collect();
    let b = base.iter().map(|value| value + draw.smooth() * 0.1).collect();
    nnls(m, n, 3 * n, a, b)
}

/// Two blocks of rows with the same numbers, columns in one block or the other, columns in both,
/// and one that tells the blocks apart: columns of the two blocks then block with equal ratios.
fn tied_ratios(_: Op, _: u64, draw: &mut Draw) -> Call {
    let (block, pairs, common) = (draw.between(1, 4), draw.between(1, 3), draw.between(1, 3));
    let (m, n) = (2 * block, 2 * pairs + common + 1);
    let palette = draw.pick(&[Palette::Smooth, Palette::Whole]);
    let scale = draw.power(0, 4);
    let own: Vec<f64> = draw.reals(palette, block * pairs).iter().map(|p| p * scale).collect();
    let (both, odd) = (draw.reals(palette, block * common), draw.reals(palette, m));
    let right = draw.reals(palette, block);
    let entry = |at: usize| {
        let (i, j) = (at / n, at % n);
        let (side, row) = (i / block, i % block);
        match j {
            _ if j < 2 * pairs && j % 2 == side => own[row * pairs + j / 2],
            _ if j < 2 * pairs => 0.0,
            _ if j < n - 1 => both[row * common + j - 2 * pairs],
            _ => odd[i],
        }
    };
    let a = (0..m * n).map(entry).collect();
    let b = (0..m).map(|i| right[i % block]).collect();
    nnls(m, n, 3 * n, a, b)
}

/// A round limit at the rounds that are needed, or near.
fn limit(_: Op, _: u64, draw: &mut Draw) -> Call {
    let palette = draw.pick(&[Palette::Smooth, Palette::Whole]);
    let mut call = of(draw, palette);
    let rounds = answer::<Rust, Sound>(&call).counts.first().map_or(0, |&rounds| rounds as usize);
    let near = [rounds.saturating_sub(1), rounds, rounds + 1, rounds / 2, 0];
    call.sizes[2] = draw.pick(&near).min(3 * call.sizes[1]);
    call
}

/// Columns so small and a right-hand side so large that solutions come to the end of the range:
/// columns of any sort, or near one another so that the solution is larger still.
fn overflow(draw: &mut Draw) -> Call {
    let (m, n, sort) = (draw.between(1, 8), draw.between(1, 8), draw.below(3));
    let (base, apart) = (draw.reals(Palette::Smooth, m), draw.power(-12, 0));
    let low = draw.between(20, 500) as i32;
    let high = 1008 - low + draw.below(15) as i32;
    let column = |at: usize| match sort {
        0 => draw.smooth(),
        1 => base[at / n] + apart * draw.smooth(),
        _ => draw.real(Palette::Whole),
    };
    let a: Vec<f64> = (0..m * n).map(column).collect();
    let side = |i: usize| match sort {
        2 => draw.real(Palette::Whole),
        _ => base[i] + 0.3 * draw.smooth(),
    };
    let b: Vec<f64> = (0..m).map(side).collect();
    let scaled =
        |values: Vec<f64>, power: i32| values.iter().map(|x| x * 2f64.powi(power)).collect();
    nnls(m, n, 3 * n, scaled(a, -low), scaled(b, high))
}

/// Columns whose squares are hardly above zero, so that solutions are coarse: among some hundred
/// such problems, the first with a NaN ratio, where a value already infinite is to be blocked.
fn nan_ratio(_: Op, _: u64, draw: &mut Draw) -> Call {
    let mut call = coarse(draw);
    for _ in 0..150 {
        if answer::<Rust, Sound>(&call).tally.nan_ratios > 0 {
            break;
        }
        call = coarse(draw);
    }
    call
}

/// Some columns that lean one way and one that leans against them, at the lower end of the range,
/// and a right-hand side that makes solutions infinite.
fn coarse(draw: &mut Draw) -> Call {
    let (m, n, leaning) = (draw.between(3, 12), draw.between(2, 6), draw.between(1, 3));
    let signs = draw.reals(Palette::Smooth, m);
    let low = 2f64.powi(-(draw.between(537, 540) as i32));
    let entry = |at: usize| {
        let size = draw.fraction() * draw.power(-1, 3) * low;
        match at % n {
            j if j < leaning => size.copysign(signs[at / n]),
            j if j == leaning => -size.copysign(signs[at / n]),
            _ => size.copysign(draw.smooth()),
        }
    };
    let a = (0..m * n).map(entry).collect();
    let high = draw.power(486, 495);
    let b = draw.reals(Palette::Smooth, m).into_iter().map(|value| value * high).collect();
    nnls(m, n, 3 * n, a, b)
}

/// The coarse problem of a number.
fn numbered(number: u64) -> Call {
    coarse(&mut Draw::new(0, Op::Nnls, "coarse", number))
}

/// Whether the answer to a coarse problem hangs on where a NaN ratio ranks.
pub fn decides(number: u64) -> bool {
    let call = numbered(number);
    let after = answer::<Rust, Sound>(&call);
    if after.tally.nan_ratios == 0 {
        return false;
    }
    tally::rank_nan_first(true);
    let before = answer::<Rust, Sound>(&call);
    tally::rank_nan_first(false);
    !after.same(&before)
}
