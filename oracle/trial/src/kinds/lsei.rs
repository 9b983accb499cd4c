//! Kinds for LDP, LSI and LSEI.

use super::parts::{
    huge, in_columns, in_rows, low_rank, product, put_column, put_row, repeat_rows, strew, tiny,
    units,
};
use super::{Row, Share};
use crate::draw::{Draw, Palette, specials, spell};
use crate::table::Aim::{Blocked, Moved, Nan, Number, Place, Ranked};
use reference::call::Call;
use reference::shape::Op;

/// Rows that every one of the three operations has.
macro_rules! rows {
    ($($row:expr),* $(,)?) => {
        &[
            ("smooth", Share::Weight(6), &[Number(0), Blocked], |op, _, draw| any(op, draw, Palette::Smooth)),
            ("whole", Share::Weight(8), &[Number(0), Number(6), Blocked], |op, _, draw| loose(op, draw, Palette::Whole)),
            ("signs", Share::Weight(4), &[Number(0), Number(6)], |op, _, draw| loose(op, draw, Palette::Signs)),
            ("at rest", Share::Weight(5), &[Number(0)], at_rest),
            ("repeated rows", Share::Weight(5), &[Number(0)], repeated),
            ("opposed rows", Share::Weight(4), &[Number(6)], opposed),
            ("far", Share::Weight(4), &[Number(0), Number(6)], far),
            ("wide", Share::Weight(4), &[Number(0)], |op, _, draw| any(op, draw, Palette::Wide)),
            ("tiny", Share::Weight(3), &[Number(0)], |op, _, draw| scaled(op, draw, tiny)),
            ("huge", Share::Weight(3), &[Number(0)], |op, _, draw| scaled(op, draw, huge)),
            ("one special", Share::Weight(5), &[Number(0), Nan], |op, _, draw| strewn(op, draw, 1)),
            ("some special", Share::Weight(3), &[Number(0), Nan], |op, _, draw| strewn(op, draw, 4)),
            ("specials", Share::Weight(3), &[Number(0)], |op, _, draw| loose(op, draw, Palette::Special)),
            ("bits", Share::Weight(2), &[Number(0)], |op, _, draw| loose(op, draw, Palette::Bits)),
            $($row),*
        ]
    };
}

pub const LDP: &[Row] = rows![
    ("every size", Share::All(67 * 18), &[Number(0)], |op, index, draw| {
        let sizes = [(index / 18) as usize, (index % 18) as usize];
        posed(op, draw, &sizes, Palette::Smooth)
    }),
    ("one by one", Share::All(26 * 26), &[Number(0), Number(6), Nan], |op, index, _| {
        spelt(op, index, &[1, 1], &specials())
    }),
    ("two by one", Share::All(625), &[Number(0), Number(6)], |op, index, _| {
        spelt(op, index, &[2, 1], &[-1.0, 0.0, -0.0, 1.0, 2.0])
    }),
    ("two by two", Share::All(729), &[Number(0), Number(6)], |op, index, _| {
        spelt(op, index, &[2, 2], &[-1.0, 0.0, 1.0])
    }),
    ("units", Share::Weight(4), &[Number(0), Moved], in_units),
];

pub const LSI: &[Row] = rows![
    ("every size", Share::All(18 * 18 * 5), &[Number(0), Number(5)], |op, index, draw| {
        let mg = [0, 1, 2, 65, 66][(index % 5) as usize];
        posed(op, draw, &[(index / 90) as usize, (index / 5 % 18) as usize, mg], Palette::Smooth)
    }),
    ("short", Share::All(6561), &[Number(0), Number(5), Number(6)], |op, index, _| {
        spelt(op, index, &[1, 2, 2], &[-1.0, 0.0, 2.0])
    }),
    ("dependent", Share::Weight(3), &[Number(5), Place(5)], dependent),
    ("column twice", Share::Weight(4), &[Number(5), Place(5)], |op, _, draw| {
        let mut call = any(op, draw, Palette::Smooth);
        column_twice(draw, &mut call, 0);
        call
    }),
    ("short rows", Share::Weight(2), &[Number(5), Place(5)], |op, _, draw| {
        let n = draw.between(1, 17);
        let sizes = [n, draw.below(n), draw.size(0, 20)];
        posed(op, draw, &sizes, Palette::Smooth)
    }),
    ("units", Share::Weight(4), &[Number(0), Moved, Ranked], in_units),
];

pub const LSEI: &[Row] = rows![
    ("every size", Share::All(18 * 7 * 5 * 4), &[Number(0), Number(5), Number(11)], every_lsei),
    ("short", Share::All(6561), &[Number(0), Number(6), Number(11)], |op, index, _| {
        spelt(op, index, &[1, 1, 1, 2], &[-1.0, 0.0, 2.0])
    }),
    ("two equalities", Share::All(6561), &[Number(0), Number(11), Place(11)], two_equalities),
    ("dependent", Share::Weight(3), &[Number(5), Number(11), Place(5), Place(11)], dependent),
    ("equality twice", Share::Weight(6), &[Number(11), Place(11)], equality_twice),
    ("column twice", Share::Weight(4), &[Number(5), Place(5)], |op, _, draw| {
        let mut call = any(op, draw, Palette::Smooth);
        column_twice(draw, &mut call, 2);
        call
    }),
    ("twice, hardly told", Share::Weight(3), &[Number(0), Number(11), Place(11)], hardly_told),
    ("lost in what is left", Share::Weight(4), &[Number(5), Place(5)], lost_in_what_is_left),
    ("units", Share::Weight(4), &[Number(0), Moved, Ranked], in_units),
    ("too many", Share::Weight(2), &[Number(11), Place(11)], |op, _, draw| {
        let n = draw.between(0, 15);
        let sizes = [n, draw.between(n + 1, 16), draw.size(0, 17), draw.size(0, 66)];
        posed(op, draw, &sizes, Palette::Smooth)
    }),
    ("determined", Share::Weight(3), &[Number(0)], |op, _, draw| {
        let n = draw.size(0, 16);
        let sizes = [n, n, draw.size(0, 17), draw.size(0, 20)];
        posed(op, draw, &sizes, Palette::Smooth)
    }),
    ("least rows", Share::Weight(4), &[Number(0)], |op, _, draw| {
        let n = draw.size(1, 17);
        let mc = draw.between(0, n.min(16));
        let sizes = [n, mc, (n - mc + draw.below(2)).min(17), draw.size(0, 30)];
        posed(op, draw, &sizes, Palette::Smooth)
    }),
];

/// Sizes whose E and C can have full rank.
fn sizes(op: Op, draw: &mut Draw) -> Vec<usize> {
    let n = draw.size(0, 17);
    let mg = draw.size(0, 66);
    match op {
        Op::Ldp => vec![mg, n],
        Op::Lsi => vec![n, draw.between(n, 17), mg],
        _ => vec![n, draw.size(0, n.min(16)), draw.between(n, 17), mg],
    }
}

/// The columns of a call.
fn columns(call: &Call) -> usize {
    if call.op == Op::Ldp { call.sizes[1] } else { call.sizes[0] }
}

/// Every slice of a palette, with nothing to make the rows agree.
fn filled(op: Op, draw: &mut Draw, sizes: &[usize], palette: Palette) -> Call {
    let lengths = op.lengths(sizes).inputs;
    let inputs = lengths.into_iter().map(|len| draw.reals(palette, len)).collect();
    Call::new(op, sizes, inputs)
}

/// Every slice of a palette, of sizes that can be solved.
fn loose(op: Op, draw: &mut Draw, palette: Palette) -> Call {
    let mut sizes = sizes(op, draw);
    if draw.one_in(2) {
        let last = if op == Op::Ldp { 0 } else { sizes.len() - 1 };
        sizes[last] = draw.between(0, 6);
    }
    filled(op, draw, &sizes, palette)
}

/// Slices of a palette whose constraints one drawn point fulfils.
fn posed(op: Op, draw: &mut Draw, sizes: &[usize], palette: Palette) -> Call {
    let mut call = filled(op, draw, sizes, palette);
    let n = columns(&call);
    let point: Vec<f64> = draw.reals(Palette::Smooth, n).iter().map(|x| 2.0 * x).collect();
    let last = call.inputs.len() - 1;
    let reached = product(&call.inputs[last - 1], n, &point);
    for (h, reached) in call.inputs[last].iter_mut().zip(reached) {
        *h = if draw.one_in(3) { reached } else { reached - draw.fraction() };
    }
    if op == Op::Lsei {
        let equal = product(&call.inputs[0], n, &point);
        call.inputs[1].iter_mut().zip(equal).for_each(|(d, equal)| *d = equal);
    }
    call
}

fn any(op: Op, draw: &mut Draw, palette: Palette) -> Call {
    let sizes = sizes(op, draw);
    posed(op, draw, &sizes, palette)
}

fn scaled(op: Op, draw: &mut Draw, scale: fn(&mut Draw, &mut [Vec<f64>])) -> Call {
    let mut call = any(op, draw, Palette::Smooth);
    if draw.one_in(2) {
        let one = draw.below(call.inputs.len());
        scale(draw, &mut call.inputs[one..=one]);
    } else {
        scale(draw, &mut call.inputs);
    }
    call
}

/// Variables in units, and rows with their right-hand sides.
fn in_units(op: Op, _: u64, draw: &mut Draw) -> Call {
    let mut call = any(op, draw, Palette::Smooth);
    let units = units(draw, columns(&call));
    for pair in call.inputs.chunks_exact_mut(2) {
        let (a, rhs) = pair.split_at_mut(1);
        in_columns(&mut a[0], &units);
        in_rows(draw, &mut a[0], &mut rhs[0]);
    }
    call
}

/// Right-hand sides of zeros of both signs: the answer is zeros too, and their signs count.
fn at_rest(op: Op, _: u64, draw: &mut Draw) -> Call {
    let mut sizes = sizes(op, draw);
    sizes.iter_mut().for_each(|size| *size = (*size).min(4));
    let palette = draw.pick(&[Palette::Smooth, Palette::Whole, Palette::Signs]);
    let mut call = filled(op, draw, &sizes, palette);
    let minus = draw.below(4);
    for side in call.inputs.iter_mut().skip(1).step_by(2) {
        side.iter_mut().for_each(|value| *value = if draw.below(3) < minus { -0.0 } else { 0.0 });
    }
    call
}

fn strewn(op: Op, draw: &mut Draw, places: usize) -> Call {
    let mut call = any(op, draw, Palette::Smooth);
    strew(draw, &mut call.inputs, places);
    call
}

/// All slices of the sizes, spelt from an index over the letters.
fn spelt(op: Op, index: u64, sizes: &[usize], letters: &[f64]) -> Call {
    let lengths = op.lengths(sizes).inputs;
    let mut values = spell(index, letters, lengths.iter().sum()).into_iter();
    let inputs = lengths.iter().map(|&len| values.by_ref().take(len).collect()).collect();
    Call::new(op, sizes, inputs)
}

/// Constraints that stand twice.
fn repeated(op: Op, _: u64, draw: &mut Draw) -> Call {
    let palette = draw.pick(&[Palette::Smooth, Palette::Whole]);
    let mut call = any(op, draw, palette);
    let last = call.inputs.len() - 1;
    let (g, h) = call.inputs.split_at_mut(last);
    repeat_rows(draw, &mut g[last - 1], &mut h[0]);
    call
}

/// Two inequalities that no point fulfils both.
fn opposed(op: Op, _: u64, draw: &mut Draw) -> Call {
    let mut sizes = sizes(op, draw);
    let rows = if op == Op::Ldp { 0 } else { sizes.len() - 1 };
    sizes[rows] = draw.size(2, 66);
    let mut call = posed(op, draw, &sizes, Palette::Smooth);
    let (n, last) = (columns(&call), call.inputs.len() - 1);
    let (from, to) = (draw.below(sizes[rows] - 1), sizes[rows] - 1);
    for j in 0..n {
        call.inputs[last - 1][to * n + j] = -call.inputs[last - 1][from * n + j];
    }
    call.inputs[last][to] = draw.fraction() - call.inputs[last][from];
    call
}

/// A nearest point about as far off as LDP still takes for feasible.
fn far(op: Op, _: u64, draw: &mut Draw) -> Call {
    let n = draw.size(1, 4);
    let sizes = match op {
        Op::Ldp => vec![1, n],
        Op::Lsi => vec![n, n, 1],
        _ => vec![n, 0, n, 1],
    };
    let mut call = filled(op, draw, &sizes, Palette::Smooth);
    let last = call.inputs.len() - 1;
    if op != Op::Ldp {
        let (e, f) = (last - 3, last - 2);
        call.inputs[e] = (0..n * n).map(|at| f64::from(u8::from(at % (n + 1) == 0))).collect();
        call.inputs[f] = vec![0.0; n];
    }
    let length = (1000.0 * f64::EPSILON).sqrt() * (1.0 + draw.smooth() * draw.power(-12, -1));
    let norm = call.inputs[last - 1].iter().map(|g| g * g).sum::<f64>().sqrt();
    call.inputs[last - 1].iter_mut().for_each(|g| *g *= length / norm);
    call.inputs[last] = vec![1.0];
    call
}

/// A matrix E or C of lower rank than it needs.
fn dependent(op: Op, _: u64, draw: &mut Draw) -> Call {
    let n = draw.size(2, 16);
    let mc = draw.between(1, n);
    let sizes = match op {
        Op::Lsi => vec![n, draw.size(0, 17), draw.size(0, 20)],
        _ => vec![n, mc, draw.between(n, 17), draw.size(0, 20)],
    };
    let mut call = posed(op, draw, &sizes, Palette::Smooth);
    let palette = draw.pick(&[Palette::Smooth, Palette::Whole]);
    let matrix = if op == Op::Lsei && draw.one_in(2) { 2 } else { 0 };
    let rows = call.inputs[matrix].len() / n;
    let rank = draw.below(if matrix == 0 { rows.min(n) + 1 } else { n - mc + 1 });
    call.inputs[matrix] = low_rank(draw, palette, rows, n, rank);
    call
}

/// A column of E that stands twice, or its opposite, or nothing in its place.
fn column_twice(draw: &mut Draw, call: &mut Call, matrix: usize) {
    let n = columns(call);
    if n > 0 {
        let (from, to) = (draw.below(n), draw.below(n));
        let factor = draw.pick(&[1.0, 1.0, -1.0, 2.0, 3.0, 0.0]);
        put_column(&mut call.inputs[matrix], n, from, to, factor);
    }
}

/// Equalities of which one stands twice, or its opposite or a multiple, with or without its side.
fn equality_twice(op: Op, _: u64, draw: &mut Draw) -> Call {
    let n = draw.size(1, 17);
    let mc = draw.between(2, n.clamp(2, 16));
    let sizes = [n, mc, draw.between(n, 17), draw.size(0, 20)];
    let palette = draw.pick(&[Palette::Smooth, Palette::Whole, Palette::Signs]);
    let mut call = posed(op, draw, &sizes, palette);
    let from = draw.below(mc);
    let to = (from + draw.between(1, mc - 1)) % mc;
    let factor = draw.pick(&[1.0, 1.0, 1.0, -1.0, 2.0, 3.0]);
    put_row(&mut call.inputs[0], n, from, to, factor);
    if draw.one_in(2) {
        call.inputs[1][to] = factor * call.inputs[1][from];
    }
    call
}

/// Rows that stand twice and whose second, once the first is taken, rounding leaves just above the
/// rank tolerance: they pass for independent. In another order of variables most do not.
const HARDLY: [&[f64]; 6] = [
    &[0.7, 2.8],
    &[0.1, 5.8],
    &[0.19, 0.7],
    &[3175.0, 7324.0],
    &[0.2, 5.7, 6.2],
    &[0.4, 31.7, 12.8],
];

/// One of these rows twice, in a power of two and with signs, or with its variables turned.
fn hardly_told(op: Op, _: u64, draw: &mut Draw) -> Call {
    let row = draw.pick(&HARDLY);
    let (n, scale) = (row.len(), draw.power(-20, 20));
    let mut row: Vec<f64> = row.iter().map(|value| value * draw.pick(&[scale, -scale])).collect();
    if draw.one_in(3) {
        row.rotate_left(1);
    }
    let mut call = posed(op, draw, &[n, 2, n, draw.clone().below(4)], Palette::Smooth);
    call.inputs[0] = [&row[..], &row].concat();
    if draw.one_in(2) {
        call.inputs[1][1] = call.inputs[1][0];
    }
    call
}

/// Two equalities on two variables, by index over three letters, on E of the unit matrix.
fn two_equalities(op: Op, index: u64, _: &mut Draw) -> Call {
    let values = spell(index, &[-1.0, 0.0, 2.0], 8);
    let (c, rest) = values.split_at(4);
    let (d, f) = rest.split_at(2);
    let e = vec![1.0, 0.0, 0.0, 1.0];
    let inputs = vec![c.to_vec(), d.to_vec(), e, f.to_vec(), vec![], vec![]];
    Call::new(op, &[2, 2, 2, 0], inputs)
}

/// No more rows of E than are needed, and one of them an equality's: what the equalities leave of it
/// is short of rank by one.
fn lost_in_what_is_left(op: Op, _: u64, draw: &mut Draw) -> Call {
    let n = draw.between(2, 17);
    let mc = draw.between(1, (n - 1).min(16));
    let sizes = [n, mc, n - mc, draw.size(0, 20)];
    let mut call = posed(op, draw, &sizes, Palette::Smooth);
    let (c, row) = (call.inputs[0][..n].to_vec(), draw.below(n - mc));
    call.inputs[2][row * n..(row + 1) * n].copy_from_slice(&c);
    call
}

/// Sizes about every boundary of LSEI.
fn every_lsei(op: Op, index: u64, draw: &mut Draw) -> Call {
    let n = (index / 140) as usize;
    let mc = [0, 1, n.saturating_sub(1), n, n + 1, 15, 16][(index / 20 % 7) as usize].min(16);
    let me = [0, 1, n.saturating_sub(1), n, 17][(index / 4 % 5) as usize];
    let mg = [0, 1, 65, 66][(index % 4) as usize];
    posed(op, draw, &[n, mc, me, mg], Palette::Smooth)
}
