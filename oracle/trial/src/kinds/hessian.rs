//! Kinds for the approximation B: identity, product, Cholesky, update.

use super::parts::{huge, strew, tiny};
use super::{Row, Share};
use crate::draw::{Draw, Palette, specials, spell};
use crate::table::Aim::{Nan, Number};
use reference::call::Call;
use reference::shape::Op;

pub const IDENTITY: [Row; 1] = [("every size", Share::All(16), &[Number(0)], |op, index, _| {
    Call::new(op, &[index as usize + 1], vec![])
})];

/// Rows that hold for the product, the factor and the update alike.
macro_rules! rows {
    ($letters:expr; $($row:expr),* $(,)?) => {
        &[
            ("every size", Share::All(16 * 20), &[Number(0)], |op, index, draw| {
                let n = (index % 16) as usize + 1;
                definite(op, n, draw, Palette::Smooth)
            }),
            ("one by one", Share::All($letters), &[Number(0)], one_by_one),
            ("two by two", Share::All(7u64.pow(4)), &[Number(0)], two_by_two),
            ("definite", Share::Weight(6), &[Number(0)], |op, _, draw| of(op, draw, Palette::Smooth)),
            ("whole", Share::Weight(6), &[Number(0)], |op, _, draw| of(op, draw, Palette::Whole)),
            ("tiny", Share::Weight(3), &[Number(0)], |op, _, draw| scaled(op, draw, tiny)),
            ("huge", Share::Weight(3), &[Number(0)], |op, _, draw| scaled(op, draw, huge)),
            ("one special", Share::Weight(4), &[Number(0)], |op, _, draw| {
                let mut call = of(op, draw, Palette::Smooth);
                strew(draw, &mut call.inputs, 1);
                call
            }),
            ("any", Share::Weight(3), &[Number(0)], |op, _, draw| any(op, draw, Palette::Smooth)),
            ("wide", Share::Weight(3), &[Number(0)], |op, _, draw| any(op, draw, Palette::Wide)),
            ("signs", Share::Weight(3), &[Number(0)], |op, _, draw| any(op, draw, Palette::Signs)),
            ("specials", Share::Weight(3), &[Number(0)], |op, _, draw| any(op, draw, Palette::Special)),
            ("bits", Share::Weight(3), &[Number(0)], |op, _, draw| any(op, draw, Palette::Bits)),
            $($row),*
        ]
    };
}

pub const TIMES: &[Row] = rows![26 * 26;];

pub const CHOLESKY: &[Row] = rows![26;
    ("indefinite", Share::Weight(4), &[Number(0), Number(8)], |op, _, draw| {
        let mut call = of(op, draw, Palette::Smooth);
        let n = call.sizes[0];
        let diagonal = draw.below(n) * (n + 1);
        call.inputs[0][diagonal] *= draw.smooth();
        call
    }),
    ("two triangles", Share::Weight(3), &[Number(0)], |op, _, draw| {
        let mut call = of(op, draw, Palette::Smooth);
        let n = call.sizes[0];
        for at in (0..n * n).filter(|at| at % n > at / n) {
            call.inputs[0][at] = draw.real(Palette::Special);
        }
        call
    }),
];

pub const UPDATE: &[Row] = rows![26 * 26 * 26;
    ("damped", Share::Weight(4), &[Number(0)], |op, _, draw| {
        let mut call = of(op, draw, Palette::Smooth);
        let back = 0.3 * draw.smooth();
        call.inputs[2] = call.inputs[1].iter().map(|s| s * back).collect();
        call
    }),
    ("edge of damping", Share::Weight(4), &[Number(0)], edge_of_damping),
    ("vanishing", Share::Weight(3), &[Number(0)], vanishing),
    ("no step", Share::Weight(2), &[Number(0)], |op, _, draw| {
        let mut call = of(op, draw, Palette::Smooth);
        call.inputs[1].iter_mut().for_each(|s| *s = draw.pick(&[0.0, -0.0]));
        call
    }),
    ("infinite", Share::Weight(3), &[Number(0), Nan], |op, _, draw| {
        let mut call = of(op, draw, Palette::Whole);
        let n = call.sizes[0];
        let (row, col) = (draw.below(n), draw.below(n));
        call.inputs[0][row * n + col] = draw.pick(&[f64::INFINITY, f64::MAX, f64::NEG_INFINITY]);
        call.inputs[2][row] = draw.pick(&[f64::INFINITY, f64::MAX, 1.0]);
        call
    }),
];

/// A matrix plus its mirror, or with its own product made positive definite.
fn matrix(draw: &mut Draw, n: usize, palette: Palette) -> Vec<f64> {
    let a = draw.reals(palette, n * n);
    let lift = if palette == Palette::Whole { 1.0 } else { 0.01 };
    let entry = |i: usize, j: usize| {
        let dot: f64 = (0..n).map(|k| a[i * n + k] * a[j * n + k]).sum();
        if i == j { dot + lift } else { dot }
    };
    (0..n * n).map(|at| entry(at / n, at % n)).collect()
}

fn definite(op: Op, n: usize, draw: &mut Draw, palette: Palette) -> Call {
    let mut inputs = vec![matrix(draw, n, palette)];
    for _ in 1..op.lengths(&[n]).inputs.len() {
        inputs.push(draw.reals(palette, n));
    }
    Call::new(op, &[n], inputs)
}

fn of(op: Op, draw: &mut Draw, palette: Palette) -> Call {
    let n = draw.size(1, 16);
    definite(op, n, draw, palette)
}

fn any(op: Op, draw: &mut Draw, palette: Palette) -> Call {
    let n = draw.pick(&[1, 2, 3, 16, draw.clone().size(1, 16)]);
    let lengths = op.lengths(&[n]).inputs;
    let inputs = lengths.into_iter().map(|len| draw.reals(palette, len)).collect();
    Call::new(op, &[n], inputs)
}

fn scaled(op: Op, draw: &mut Draw, scale: fn(&mut Draw, &mut [Vec<f64>])) -> Call {
    let mut call = of(op, draw, Palette::Smooth);
    scale(draw, &mut call.inputs);
    call
}

fn one_by_one(op: Op, index: u64, _: &mut Draw) -> Call {
    let slices = op.lengths(&[1]).inputs.len();
    let values = spell(index, &specials(), slices);
    Call::new(op, &[1], values.into_iter().map(|value| vec![value]).collect())
}

/// Every matrix over a few letters, with short vectors that the index picks.
fn two_by_two(op: Op, index: u64, draw: &mut Draw) -> Call {
    let letters = [0.0, -0.0, 1.0, -1.0, 2.0, 5.0, f64::INFINITY];
    let mut inputs = vec![spell(index, &letters, 4)];
    for _ in 1..op.lengths(&[2]).inputs.len() {
        inputs.push((0..2).map(|_| draw.pick(&[0.0, -0.0, 1.0, -1.0, 2.0, 1.0])).collect());
    }
    Call::new(op, &[2], inputs)
}

/// A step along one axis whose curvature is exactly the damping's share, or one step off.
fn edge_of_damping(op: Op, _: u64, draw: &mut Draw) -> Call {
    let mut call = of(op, draw, Palette::Smooth);
    let n = call.sizes[0];
    let axis = draw.below(n);
    let share = 0.2 * call.inputs[0][axis * (n + 1)];
    let nearby = f64::from_bits(share.to_bits() + draw.below(3) as u64 - 1);
    call.inputs[1] = vec![0.0; n];
    call.inputs[1][axis] = 1.0;
    call.inputs[2][axis] = nearby;
    call
}

/// A step so short that s'Bs is hardly above zero and s'y, and then s'r, vanish to a zero of
/// either sign while the squares of r do not.
fn vanishing(op: Op, _: u64, draw: &mut Draw) -> Call {
    let n = draw.between(1, 3);
    let short = draw.between(590, 610) as i32;
    let signed = |draw: &mut Draw, power: i32, less: usize| {
        2f64.powi(power - draw.below(less) as i32).copysign(draw.smooth())
    };
    let mut b = vec![0.0; n * n];
    for entry in b.iter_mut().step_by(n + 1) {
        *entry = 2f64.powi(2 * short - 1074 + draw.below(3) as i32);
    }
    let s = (0..n).map(|_| signed(draw, -short, 1)).collect();
    let y = (0..n).map(|_| signed(draw, short - 1090, 8)).collect();
    Call::new(op, &[n], vec![b, s, y])
}
