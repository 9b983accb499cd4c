//! Calls with a wrong size, length, workspace or kind, for every argument, one or several.

use super::{Row, Share, own, packed};
use crate::draw::{Draw, Palette};
use crate::table::Aim::Number;
use reference::call::{Call, WIDTHS};
use reference::shape::{Op, WORKSPACES};

pub const ROWS: [Row; 5] = [
    ("bad size", Share::Weight(3), &[Number(1)], |op, _, draw| spoilt(op, draw, &[bad_size])),
    ("bad size, fitting", Share::Weight(3), &[Number(1)], fitting),
    ("bad length", Share::Weight(3), &[Number(2)], |op, _, draw| spoilt(op, draw, &[bad_length])),
    ("bad workspace", Share::Weight(3), &[Number(3)], |op, _, draw| {
        spoilt(op, draw, &[bad_workspace])
    }),
    ("several bad", Share::Weight(3), &[Number(1), Number(2), Number(3)], |op, _, draw| {
        spoilt(op, draw, &[bad_size, bad_length, bad_workspace, bad_kind, bad_width])
    }),
];

/// Rows that the step has besides.
pub const STEP: [Row; 5] = [
    ("bad kind", Share::Weight(4), &[Number(4)], |op, _, draw| spoilt(op, draw, &[bad_kind])),
    ("bad width", Share::Weight(6), &[Number(14)], |op, _, draw| spoilt(op, draw, &[bad_width])),
    ("bad width, more", Share::Weight(6), &[Number(2), Number(3), Number(4)], |op, _, draw| {
        let other = draw.pick(&[bad_length, bad_workspace, bad_kind]);
        let mut call = spoilt(op, draw, &[bad_width]);
        other(&mut call, draw);
        call
    }),
    ("bad report", Share::Weight(3), &[Number(2)], |op, _, draw| spoilt(op, draw, &[bad_report])),
    ("bad report, more", Share::Weight(3), &[Number(1), Number(2)], |op, _, draw| {
        let other = draw.pick(&[bad_size, bad_workspace, bad_kind, bad_width]);
        let mut call = spoilt(op, draw, &[other]);
        bad_report(&mut call, draw);
        call
    }),
];

/// Rows that the check has besides.
pub const CHECK: [Row; 7] = [
    ("bad kind", Share::Weight(3), &[Number(4)], |op, _, draw| spoilt(op, draw, &[bad_kind])),
    ("bad width", Share::Weight(4), &[Number(14)], |op, _, draw| spoilt(op, draw, &[bad_width])),
    ("bad tolerance", Share::Weight(5), &[Number(10)], |op, _, draw| {
        spoilt(op, draw, &[bad_tolerance])
    }),
    ("bad tolerance, more", Share::Weight(5), &[Number(2), Number(3), Number(4)], |op, _, draw| {
        let other = draw.pick(&[bad_length, bad_workspace, bad_kind]);
        let mut call = spoilt(op, draw, &[bad_tolerance]);
        other(&mut call, draw);
        call
    }),
    ("bad width and tolerance", Share::Weight(4), &[Number(14)], |op, _, draw| {
        let mut call = spoilt(op, draw, &[bad_width]);
        bad_tolerance(&mut call, draw);
        call
    }),
    ("bad verdict", Share::Weight(3), &[Number(2)], |op, _, draw| spoilt(op, draw, &[bad_report])),
    ("bad verdict, more", Share::Weight(3), &[Number(1), Number(2)], |op, _, draw| {
        let other = draw.pick(&[bad_size, bad_workspace, bad_kind, bad_tolerance]);
        let mut call = spoilt(op, draw, &[other]);
        bad_report(&mut call, draw);
        call
    }),
];

/// Rows that settled volumes have besides.
pub const SETTLE: [Row; 2] = [
    ("bad tolerance", Share::Weight(4), &[Number(10)], |op, _, draw| {
        spoilt(op, draw, &[bad_tolerance])
    }),
    ("bad tolerance, more", Share::Weight(4), &[Number(2), Number(3)], |op, _, draw| {
        let other = draw.pick(&[bad_length, bad_workspace]);
        let mut call = spoilt(op, draw, &[bad_tolerance]);
        other(&mut call, draw);
        call
    }),
];

/// One of an operation's own calls, of the kinds that are drawn.
fn sound(op: Op, draw: &mut Draw) -> Call {
    let rows = own(op);
    let row = rows[draw.below(rows.len())];
    let index = match row.1 {
        Share::All(count) => draw.below(count as usize) as u64,
        Share::Weight(_) => draw.bits() >> 32,
    };
    packed::make(op, row.3, index, draw)
}

/// A sound call with one of the faults, or with some of several.
pub fn spoilt(op: Op, draw: &mut Draw, faults: &[fn(&mut Call, &mut Draw)]) -> Call {
    let mut call = sound(op, draw);
    let mut put = 0;
    while put == 0 {
        for fault in faults {
            if faults.len() == 1 || draw.one_in(2) {
                fault(&mut call, draw);
                put += 1;
            }
        }
    }
    call
}

/// A size outside its range; the slices stay.
fn bad_size(call: &mut Call, draw: &mut Draw) {
    let at = draw.below(call.sizes.len());
    let (from, to) = call.op.sizes()[at];
    let to = if call.op == Op::Nnls && at == 2 { call.sizes[1].saturating_mul(3) } else { to };
    let beyond = to.saturating_add(1);
    let wrapped = (1usize << 32).saturating_add(call.sizes[at]);
    let far = [
        beyond,
        beyond,
        beyond.saturating_add(1),
        255,
        65_536,
        wrapped,
        usize::MAX,
        1 << 61,
        1 << 63,
    ];
    let below = if from > 0 { from - 1 } else { beyond };
    call.sizes[at] = draw.pick(&[draw.clone().pick(&far), below, beyond]);
}

/// A size just outside its range, with every slice as long as it would ask.
fn fitting(op: Op, _: u64, draw: &mut Draw) -> Call {
    let mut sizes: Vec<usize> =
        op.sizes().iter().map(|&(from, to)| draw.size(from, to.min(20))).collect();
    if op == Op::Nnls {
        sizes[2] = sizes[2].min(3 * sizes[1]);
    }
    let at = draw.below(sizes.len());
    let (from, to) = op.sizes()[at];
    sizes[at] = if from > 0 && draw.one_in(2) { from - 1 } else { to + draw.between(1, 2) };
    if op == Op::Nnls && at == 2 {
        sizes[2] = 3 * sizes[1] + draw.between(1, 3);
    }
    let lengths = op.lengths(&sizes).inputs;
    let inputs = lengths.into_iter().map(|len| draw.reals(Palette::Smooth, len)).collect();
    Call::new(op, &sizes, inputs)
}

/// A length that is not its size's: one off, none, or another's.
fn other_length(len: usize, draw: &mut Draw) -> usize {
    let other = [len + 1, len.wrapping_sub(1), 0, len + draw.clone().between(1, 20), 2 * len + 1];
    let picked = draw.pick(&other);
    if picked == len || picked > len + 10_000 { len + 1 } else { picked }
}

/// One slice of another length.
pub fn bad_length(call: &mut Call, draw: &mut Draw) {
    // A tolerance is no slice.
    let slices = call.inputs.len() - usize::from(call.op.tolerance().is_some());
    let (inputs, outputs) = (slices, call.outputs.len());
    let extra = match call.op {
        Op::Qr | Op::Reconcile => 1,
        Op::Step | Op::StrictStep | Op::Check => 2,
        Op::Suspect => 3,
        _ => 0,
    };
    let at = draw.below(inputs + outputs + extra);
    if at < inputs {
        let len = other_length(call.inputs[at].len(), draw);
        call.inputs[at].resize(len, 1.0);
    } else if at < inputs + outputs {
        call.outputs[at - inputs] = other_length(call.outputs[at - inputs], draw);
    } else if at == inputs + outputs {
        call.words = other_length(call.words, draw);
    } else if at == inputs + outputs + 2 {
        call.seconds = other_length(call.seconds, draw);
    } else {
        let len = other_length(call.kinds.len(), draw);
        call.kinds.resize(len, 1);
    }
}

/// A report or a verdict of another length.
pub fn bad_report(call: &mut Call, draw: &mut Draw) {
    let (less, more) = (call.words - 1, call.words + 1);
    call.words = draw.pick(&[less, more, 0, other_length(call.words, &mut draw.clone())]);
}

/// One workspace, or both, too short.
pub fn bad_workspace(call: &mut Call, draw: &mut Draw) {
    let short = |draw: &mut Draw, least: usize| draw.pick(&[least - 1, least - 1, 0, 1, least / 2]);
    let which = draw.below(3);
    let more = draw.below(5);
    call.work = match which {
        0 => [short(draw, WORKSPACES[0]), WORKSPACES[1] + more],
        1 => [WORKSPACES[0] + more, short(draw, WORKSPACES[1])],
        _ => [short(draw, WORKSPACES[0]), short(draw, WORKSPACES[1])],
    };
}

/// A kind other than 0, 1 and 2, where there is a constraint.
pub fn bad_kind(call: &mut Call, draw: &mut Draw) {
    if !call.kinds.is_empty() {
        let at = draw.below(call.kinds.len());
        call.kinds[at] = draw.pick(&[3, 3, 4, 128, 254, 255]);
    }
}

/// A tolerance that is none.
fn bad_tolerance(call: &mut Call, draw: &mut Draw) {
    if let Some(at) = call.op.tolerance() {
        call.inputs[at][0] = draw.pick(&[
            f64::NAN,
            -f64::NAN,
            f64::NEG_INFINITY,
            -1.0,
            -f64::MIN_POSITIVE,
            -5e-324,
            f64::MIN,
        ]);
    }
}

/// A band whose width is none, where there is a constraint.
pub fn bad_width(call: &mut Call, draw: &mut Draw) {
    let constraints = call.kinds.len().min(call.inputs.get(WIDTHS).map_or(0, Vec::len));
    if call.op.has_kinds() && constraints > 0 {
        let at = draw.below(constraints);
        call.kinds[at] = 2;
        call.inputs[WIDTHS][at] = draw.pick(&[
            f64::NAN,
            -f64::NAN,
            f64::INFINITY,
            f64::NEG_INFINITY,
            -1.0,
            -f64::MIN_POSITIVE,
            -5e-324,
            f64::MIN,
        ]);
    }
}
