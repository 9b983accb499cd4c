//! Libraries that answer rightly and touch what they may not: the comparison must tell each.

use peer::{Library, library};
use reference::Rust;
use reference::call::{Call, Sound, WIDTHS, answer};
use reference::shape::Op;
use std::cell::Cell;
use trial::draw::Draw;
use trial::held::{Junk, compare};

/// What a library touches after its answer.
#[derive(Clone, Copy, PartialEq)]
enum Touch {
    Nothing,
    Output,
    Count,
    Input,
    BeforeOutput,
    AfterOutput,
    AfterWorkspace,
    IndexWorkspace,
    Place,
    BeforePlace,
    AfterPlace,
    Report,
    BeforeReport,
    AfterReport,
    Relaxation,
    Tally,
    AfterTally,
}

thread_local! {
    static TOUCH: Cell<Touch> = const { Cell::new(Touch::Nothing) };
}

#[allow(clippy::too_many_arguments)]
unsafe extern "C" fn nnls(
    m: usize,
    n: usize,
    k: usize,
    a: *const f64,
    a_len: usize,
    b: *const f64,
    b_len: usize,
    x: *mut f64,
    x_len: usize,
    rounds: *mut u32,
    factorings: *mut u32,
    w: *mut f64,
    w_len: usize,
    iw: *mut u32,
    iw_len: usize,
) -> u32 {
    let sound = library::<Rust, Sound>().nnls;
    unsafe {
        let number =
            sound(m, n, k, a, a_len, b, b_len, x, x_len, rounds, factorings, w, w_len, iw, iw_len);
        match TOUCH.get() {
            Touch::Nothing => {}
            Touch::Output => flip(x),
            Touch::Count => *factorings ^= 1,
            Touch::Input => flip(b.cast_mut()),
            Touch::BeforeOutput => flip(x.sub(1)),
            Touch::AfterOutput => flip(x.add(x_len)),
            Touch::AfterWorkspace => flip(w.add(w_len)),
            Touch::IndexWorkspace => *iw ^= 1,
            _ => unreachable!("NNLS has no place and no report"),
        }
        number
    }
}

#[allow(clippy::too_many_arguments)]
unsafe extern "C" fn lsi(
    n: usize,
    me: usize,
    mg: usize,
    e: *const f64,
    e_len: usize,
    f: *const f64,
    f_len: usize,
    g: *const f64,
    g_len: usize,
    h: *const f64,
    h_len: usize,
    x: *mut f64,
    x_len: usize,
    l: *mut f64,
    l_len: usize,
    place: *mut u32,
    w: *mut f64,
    w_len: usize,
    iw: *mut u32,
    iw_len: usize,
) -> u32 {
    let sound = library::<Rust, Sound>().lsi;
    unsafe {
        let number = sound(
            n, me, mg, e, e_len, f, f_len, g, g_len, h, h_len, x, x_len, l, l_len, place, w, w_len,
            iw, iw_len,
        );
        match TOUCH.get() {
            Touch::Place => *place ^= 1,
            Touch::BeforePlace => *place.sub(1) ^= 1,
            Touch::AfterPlace => *place.add(1) ^= 1,
            _ => {}
        }
        number
    }
}

#[allow(clippy::too_many_arguments)]
unsafe extern "C" fn step(
    n: usize,
    m: usize,
    factor: *const f64,
    factor_len: usize,
    gradient: *const f64,
    gradient_len: usize,
    kinds: *const u8,
    kinds_len: usize,
    values: *const f64,
    values_len: usize,
    widths: *const f64,
    widths_len: usize,
    jacobian: *const f64,
    jacobian_len: usize,
    lower: *const f64,
    lower_len: usize,
    upper: *const f64,
    upper_len: usize,
    d: *mut f64,
    d_len: usize,
    l: *mut f64,
    l_len: usize,
    relaxation: *mut f64,
    report: *mut u32,
    report_len: usize,
    tally: *mut [u64; 2],
    w: *mut f64,
    w_len: usize,
    iw: *mut u32,
    iw_len: usize,
) -> u32 {
    let sound = library::<Rust, Sound>().step;
    unsafe {
        let number = sound(
            n,
            m,
            factor,
            factor_len,
            gradient,
            gradient_len,
            kinds,
            kinds_len,
            values,
            values_len,
            widths,
            widths_len,
            jacobian,
            jacobian_len,
            lower,
            lower_len,
            upper,
            upper_len,
            d,
            d_len,
            l,
            l_len,
            relaxation,
            report,
            report_len,
            tally,
            w,
            w_len,
            iw,
            iw_len,
        );
        match TOUCH.get() {
            Touch::Report => *report.add(report_len / 2) ^= 1,
            Touch::BeforeReport => *report.sub(1) ^= 1,
            Touch::AfterReport => *report.add(report_len) ^= 1,
            Touch::Relaxation => flip(relaxation),
            Touch::Tally => (*tally)[1] ^= 1,
            Touch::AfterTally => *tally.add(1).cast::<u64>() ^= 1,
            _ => {}
        }
        number
    }
}

/// Changes the last bit, so that a NaN changes too.
unsafe fn flip(place: *mut f64) {
    unsafe { *place.cast::<u64>() ^= 1 }
}

/// The differences that are found for NNLS on [1], [2] with a limit and a workspace length.
fn found(touch: Touch, limit: usize, work: usize) -> Vec<String> {
    TOUCH.set(touch);
    let inputs = vec![vec![1.0], vec![2.0]];
    let mut call = Call::new(Op::Nnls, &[1, 1, limit], inputs);
    call.work[0] = work;
    let touching = Library { nnls, ..library::<Rust, Sound>() };
    let mut draw = Draw::new(1, Op::Nnls, "touched", 0);
    compare(&touching, &call, &answer::<Rust, Sound>(&call), &Junk::new(1), &mut draw)
}

/// Done, refused before the arithmetic (1, 3) and after it (7): each touch is told, alone.
#[test]
fn every_touch_is_told() {
    use Touch::{AfterOutput, AfterWorkspace, BeforeOutput, Count, IndexWorkspace, Input, Output};
    for (limit, work) in [(3, 8192), (3, 8200), (4, 8192), (3, 8191), (0, 8192)] {
        assert!(found(Touch::Nothing, limit, work).is_empty(), "{limit} {work}");
        let touches =
            [Output, Count, Input, BeforeOutput, AfterOutput, AfterWorkspace, IndexWorkspace];
        for (at, touch) in touches.into_iter().enumerate() {
            let lines = found(touch, limit, work);
            assert_eq!(lines.len(), 1, "touch {at}, limit {limit}, workspace {work}: {lines:?}");
        }
    }
}

/// The differences that are found for a call of a library that touches.
fn differences(touch: Touch, call: &Call) -> Vec<String> {
    TOUCH.set(touch);
    let touching = Library { lsi, step, ..library::<Rust, Sound>() };
    let mut draw = Draw::new(1, call.op, "touched", 0);
    compare(&touching, call, &answer::<Rust, Sound>(call), &Junk::new(1), &mut draw)
}

/// Each touch is told, alone, whatever the number.
fn tells(call: &Call, number: u32, touches: &[Touch]) {
    assert_eq!(answer::<Rust, Sound>(call).number, number);
    assert!(differences(Touch::Nothing, call).is_empty(), "{number}");
    for (at, &touch) in touches.iter().enumerate() {
        let lines = differences(touch, call);
        assert_eq!(lines.len(), 1, "touch {at}, number {number}: {lines:?}");
    }
}

/// A place beside a refusal by rank, and one that must stay with any other number.
#[test]
fn every_touch_of_a_place_is_told() {
    let touches = [Touch::Place, Touch::BeforePlace, Touch::AfterPlace];
    let lsi = |e: f64, g: f64| {
        let inputs = vec![vec![e], vec![1.0], vec![g], vec![1.0]];
        Call::new(Op::Lsi, &[1, 1, 1], inputs)
    };
    tells(&lsi(1.0, 1.0), 0, &touches);
    tells(&lsi(0.0, 1.0), 5, &touches);
    tells(&lsi(1.0, 0.0), 6, &touches);
    let mut short = lsi(1.0, 1.0);
    short.work[1] = 511;
    tells(&short, 3, &touches);
}

/// Report and tally move with 0, 5 and 6, and stay with the numbers before the arithmetic.
#[test]
fn every_touch_of_a_report_is_told() {
    let touches = [
        Touch::Report,
        Touch::BeforeReport,
        Touch::AfterReport,
        Touch::Relaxation,
        Touch::Tally,
        Touch::AfterTally,
    ];
    let step = |factor: f64, lower: f64| {
        let one = |value: f64| vec![value];
        let inputs =
            vec![one(factor), one(1.0), one(0.0), one(0.0), one(0.0), one(lower), one(1.0)];
        Call::new(Op::Step, &[1, 1], inputs)
    };
    tells(&step(1.0, 0.0), 0, &touches);
    tells(&step(0.0, 0.0), 5, &touches);
    tells(&step(1.0, 2.0), 6, &touches);
    let [mut sizes, mut report, mut room, mut kind, mut width] = [(); 5].map(|()| step(1.0, 0.0));
    (sizes.sizes[0], report.words, room.work[0], kind.kinds[0]) = (17, 7, 8191, 3);
    (width.kinds[0], width.inputs[WIDTHS][0]) = (2, -1.0);
    for (call, number) in [(sizes, 1), (report, 2), (room, 3), (kind, 4), (width, 14)] {
        tells(&call, number, &touches);
    }
}
