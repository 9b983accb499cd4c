//! Slices that were overwritten between calls, and calls that are refused.

use super::calls::{LENGTHS, Machine, Manner, Slices, compare_begin, compare_tell};
use super::runs::KINDS;
use super::{Counts, Plan};
use crate::draw::{Draw, Palette};
use crate::held::Junk;
use reference::search::call::Begin;
use reference::search::page::{B, KINDS as KIND_WORDS, LOWER, SIZES, UPPER};
use reference::shape::{Op, WORKSPACES};

/// The numbers that refused calls must have at least once.
pub const NUMBERS: [u32; 10] = [0, 1, 2, 3, 4, 10, 15, 16, 17, 18];

/// Answers to slices that were overwritten, in a row.
const ANSWERS: usize = 6;

/// Words of a machine, near its limits.
fn words(draw: &mut Draw, words: &mut [u32]) {
    let (n, m) = (draw.size(1, 16) as u32, draw.size(0, 16) as u32);
    let phase = draw.pick(&[1, 2, 2, 3, 4, 4, 5, 5]);
    let left = draw.pick(&[0, 1, 2, 100, 10_000]);
    let again = draw.below(11) as u32;
    let (functions, variables) = (draw.below(m as usize + 1), draw.below(n as usize));
    let [fresh, taken] = [0, 1].map(|_| draw.below(2) as u32);
    let state = [phase, left, again, fresh, taken, functions as u32, variables as u32];
    words[..7].copy_from_slice(&state);
    words[SIZES..SIZES + 3].copy_from_slice(&[n, m, draw.below(3) as u32]);
    words[KIND_WORDS..KIND_WORDS + 16].iter_mut().for_each(|kind| *kind = draw.below(2) as u32);
}

/// Puts one word where it must not be, or any number of any words.
fn spoil_words(draw: &mut Draw, words: &mut [u32]) {
    if draw.one_in(8) {
        words.iter_mut().for_each(|word| *word = draw.bits() as u32 >> draw.below(32));
        return;
    }
    let (at, wrong) = draw.pick(&[
        (0, 0),
        (0, 6),
        (0, 9),
        (0, 10),
        (1, 10_001),
        (2, 11),
        (3, 2),
        (4, 2),
        (5, 17),
        (6, 16),
        (8, 0),
        (8, 17),
        (9, 17),
        (10, 3),
        (16, 2),
        (7, 5),
        (11, 5),
    ]);
    words[at] = if draw.one_in(3) { u32::MAX - wrong } else { wrong };
}

/// Floats of a palette, or those of a machine with some overwritten.
fn floats(draw: &mut Draw, floats: &mut [f64]) {
    let palettes = [
        Palette::Smooth,
        Palette::Whole,
        Palette::Wide,
        Palette::Vast,
        Palette::Special,
        Palette::Bits,
    ];
    let (palette, whole) = (draw.pick(&palettes), draw.one_in(2));
    for value in floats.iter_mut() {
        if whole || draw.one_in(30) {
            *value = draw.real(palette);
        }
    }
    if draw.one_in(2) {
        let n = 1 + draw.below(16);
        (0..n * n).for_each(|at| floats[B + at] = f64::from(u8::from(at / n == at % n)));
    }
    if draw.one_in(2) {
        (LOWER..LOWER + 16).for_each(|at| floats[at] = -1.0 - draw.fraction());
        (UPPER..UPPER + 16).for_each(|at| floats[at] = 1.0 + draw.fraction());
    }
}

/// How many numbers the question that stands wants, whatever the rest of the words says.
fn wanted(words: &[u32]) -> usize {
    let [n, m] = [0, 1].map(|at| words[SIZES + at].min(16) as usize);
    match words[0] {
        1 | 2 => 1 + m,
        3 => (1 + m) * n,
        _ => 1,
    }
}

/// Slices of any content, answered several times.
pub fn overwritten(
    machine: &dyn Machine,
    seed: u64,
    index: u64,
    junk: &Junk,
    counts: &mut Counts,
) -> Vec<String> {
    let mut draw = Draw::new(seed, Op::Step, "overwritten", index);
    let mut slices = Slices::junk(LENGTHS, junk, &mut draw);
    words(&mut draw, &mut slices.words);
    floats(&mut draw, &mut slices.floats);
    if draw.one_in(4) {
        spoil_words(&mut draw, &mut slices.words);
    }
    let palette = draw.pick(&[Palette::Smooth, Palette::Smooth, Palette::Whole, Palette::Vast]);
    for _ in 0..ANSWERS {
        let mut told = draw.reals(palette, wanted(&slices.words));
        if draw.one_in(8) && !told.is_empty() {
            let at = draw.below(told.len());
            told[at] = draw.real(Palette::Special);
        }
        let (number, found) =
            compare_tell(machine, &told, &mut slices, WORKSPACES, (junk, &mut draw));
        counts.number(number);
        if !found.is_empty() {
            return found;
        }
    }
    vec![]
}

/// Spoils what `begin` is given in one of eight ways, in the order of the tests.
fn spoil(
    draw: &mut Draw,
    call: &mut Begin,
    lengths: &mut [usize; 2],
    work: &mut [usize; 2],
    way: usize,
) {
    let far = draw.pick(&[1 << 32, usize::MAX]);
    match way {
        0 => match draw.below(4) {
            0 => call.n = draw.pick(&[0, 17, far]),
            1 => call.m = draw.pick(&[17, 18, far]),
            2 => call.budget = draw.pick(&[10_001, 10_002, 1 << 16, u32::MAX]),
            _ => call.scheme = draw.pick(&[3, 4, 1 << 16, u32::MAX]),
        },
        1 => spoil_lengths(draw, call, lengths),
        2 => {
            let (at, less) = (draw.below(2), draw.pick(&[1, 2, 400]));
            work[at] = WORKSPACES[at] - less;
        }
        3 if !call.kinds.is_empty() => {
            let at = draw.below(call.kinds.len());
            call.kinds[at] = draw.pick(&[2, 3, 255]);
        }
        4 => {
            call.ftol =
                draw.pick(&[f64::NAN, -f64::NAN, -1.0, -f64::MIN_POSITIVE, f64::NEG_INFINITY])
        }
        5 | 6 => spoil_bounds(draw, call, way == 6),
        7 if !call.x.is_empty() => {
            let at = draw.below(call.x.len());
            call.x[at] = draw.pick(&[f64::NAN, f64::INFINITY, f64::NEG_INFINITY]);
        }
        _ => {}
    }
}

fn spoil_lengths(draw: &mut Draw, call: &mut Begin, lengths: &mut [usize; 2]) {
    let longer = draw.one_in(2);
    match draw.below(6) {
        0 => call.kinds.resize(if longer { call.m + 1 } else { call.m.saturating_sub(1) }, 0),
        at @ 1..=3 => {
            let slice = [&mut call.lower, &mut call.upper, &mut call.x].into_iter().nth(at - 1);
            let slice = slice.expect("one of three");
            slice.resize(if longer { slice.len() + 1 } else { slice.len().saturating_sub(1) }, 0.0);
        }
        at => {
            let lent = &mut lengths[at - 4];
            *lent = if longer { *lent + 1 } else { *lent - 1 };
        }
    }
}

/// Bounds that are none, or crossed.
fn spoil_bounds(draw: &mut Draw, call: &mut Begin, crossed: bool) {
    let most = call.lower.len().min(call.upper.len());
    for _ in 0..=draw.below(2) * usize::from(most > 0) {
        let Some(at) = (most > 0).then(|| draw.below(most)) else { return };
        (call.lower[at], call.upper[at]) = match (crossed, draw.below(4)) {
            (true, 0) => (f64::from_bits(1), 0.0),
            (true, 1) => (f64::MAX, f64::MIN),
            (true, _) => (1.0, 0.5),
            (false, 0) => (f64::INFINITY, f64::INFINITY),
            (false, 1) => (f64::NEG_INFINITY, f64::NEG_INFINITY),
            (false, 2) => (f64::NAN, 0.0),
            (false, _) => (1.0, -f64::NAN),
        };
    }
}

/// A call of `begin` that is spoilt in one way, in several or in none, and calls of `tell` behind it:
/// with a wrong length, short workspaces, and after the end.
pub fn refused(
    machine: &dyn Machine,
    plan: &Plan,
    index: u64,
    junk: &Junk,
    counts: &mut Counts,
) -> Vec<String> {
    let kind = &KINDS[index as usize / 3 % KINDS.len()];
    let (run, mut draw) = kind.run(plan.seed, index, plan.schemes);
    let budget = draw.pick(&[0, 1, 3, 10_000]);
    let mut call = Begin::new(&run.setup, &run.x, budget);
    call.ftol = draw.pick(&[0.0, -0.0, 1e-6, f64::INFINITY]);
    let (mut lengths, mut work) = (LENGTHS, WORKSPACES);
    for way in (0..8).rev() {
        let spoilt = if index.is_multiple_of(2) { index / 2 % 9 == way } else { draw.one_in(3) };
        if spoilt {
            spoil(&mut draw, &mut call, &mut lengths, &mut work, way as usize);
        }
    }
    let mut slices = Slices::junk(lengths, junk, &mut draw);
    let manner = Manner { work, schemes: plan.schemes };
    let (number, found) = compare_begin(machine, &call, &mut slices, manner, (junk, &mut draw));
    counts.number(number);
    if !found.is_empty() {
        return found;
    }
    tells(machine, &run, &mut slices, junk, &mut draw, counts)
}

/// Answers that are refused, and right ones between them.
fn tells(
    machine: &dyn Machine,
    run: &super::runs::Run,
    slices: &mut Slices,
    junk: &Junk,
    draw: &mut Draw,
    counts: &mut Counts,
) -> Vec<String> {
    for _ in 0..ANSWERS {
        let wanted = slices.words.get(..16).map_or(1, wanted);
        let question = (slices.words.len() == LENGTHS[1] && slices.floats.len() == LENGTHS[0])
            .then(|| slices.question())
            .flatten();
        let mut told = match question {
            Some(question) if slices.words[SIZES] as usize == run.setup.n => {
                run.answers.told(&run.setup, &question)
            }
            _ => draw.reals(Palette::Smooth, wanted),
        };
        let mut work = WORKSPACES;
        if draw.one_in(3) {
            let length = draw.pick(&[0, told.len() + 1, told.len().saturating_sub(1), 300]);
            told.resize(length, 0.0);
        }
        if draw.one_in(4) {
            let at = draw.below(2);
            work[at] -= 1;
        }
        let (number, found) = compare_tell(machine, &told, slices, work, (junk, &mut *draw));
        counts.number(number);
        if !found.is_empty() {
            return found;
        }
    }
    vec![]
}
