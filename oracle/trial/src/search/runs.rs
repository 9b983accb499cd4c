//! Runs of the search to compare: each is made from a seed, its kind and its index alone.

use super::answers::{Answers, Hashed, Quadratics, Spoil, Spoilt, Valves};
use super::hock::{Hock, PROBLEMS};
use crate::draw::{Draw, Palette};
use reference::search::{Ending, Setup};
use reference::shape::Op;
use reference::tally::Turn;

/// A run: a problem, a start, a budget, and the functions that answer.
pub struct Run {
    pub setup: Setup,
    pub x: Vec<f64>,
    pub budget: usize,
    pub answers: Answers,
}

/// What runs of a kind must come to at least once.
#[derive(Debug, Clone, Copy, PartialEq, Eq)]
pub enum Aim {
    End(Ending),
    Way(Turn),
}

/// A kind of run.
pub struct Kind {
    pub name: &'static str,
    pub aims: &'static [Aim],
    /// So many indices in a row are one drawing.
    alike: u64,
    drawn: fn(&mut Draw, u64) -> Run,
}

const fn kind(name: &'static str, aims: &'static [Aim], drawn: fn(&mut Draw, u64) -> Run) -> Kind {
    Kind { name, aims, alike: 1, drawn }
}

impl Kind {
    /// The run of an index, and the stream that goes on behind it.
    pub fn run(&self, seed: u64, index: u64, schemes: u32) -> (Run, Draw) {
        let mut draw = Draw::new(seed, Op::Step, self.name, index / self.alike);
        let mut run = (self.drawn)(&mut draw, index);
        run.setup.scheme = (index % u64::from(schemes)) as usize;
        (run, draw)
    }
}

use Aim::{End, Way};
use Ending::{Converged, Exhausted, Infeasible, Nonfinite};
use Turn::{Relaxed, Reset, Settled, Still, Taken, Unfactored};

/// Every kind.
pub const KINDS: &[Kind] = &[
    kind(
        "published",
        &[End(Converged), Way(Still), Way(Settled), Way(Relaxed), Way(Reset)],
        published,
    ),
    kind("published, moved", &[End(Converged), End(Infeasible)], moved),
    kind("quadratics", &[End(Converged), End(Infeasible), Way(Relaxed)], |draw, index| {
        quadratics(draw, sizes(index))
    }),
    kind("valves", &[End(Converged), End(Infeasible)], valves),
    kind(
        "hashed",
        &[End(Exhausted), Way(Reset), Way(Taken), Way(Relaxed), Way(Unfactored)],
        hashed,
    ),
    kind("noise", &[Way(Reset), Way(Taken), Way(Settled)], noise),
    kind("lying slopes", &[Way(Taken), Way(Reset), End(Exhausted)], lying),
    kind("not finite", &[End(Nonfinite)], nonfinite),
    kind("far out", &[Way(Unfactored), End(Nonfinite)], far),
    Kind { alike: 120, ..kind("cut", &[End(Exhausted)], cut) },
    kind("edges of bounds", &[End(Converged)], edges),
    kind("incompatible", &[End(Infeasible), Way(Relaxed)], incompatible),
];

/// The sizes of an index: all of them in turn.
fn sizes(index: u64) -> (usize, usize) {
    let at = (index / 3 % 272) as usize;
    (1 + at % 16, at / 16)
}

/// Small sizes mostly.
fn few(draw: &mut Draw) -> (usize, usize) {
    (draw.size(1, 16), draw.size(0, 16))
}

/// A tolerance: a usual one, none, or one that all is below.
fn tolerance(draw: &mut Draw) -> f64 {
    match draw.below(12) {
        0 => draw.pick(&[0.0, -0.0]),
        1 => draw.pick(&[f64::INFINITY, f64::MAX, f64::MIN_POSITIVE]),
        _ => draw.pick(&[1e-6, 1e-6, 1e-3, 1e-9, 1e-12]),
    }
}

/// A budget: usually enough.
fn budget(draw: &mut Draw) -> usize {
    match draw.below(8) {
        0 => draw.below(12),
        1 => draw.between(12, 60),
        _ => 300,
    }
}

fn of(hock: &'static Hock, ftol: f64, budget: usize) -> Run {
    let setup = Setup {
        n: hock.start.len(),
        m: hock.kinds.len(),
        kinds: hock.kinds.to_vec(),
        lower: hock.lower.to_vec(),
        upper: hock.upper.to_vec(),
        ftol,
        scheme: 0,
    };
    Run { setup, x: hock.start.to_vec(), budget, answers: Box::new(hock) }
}

/// A published problem as it is: each with each scheme, and then with other tolerances.
fn published(draw: &mut Draw, index: u64) -> Run {
    let (round, at) = (index as usize / 3 / PROBLEMS.len(), index as usize / 3 % PROBLEMS.len());
    let ftol = if round == 0 { 1e-6 } else { tolerance(draw) };
    of(&PROBLEMS[at], ftol, 500)
}

/// A published problem from another start.
fn moved(draw: &mut Draw, index: u64) -> Run {
    let ftol = tolerance(draw);
    let mut run = of(&PROBLEMS[index as usize % PROBLEMS.len()], ftol, budget(draw));
    let scale = draw.pick(&[0.1, 1.0, 10.0, 1e3]);
    run.x.iter_mut().for_each(|x| *x += scale * draw.smooth());
    run
}

/// Bounds around numbers: open, closed on one side or on both, or equal.
fn bounds(draw: &mut Draw, around: &[f64], wide: f64) -> (Vec<f64>, Vec<f64>) {
    let one = |&at: &f64| {
        let (low, high) = (at - wide * draw.fraction(), at + wide * draw.fraction());
        match draw.below(8) {
            0 => (f64::NEG_INFINITY, f64::INFINITY),
            1 => (low, f64::INFINITY),
            2 => (f64::NEG_INFINITY, high),
            3 if draw.one_in(4) => (at, at),
            _ => (low, high),
        }
    };
    around.iter().map(one).unzip()
}

/// A problem of some sizes around a point, with any functions.
fn around(draw: &mut Draw, (n, m): (usize, usize), wide: f64, answers: Answers) -> Run {
    let centre = draw.reals(Palette::Smooth, n);
    let (lower, upper) = bounds(draw, &centre, wide);
    let kinds = (0..m).map(|j| u8::from(j >= n || !draw.one_in(3))).collect();
    let setup = Setup { n, m, kinds, lower, upper, ftol: tolerance(draw), scheme: 0 };
    let x = (0..n).map(|_| 2.0 * draw.smooth()).collect();
    Run { setup, x, budget: budget(draw), answers }
}

/// Convex quadratics, under constraints that are flat or a little bent.
fn quadratics(draw: &mut Draw, (n, m): (usize, usize)) -> Run {
    let bend = draw.pick(&[0.0, 0.0, 0.1, 1.0]);
    let mut curvatures = vec![(0..n).map(|_| 0.1 + 4.0 * draw.fraction()).collect()];
    curvatures.extend((0..m).map(|_| (0..n).map(|_| bend * draw.smooth()).collect::<Vec<_>>()));
    let palette = draw.pick(&[Palette::Smooth, Palette::Whole]);
    let rows = (0..=m).map(|_| draw.reals(palette, n)).collect();
    let constants = (0..=m).map(|_| draw.smooth()).collect();
    let answers = Box::new(Quadratics { curvatures, rows, constants });
    around(draw, (n, m), 3.0, answers)
}

/// Valve openings from 0 to 1 that pass demands, most of which can be met.
fn valves(draw: &mut Draw, index: u64) -> Run {
    let (n, m) = sizes(index);
    let sizes: Vec<f64> = (0..n).map(|_| 1.0 + 9.0 * draw.fraction()).collect();
    let ranges = (0..n).map(|_| draw.pick(&[20.0, 30.0, 50.0])).collect();
    let set_points = (0..n).map(|_| draw.fraction()).collect();
    let branches: Vec<Vec<f64>> =
        (0..m).map(|_| (0..n).map(|_| f64::from(u8::from(draw.one_in(2)))).collect()).collect();
    let demand = |branch: &Vec<f64>, draw: &mut Draw| {
        let most: f64 = branch.iter().zip(&sizes).map(|(share, size)| share * size).sum();
        most * draw.fraction() * draw.pick(&[0.2, 0.5, 1.2])
    };
    let demands = branches.iter().map(|branch| demand(branch, draw)).collect();
    let answers = Box::new(Valves { sizes, ranges, set_points, branches, demands });
    let mut run = around(draw, (n, m), 1.0, answers);
    (run.setup.lower, run.setup.upper) = (vec![0.0; n], vec![1.0; n]);
    run.x = (0..n).map(|_| draw.fraction()).collect();
    run
}

/// Answers by the point's bits alone.
fn hashed(draw: &mut Draw, _: u64) -> Run {
    let palettes = [Palette::Smooth, Palette::Whole, Palette::Signs, Palette::Wide, Palette::Vast];
    let palette = draw.pick(&palettes);
    let answers = Box::new(Hashed { seed: draw.bits(), palette });
    let sizes = few(draw);
    let mut run = around(draw, sizes, 10.0, answers);
    run.budget = run.budget.min(60);
    if palette == Palette::Whole && draw.one_in(2) {
        run.setup.ftol = draw.pick(&[1.0, 2.0]);
    }
    run
}

fn spoil(draw: &mut Draw, run: Run, spoil: Spoil) -> Run {
    let answers = Box::new(Spoilt { inner: run.answers, seed: draw.bits(), spoil });
    Run { answers, ..run }
}

/// A quadratic or a published problem.
fn some(draw: &mut Draw) -> Run {
    if draw.one_in(2) {
        let at = draw.below(PROBLEMS.len());
        return of(&PROBLEMS[at], tolerance(draw), 120);
    }
    let sizes = few(draw);
    quadratics(draw, sizes)
}

fn noise(draw: &mut Draw, _: u64) -> Run {
    let (run, size) = (some(draw), draw.power(-40, 2));
    spoil(draw, run, Spoil::Noise(size))
}

fn lying(draw: &mut Draw, _: u64) -> Run {
    let (mut run, factor) = (some(draw), draw.pick(&[-1.0, -0.1, 10.0, 1e3, 0.0, -0.0, 1e-9]));
    run.budget = run.budget.min(80);
    spoil(draw, run, Spoil::Slopes(factor))
}

fn nonfinite(draw: &mut Draw, _: u64) -> Run {
    let (run, one_in) = (some(draw), draw.pick(&[3, 20, 100, 400]));
    let how = draw.pick(&[Spoil::Nonfinite(one_in), Spoil::NonfiniteSlopes(one_in)]);
    spoil(draw, run, how)
}

/// Answers, starts and bounds at the ends of the range.
fn far(draw: &mut Draw, _: u64) -> Run {
    let mut run = some(draw);
    let factor = draw.power(-1000, 1000);
    if draw.one_in(2) {
        let scale = draw.power(900, 1023);
        run.x.iter_mut().for_each(|x| *x *= scale);
        (run.setup.lower, run.setup.upper) = bounds(draw, &run.x.clone(), scale);
        (0..run.setup.n).for_each(|at| {
            if !(run.setup.lower[at] < f64::INFINITY && run.setup.upper[at] > f64::NEG_INFINITY) {
                (run.setup.lower[at], run.setup.upper[at]) = (-f64::MAX, f64::MAX);
            }
        });
        run.x.iter_mut().for_each(|x| *x = x.clamp(-f64::MAX, f64::MAX));
    }
    if draw.one_in(3) {
        let palette = draw.pick(&[Palette::Vast, Palette::Smooth]);
        run.answers = Box::new(Hashed { seed: draw.bits(), palette });
    }
    run.budget = run.budget.min(60);
    spoil(draw, run, Spoil::Scale(factor))
}

/// The same run with every budget from 0 on.
fn cut(draw: &mut Draw, index: u64) -> Run {
    let run = match draw.below(3) {
        0 => hashed(draw, 0),
        1 => noise(draw, 0),
        _ => some(draw),
    };
    Run { budget: (index / 3 % 40) as usize, ..run }
}

/// Fixed variables, starts at and outside their bounds, zeros of both signs, vast bounds.
fn edges(draw: &mut Draw, _: u64) -> Run {
    let sizes = few(draw);
    let (mut run, vast) = (quadratics(draw, sizes), draw.pick(&[1.0, 1.0, 1e150, f64::MAX]));
    for at in 0..run.setup.n {
        let (low, high) = match draw.below(7) {
            0 => (0.0, 0.0),
            1 => (-0.0, 0.0),
            2 => (-vast, vast),
            3 => (vast, vast),
            4 => (-1.0, -0.0),
            5 => (f64::NEG_INFINITY, 0.0),
            _ => (0.0, f64::from_bits(1)),
        };
        (run.setup.lower[at], run.setup.upper[at]) = (low, high);
        run.x[at] = draw.pick(&[0.0, -0.0, 1.0, -1.0, low.max(-vast), high, vast]);
    }
    run
}

/// Constraints that contradict each other, flat or bent.
fn incompatible(draw: &mut Draw, _: u64) -> Run {
    let (n, m) = (draw.size(1, 8), draw.between(2, 16));
    let (row, bend) = (draw.reals(Palette::Smooth, n), draw.pick(&[0.0, 0.0, 1.0]));
    let one = |j: usize| match j % 3 {
        0 => draw.reals(Palette::Smooth, n),
        1 => row.clone(),
        _ => row.iter().map(|entry| -entry).collect(),
    };
    let rows = (0..=m).map(one).collect();
    let curvatures = (0..=m).map(|j| vec![if j == 0 { 1.0 } else { bend }; n]).collect();
    let constants = (0..=m).map(|_| draw.smooth() - draw.pick(&[0.0, 1.0])).collect();
    around(draw, (n, m), 1.0, Box::new(Quadratics { curvatures, rows, constants }))
}
