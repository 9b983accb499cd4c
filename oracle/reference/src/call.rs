//! A call of a public operation and the full answer that it is owed.

use crate::check;
use crate::day;
use crate::search::{Functions, Setup, Transcript};
use crate::settle;
use crate::shape::{Lengths, Op, REPORT, WORKSPACES};
use crate::stand_in::{self, Failure};
use crate::strict;
use crate::suspect;
use crate::tally::{self, Spent, Tally};
use crate::triangle;

/// The place of a step's widths among its inputs.
pub const WIDTHS: usize = 3;

/// A call: everything that crosses the C interface inwards.
#[derive(Debug, Clone)]
pub struct Call {
    pub op: Op,
    /// The sizes, and k for NNLS.
    pub sizes: Vec<usize>,
    /// The slices of f64 that are read, in the order of the C interface; a day's readings among them
    /// (`day::stored`).
    pub inputs: Vec<Vec<f64>>,
    /// The kinds of the constraints; or which meters stand still.
    pub kinds: Vec<u8>,
    /// The lengths of the slices of f64 that are written.
    pub outputs: Vec<usize>,
    /// The length of the slice of u32 that is written: QR's permutation, a step's report, a check's
    /// verdict, the groups of the tests of meters; or of u8, a day's marks.
    pub words: usize,
    /// The length of the second slice of u32 that is written: the marks of the tests of meters.
    pub seconds: usize,
    /// The lengths of the workspaces.
    pub work: [usize; 2],
}

impl Call {
    /// A call whose outputs and workspaces are as long as its sizes ask.
    pub fn new(op: Op, sizes: &[usize], inputs: Vec<Vec<f64>>) -> Self {
        let Lengths { kinds, outputs, words, seconds, .. } = op.lengths(sizes);
        let (sizes, kinds) = (sizes.to_vec(), vec![0; kinds]);
        Self { op, sizes, inputs, kinds, outputs, words, seconds, work: WORKSPACES }
    }

    /// The tolerance of a check or of settled volumes.
    pub fn tolerance(&self) -> Option<f64> {
        self.op.tolerance().and_then(|at| self.inputs[at].first().copied())
    }

    /// The bands of a step or a check: their constraints and widths.
    pub fn bands(&self) -> impl Iterator<Item = (usize, f64)> {
        let widths = self.inputs.get(WIDTHS).into_iter().flatten();
        let all = self.kinds.iter().zip(widths).enumerate();
        all.filter(|(_, (kind, _))| **kind == 2).map(|(at, (_, width))| (at, *width))
    }

    /// The lengths of the slices as they are.
    pub fn lengths(&self) -> Lengths {
        Lengths {
            inputs: self.inputs.iter().map(Vec::len).collect(),
            kinds: self.kinds.len(),
            outputs: self.outputs.clone(),
            words: self.words,
            seconds: self.seconds,
        }
    }
}

/// What a call returns: its number, and all that it writes; what is missing here stays untouched.
#[derive(Debug, Clone, Default)]
pub struct Answer {
    pub number: u32,
    /// The slices of f64 that are written; for `update` the matrix afterwards.
    pub outputs: Vec<Vec<f64>>,
    /// The permutation, or the report of a step: exact number and place, relaxed number and place,
    /// rounds, factorings; the verdict of a check; the groups of the tests of meters; or the marks of
    /// a day.
    pub words: Vec<u32>,
    /// The marks of the tests of meters.
    pub seconds: Vec<u32>,
    /// What the tests of meters find of all together.
    pub found: Option<suspect::Finding>,
    /// The rank; the rounds and the factorings; the place where rank was lost; or a meter.
    pub counts: Vec<u32>,
    /// The relaxation, the misfit, the bound of volumes, or the value of a root, sum or norm.
    pub value: Option<f64>,
    /// What a step raises the tally by, that it is lent: rounds and factorings.
    pub spent: Option<[u32; 2]>,
    /// What the run passed through.
    pub tally: Tally,
}

impl Answer {
    fn refused(number: u32) -> Self {
        Self { number, ..Self::default() }
    }

    fn written(outputs: Vec<Vec<f64>>) -> Self {
        Self { outputs, ..Self::default() }
    }

    fn valued(value: f64) -> Self {
        Self { value: Some(value), ..Self::default() }
    }

    /// Whether an output or the value is NaN.
    pub fn has_nan(&self) -> bool {
        let mut all = self.outputs.iter().flatten().chain(&self.value);
        all.any(|value| value.is_nan())
    }

    /// Whether the other has the same number, counts and values, any NaN for any NaN.
    pub fn same(&self, other: &Answer) -> bool {
        let bits = |answer: &Answer| -> Vec<u64> {
            let values = answer.outputs.iter().flatten().chain(&answer.value);
            values.map(|x| if x.is_nan() { u64::MAX } else { x.to_bits() }).collect()
        };
        let told = |answer: &Answer| {
            let lists = [&answer.counts, &answer.words, &answer.seconds].map(Vec::clone);
            (answer.number, lists, answer.found)
        };
        told(self) == told(other) && bits(self) == bits(other)
    }

    /// Whether this is an answer and the other was kept from one by its rank: refused with 5 or 11,
    /// of rank 0, or with no column of NNLS kept.
    pub fn ranks_beside(&self, other: &Answer) -> bool {
        let none =
            |answer: &Answer| matches!(answer.number, 5 | 11) || answer.counts.first() == Some(&0);
        self.number == 0 && !none(self) && none(other)
    }

    /// Columns that NNLS tried and put back.
    pub fn rejected(&self) -> u32 {
        let rounds = self.counts.first().copied().unwrap_or(0);
        (self.tally.total().factorings - self.tally.blocks).saturating_sub(rounds)
    }
}

/// A factorization as the public operation shows it.
pub struct Factored {
    pub rank: usize,
    pub r: Vec<f64>,
    pub perm: Vec<u32>,
    pub u: Vec<f64>,
    pub b: Vec<f64>,
}

/// A point and its multipliers.
pub struct Solution {
    pub x: Vec<f64>,
    pub multipliers: Vec<f64>,
}

/// What stands around the Rust files: part 1, the tests before the arithmetic, the round limit,
/// and what a call leaves in the buffers that it is lent.
pub trait Edge: 'static {
    /// The numbers of the tests before the arithmetic, in their order.
    const TESTS: [u32; 7] = [1, 2, 3, 4, 14, 15, 10];
    /// How the check is read.
    const CHECK: check::Slip = check::Slip::None;
    /// How the tests of meters are read.
    const SUSPECT: suspect::Slip = suspect::Slip::None;
    /// How settled and certified volumes are read.
    const SETTLE: settle::Slip = settle::Slip::None;
    /// How many f64 and u32 of the workspaces are cleared.
    const CLEARED: [usize; 2] = WORKSPACES;
    fn sqrt(x: f64) -> f64 {
        x.sqrt()
    }
    fn sum(x: &[f64]) -> f64 {
        x.iter().sum()
    }
    fn norm(x: &[f64]) -> f64 {
        stand_in::norm(x.iter().copied())
    }
    /// Whether a call passes the test of a number.
    fn passes(call: &Call, test: u32) -> bool {
        match test {
            15 => strict::wrong(call, Self::bounded).is_empty(),
            _ => passes(call, test),
        }
    }
    /// Whether an answer of so many rounds is within the limit.
    fn within(rounds: usize, limit: usize) -> bool {
        rounds <= limit
    }
    /// Whether a number leaves the workspaces cleared.
    fn clears(number: u32) -> bool {
        matches!(number, 0 | 5..=8 | 11 | 17)
    }
    /// Whether LSI and LSEI store a place with a number.
    fn places(number: u32) -> bool {
        matches!(number, 5 | 11)
    }
    /// The volume between two readings.
    fn volume(old: u32, new: u32) -> f64 {
        day::volume(old, new)
    }
    /// Why a meter is refused.
    fn fault(old: u32, new: u32, spread: f64) -> Option<u32> {
        day::fault(old, new, spread)
    }
    /// A meter's entry of E.
    fn scale(spread: f64) -> f64 {
        1.0 / spread
    }
    /// A meter's entry of f.
    fn target(volume: f64, spread: f64) -> f64 {
        volume / spread
    }
    /// A corrected volume as it is written.
    fn told(volume: f64) -> f64 {
        volume
    }
    /// Whether a meter is named.
    fn is_named(volume: f64) -> bool {
        day::is_named(volume)
    }
    /// Whether a step writes its report with a number.
    fn reports(number: u32) -> bool {
        matches!(number, 0 | 5..=8 | 11 | 17)
    }
    /// Whether the strict step takes a variable's bounds.
    fn bounded(lower: f64, upper: f64) -> bool {
        strict::bounded(lower, upper)
    }
    /// The variable that the strict step names, of those whose bounds it does not take.
    fn variable(wrong: &[usize]) -> usize {
        wrong[0]
    }
    /// The value of a band's second row.
    fn ceiling(value: f64, width: f64) -> f64 {
        width - value
    }
    /// An entry of a band's second row.
    fn opposed(entry: f64) -> f64 {
        -entry
    }
    /// A band's multiplier, of those of its two rows.
    fn together(first: f64, second: f64) -> f64 {
        first - second
    }
    /// What a step raises the tally by: what both stages took, and nothing where a test refuses it.
    fn spent(number: u32, tally: &Tally) -> Option<[u32; 2]> {
        let Spent { rounds, factorings } = tally.total();
        Self::reports(number).then_some([rounds, factorings])
    }
    /// A tally raised: a count that would pass the range stays at its largest value.
    fn raised(tally: [u64; 2], spent: [u32; 2]) -> [u64; 2] {
        [0, 1].map(|i| tally[i].saturating_add(u64::from(spent[i])))
    }
    /// A step's report.
    fn report(tally: &Tally) -> [u32; REPORT] {
        let ([exact, relaxed], spent) = (tally.stages, tally.total());
        [exact.number, exact.place, relaxed.number, relaxed.place, spent.rounds, spent.factorings]
    }
}

/// The rules' edge.
pub struct Sound;

impl Edge for Sound {}

/// The edge over the plain norm.
pub struct Plain;

impl Edge for Plain {
    fn norm(x: &[f64]) -> f64 {
        stand_in::plain_norm(x.iter().copied())
    }
}

/// The arithmetic behind the public operations, as the Rust files have it.
pub trait Kernels: 'static {
    fn qr(m: usize, n: usize, a: &[f64]) -> Factored;
    /// The solution and its rounds.
    fn nnls(m: usize, n: usize, a: &[f64], b: &[f64]) -> Result<(Vec<f64>, usize), Failure>;
    fn ldp(m: usize, n: usize, g: &[f64], h: &[f64]) -> Result<Solution, Failure>;
    /// LSI of `[n, me, mg]` on `[e, f, g, h]`.
    fn lsi(sizes: &[usize], inputs: &[Vec<f64>]) -> Result<Solution, Failure>;
    /// LSEI of `[n, mc, me, mg]` on `[c, d, e, f, g, h]`.
    fn lsei(sizes: &[usize], inputs: &[Vec<f64>]) -> Result<Solution, Failure>;
    fn identity(n: usize) -> Vec<f64>;
    fn times(n: usize, b: &[f64], v: &[f64]) -> Vec<f64>;
    fn cholesky(n: usize, b: &[f64]) -> Option<Vec<f64>>;
    fn update(n: usize, b: &[f64], s: &[f64], y: &[f64]) -> Vec<f64>;
    /// The step for `[factor, gradient, values, jacobian, lower, upper]` of equalities and floors,
    /// and its relaxation.
    fn step(kinds: &[u8], inputs: &[Vec<f64>]) -> Result<(Solution, f64), Failure>;
    /// The whole search from a start with a budget, its questions answered by functions.
    fn search(setup: &Setup, x: &[f64], budget: usize, functions: &dyn Functions) -> Transcript;
}

/// The first refusal before the arithmetic, if there is one.
pub fn refusal<E: Edge>(call: &Call) -> Option<u32> {
    if !call.op.is_lent() {
        return None;
    }
    E::TESTS.into_iter().find(|&test| !E::passes(call, test))
}

/// Whether a call passes the test of a number.
pub fn passes(call: &Call, test: u32) -> bool {
    match test {
        1 => call.op.sizes_fit(&call.sizes),
        2 => fits(call),
        3 => call.work[0] >= WORKSPACES[0] && call.work[1] >= WORKSPACES[1],
        4 => call.op == Op::Suspect || call.kinds.iter().all(|&kind| kind <= 2),
        10 => call.tolerance().is_none_or(check::is_tolerance),
        14 => call.bands().all(|(_, width)| (0.0..f64::INFINITY).contains(&width)),
        _ => strict::wrong(call, strict::bounded).is_empty(),
    }
}

/// Whether each slice is as long as its size; sizes out of the table ask for nothing here.
fn fits(call: &Call) -> bool {
    let small = call.sizes.iter().all(|&size| size < 1 << 16);
    small && call.op.lengths(&call.sizes) == call.lengths()
}

/// The full answer to a call.
pub fn answer<K: Kernels, E: Edge>(call: &Call) -> Answer {
    tally::take();
    let mut answer = match refusal::<E>(call) {
        Some(number) => Answer::refused(number),
        None => arithmetic::<K, E>(call),
    };
    answer.tally = tally::take();
    let number = answer.number;
    match call.op {
        Op::Nnls if number == 0 => answer.counts.push(answer.tally.total().factorings),
        Op::Lsi | Op::Lsei | Op::Reconcile if E::places(number) => {
            answer.counts.push(answer.tally.short().place);
        }
        Op::Step | Op::StrictStep if E::reports(number) => {
            answer.words = E::report(&answer.tally).to_vec();
        }
        Op::StrictStep if number == 15 => answer.words = strict::report::<E>(call).to_vec(),
        _ => {}
    }
    if call.op.is_step() {
        answer.spent = E::spent(number, &answer.tally);
    }
    answer
}

fn arithmetic<K: Kernels, E: Edge>(call: &Call) -> Answer {
    let (sizes, inputs) = (&call.sizes[..], &call.inputs[..]);
    match call.op {
        Op::Sqrt => Answer::valued(E::sqrt(inputs[0][0])),
        Op::Sum => Answer::valued(E::sum(&inputs[0])),
        Op::Norm => Answer::valued(E::norm(&inputs[0])),
        Op::Qr => factored(K::qr(sizes[0], sizes[1], &inputs[0])),
        Op::Nnls => match K::nnls(sizes[0], sizes[1], &inputs[0], &inputs[1]) {
            Ok((x, rounds)) if E::within(rounds, sizes[2]) => {
                Answer { counts: vec![rounds as u32], ..Answer::written(vec![x]) }
            }
            _ => Answer::refused(7),
        },
        Op::Ldp => solved(K::ldp(sizes[0], sizes[1], &inputs[0], &inputs[1])),
        Op::Lsi => solved(K::lsi(sizes, inputs)),
        Op::Lsei => solved(K::lsei(sizes, inputs)),
        Op::Identity => Answer::written(vec![K::identity(sizes[0])]),
        Op::Times => Answer::written(vec![K::times(sizes[0], &inputs[0], &inputs[1])]),
        Op::Cholesky => match K::cholesky(sizes[0], &inputs[0]) {
            Some(l) => Answer::written(vec![l]),
            None => Answer::refused(8),
        },
        Op::Update => {
            let after = K::update(sizes[0], &inputs[0], &inputs[1], &inputs[2]);
            Answer::written(vec![after])
        }
        Op::PackedIdentity | Op::PackedTimes | Op::PackedCholesky | Op::PackedUpdate => {
            on_square::<K, E>(call)
        }
        Op::Reconcile => reconciled::<K, E>(call),
        Op::Suspect => match suspect::refused(call, E::SUSPECT) {
            Some((number, meter)) => Answer { counts: vec![meter], ..Answer::refused(number) },
            None => suspect::tested::<K>(call, E::SUSPECT),
        },
        Op::Settle | Op::Certify => match settle::refused(call, E::SETTLE) {
            Some((number, place)) => Answer { counts: vec![place], ..Answer::refused(number) },
            None if call.op == Op::Settle => settle::settled::<K>(call, E::SETTLE),
            None => settle::certified(call, E::SETTLE),
        },
        Op::Check => Answer { words: check::verdict(call, E::CHECK), ..Answer::default() },
        Op::Step | Op::StrictStep => {
            let (kinds, rows) = floors::<E>(call);
            match K::step(&kinds, &rows) {
                Ok((mut solution, relaxation)) => {
                    solution.multipliers = together::<E>(&call.kinds, &solution.multipliers);
                    Answer { value: Some(relaxation), ..solved(Ok(solution)) }
                }
                Err(failure) => solved(Err(failure)),
            }
        }
    }
}

/// The kinds and inputs of a step whose bands are two floors each, side by side: a'd + c >= 0 and
/// -a'd + (w - c) >= 0.
fn floors<E: Edge>(call: &Call) -> (Vec<u8>, Vec<Vec<f64>>) {
    let [factor, gradient, values, widths, jacobian, lower, upper] = &call.inputs[..] else {
        unreachable!("a step has seven inputs");
    };
    let n = call.sizes[0];
    let (mut kinds, mut sides, mut rows) = (vec![], vec![], vec![]);
    for (j, &kind) in call.kinds.iter().enumerate() {
        let row = &jacobian[j * n..(j + 1) * n];
        kinds.push(kind.min(1));
        sides.push(values[j]);
        rows.extend(row);
        if kind == 2 {
            kinds.push(1);
            sides.push(E::ceiling(values[j], widths[j]));
            rows.extend(row.iter().map(|&entry| E::opposed(entry)));
        }
    }
    let lists = [factor, gradient, &sides, &rows, lower, upper];
    (kinds, lists.into_iter().cloned().collect())
}

/// One multiplier for each constraint, of those of the rows.
fn together<E: Edge>(kinds: &[u8], rows: &[f64]) -> Vec<f64> {
    let mut rows = rows.iter();
    let mut next = || rows.next().copied().expect("a multiplier of each row");
    let one = |&kind: &u8| {
        let first = next();
        if kind == 2 { E::together(first, next()) } else { first }
    };
    kinds.iter().map(one).collect()
}

/// The square form's answer on the square that the triangle stands for; B is packed again.
fn on_square<K: Kernels, E: Edge>(call: &Call) -> Answer {
    let (n, mut square) = (call.sizes[0], call.clone());
    square.op = call.op.square().expect("an operation on a triangle");
    if let Some(b) = square.inputs.first_mut() {
        *b = triangle::unpacked(n, b);
    }
    let mut answer = arithmetic::<K, E>(&square);
    if matches!(call.op, Op::PackedIdentity | Op::PackedUpdate) {
        answer.outputs[0] = triangle::packed(n, &answer.outputs[0]);
    }
    answer
}

/// The tests of the meters, then LSEI's answer: its x, and the marks.
fn reconciled<K: Kernels, E: Edge>(call: &Call) -> Answer {
    if let Some((number, meter)) = day::refused::<E>(call) {
        return Answer { counts: vec![meter], ..Answer::refused(number) };
    }
    let (sizes, inputs) = day::problem::<E>(call);
    let mut answer = solved(K::lsei(&sizes, &inputs));
    answer.outputs.truncate(1);
    for volume in answer.outputs.iter_mut().flatten() {
        answer.words.push(u32::from(E::is_named(*volume)));
        *volume = E::told(*volume);
    }
    answer
}

fn factored(factored: Factored) -> Answer {
    let Factored { rank, r, perm, u, b } = factored;
    Answer { words: perm, counts: vec![rank as u32], ..Answer::written(vec![r, u, b]) }
}

fn solved(result: Result<Solution, Failure>) -> Answer {
    match result {
        Ok(Solution { x, multipliers }) => Answer::written(vec![x, multipliers]),
        Err(Failure::RankDeficient) => Answer::refused(tally::so_far().short().number),
        Err(Failure::Infeasible) => Answer::refused(6),
        Err(Failure::IterationCap) => Answer::refused(7),
    }
}
