//! Tries a search against the Rust's own run, question by question, and against the second reading
//! of docs/RULES.md, call by call.

mod answers;
pub mod calls;
mod dual;
pub mod hock;
pub mod runs;
pub mod stored;
mod wild;

use crate::draw::Draw;
use crate::held::Junk;
use calls::{LENGTHS, Machine, Manner, Slices, compare_begin, compare_tell};
use reference::Rust;
use reference::call::Kernels;
use reference::search::call::Begin;
use reference::search::{CENTRAL, Functions, Setup, Transcript};
use reference::shape::WORKSPACES;
use reference::tally::{self, TURNS};
use runs::{Aim, KINDS, Run};
use std::panic::{AssertUnwindSafe, catch_unwind};
use std::thread;

/// Kinds beside those of whole runs: slices that were overwritten, and calls that are refused.
const WILD: [&str; 2] = ["overwritten", "refused"];

/// Runs of a kind from which on it must have come where it aims.
const ENOUGH: u64 = 300;

/// Differences that are kept, to be shown.
const SHOWN: usize = 8;

/// How many of the schemes the library serves: slopes are told, or forward or central differences.
pub const SCHEMES: u32 = 3;

/// What to run.
#[derive(Clone, Copy)]
pub struct Plan {
    pub runs: u64,
    pub seed: u64,
    pub threads: u64,
    /// How many of the schemes are served.
    pub schemes: u32,
}

/// What runs of a kind came to.
#[derive(Debug, Clone, Copy, Default)]
pub struct Counts {
    pub runs: u64,
    /// Runs that were compared with the Rust.
    pub with_rust: u64,
    pub calls: u64,
    pub questions: u64,
    /// By ending: converged, infeasible, exhausted, not finite.
    pub ends: [u64; 4],
    /// Turns of the Rust, by what they passed through.
    pub ways: [u64; TURNS],
    /// Calls by number, from 0.
    pub numbers: [u64; 19],
    pub different: u64,
}

impl Counts {
    fn add(&mut self, other: &Counts) {
        let sum = |to: &mut [u64], more: &[u64]| {
            to.iter_mut().zip(more).for_each(|(to, more)| *to += more);
        };
        self.runs += other.runs;
        self.with_rust += other.with_rust;
        self.calls += other.calls;
        self.questions += other.questions;
        self.different += other.different;
        sum(&mut self.ends, &other.ends);
        sum(&mut self.ways, &other.ways);
        sum(&mut self.numbers, &other.numbers);
    }

    fn number(&mut self, number: u32) {
        self.calls += 1;
        self.numbers[number as usize] += 1;
    }

    fn reached(&self, aim: Aim) -> u64 {
        match aim {
            Aim::End(ending) => self.ends[ending as usize],
            Aim::Way(turn) => self.ways[turn as usize],
        }
    }
}

/// A run that came otherwise than owed.
#[derive(Debug, Clone)]
pub struct Difference {
    pub kind: &'static str,
    pub index: u64,
    pub found: Vec<String>,
}

/// Drives a search through a run: how it went, if it came to its end, and what it left otherwise
/// than the second reading.
fn drive(
    machine: &dyn Machine,
    run: &Run,
    schemes: u32,
    counts: &mut Counts,
    (junk, draw): (&Junk, &mut Draw),
) -> (Option<Transcript>, Vec<String>) {
    let mut slices = Slices::junk(LENGTHS, junk, draw);
    let manner = Manner { work: [0, 1].map(|at| WORKSPACES[at] + draw.below(20)), schemes };
    let call = Begin::new(&run.setup, &run.x, run.budget as u32);
    let (number, mut found) =
        compare_begin(machine, &call, &mut slices, manner, (junk, &mut *draw));
    counts.number(number);
    let mut asked = vec![];
    while let Some(question) = slices.question().filter(|_| found.is_empty()) {
        let told = run.answers.told(&run.setup, &question);
        asked.push(question);
        let (number, apart) =
            compare_tell(machine, &told, &mut slices, manner.work, (junk, &mut *draw));
        counts.number(number);
        let at = asked.len();
        found.extend(apart.into_iter().map(|line| format!("after answer {at}: {line}")));
    }
    counts.questions += asked.len() as u64;
    (slices.ended(&asked), found)
}

/// Compares one run of a kind.
fn one(
    machine: &dyn Machine,
    kind: usize,
    index: u64,
    plan: &Plan,
    junk: &Junk,
    counts: &mut Counts,
) -> Vec<String> {
    let (run, mut draw) = KINDS[kind].run(plan.seed, index, plan.schemes);
    let (found, mut apart) = drive(machine, &run, plan.schemes, counts, (junk, &mut draw));
    if let Some(found) = &found {
        counts.ends[found.ending as usize] += 1;
    }
    if run.setup.scheme != CENTRAL {
        apart.extend(against_rust::<Rust>(&run, found.as_ref(), counts));
    }
    apart
}

/// What a run does otherwise than the Rust.
fn against_rust<K: Kernels>(
    run: &Run,
    found: Option<&Transcript>,
    counts: &mut Counts,
) -> Option<String> {
    tally::passed();
    let owed = K::search(&run.setup, &run.x, run.budget, run.answers.as_ref());
    for (count, more) in counts.ways.iter_mut().zip(tally::passed()) {
        *count += u64::from(more);
    }
    counts.with_rust += 1;
    let Some(found) = found else {
        return Some(format!("owed {:?} by the Rust, found no end", owed.ending));
    };
    owed.apart(found).map(|line| format!("against the Rust: {line}"))
}

/// How many kinds there are.
fn kinds() -> usize {
    KINDS.len() + WILD.len()
}

/// The name of a kind.
pub fn name(kind: usize) -> &'static str {
    KINDS.get(kind).map_or_else(|| WILD[kind - KINDS.len()], |kind| kind.name)
}

/// Compares the run of a place: kinds in turn.
pub fn try_one(
    machine: &dyn Machine,
    (kind, index): (usize, u64),
    plan: &Plan,
    junk: &Junk,
    counts: &mut Counts,
) -> Vec<String> {
    let found = match kind.checked_sub(KINDS.len()) {
        None => one(machine, kind, index, plan, junk, counts),
        Some(0) => wild::overwritten(machine, plan.seed, index, junk, counts),
        Some(_) => wild::refused(machine, plan, index, junk, counts),
    };
    counts.runs += 1;
    counts.different += u64::from(!found.is_empty());
    found
}

/// The kind and the index of a place.
pub fn at(place: u64) -> (usize, u64) {
    let kinds = kinds() as u64;
    ((place % kinds) as usize, place / kinds)
}

/// The first run that a search leaves otherwise than owed, and after how many it came.
pub fn first_difference(machine: &dyn Machine, plan: &Plan) -> Option<(u64, Difference)> {
    let (junk, mut counts) = (Junk::new(plan.seed), Counts::default());
    (0..plan.runs).find_map(|place| {
        let (kind, index) = at(place);
        let found = try_one(machine, (kind, index), plan, &junk, &mut counts);
        let difference = Difference { kind: name(kind), index, found };
        (!difference.found.is_empty()).then_some((place + 1, difference))
    })
}

/// A whole search, as the Rust has it.
pub type Search = fn(&Setup, &[f64], usize, &dyn Functions) -> Transcript;

/// The first run in which a search goes otherwise than the Rust's, and after how many it came.
pub fn first_apart(search: Search, plan: &Plan) -> Option<(u64, Difference)> {
    (0..plan.runs).find_map(|place| {
        let (kind, index) = at(place);
        let (run, _) = KINDS.get(kind)?.run(plan.seed, index, 2);
        let play = |search: Search| search(&run.setup, &run.x, run.budget, run.answers.as_ref());
        let owed = play(Rust::search);
        let apart = match catch_unwind(AssertUnwindSafe(|| play(search))) {
            Ok(found) => owed.apart(&found)?,
            Err(_) => "it broke down".to_string(),
        };
        Some((place + 1, Difference { kind: name(kind), index, found: vec![apart] }))
    })
}

fn share(machine: &dyn Machine, plan: &Plan, first: u64) -> (Vec<Counts>, Vec<Difference>) {
    let junk = Junk::new(plan.seed.wrapping_add(first));
    let (mut rows, mut differences) = (vec![Counts::default(); kinds()], vec![]);
    let mut place = first;
    while place < plan.runs {
        let (kind, index) = at(place);
        let found = try_one(machine, (kind, index), plan, &junk, &mut rows[kind]);
        if !found.is_empty() && differences.len() < SHOWN {
            differences.push(Difference { kind: name(kind), index, found });
        }
        place += plan.threads;
    }
    (rows, differences)
}

/// Runs a plan: the counts of every kind, and some of the differences.
pub fn searches(machine: &dyn Machine, plan: &Plan) -> (Vec<Counts>, Vec<Difference>) {
    let shares: Vec<_> = thread::scope(|scope| {
        let run = |first| scope.spawn(move || share(machine, plan, first));
        let running: Vec<_> = (0..plan.threads).map(run).collect();
        running.into_iter().map(|share| share.join().expect("a share of the runs")).collect()
    });
    let (mut rows, mut differences) = (vec![Counts::default(); kinds()], vec![]);
    for (counts, found) in shares {
        rows.iter_mut().zip(&counts).for_each(|(row, counts)| row.add(counts));
        differences.extend(found);
    }
    (rows, differences)
}

/// The aims that kinds with enough runs never reached.
pub fn missed(rows: &[Counts]) -> Vec<String> {
    let mut missed = vec![];
    for (kind, counts) in KINDS.iter().zip(rows) {
        let lacks = |aim: &&Aim| counts.runs >= ENOUGH && counts.reached(**aim) == 0;
        missed.extend(kind.aims.iter().filter(lacks).map(|aim| format!("{}: {aim:?}", kind.name)));
    }
    let refused = &rows[KINDS.len() + 1];
    let lacks = |number: &&u32| refused.runs >= ENOUGH && refused.numbers[**number as usize] == 0;
    missed.extend(wild::NUMBERS.iter().filter(lacks).map(|number| format!("number {number}")));
    missed
}

/// The sum of all kinds.
pub fn total(rows: &[Counts]) -> Counts {
    let mut total = Counts::default();
    rows.iter().for_each(|row| total.add(row));
    total
}
