//! Counts the calls out over the kinds, runs them and adds up what came back.

use crate::held::{Junk, compare};
use crate::kinds::{Kind, Share, of};
use crate::table::{Aim, Counts};
use peer::Library;
use reference::call::{Answer, Call, Plain, Sound, answer};
use reference::shape::Op;
use reference::{PlainRust, Rust};
use std::thread;

/// Calls from which on a kind must have come where it aims.
const ENOUGH: u64 = 300;

/// Differences that are kept of a thread's run, to be shown.
const SHOWN: usize = 8;

/// What to run.
#[derive(Clone)]
pub struct Plan {
    pub ops: Vec<Op>,
    pub calls: u64,
    pub seed: u64,
    pub threads: u64,
}

/// A call that came back otherwise than owed.
#[derive(Clone)]
pub struct Difference {
    pub op: Op,
    pub kind: &'static str,
    pub index: u64,
    pub found: Vec<String>,
}

/// A kind with the indices that are run.
#[derive(Clone)]
pub struct Portion {
    pub kind: Kind,
    pub first_step: (u64, u64),
    pub count: u64,
}

impl Portion {
    /// The index of the call at a place.
    pub fn index(&self, place: u64) -> u64 {
        let index = self.first_step.0 + place * self.first_step.1;
        match self.kind.share {
            Share::All(count) => index.min(count - 1),
            Share::Weight(_) => index,
        }
    }
}

/// Counts the calls out: at most a quarter to the kinds that are run in full, the rest by weight.
pub fn portions(plan: &Plan) -> Vec<Portion> {
    let kinds: Vec<Kind> = plan.ops.iter().flat_map(|&op| of(op)).collect();
    let all = |kind: &Kind| {
        if let Share::All(count) = kind.share { count } else { 0 }
    };
    let weight = |kind: &Kind| {
        if let Share::Weight(weight) = kind.share { weight } else { 0 }
    };
    let (full, weights): (u64, u64) = (kinds.iter().map(all).sum(), kinds.iter().map(weight).sum());
    let step = full.div_ceil((plan.calls / 4).max(1)).max(1);
    let spent: u64 = kinds.iter().map(|kind| all(kind).div_ceil(step)).sum();
    let left = plan.calls.saturating_sub(spent);
    let mut carried = 0;
    let mut portion = |kind: &Kind| match kind.share {
        Share::All(count) => {
            let first = plan.seed % step;
            Portion {
                kind: *kind,
                first_step: (first.min(count - 1), step),
                count: count.div_ceil(step),
            }
        }
        Share::Weight(weight) => {
            carried += left * weight;
            let count = carried / weights;
            carried %= weights;
            Portion { kind: *kind, first_step: (0, 1), count }
        }
    };
    kinds.iter().map(&mut portion).collect()
}

/// The call of a kind and index, what it is owed and how the library differs.
pub fn try_one(
    library: &Library,
    kind: &Kind,
    seed: u64,
    index: u64,
    junk: &Junk,
) -> (Call, Answer, Vec<String>) {
    let (call, mut draw) = kind.call(seed, index);
    let owed = answer::<Rust, Sound>(&call);
    let found = compare(library, &call, &owed, junk, &mut draw);
    (call, owed, found)
}

/// Runs every `threads`-th call of each portion, from `thread` on.
fn run_share(
    library: &Library,
    portions: &[Portion],
    plan: &Plan,
    thread: u64,
) -> (Vec<Counts>, Vec<Difference>) {
    let junk = Junk::new(plan.seed.wrapping_add(thread));
    let (mut rows, mut differences) = (vec![], vec![]);
    for portion in portions {
        let mut counts = Counts::default();
        let beside = portion.kind.aims.iter().any(|aim| matches!(aim, Aim::Moved | Aim::Ranked));
        let mut place = thread;
        while place < portion.count {
            let index = portion.index(place);
            let (call, owed, found) = try_one(library, &portion.kind, plan.seed, index, &junk);
            counts.count(call.op, &owed, !found.is_empty());
            if beside {
                counts.count_beside(&owed, &answer::<PlainRust, Plain>(&call));
            }
            if !found.is_empty() && differences.len() < SHOWN {
                let (op, kind) = (call.op, portion.kind.name);
                differences.push(Difference { op, kind, index, found });
            }
            place += plan.threads;
        }
        rows.push(counts);
    }
    (rows, differences)
}

/// Runs a plan: the counts of every kind, and some of the differences.
pub fn run(library: &Library, plan: &Plan) -> (Vec<(Kind, Counts)>, Vec<Difference>) {
    let portions = portions(plan);
    let shares: Vec<_> = thread::scope(|scope| {
        let portions = &portions;
        let run = |thread| scope.spawn(move || run_share(library, portions, plan, thread));
        let running: Vec<_> = (0..plan.threads).map(run).collect();
        running.into_iter().map(|share| share.join().expect("a share of the run")).collect()
    });
    let mut rows: Vec<_> =
        portions.iter().map(|portion| (portion.kind, Counts::default())).collect();
    let mut differences = vec![];
    for (counts, found) in shares {
        rows.iter_mut().zip(&counts).for_each(|(row, counts)| row.1.add(counts));
        differences.extend(found);
    }
    (rows, differences)
}

/// The aims that kinds with enough calls never reached.
pub fn missed(rows: &[(Kind, Counts)]) -> Vec<(Op, &'static str, Aim)> {
    let mut missed = vec![];
    for (kind, counts) in rows {
        let enough = match kind.share {
            Share::All(count) => counts.calls >= count,
            Share::Weight(_) => counts.calls >= ENOUGH,
        };
        for &aim in kind.aims {
            if enough && counts.reached(aim) == 0 {
                missed.push((kind.op, kind.name, aim));
            }
        }
    }
    missed
}
