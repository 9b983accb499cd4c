//! The stored list of calls, and the stored lines that the Rust's answers make of them.

use crate::digest::line;
use crate::draw::Draw;
use crate::held::{Junk, compare};
use crate::kinds::{Kind, Share, all};
use crate::search;
use crate::stored::{self, BYTES, Fill, HEADER, Rest, Stored};
use crate::table::NUMBERS;
use peer::Library;
use reference::Rust;
use reference::call::{Answer, Call, Sound, answer};
use reference::shape::{OPS, Op};

/// A call that is taken into a list, and its answer.
type Chosen = (Call, Answer);

/// The first word of a list.
const MARK: u64 = u64::from_le_bytes(*b"GRITLIST");

/// The longest slices of f64, kinds, permutations and reports, and the longest call, that a list
/// has.
const LONGEST: [usize; 3] = [1200, 80, 4096];

/// How many words a call may take, by turns: mostly few, now and then any.
const ALLOWED: [usize; 12] = [48, 64, 48, 96, 64, 160, 48, 64, 96, 320, 64, 900];

/// A prime, to go through the calls of a kind that is run in full once and scattered.
const STRIDE: u64 = 1_000_003;

/// Calls that the list has at least of each operation and number, where they can be drawn.
const SELDOM: u64 = 12;

/// The words that a call and its answer take: by them calls are chosen.
fn words(call: &Call, owed: &Answer) -> usize {
    let groups = [call.sizes.len(), call.inputs.len(), call.outputs.len()];
    let single = usize::from(call.op.is_step()) + usize::from(call.op == Op::Qr);
    let rooms = if call.op.is_lent() { 2 } else { 0 };
    let lengths = 1 + groups.iter().sum::<usize>() + single + rooms;
    let inputs = call.inputs.iter().map(Vec::len).sum::<usize>() + call.kinds.len();
    let outputs =
        owed.outputs.iter().map(Vec::len).sum::<usize>() + owed.words.len() + owed.seconds.len();
    lengths + inputs + outputs + owed.counts.len() + usize::from(owed.value.is_some())
}

/// Whether a call is short enough for a list.
fn fits(call: &Call) -> bool {
    let reals = call.inputs.iter().map(Vec::len).chain(call.outputs.iter().copied());
    let bytes = HEADER + 8 * call.inputs.iter().map(Vec::len).sum::<usize>() + call.kinds.len();
    let longest = reals.max().unwrap_or(0);
    longest <= LONGEST[0]
        && call.kinds.len().max(call.words).max(call.seconds) <= LONGEST[1]
        && bytes <= BYTES
}

/// The next call of a kind from an index on that takes no more words than allowed.
fn next(kind: &Kind, seed: u64, index: &mut u64, allowed: usize) -> Option<Chosen> {
    for _ in 0..400 {
        let at = match kind.share {
            Share::All(count) if *index >= count => return None,
            Share::All(count) => *index * STRIDE % count,
            Share::Weight(_) => *index,
        };
        *index += 1;
        let (call, _) = kind.call(seed, at);
        let inputs: usize = call.inputs.iter().map(Vec::len).sum();
        if inputs > allowed || !fits(&call) {
            continue;
        }
        let owed = answer::<Rust, Sound>(&call);
        if words(&call, &owed) <= allowed {
            return Some((call, owed));
        }
    }
    None
}

/// The calls of one kind, so many, mostly short; the few of a small kind whatever their length.
fn sampled(place: usize, kind: &Kind, seed: u64, each: usize) -> Vec<Chosen> {
    let small = matches!(kind.share, Share::All(count) if count <= each as u64);
    let mut index = 0;
    let allowed = |turn: usize| match turn + 1 == each && place.is_multiple_of(4) {
        _ if small => LONGEST[2],
        true => LONGEST[2],
        false => ALLOWED[(turn + place) % ALLOWED.len()],
    };
    (0..each).filter_map(|turn| next(kind, seed, &mut index, allowed(turn))).collect()
}

/// Calls of numbers that an operation's short calls seldom or never have.
fn seldom(kind: &Kind, seed: u64, had: &mut [[u64; NUMBERS]; OPS.len()]) -> Vec<Chosen> {
    let mut taken = vec![];
    for index in 0..match kind.share {
        Share::All(_) => 0,
        Share::Weight(_) => 300,
    } {
        let (call, _) = kind.call(seed, index);
        let owed = answer::<Rust, Sound>(&call);
        let count = &mut had[call.op.place()][owed.number as usize];
        if *count < SELDOM && fits(&call) && words(&call, &owed) <= LONGEST[2] {
            *count += 1;
            taken.push((call, owed));
        }
    }
    taken
}

/// The calls of a list, so many of each kind, with their answers.
fn chosen(seed: u64, each: usize) -> Vec<Chosen> {
    let (kinds, mut had) = (all(), [[0; NUMBERS]; OPS.len()]);
    let mut calls: Vec<Chosen> = vec![];
    for (place, kind) in kinds.iter().enumerate() {
        calls.extend(sampled(place, kind, seed, each));
    }
    for (call, owed) in &calls {
        had[call.op.place()][owed.number as usize] += 1;
    }
    for kind in &kinds {
        calls.extend(seldom(kind, seed, &mut had));
    }
    calls
}

/// The two stored files.
#[derive(Debug, Default, PartialEq)]
pub struct List {
    /// The calls: what the program reads.
    pub calls: Vec<u8>,
    /// A line for each: what it must write.
    pub lines: String,
}

/// A list of so many calls of each kind, and of some runs of the search, which serves so many schemes.
pub fn list(seed: u64, each: usize, schemes: u32) -> List {
    let (chosen, searches) = (chosen(seed, each), search::stored::drawn(seed, schemes));
    let start = [MARK, (chosen.len() + searches.len()) as u64];
    let calls = start.into_iter().flat_map(u64::to_le_bytes).collect();
    let mut list = List { calls, lines: String::new() };
    for (index, (call, owed)) in chosen.into_iter().enumerate() {
        let fill = Fill::new(seed, index as u64, call.op, &owed);
        let stored = Stored { call, fill };
        list.calls.extend(stored.record());
        list.lines.push_str(&line(&stored, &owed));
    }
    for (record, line) in searches {
        list.calls.extend(record);
        list.lines.push_str(&line);
    }
    list
}

/// What a list was found to hold.
#[derive(Default)]
pub struct Found {
    pub calls: u64,
    /// Calls of the search, whose lines are held to the second reading when the list is made anew.
    pub searches: u64,
    /// Calls by operation and by number.
    pub numbers: [[u64; NUMBERS]; OPS.len()],
    pub nan_ratios: u64,
    pub longest: usize,
    /// Lines that are not those of the Rust's answers.
    pub lines: u64,
    /// Calls that the library answers otherwise than the Rust.
    pub different: u64,
}

/// Holds every line of a list against the Rust's answer to its call, and the library too.
pub fn verify(list: &List, library: &Library) -> Result<Found, String> {
    let mut rest = Rest(&list.calls);
    let start = rest.words(2)?;
    if start[0] != MARK {
        return Err("no list".to_string());
    }
    let mut lines = list.lines.split_inclusive('\n');
    let (mut found, junk) = (Found::default(), Junk::new(1));
    for index in 0..start[1] {
        let before = rest.0.len();
        let (code, bytes) = stored::next(&mut rest)?;
        found.calls += 1;
        found.longest = found.longest.max(before - rest.0.len());
        let Some(op) = Op::coded(code) else {
            found.searches += 1;
            lines.next();
            continue;
        };
        let stored = Stored::read(op, bytes)?;
        let (call, owed) = (&stored.call, answer::<Rust, Sound>(&stored.call));
        let mut draw = Draw::new(1, call.op, "replay", index);
        let differs = !compare(library, call, &owed, &junk, &mut draw).is_empty();
        found.numbers[call.op.place()][owed.number as usize] += 1;
        found.nan_ratios += u64::from(owed.tally.nan_ratios > 0);
        found.lines += u64::from(lines.next() != Some(&line(&stored, &owed)));
        found.different += u64::from(differs);
    }
    found.lines += lines.count() as u64;
    if rest.0.is_empty() { Ok(found) } else { Err("bytes after the last call".to_string()) }
}
