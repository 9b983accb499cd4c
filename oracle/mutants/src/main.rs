//! Tries the comparison itself: slips, one at a time, and whether it tells them.

mod edges;

include!("../slips.rs");
include!(concat!(env!("OUT_DIR"), "/slipped.rs"));

use peer::Library;
use reference::call::{Kernels, Sound};
use reference::search::SLIPS as READINGS;
use reference::shape::OPS;
use std::process::ExitCode;
use trial::files::{KINDS, file};
use trial::held::Junk;
use trial::records;
use trial::run::{Difference, Plan, portions, try_one};
use trial::search::calls::Read;
use trial::search::{self, first_apart};

/// Calls that a slip has to be told in.
const CALLS: u64 = 150_000;

/// Record files that a slip has to be told in.
const FILES: u64 = 20_000;

/// Runs of the search that a slip has to be told in.
const RUNS: u64 = 14_000;

/// The first difference of a library, and after how many calls it came.
fn first_difference(library: &Library, plan: &Plan) -> Option<(u64, Difference)> {
    let (portions, junk) = (portions(plan), Junk::new(plan.seed));
    let longest = portions.iter().map(|portion| portion.count).max().unwrap_or(0);
    let mut calls = 0;
    for place in 0..longest {
        for portion in portions.iter().filter(|portion| place < portion.count) {
            let index = portion.index(place);
            let (call, _, found) = try_one(library, &portion.kind, plan.seed, index, &junk);
            calls += 1;
            if !found.is_empty() {
                let (op, kind) = (call.op, portion.kind.name);
                return Some((calls, Difference { op, kind, index, found }));
            }
        }
    }
    None
}

/// Tries one library and prints its line: whether it went as expected.
fn line(place: &str, name: &str, library: &Library, unseen: Option<&str>, plan: &Plan) -> bool {
    let found = first_difference(library, plan);
    let (told, how) = match &found {
        Some((calls, one)) => {
            let how = format!("call {calls}, {} {}: {}", one.op.name(), one.kind, one.found[0]);
            (true, how)
        }
        None => (false, unseen.unwrap_or("NOT TOLD").to_string()),
    };
    expected(place, name, told, unseen, &how)
}

/// Prints a slip's line: whether it was told exactly where it can be.
fn expected(place: &str, name: &str, told: bool, unseen: Option<&str>, how: &str) -> bool {
    let as_expected = told == unseen.is_none();
    let mark = if told { "told" } else { "not told" };
    let flag = if as_expected { "" } else { " (UNEXPECTED)" };
    println!("| {place} | {name} | {mark}{flag} | {how} |");
    as_expected
}

/// Tries one reading of record files and prints its line.
fn reading(slip: records::Slip, files: u64, seed: u64) -> bool {
    for at in 0..files {
        let (kind, index) = (KINDS[(at % KINDS.len() as u64) as usize].0, at / KINDS.len() as u64);
        let bytes = file(seed, kind, index);
        let (owed, found) =
            (records::owed(&bytes, records::Slip::None).0, records::owed(&bytes, slip).0);
        if owed != found {
            let first = |text: &str| text.lines().next().unwrap_or_default().to_string();
            let (owed, found) = (first(&owed), first(&found));
            println!(
                "| records | {slip:?} | told | file {}, {kind}: owed {owed}, found {found} |",
                at + 1
            );
            return true;
        }
    }
    println!("| records | {slip:?} | not told (UNEXPECTED) | NOT TOLD |");
    false
}

/// Prints the line of a slip of the search, by the first run that tells it: whether it went as
/// expected.
fn searched(
    place: &str,
    name: &str,
    unseen: Option<&str>,
    found: Option<(u64, search::Difference)>,
) -> bool {
    let (told, how) = match &found {
        Some((run, one)) => {
            let first: String = one.found[0].chars().take(120).collect();
            (true, format!("run {run}, {} {}: {first}", one.kind, one.index))
        }
        None => (false, unseen.unwrap_or("NOT TOLD").to_string()),
    };
    expected(place, name, told, unseen, &how)
}

fn main() -> ExitCode {
    std::panic::set_hook(Box::new(|_| {}));
    let plan = Plan { ops: OPS.to_vec(), calls: CALLS, seed: 1, threads: 1 };
    println!(
        "toolchain: {}; {CALLS} calls for each slip, seed {}",
        reference::TOOLCHAIN,
        plan.seed
    );
    println!("| place | slip | | by |\n|---|---|---|---|");
    let sound = peer::library::<reference::Rust, Sound>();
    let nothing = Some("the same Rust on both sides");
    let mut unexpected = u32::from(!line("none", "no slip", &sound, nothing, &plan));
    let wanted = std::env::args().nth(1).unwrap_or_default();
    let wants = |place: &str, name: &str| place == wanted || name.contains(&wanted);
    for (slip, library) in SLIPS.iter().zip(libraries()) {
        if !wants(slip.file, slip.name) {
            continue;
        }
        unexpected += u32::from(!line(slip.file, slip.name, &library, slip.unseen, &plan));
    }
    for (slip, [operation, below]) in NORM_SLIPS.iter().zip(norm_libraries()) {
        if !wants("norm", slip.name) {
            continue;
        }
        unexpected += u32::from(!line("norm", slip.name, &operation, slip.unseen, &plan));
        unexpected += u32::from(!line("norm below", slip.name, &below, slip.unseen_below, &plan));
    }
    for (name, library) in edges::libraries() {
        if !wants("edge", name) {
            continue;
        }
        unexpected += u32::from(!line("edge", name, &library, None, &plan));
    }
    for slip in records::SLIPS {
        if !wants("records", &format!("{slip:?}")) {
            continue;
        }
        unexpected += u32::from(!reading(slip, FILES, plan.seed));
    }
    let plan = search::Plan { runs: RUNS, seed: 1, threads: 1, schemes: 3 };
    for (slip, search) in SEARCH_SLIPS.iter().zip(searches()) {
        if wants("search", slip.name) {
            let found = first_apart(search, &plan);
            unexpected += u32::from(!searched("search", slip.name, slip.unseen, found));
        }
    }
    for &(slip, name) in READINGS {
        if wants("machine", name) {
            let found = search::first_difference(&Read(slip), &plan);
            unexpected += u32::from(!searched("machine", name, None, found));
        }
    }
    let slips =
        SLIPS.len() + 2 * NORM_SLIPS.len() + edges::libraries().len() + records::SLIPS.len();
    let slips = slips + SEARCH_SLIPS.len() + READINGS.len();
    println!("slips: {slips}; unexpected: {unexpected}");
    if unexpected == 0 { ExitCode::SUCCESS } else { ExitCode::FAILURE }
}
