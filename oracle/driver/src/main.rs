//! Holds a library of the C interface, and the record program, against the Rust files.

mod arguments;
mod linked;
mod mirror;
mod programs;
mod root;
mod searching;
mod writing;

use arguments::Arguments;
use linked::{LIBRARY, linked};
use reference::shape::{OPS, Op};
use std::fs;
use std::path::{Path, PathBuf};
use std::process::ExitCode;
use std::time::Instant;
use trial::held::Junk;
use trial::kinds;
use trial::replay::{self, List};
use trial::run::{self, Plan};
use trial::search::SCHEMES;
use trial::table;
use trial::tallies::{Tallied, tallies};

const USAGE: &str = "usage: oracle COMMAND [--OPTION VALUE]...
  calls       compares library calls       --calls N --seed N --threads N --ops qr,nnls,..
  one         shows one library call       --op OP --kind KIND --index N --seed N
  sqrt        compares square roots        --patterns N --seed N
  mirror      compares B with its mirror   --sequences N --seed N
  packed      compares B's two forms       --sequences N --seed N
  tally       compares steps on one tally  --sequences N --seed N
  problems    compares problem files       --calls N --seed N
  search      compares runs of the search  --runs N --seed N --threads N --schemes N
  records     compares record programs     --program FILE --files N --seed N --threads N
  all         calls, and then records      with the options of both
  write-list  writes the stored list       --folder FOLDER --each N --seed N
  check-list  checks the stored list       --folder FOLDER --each N --seed N
";

fn main() -> ExitCode {
    match Arguments::read().and_then(|arguments| command(&arguments)) {
        Ok(true) => ExitCode::SUCCESS,
        Ok(false) => ExitCode::FAILURE,
        Err(fault) => {
            eprintln!("{fault}");
            ExitCode::from(2)
        }
    }
}

/// Carries out a command: whether all that was compared is equal.
fn command(arguments: &Arguments) -> Result<bool, String> {
    if !reference::sums_start_at_minus_zero() {
        return Err("this toolchain's empty sum is not -0".to_string());
    }
    match arguments.command.as_str() {
        "calls" => calls(arguments),
        "one" => one(arguments),
        "sqrt" => sqrt(arguments),
        "mirror" => mirror::compare(arguments),
        "packed" => mirror::packed(arguments),
        "tally" => tally(arguments),
        "problems" => writing::compare(arguments),
        "search" => searching::compare(arguments),
        "records" => records(arguments),
        "all" => Ok(calls(arguments)? & records(arguments)?),
        "write-list" => write_list(arguments),
        "check-list" => check_list(arguments),
        _ => Err(USAGE.to_string()),
    }
}

/// Says what is compared with what.
fn announce(own: &[Op]) {
    let names: Vec<&str> = own.iter().map(|op| op.name()).collect();
    println!("toolchain: {}", reference::TOOLCHAIN);
    println!("library: {LIBRARY}");
    println!(
        "from the library: {}",
        if names.is_empty() { "nothing".into() } else { names.join(", ") }
    );
    println!("from the peer over the Rust: every other operation");
}

/// Compares calls and prints the table.
fn calls(arguments: &Arguments) -> Result<bool, String> {
    let (library, own) = linked();
    announce(&own);
    let plan = Plan {
        ops: arguments.ops()?,
        calls: arguments.value("calls", 20_000)?,
        seed: arguments.value("seed", 1)?,
        threads: arguments.value("threads", 1)?,
    };
    let start = Instant::now();
    let (rows, differences) = run::run(&library, &plan);
    let time = start.elapsed();
    let lines: Vec<_> = rows.iter().map(|(kind, counts)| (kind.op, kind.name, *counts)).collect();
    let total = table::print(&lines);
    for one in &differences {
        println!("differs: --op {} --kind '{}' --index {}", one.op.name(), one.kind, one.index);
        one.found.iter().take(4).for_each(|line| println!("    {line}"));
    }
    let missed = run::missed(&rows);
    for (op, kind, aim) in &missed {
        println!("never reached: {} {kind}: {aim:?}", op.name());
    }
    let comparable = total.calls - total.not_comparable;
    println!("seed {}, {} calls in {:.1} s", plan.seed, total.calls, time.as_secs_f64());
    println!("comparable with the Rust: {comparable}");
    println!("with a NaN ratio, held to the rule of docs/RULES.md alone: {}", total.not_comparable);
    println!("differences: {}; aims never reached: {}", total.different, missed.len());
    Ok(total.different == 0 && missed.is_empty())
}

/// Shows one call in full.
fn one(arguments: &Arguments) -> Result<bool, String> {
    let op = arguments.text("op").and_then(Op::named).ok_or("--op is missing")?;
    let name = arguments.text("kind").ok_or("--kind is missing")?;
    let kind = kinds::of(op).into_iter().find(|kind| kind.name == name);
    let kind = kind.ok_or(format!("{} has no kind {name}", op.name()))?;
    let (seed, index) = (arguments.value("seed", 1)?, arguments.value("index", 0)?);
    let (library, _) = linked();
    let (call, owed, found) = run::try_one(&library, &kind, seed, index, &Junk::new(seed));
    println!("{call:?}\nowed: {owed:?}");
    found.iter().for_each(|line| println!("{line}"));
    println!("differences: {}", found.len());
    Ok(found.is_empty())
}

/// Compares square roots with the hardware's.
fn sqrt(arguments: &Arguments) -> Result<bool, String> {
    let (library, own) = linked();
    announce(&own);
    let (patterns, seed) = (arguments.value("patterns", 10_000_000)?, arguments.value("seed", 1)?);
    Ok(root::compare(&library, patterns, seed))
}

/// Compares sequences of steps on one tally.
fn tally(arguments: &Arguments) -> Result<bool, String> {
    let (library, own) = linked();
    announce(&own);
    let sequences = arguments.value("sequences", 10_000)?;
    let seed = arguments.value("seed", 1)?;
    let found = tallies(&library, sequences, seed);
    let Tallied { steps, refused: [late, early], relaxed, ended, different, first } = found;
    println!(
        "seed {seed}, {sequences} sequences, {steps} steps: {late} refused by the arithmetic,"
    );
    println!("{early} before it, {relaxed} relaxed, {ended} left a count at its largest value");
    if let Some(index) = first {
        println!("first difference in sequence {index}");
    }
    println!("differences: {different}");
    Ok(different == 0)
}

/// Compares what a record program prints.
fn records(arguments: &Arguments) -> Result<bool, String> {
    let start = Instant::now();
    let plan = programs::Plan {
        program: arguments.text("program").ok_or("--program is missing")?,
        files: arguments.value("files", 2_000)?,
        seed: arguments.value("seed", 1)?,
        threads: arguments.value("threads", 1)?,
    };
    let equal = programs::compare(plan)?;
    println!("seed {}, {} files in {:.1} s", plan.seed, plan.files, start.elapsed().as_secs_f64());
    Ok(equal)
}

/// The stored files of a folder: the calls, and the lines.
fn stored(arguments: &Arguments) -> Result<[PathBuf; 2], String> {
    let folder = arguments.text("folder").ok_or("--folder is missing")?;
    Ok(["stdin", "stdout"].map(|name| Path::new(folder).join(name)))
}

/// The list that a seed makes.
fn made(arguments: &Arguments) -> Result<List, String> {
    let (seed, each) = (arguments.value("seed", 1)?, arguments.value("each", 30)?);
    Ok(replay::list(seed, each, arguments.value("schemes", SCHEMES)?))
}

/// Writes the stored list.
fn write_list(arguments: &Arguments) -> Result<bool, String> {
    let ([calls, lines], list) = (stored(arguments)?, made(arguments)?);
    for (file, bytes) in [(calls, &list.calls[..]), (lines, list.lines.as_bytes())] {
        fs::write(&file, bytes).map_err(|error| format!("{}: {error}", file.display()))?;
        println!("{}: {} bytes", file.display(), bytes.len());
    }
    println!("{} calls", list.lines.lines().count());
    Ok(true)
}

/// Checks the stored list against the seed and the Rust, and the library against the Rust.
fn check_list(arguments: &Arguments) -> Result<bool, String> {
    let (library, own) = linked();
    announce(&own);
    let [calls, lines] = stored(arguments)?;
    let unread = |file: &Path, error| format!("{}: {error}", file.display());
    let list = List {
        calls: fs::read(&calls).map_err(|error| unread(&calls, error))?,
        lines: fs::read_to_string(&lines).map_err(|error| unread(&lines, error))?,
    };
    let found = replay::verify(&list, &library)?;
    println!("{:<16}{:>7} {:?}", "op", "calls", "by number, from 0");
    for op in OPS {
        let numbers = found.numbers[op.place()];
        println!("{:<16}{:>7} {numbers:?}", op.name(), numbers.iter().sum::<u64>());
    }
    println!(
        "{} calls, {} of them of the search, {} with a NaN ratio, the longest {} bytes",
        found.calls, found.searches, found.nan_ratios, found.longest
    );
    let drawn = list == made(arguments)?;
    println!("both files are what the seed makes: {}", if drawn { "yes" } else { "no" });
    println!("lines that are not the Rust's: {}", found.lines);
    println!("differences of the library: {}", found.different);
    Ok(drawn && found.lines + found.different == 0)
}
