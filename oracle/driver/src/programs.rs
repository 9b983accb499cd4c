//! Runs the record program on files and compares all that it prints.

use std::collections::BTreeMap;
use std::io::{self, Read, Write};
use std::process::{Command, Stdio};
use std::thread;
use trial::files::{Aim, Counts, KINDS, file};

/// Files of a kind from which on it must have come where it aims.
const ENOUGH: u64 = 300;

/// What to run.
#[derive(Clone, Copy)]
pub struct Plan<'a> {
    pub program: &'a str,
    pub files: u64,
    pub seed: u64,
    pub threads: u64,
}

/// What a run of the program left: its text, its complaints and how it ended.
struct Left {
    text: String,
    complaints: String,
    ended: String,
}

/// Runs the program on one input.
fn run_one(program: &str, bytes: &[u8]) -> io::Result<Left> {
    let mut child = Command::new(program)
        .stdin(Stdio::piped())
        .stdout(Stdio::piped())
        .stderr(Stdio::piped())
        .spawn()?;
    let mut input = child.stdin.take().expect("a pipe");
    // A program may stop reading at the first fault; what it has not read is then dropped.
    match input.write_all(bytes) {
        Err(error) if error.kind() != io::ErrorKind::BrokenPipe => return Err(error),
        _ => drop(input),
    }
    let (mut text, mut complaints) = (vec![], vec![]);
    child.stdout.take().expect("a pipe").read_to_end(&mut text)?;
    child.stderr.take().expect("a pipe").read_to_end(&mut complaints)?;
    let ended = child.wait()?.to_string();
    let lossy = |bytes: Vec<u8>| String::from_utf8_lossy(&bytes).into_owned();
    Ok(Left { text: lossy(text), complaints: lossy(complaints), ended })
}

/// The counts of each kind, how the runs ended, and some differences.
type Found = (Vec<Counts>, BTreeMap<String, u64>, Vec<String>);

/// Runs every `threads`-th file, from `thread` on.
fn run_share(plan: Plan, thread: u64) -> Result<Found, String> {
    let (mut rows, mut ends, mut differences) =
        (vec![Counts::default(); KINDS.len()], BTreeMap::new(), vec![]);
    let mut at = thread;
    while at < plan.files {
        let (row, index) = ((at % KINDS.len() as u64) as usize, at / KINDS.len() as u64);
        let bytes = file(plan.seed, KINDS[row].0, index);
        let left =
            run_one(plan.program, &bytes).map_err(|error| format!("{}: {error}", plan.program))?;
        let mut printed = left.text;
        if !left.complaints.is_empty() || left.ended.contains("signal") {
            printed = format!("{printed}and then: {} {}", left.ended, left.complaints);
        }
        *ends.entry(left.ended).or_insert(0) += 1;
        if !rows[row].count(&bytes, &printed) && differences.len() < 5 {
            let owed = trial::records::owed(&bytes, trial::records::Slip::None).0;
            differences
                .push(format!("{} {index}:\n  owed {owed:?}\n  found {printed:?}", KINDS[row].0));
        }
        at += plan.threads;
    }
    Ok((rows, ends, differences))
}

/// Runs all files: whether all were as owed and every kind came where it aims.
pub fn compare(plan: Plan) -> Result<bool, String> {
    let shares: Result<Vec<Found>, String> = thread::scope(|scope| {
        let run = |thread| scope.spawn(move || run_share(plan, thread));
        let running: Vec<_> = (0..plan.threads).map(run).collect();
        running.into_iter().map(|share| share.join().expect("a share of the run")).collect()
    });
    let (mut rows, mut ends) = (vec![Counts::default(); KINDS.len()], BTreeMap::new());
    for (counts, share_ends, differences) in shares? {
        rows.iter_mut().zip(&counts).for_each(|(row, counts)| row.add(counts));
        share_ends.into_iter().for_each(|(end, count)| *ends.entry(end).or_insert(0) += count);
        differences.iter().for_each(|difference| println!("differs: {difference}"));
    }
    let missed = print(&rows);
    let different: u64 = rows.iter().map(|row| row.different).sum();
    println!("how the runs ended: {ends:?}");
    println!("files: {}; differences: {different}; aims never reached: {missed}", plan.files);
    Ok(different == 0 && missed == 0)
}

/// Prints the table of kinds: how many aims were never reached.
fn print(rows: &[Counts]) -> u64 {
    let heads = ["files", "ok", "relaxed", "nan", "1", "5", "6", "7", "9", "14", "differ"];
    let line = |name: &str, columns: [String; 11]| {
        let columns: String = columns.iter().map(|column| format!("{column:>9}")).collect();
        println!("{name:<22}{columns}");
    };
    line("kind", heads.map(str::to_string));
    let mut missed = 0;
    for ((name, aims), row) in KINDS.iter().zip(rows) {
        let r = row.refused;
        let Counts { files, ok, relaxed, nan, different, .. } = *row;
        let columns = [files, ok, relaxed, nan, r[1], r[5], r[6], r[7], r[9], r[14], different];
        line(name, columns.map(|count| if count == 0 { ".".into() } else { count.to_string() }));
        let lacks = |aim: &&Aim| row.files >= ENOUGH && row.reached(**aim) == 0;
        for aim in aims.iter().filter(lacks) {
            println!("never reached: {name}: {aim:?}");
            missed += 1;
        }
    }
    missed
}
