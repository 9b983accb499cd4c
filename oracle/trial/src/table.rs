//! Counts by kind of call.

use reference::call::Answer;
use reference::settle::NEAR;
use reference::shape::Op;
use reference::tally::{NOWHERE, Stage};

/// Numbers that a call can be owed, from 0.
pub const NUMBERS: usize = 21;

/// The numbers that a stage of a step can end with.
const ENDS: [u32; 5] = [0, 5, 6, 7, 11];

/// What a kind of call is for: a kind that never comes there is a fault of the drawing.
#[derive(Debug, Clone, Copy, PartialEq, Eq)]
pub enum Aim {
    /// This number.
    Number(u32),
    /// A relaxed problem that is solved.
    Relaxed,
    /// A NaN in an answer.
    Nan,
    /// A blocking step of NNLS.
    Blocked,
    /// A column that NNLS tries and puts back.
    Rejected,
    /// A NaN ratio.
    NanRatio,
    /// An answer other than the one over the plain norm.
    Moved,
    /// An answer where the plain norm takes the rank away.
    Ranked,
    /// A place other than 0 with this number: where rank was lost, or a meter.
    Place(u32),
    /// A step whose exact and relaxed stage end with these numbers.
    Stages(u32, u32),
    /// A day in which a meter is named.
    Named,
    /// Tests of meters that agree.
    Agreed,
    /// Tests of meters that mark one.
    Marked,
    /// Volumes with a bound up to 2^-10, and with a larger one.
    Certain,
    Uncertain,
    /// A check whose verdict is this test, or yes where it is 0.
    Verdict(u32),
}

/// The counts of one kind.
#[derive(Debug, Clone, Copy, Default)]
pub struct Counts {
    pub calls: u64,
    pub numbers: [u64; NUMBERS],
    pub relaxed: u64,
    pub nan: u64,
    pub blocked: u64,
    pub rejected: u64,
    pub not_comparable: u64,
    pub moved: u64,
    pub ranked: u64,
    /// Rank lost at a place other than 0, by number.
    pub placed: [u64; NUMBERS],
    /// Steps by the ends of their stages, in the order of `ENDS`.
    pub stages: [[u64; ENDS.len()]; ENDS.len()],
    /// Days in which a meter is named.
    pub named: u64,
    /// Tests of meters that agree, and that mark a meter.
    pub agreed: u64,
    pub marked: u64,
    /// Volumes with a bound up to 2^-10, and with a larger one.
    pub certain: u64,
    pub uncertain: u64,
    /// Checks by the test that failed first, 0 where none did.
    pub verdicts: [u64; 6],
    pub different: u64,
}

/// The place of a stage's number in `ENDS`.
fn end(number: u32) -> usize {
    ENDS.iter().position(|&end| end == number).expect("a number that a stage can end with")
}

impl Counts {
    /// Counts one call.
    pub fn count(&mut self, op: Op, owed: &Answer, different: bool) {
        self.calls += 1;
        self.numbers[owed.number as usize] += 1;
        let done = owed.number == 0;
        self.relaxed += u64::from(done && owed.tally.relaxed > 0);
        self.nan += u64::from(done && owed.has_nan());
        self.blocked += u64::from(owed.tally.blocks > 0);
        self.rejected += u64::from(done && op == Op::Nnls && owed.rejected() > 0);
        self.not_comparable += u64::from(owed.tally.nan_ratios > 0);
        self.different += u64::from(different);
        for Stage { number, place } in owed.tally.stages {
            self.placed[number as usize] += u64::from(place != 0 && place != NOWHERE);
        }
        if matches!(owed.number, 12 | 13) || (owed.number == 15 && op != Op::StrictStep) {
            self.placed[owed.number as usize] += u64::from(owed.counts.first() > Some(&0));
        }
        self.named += u64::from(op == Op::Reconcile && owed.words.contains(&1));
        self.agreed += u64::from(owed.found.is_some_and(|found| found[2] == 1));
        self.marked += u64::from(owed.seconds.iter().any(|&mark| mark > 0));
        if matches!(op, Op::Settle | Op::Certify) && done {
            let is_certain = owed.value.is_some_and(|bound| bound <= NEAR);
            self.certain += u64::from(is_certain);
            self.uncertain += u64::from(!is_certain);
        }
        if op == Op::Check && done {
            self.verdicts[owed.words[0] as usize] += 1;
        }
        if op.is_step() && !owed.words.is_empty() {
            let [exact, relaxed] = owed.tally.stages;
            self.stages[end(exact.number)][end(relaxed.number)] += 1;
        }
    }

    /// Steps of which both stages were refused.
    fn both(&self) -> u64 {
        self.stages[1..].iter().map(|relaxed| relaxed[1..].iter().sum::<u64>()).sum()
    }

    /// Counts one call again, beside its answer over the plain norm.
    pub fn count_beside(&mut self, owed: &Answer, plain: &Answer) {
        self.moved += u64::from(!owed.same(plain));
        self.ranked += u64::from(owed.ranks_beside(plain));
    }

    /// Adds the counts of another run.
    pub fn add(&mut self, other: &Counts) {
        self.calls += other.calls;
        for (mine, theirs) in self.numbers.iter_mut().zip(other.numbers) {
            *mine += theirs;
        }
        self.relaxed += other.relaxed;
        self.nan += other.nan;
        self.blocked += other.blocked;
        self.rejected += other.rejected;
        self.not_comparable += other.not_comparable;
        self.moved += other.moved;
        self.ranked += other.ranked;
        self.named += other.named;
        self.agreed += other.agreed;
        self.marked += other.marked;
        self.certain += other.certain;
        self.uncertain += other.uncertain;
        self.different += other.different;
        for (mine, theirs) in self.placed.iter_mut().zip(other.placed) {
            *mine += theirs;
        }
        for (mine, theirs) in self.verdicts.iter_mut().zip(other.verdicts) {
            *mine += theirs;
        }
        let stages = self.stages.iter_mut().flatten();
        for (mine, theirs) in stages.zip(other.stages.iter().flatten()) {
            *mine += theirs;
        }
    }

    /// How often an aim was reached.
    pub fn reached(&self, aim: Aim) -> u64 {
        match aim {
            Aim::Number(number) => self.numbers[number as usize],
            Aim::Relaxed => self.relaxed,
            Aim::Nan => self.nan,
            Aim::Blocked => self.blocked,
            Aim::Rejected => self.rejected,
            Aim::NanRatio => self.not_comparable,
            Aim::Moved => self.moved,
            Aim::Ranked => self.ranked,
            Aim::Place(number) => self.placed[number as usize],
            Aim::Named => self.named,
            Aim::Agreed => self.agreed,
            Aim::Marked => self.marked,
            Aim::Certain => self.certain,
            Aim::Uncertain => self.uncertain,
            Aim::Verdict(test) => self.verdicts[test as usize],
            Aim::Stages(exact, relaxed) => self.stages[end(exact)][end(relaxed)],
        }
    }

    fn columns(&self) -> [u64; COLUMNS] {
        let n = self.numbers;
        [
            self.calls,
            n[0],
            n[1],
            n[2],
            n[3],
            n[4],
            n[5],
            n[6],
            n[7],
            n[8],
            n[10],
            n[11],
            n[12],
            n[13],
            n[14],
            n[15],
            self.relaxed,
            self.nan,
            self.blocked,
            self.rejected,
            self.not_comparable,
            self.moved,
            self.ranked,
            self.placed.iter().sum(),
            self.both(),
            self.named,
            self.verdicts[0],
            self.different,
        ]
    }
}

/// Columns of the table.
const COLUMNS: usize = 28;

const HEADS: [&str; COLUMNS] = [
    "calls",
    "ok",
    "1",
    "2",
    "3",
    "4",
    "5",
    "6",
    "7",
    "8",
    "10",
    "11",
    "12",
    "13",
    "14",
    "15",
    "relaxed",
    "nan",
    "blocked",
    "put back",
    "nan ratio",
    "moved",
    "ranked",
    "placed",
    "both",
    "named",
    "yes",
    "differ",
];

/// Prints one line of the table.
fn line(op: &str, kind: &str, columns: &[String; COLUMNS]) {
    print!("{op:<16}{kind:<22}");
    for column in columns {
        print!("{column:>9}");
    }
    println!();
}

/// Prints the table and answers its sums.
pub fn print(rows: &[(Op, &str, Counts)]) -> Counts {
    line("op", "kind", &HEADS.map(str::to_string));
    let shown = |count: u64| {
        if count == 0 { ".".to_string() } else { count.to_string() }
    };
    let mut total = Counts::default();
    for (op, kind, counts) in rows {
        line(op.name(), kind, &counts.columns().map(shown));
        total.add(counts);
    }
    line("all", "", &total.columns().map(shown));
    total
}
