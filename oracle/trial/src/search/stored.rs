//! Stored calls of the search: their bytes in the list, which the program `replay` reads, and the
//! lines that the second reading owes for them.

use super::calls::{LENGTHS, Slices};
use super::runs::{KINDS, Run};
use crate::digest::{Digest, OUTPUT, ROOMS, memory, room, values};
use crate::draw::Draw;
use crate::stored::{Fill, LENGTHS as COUNT, bytes_of, pattern};
use reference::search::Slip;
use reference::search::call::{Begin, Lent, Outcome, begin, tell};
use reference::shape::{Op, WORKSPACES};

/// Where the inputs' lengths begin in the header, and where the tolerance's stands.
const INPUTS: usize = 7;
const TOLERANCE: usize = 15;

/// The number by which the list names a search that begins; one more is an answer.
const BEGIN: usize = 20;

/// Runs of a kind that the list has, and answers of a run.
const RUNS: u64 = 3;
const ANSWERS: usize = 4;

/// What is called.
enum Called {
    Begin(Begin),
    Tell(Vec<f64>, Slices),
}

/// A call, the lengths of what it is lent, and what its memory holds before it.
struct Stored {
    called: Called,
    machine: [usize; 2],
    work: [usize; 2],
    fill: Fill,
}

impl Stored {
    /// The number by which the list names the call.
    fn code(&self) -> usize {
        BEGIN + usize::from(matches!(self.called, Called::Tell(..)))
    }

    fn owed(&self, schemes: u32) -> Outcome {
        let Self { called, machine, work, .. } = self;
        match called {
            Called::Begin(call) => {
                begin(call, &Lent { machine: *machine, work: *work, schemes }, Slip::None)
            }
            Called::Tell(told, slices) => {
                tell(told, &slices.floats, &slices.words, *work, Slip::None)
            }
        }
    }

    /// The sizes, the inputs in their order, and the kinds.
    fn parts(&self) -> ([u64; 4], Vec<Vec<f64>>, &[u8]) {
        match &self.called {
            Called::Begin(call) => {
                let sizes = [call.n as u64, call.m as u64, call.budget.into(), call.scheme.into()];
                let inputs = [&call.lower, &call.upper, &call.x].map(Clone::clone).to_vec();
                (sizes, inputs, &call.kinds)
            }
            Called::Tell(told, slices) => {
                let words = slices.words.iter().map(|&word| f64::from_bits(u64::from(word)));
                ([0; 4], vec![slices.floats.clone(), words.collect(), told.clone()], &[])
            }
        }
    }

    fn bytes(&self) -> Vec<u8> {
        let (sizes, mut inputs, kinds) = self.parts();
        let mut lengths = [0; COUNT];
        lengths[..2].copy_from_slice(&self.work);
        [lengths[2], lengths[5]] = self.machine;
        lengths[6] = kinds.len();
        for (to, values) in lengths[INPUTS..].iter_mut().zip(&inputs) {
            *to = values.len();
        }
        if let Called::Begin(call) = &self.called {
            lengths[TOLERANCE] = 1;
            inputs.push(vec![call.ftol]);
        }
        bytes_of(sizes, self.fill, lengths, inputs.iter().flatten(), kinds)
    }

    /// The word before the bytes, and the bytes.
    fn record(&self) -> Vec<u8> {
        let bytes = self.bytes();
        let head = self.code() as u64 | (bytes.len() as u64) << 16;
        head.to_le_bytes().into_iter().chain(bytes).collect()
    }

    /// The memory of the words afterwards, those that the call found before it where it leaves them.
    fn words(&self, owed: &Outcome) -> Vec<u64> {
        let mut memory = vec![u64::from(self.fill.mark); ROOMS[1]];
        let before = match &self.called {
            Called::Begin(_) => &[][..],
            Called::Tell(_, slices) => &slices.words,
        };
        let words = owed.page.as_ref().map_or(before, |page| &page.words);
        for (to, &word) in memory.iter_mut().zip(words) {
            *to = u64::from(word);
        }
        memory
    }

    /// The machine's memory afterwards.
    fn floats(&self, owed: &Outcome) -> Vec<u64> {
        let before = match &self.called {
            Called::Begin(_) => &[][..],
            Called::Tell(_, slices) => &slices.floats,
        };
        let floats = owed.page.as_ref().map_or(before, |page| &page.floats);
        memory(floats, self.fill.output, OUTPUT)
    }

    /// The line that the program owes.
    fn line(&self, schemes: u32) -> String {
        let (owed, fill) = (self.owed(schemes), self.fill);
        let mut digest = Digest::default();
        digest.mix(u64::from(owed.number));
        if let Called::Begin(call) = &self.called {
            digest.mix(u64::from(owed.variable.unwrap_or(fill.mark)));
            digest.mix_all(self.words(&owed));
            digest.mix(call.kinds.len() as u64);
            digest.mix_all(call.kinds.iter().map(|&kind| u64::from(kind)));
        } else {
            digest.mix_all(self.words(&owed));
        }
        digest.mix_all(self.floats(&owed));
        digest.mix_all(memory(&[], fill.output, OUTPUT));
        digest.mix_all(room(0, owed.clears, pattern(f64::from_bits(fill.room))));
        digest.mix_all(room(1, owed.clears, u64::from(fill.mark)));
        digest.mix_all(values(self.bytes()));
        format!("{} {} {:016x}\n", self.code(), owed.number, digest.number())
    }
}

/// Beginnings that are refused, one for each reason, made of one that is not; and one whose start is
/// not finite.
fn refused(call: &Begin) -> Vec<(Begin, [usize; 2], [usize; 2])> {
    let changed = |change: fn(&mut Begin)| {
        let mut other = call.clone();
        change(&mut other);
        (other, LENGTHS, WORKSPACES)
    };
    vec![
        changed(|call| call.n = 17),
        changed(|call| call.budget = 10_001),
        changed(|call| call.scheme = 3),
        (call.clone(), [LENGTHS[0] - 1, LENGTHS[1]], WORKSPACES),
        (call.clone(), [LENGTHS[0], LENGTHS[1] + 1], WORKSPACES),
        (call.clone(), LENGTHS, [WORKSPACES[0] - 1, WORKSPACES[1]]),
        changed(|call| call.kinds.iter_mut().for_each(|kind| *kind = 2)),
        changed(|call| call.ftol = f64::NAN),
        changed(|call| call.lower[0] = f64::INFINITY),
        changed(|call| (call.lower[0], call.upper[0]) = (2.0, 1.0)),
        changed(|call| call.x[0] = f64::NEG_INFINITY),
    ]
}

/// Draws what memory holds before the calls, and keeps them.
struct List {
    draw: Draw,
    stored: Vec<Stored>,
}

impl List {
    fn push(&mut self, called: Called, machine: [usize; 2], work: [usize; 2]) {
        let fill = Fill {
            output: self.draw.bits() >> 2,
            room: self.draw.bits() >> 2,
            mark: self.draw.bits() as u32 >> 1,
        };
        self.stored.push(Stored { called, machine, work, fill });
    }

    /// The beginning of a run, some of its answers, its last, and one behind the end.
    fn run(&mut self, run: &Run, schemes: u32) {
        let call = Begin::new(&run.setup, &run.x, run.budget as u32);
        let lent = Lent { machine: LENGTHS, work: WORKSPACES, schemes };
        let mut page = begin(&call, &lent, Slip::None).page;
        self.push(Called::Begin(call), LENGTHS, WORKSPACES);
        let (mut told, mut count) = (vec![], 0);
        while let Some(now) = page {
            let slices = Slices { floats: now.floats, words: now.words };
            let question = slices.question();
            if let Some(question) = &question {
                told = run.answers.told(&run.setup, question);
            }
            let owed = tell(&told, &slices.floats, &slices.words, WORKSPACES, Slip::None);
            let last = owed.page.as_ref().is_none_or(|page| page.words[0] > 5);
            if last || count < ANSWERS && (count < 2 || self.draw.one_in(4)) {
                count += 1;
                self.push(Called::Tell(told.clone(), slices), LENGTHS, WORKSPACES);
            }
            page = owed.page;
        }
    }
}

/// The calls of the search for a list: their records, and their lines.
pub fn drawn(seed: u64, schemes: u32) -> Vec<(Vec<u8>, String)> {
    let mut list = List { draw: Draw::new(seed, Op::Step, "stored searches", 0), stored: vec![] };
    for kind in KINDS {
        for index in 0..RUNS {
            list.run(&kind.run(seed, index, schemes).0, schemes);
        }
    }
    let constrained = |index| Some(KINDS[0].run(seed, index, 1).0).filter(|run| run.setup.m > 0);
    let run = (0..).find_map(constrained).expect("a published problem with constraints");
    for (call, machine, work) in refused(&Begin::new(&run.setup, &run.x, run.budget as u32)) {
        list.push(Called::Begin(call), machine, work);
    }
    list.stored.iter().map(|stored| (stored.record(), stored.line(schemes))).collect()
}
