//! One call of the search on memory full of junk, and all that it leaves otherwise than owed.

use crate::draw::Draw;
use crate::held::{Held, Junk, compare_rest, compare_workspaces, same, shown};
use reference::search::call::{Begin, Lent, Outcome, begin, tell};
use reference::search::page::{ASKED, FLOATS, MULTIPLIERS, SIZES, VALUES, WORDS, X};
use reference::search::{Ending, Question, Report, Slip, Transcript};
use reference::shape::WORKSPACES;

/// What a call may write: the machine's slices, the variable of 15, and the workspaces.
pub struct Pad<'a> {
    pub floats: &'a mut [f64],
    pub words: &'a mut [u32],
    pub variable: &'a mut u32,
    pub w: &'a mut [f64],
    pub iw: &'a mut [u32],
}

/// What `begin` reads.
pub struct Given<'a> {
    pub n: usize,
    pub m: usize,
    pub kinds: &'a [u8],
    pub lower: &'a [f64],
    pub upper: &'a [f64],
    pub x: &'a [f64],
    pub ftol: f64,
    pub budget: u32,
    pub scheme: u32,
}

/// A search under test.
pub trait Machine: Sync {
    fn begin(&self, given: &Given, pad: Pad) -> u32;
    fn tell(&self, told: &[f64], pad: Pad) -> u32;
}

/// The second reading itself, right or with a slip.
pub struct Read(pub Slip);

impl Read {
    /// Leaves what is owed by this reading.
    fn leave(&self, outcome: Outcome, pad: Pad) -> u32 {
        if let Some(page) = outcome.page {
            pad.floats.copy_from_slice(&page.floats);
            pad.words.copy_from_slice(&page.words);
        }
        if outcome.clears {
            pad.w[..WORKSPACES[0]].fill(0.0);
            pad.iw[..WORKSPACES[1]].fill(0);
        }
        if let Some(variable) = outcome.variable {
            *pad.variable = variable;
        }
        outcome.number
    }
}

impl Machine for Read {
    fn begin(&self, given: &Given, pad: Pad) -> u32 {
        let call = Begin {
            n: given.n,
            m: given.m,
            kinds: given.kinds.to_vec(),
            lower: given.lower.to_vec(),
            upper: given.upper.to_vec(),
            x: given.x.to_vec(),
            ftol: given.ftol,
            budget: given.budget,
            scheme: given.scheme,
        };
        let (machine, work) = ([pad.floats.len(), pad.words.len()], [pad.w.len(), pad.iw.len()]);
        let outcome = begin(&call, &Lent { machine, work, schemes: 3 }, self.0);
        self.leave(outcome, pad)
    }

    fn tell(&self, told: &[f64], pad: Pad) -> u32 {
        let work = [pad.w.len(), pad.iw.len()];
        let outcome = tell(told, pad.floats, pad.words, work, self.0);
        self.leave(outcome, pad)
    }
}

/// A machine between calls: its slices as the library left them.
#[derive(Debug, Clone)]
pub struct Slices {
    pub floats: Vec<f64>,
    pub words: Vec<u32>,
}

impl Slices {
    /// Slices of junk.
    pub fn junk(lengths: [usize; 2], junk: &Junk, draw: &mut Draw) -> Self {
        let floats = Held::junk(lengths[0], junk, draw).body().to_vec();
        let words = Held::junk(lengths[1], junk, draw).body().to_vec();
        Self { floats, words }
    }

    fn part(&self, at: usize, count: usize) -> Vec<f64> {
        self.floats[at..at + count].to_vec()
    }

    pub fn sizes(&self) -> [usize; 2] {
        [0, 1].map(|at| self.words[SIZES + at].min(16) as usize)
    }

    /// The question that stands, if one does.
    pub fn question(&self) -> Option<Question> {
        let [n, m] = self.sizes();
        let x = self.part(ASKED, n);
        match self.words[0] {
            1 | 2 => Some(Question::Values(x)),
            3 => Some(Question::Slopes(x)),
            4 | 5 => Some(Question::Single(m.saturating_sub(self.words[5] as usize), x)),
            _ => None,
        }
    }

    /// How the run has ended, if it has, with what was asked.
    pub fn ended(&self, asked: &[Question]) -> Option<Transcript> {
        let [n, m] = self.sizes();
        let ending = match self.words[0] {
            6 => Ending::Converged,
            7 => Ending::Infeasible,
            8 => Ending::Exhausted,
            9 => Ending::Nonfinite,
            _ => return None,
        };
        let report = Report {
            x: self.part(X, n),
            values: self.part(VALUES, 1 + m),
            multipliers: self.part(MULTIPLIERS, m),
        };
        Some(Transcript { asked: asked.to_vec(), ending, report })
    }
}

/// All that a call is lent, with a margin around each.
struct Buffers {
    floats: Held<f64>,
    words: Held<u32>,
    variable: Held<u32>,
    w: Held<f64>,
    iw: Held<u32>,
}

impl Buffers {
    fn new(slices: &Slices, work: [usize; 2], junk: &Junk, draw: &mut Draw) -> Self {
        Self {
            floats: Held::of(&slices.floats, junk, draw),
            words: Held::of(&slices.words, junk, draw),
            variable: Held::junk(1, junk, draw),
            w: Held::junk(work[0], junk, draw),
            iw: Held::junk(work[1], junk, draw),
        }
    }

    fn pad(&mut self) -> Pad<'_> {
        Pad {
            floats: self.floats.lend(),
            words: self.words.lend(),
            variable: &mut self.variable.lend()[0],
            w: self.w.lend(),
            iw: self.iw.lend(),
        }
    }

    /// Everything that a call left otherwise than owed.
    fn compare(&self, number: u32, owed: &Outcome) -> Vec<String> {
        let mut found = vec![];
        if number != owed.number {
            found.push(format!("number: owed {}, found {number}", owed.number));
        }
        self.compare_slices(owed, &mut found);
        let variable = self.variable.body()[0];
        if owed.variable.is_some_and(|owed| owed != variable) {
            found.push(format!("variable: owed {:?}, found {variable}", owed.variable));
        }
        compare_rest("variable", &self.variable, owed.variable.is_some(), &mut found);
        compare_workspaces(&self.w, &self.iw, owed.clears, &mut found);
        found
    }

    /// The machine's slices: what a state uses as owed, any NaN for any NaN, and all else as it was.
    fn compare_slices(&self, owed: &Outcome, found: &mut Vec<String>) {
        compare_rest("machine", &self.floats, owed.page.is_some(), found);
        compare_rest("words", &self.words, owed.page.is_some(), found);
        let Some(page) = &owed.page else { return };
        for (at, (&owed, &value)) in page.floats.iter().zip(self.floats.body()).enumerate() {
            let kept = page.written[at] || owed.to_bits() == value.to_bits();
            if !same(owed, value) || !kept {
                let (owed, value) = (shown(owed), shown(value));
                found.push(format!("machine at {at}: owed {owed}, found {value}"));
            }
        }
        if page.words != self.words.body() {
            let (owed, value) = (&page.words, self.words.body());
            found.push(format!("words: owed {owed:?}, found {value:?}"));
        }
    }

    /// What the call left, for the next.
    fn into_slices(self, slices: &mut Slices) {
        slices.floats.copy_from_slice(self.floats.body());
        slices.words.copy_from_slice(self.words.body());
    }
}

/// How calls are made: the workspaces' lengths, and how many schemes the search serves.
#[derive(Debug, Clone, Copy)]
pub struct Manner {
    pub work: [usize; 2],
    pub schemes: u32,
}

/// Begins a run on these slices, and says what it left otherwise than owed, and its number.
pub fn compare_begin(
    machine: &dyn Machine,
    call: &Begin,
    slices: &mut Slices,
    manner: Manner,
    (junk, draw): (&Junk, &mut Draw),
) -> (u32, Vec<String>) {
    let lent = Lent {
        machine: [slices.floats.len(), slices.words.len()],
        work: manner.work,
        schemes: manner.schemes,
    };
    let owed = begin(call, &lent, Slip::None);
    let mut buffers = Buffers::new(slices, manner.work, junk, draw);
    let kinds = Held::of(&call.kinds, junk, draw);
    let [lower, upper, x] =
        [&call.lower, &call.upper, &call.x].map(|values| Held::of(values, junk, draw));
    let given = Given {
        n: call.n,
        m: call.m,
        kinds: kinds.body(),
        lower: lower.body(),
        upper: upper.body(),
        x: x.body(),
        ftol: call.ftol,
        budget: call.budget,
        scheme: call.scheme,
    };
    let number = machine.begin(&given, buffers.pad());
    let mut found = buffers.compare(number, &owed);
    compare_rest("kinds", &kinds, false, &mut found);
    for (name, held) in [("lower", &lower), ("upper", &upper), ("x", &x)] {
        compare_rest(name, held, false, &mut found);
    }
    buffers.into_slices(slices);
    (owed.number, found)
}

/// Tells the machine in these slices, and says what it left otherwise than owed, and its number.
pub fn compare_tell(
    machine: &dyn Machine,
    told: &[f64],
    slices: &mut Slices,
    work: [usize; 2],
    (junk, draw): (&Junk, &mut Draw),
) -> (u32, Vec<String>) {
    let owed = tell(told, &slices.floats, &slices.words, work, Slip::None);
    let mut buffers = Buffers::new(slices, work, junk, draw);
    let told = Held::of(told, junk, draw);
    let number = machine.tell(told.body(), buffers.pad());
    let mut found = buffers.compare(number, &owed);
    compare_rest("told", &told, false, &mut found);
    buffers.into_slices(slices);
    (owed.number, found)
}

/// The lengths of a machine's slices.
pub const LENGTHS: [usize; 2] = [FLOATS, WORDS];
