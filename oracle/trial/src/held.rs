//! The buffers of a call with a margin around each, and the comparison of all that it leaves.

use crate::draw::Draw;
use peer::{Lender, Library};
use reference::call::{Answer, Call, Edge, Sound};
use reference::day;
use reference::shape::{Op, WORKSPACES};

/// Entries on either side of each buffer that no call may touch.
const MARGIN: usize = 3;

/// Values that are compared by their bits.
pub trait Pattern: Copy {
    fn bits(self) -> u64;
    fn of(bits: u64) -> Self;
}

impl Pattern for f64 {
    fn bits(self) -> u64 {
        self.to_bits()
    }
    fn of(bits: u64) -> Self {
        f64::from_bits(bits)
    }
}

impl Pattern for u32 {
    fn bits(self) -> u64 {
        u64::from(self)
    }
    fn of(bits: u64) -> Self {
        bits as u32
    }
}

impl Pattern for u64 {
    fn bits(self) -> u64 {
        self
    }
    fn of(bits: u64) -> Self {
        bits
    }
}

impl Pattern for u8 {
    fn bits(self) -> u64 {
        u64::from(self)
    }
    fn of(bits: u64) -> Self {
        bits as u8
    }
}

/// Junk to fill buffers with: NaNs, infinities, zeros of both signs, whole numbers, any bits.
pub struct Junk(Vec<u64>);

impl Junk {
    /// Some twenty thousand entries of a seed.
    pub fn new(seed: u64) -> Self {
        let mut draw = Draw::new(seed, Op::Sum, "junk", 0);
        let one = |draw: &mut Draw| match draw.below(8) {
            0 => draw.pick(&crate::draw::SPECIAL),
            1 => (draw.below(100) as f64).to_bits(),
            2 => draw.below(600) as u64,
            3 => draw.smooth().to_bits(),
            _ => draw.bits(),
        };
        Self((0..20_011).map(|_| one(&mut draw)).collect())
    }
}

/// A buffer as it was before the call and as it is now.
pub struct Held<T> {
    before: Vec<T>,
    now: Vec<T>,
}

impl<T: Pattern> Held<T> {
    pub(crate) fn of(values: &[T], junk: &Junk, draw: &mut Draw) -> Self {
        let mut held = Self::junk(values.len(), junk, draw);
        held.before[MARGIN..MARGIN + values.len()].copy_from_slice(values);
        held.now.copy_from_slice(&held.before);
        held
    }

    pub(crate) fn junk(len: usize, junk: &Junk, draw: &mut Draw) -> Self {
        let total = len + 2 * MARGIN;
        let start = draw.below(junk.0.len() - total);
        let before: Vec<T> = junk.0[start..start + total].iter().map(|&bits| T::of(bits)).collect();
        Self { now: before.clone(), before }
    }

    fn pointer(&mut self) -> (*mut T, usize) {
        let len = self.now.len() - 2 * MARGIN;
        (self.now[MARGIN..].as_mut_ptr(), len)
    }

    /// What is lent of the buffer.
    pub(crate) fn lend(&mut self) -> &mut [T] {
        let end = self.now.len() - MARGIN;
        &mut self.now[MARGIN..end]
    }

    pub(crate) fn body(&self) -> &[T] {
        &self.now[MARGIN..self.now.len() - MARGIN]
    }

    /// The first entry from `start` on whose bits changed, counted in the buffer.
    pub(crate) fn changed(&self, start: usize) -> Option<isize> {
        let end = self.now.len();
        let differs = |&i: &usize| self.now[i].bits() != self.before[i].bits();
        let found = (MARGIN + start..end).chain(0..MARGIN).find(differs)?;
        Some(found as isize - MARGIN as isize)
    }

    /// The first entry before or after the buffer whose bits changed.
    pub(crate) fn spilt(&self) -> Option<isize> {
        let mut found = None;
        for i in (0..MARGIN).chain(self.now.len() - MARGIN..self.now.len()) {
            if self.now[i].bits() != self.before[i].bits() {
                found = Some(i as isize - MARGIN as isize);
            }
        }
        found
    }
}

/// All buffers of a call, handed out in their order.
struct Buffers {
    sizes: Vec<usize>,
    inputs: Vec<Held<f64>>,
    kinds: Held<u8>,
    /// A day's readings, before and after, which stand for its first two inputs.
    readings: Vec<Held<u32>>,
    marks: Held<u8>,
    outputs: Vec<Held<f64>>,
    words: Held<u32>,
    seconds: Held<u32>,
    found: Held<u32>,
    counts: Vec<Held<u32>>,
    value: Held<f64>,
    tally: Held<u64>,
    w: Held<f64>,
    iw: Held<u32>,
    /// How many sizes, inputs, outputs, counts and readings were handed out.
    given: [usize; 5],
}

impl Buffers {
    fn new(call: &Call, tally: &[u64; 2], junk: &Junk, draw: &mut Draw) -> Self {
        let inputs = call.inputs.iter().map(|values| Held::of(values, junk, draw)).collect();
        let outputs = call.outputs.iter().map(|&len| Held::junk(len, junk, draw)).collect();
        let counts = (0..2).map(|_| Held::junk(1, junk, draw)).collect();
        let (days, words, marks) = match call.op {
            Op::Reconcile => (&call.inputs[..2], 0, call.words),
            _ => (&[][..], call.words, 0),
        };
        let readings = days.iter().map(|values: &Vec<f64>| {
            let readings: Vec<u32> = values.iter().map(|&value| day::reading(value)).collect();
            Held::of(&readings, junk, draw)
        });
        let readings: Vec<Held<u32>> = readings.collect();
        Self {
            sizes: call.sizes.clone(),
            inputs,
            kinds: Held::of(&call.kinds, junk, draw),
            given: [0, readings.len(), 0, 0, 0],
            readings,
            marks: Held::junk(marks, junk, draw),
            outputs,
            words: Held::junk(words, junk, draw),
            seconds: Held::junk(call.seconds, junk, draw),
            found: Held::junk(4, junk, draw),
            counts,
            value: Held::junk(1, junk, draw),
            tally: Held::of(tally, junk, draw),
            w: Held::junk(call.work[0], junk, draw),
            iw: Held::junk(call.work[1], junk, draw),
        }
    }

    fn next(&mut self, group: usize) -> usize {
        self.given[group] += 1;
        self.given[group] - 1
    }
}

impl Lender for Buffers {
    fn size(&mut self) -> usize {
        let next = self.next(0);
        self.sizes[next]
    }
    fn read(&mut self) -> (*const f64, usize) {
        let (data, len) = self.both();
        (data, len)
    }
    fn kind(&mut self) -> (*const u8, usize) {
        let (data, len) = self.kinds.pointer();
        (data, len)
    }
    fn reading(&mut self) -> (*const u32, usize) {
        let next = self.next(4);
        let (data, len) = self.readings[next].pointer();
        (data, len)
    }
    fn mark(&mut self) -> (*mut u8, usize) {
        self.marks.pointer()
    }
    fn write(&mut self) -> (*mut f64, usize) {
        let next = self.next(2);
        self.outputs[next].pointer()
    }
    fn both(&mut self) -> (*mut f64, usize) {
        let next = self.next(1);
        self.inputs[next].pointer()
    }
    fn index(&mut self) -> (*mut u32, usize) {
        self.words.pointer()
    }
    fn second(&mut self) -> (*mut u32, usize) {
        self.seconds.pointer()
    }
    fn found(&mut self) -> *mut [u32; 4] {
        self.found.pointer().0.cast()
    }
    fn count(&mut self) -> *mut u32 {
        let next = self.next(3);
        self.counts[next].pointer().0
    }
    fn real(&mut self) -> *mut f64 {
        self.value.pointer().0
    }
    fn given(&mut self) -> f64 {
        let next = self.next(1);
        self.inputs[next].body()[0]
    }
    fn tally(&mut self) -> *mut [u64; 2] {
        self.tally.pointer().0.cast()
    }
    fn workspace(&mut self) -> (*mut f64, usize) {
        self.w.pointer()
    }
    fn index_workspace(&mut self) -> (*mut u32, usize) {
        self.iw.pointer()
    }
}

/// Whether a value is the one owed: the same bits, or any NaN for any NaN.
pub(crate) fn same(owed: f64, found: f64) -> bool {
    owed.to_bits() == found.to_bits() || (owed.is_nan() && found.is_nan())
}

pub(crate) fn shown(value: f64) -> String {
    format!("{:016x} ({value:e})", value.to_bits())
}

/// Makes the call and answers every way in which the library's answer is not the one owed.
pub fn compare(
    library: &Library,
    call: &Call,
    owed: &Answer,
    junk: &Junk,
    draw: &mut Draw,
) -> Vec<String> {
    if !call.op.is_lent() {
        return compare_value(library, call, owed, junk, draw);
    }
    let mut tally = if call.op.is_step() { some_tally(draw) } else { [0; 2] };
    compare_on(&mut tally, library, call, owed, junk, draw)
}

/// A tally of any counts: none, many, or so many that few more pass the range.
fn some_tally(draw: &mut Draw) -> [u64; 2] {
    [0, 1].map(|_| match draw.below(3) {
        0 => 0,
        1 => draw.bits(),
        _ => u64::MAX - draw.below(30) as u64,
    })
}

/// The same of a call that is lent workspaces and this tally, which then is what the call left.
pub fn compare_on(
    tally: &mut [u64; 2],
    library: &Library,
    call: &Call,
    owed: &Answer,
    junk: &Junk,
    draw: &mut Draw,
) -> Vec<String> {
    let mut buffers = Buffers::new(call, tally, junk, draw);
    let number = unsafe { library.call(call.op, &mut buffers) };
    let mut found = vec![];
    if number != owed.number {
        found.push(format!("number: owed {}, found {number}", owed.number));
    }
    compare_inputs(&buffers, call.op.is_update() && owed.number == 0, &mut found);
    compare_workspaces(&buffers.w, &buffers.iw, clears(owed.number), &mut found);
    compare_outputs(&buffers, call.op, owed, &mut found);
    compare_single(&buffers, owed, &mut found);
    compare_tally(&buffers, *tally, owed, &mut found);
    tally.copy_from_slice(buffers.tally.body());
    found
}

fn compare_value(
    library: &Library,
    call: &Call,
    owed: &Answer,
    junk: &Junk,
    draw: &mut Draw,
) -> Vec<String> {
    let mut input = Held::of(&call.inputs[0], junk, draw);
    let (data, len) = input.pointer();
    let value = unsafe {
        match call.op {
            Op::Sqrt => (library.sqrt)(*data),
            Op::Sum => (library.sum)(data, len),
            _ => (library.norm)(data, len),
        }
    };
    let mut found = vec![];
    let owed = owed.value.unwrap_or(f64::NAN);
    if !same(owed, value) {
        found.push(format!("value: owed {}, found {}", shown(owed), shown(value)));
    }
    if let Some(entry) = input.changed(0) {
        found.push(format!("input 0 changed at {entry}"));
    }
    found
}

fn compare_inputs(buffers: &Buffers, updated: bool, found: &mut Vec<String>) {
    for (i, input) in buffers.inputs.iter().enumerate() {
        let entry = if updated && i == 0 { input.spilt() } else { input.changed(0) };
        if let Some(entry) = entry {
            found.push(format!("input {i} changed at {entry}"));
        }
    }
    if let Some(entry) = buffers.kinds.changed(0) {
        found.push(format!("kinds changed at {entry}"));
    }
    if let Some(entry) = buffers.readings.iter().find_map(|held| held.changed(0)) {
        found.push(format!("readings changed at {entry}"));
    }
}

/// Whether a call of the number that is owed clears the workspaces.
fn clears(number: u32) -> bool {
    matches!(number, 0 | 5..=8 | 11)
}

pub(crate) fn compare_workspaces(
    w: &Held<f64>,
    iw: &Held<u32>,
    cleared: bool,
    found: &mut Vec<String>,
) {
    let [reals, indices] = WORKSPACES.map(|entries| if cleared { entries } else { 0 });
    let kept = [w.changed(reals), iw.changed(indices)];
    let w = w.body().iter().take(reals).position(|value| value.to_bits() != 0);
    let iw = iw.body().iter().take(indices).position(|&value| value != 0);
    for (name, entry) in [("workspace", w), ("index workspace", iw)] {
        if let Some(entry) = entry {
            found.push(format!("{name} not cleared at {entry}"));
        }
    }
    for (name, entry) in ["workspace", "index workspace"].into_iter().zip(kept) {
        if let Some(entry) = entry {
            found.push(format!("{name} not kept at {entry}"));
        }
    }
}

/// Outputs and the slice of u32: as owed where the answer has them, else untouched.
fn compare_outputs(buffers: &Buffers, op: Op, owed: &Answer, found: &mut Vec<String>) {
    let (updated, done) = (op.is_update(), owed.number == 0);
    let written = if updated && done { &buffers.inputs[..1] } else { &buffers.outputs[..] };
    for (i, held) in written.iter().enumerate() {
        let values = owed.outputs.get(i).map(Vec::as_slice);
        for (j, (&value, &owed)) in held.body().iter().zip(values.unwrap_or(&[])).enumerate() {
            if !same(owed, value) {
                let (owed, value) = (shown(owed), shown(value));
                found.push(format!("output {i} at {j}: owed {owed}, found {value}"));
            }
        }
        compare_rest(&format!("output {i}"), held, values.is_some(), found);
    }
    if op == Op::Reconcile {
        return compare_marks(&buffers.marks, owed, found);
    }
    let reported = !owed.words.is_empty();
    if reported && buffers.words.body() != owed.words {
        let name = match op {
            Op::Step | Op::StrictStep => "report",
            Op::Check => "verdict",
            Op::Suspect => "groups",
            _ => "perm",
        };
        found.push(format!("{name}: owed {:?}, found {:?}", owed.words, buffers.words.body()));
    }
    compare_rest("perm, report, verdict or groups", &buffers.words, reported, found);
    let marked = !owed.seconds.is_empty();
    if marked && buffers.seconds.body() != owed.seconds {
        found.push(format!("marks: owed {:?}, found {:?}", owed.seconds, buffers.seconds.body()));
    }
    compare_rest("marks", &buffers.seconds, marked, found);
}

/// The marks of a day: as owed where it is done, else untouched.
fn compare_marks(marks: &Held<u8>, owed: &Answer, found: &mut Vec<String>) {
    let done = owed.number == 0;
    let told: Vec<u32> = marks.body().iter().map(|&mark| u32::from(mark)).collect();
    if done && told != owed.words {
        found.push(format!("marks: owed {:?}, found {told:?}", owed.words));
    }
    compare_rest("marks", marks, done, found);
}

/// Rank, counts, place and relaxation: as owed where the answer has them, else untouched.
fn compare_single(buffers: &Buffers, owed: &Answer, found: &mut Vec<String>) {
    for (i, held) in buffers.counts.iter().enumerate() {
        let count = owed.counts.get(i);
        if count.is_some_and(|&count| held.body() != [count]) {
            found.push(format!("count {i}: owed {}, found {:?}", owed.counts[i], held.body()));
        }
        compare_rest(&format!("count {i}"), held, count.is_some(), found);
    }
    let value = buffers.value.body()[0];
    if owed.value.is_some_and(|owed| !same(owed, value)) {
        found.push(format!("relaxation or misfit: owed {:?}, found {}", owed.value, shown(value)));
    }
    compare_rest("relaxation or misfit", &buffers.value, owed.value.is_some(), found);
    if owed.found.is_some_and(|owed| buffers.found.body() != owed) {
        found.push(format!("finding: owed {:?}, found {:?}", owed.found, buffers.found.body()));
    }
    compare_rest("finding", &buffers.found, owed.found.is_some(), found);
}

/// The tally: raised by what was spent, else untouched.
fn compare_tally(buffers: &Buffers, before: [u64; 2], owed: &Answer, found: &mut Vec<String>) {
    let raised = owed.spent.map(|spent| Sound::raised(before, spent));
    if raised.is_some_and(|raised| buffers.tally.body() != raised) {
        found.push(format!("tally: owed {raised:?}, found {:?}", buffers.tally.body()));
    }
    compare_rest("tally", &buffers.tally, raised.is_some(), found);
}

/// What stays of a buffer: the margin where it is written, else all of it.
pub(crate) fn compare_rest<T: Pattern>(
    name: &str,
    held: &Held<T>,
    written: bool,
    found: &mut Vec<String>,
) {
    let (entry, what) =
        if written { (held.spilt(), "spilt") } else { (held.changed(0), "touched") };
    if let Some(entry) = entry {
        found.push(format!("{name} {what} at {entry}"));
    }
}
