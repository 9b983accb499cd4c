//! Replays a list as the program `replay` does, over the peer: memory full of junk, a call, and the
//! digest of all that the memory then holds. The stored lines, which are worked out from answers
//! alone, must be the same.

use peer::{Lender, Library, library};
use reference::Rust;
use reference::call::Sound;
use reference::day;
use reference::shape::Op;
use trial::digest::Digest;
use trial::replay::list;
use trial::search::SCHEMES;
use trial::stored::{BYTES, HEADER, Rest, Stored, next, pattern};

/// The memory of a call; `given` counts the sizes, inputs, outputs, counts and readings handed out.
struct Memory<'a> {
    stored: &'a Stored,
    outputs: [Vec<f64>; 3],
    words: Vec<u32>,
    seconds: Vec<u32>,
    found: [u32; 4],
    counts: [u32; 2],
    value: f64,
    tally: [u64; 2],
    w: Vec<f64>,
    iw: Vec<u32>,
    readings: [Vec<u32>; 2],
    marks: Vec<u8>,
    given: [usize; 5],
}

impl<'a> Memory<'a> {
    fn new(stored: &'a Stored) -> Self {
        let (call, fill) = (&stored.call, stored.fill);
        let output = || vec![f64::from_bits(fill.output); 1_200];
        let mut outputs = [output(), output(), output()];
        let readings = |i: usize| match call.op {
            Op::Reconcile => call.inputs[i].iter().map(|&value| day::reading(value)).collect(),
            _ => vec![],
        };
        if call.op.is_update() {
            outputs[0][..call.inputs[0].len()].copy_from_slice(&call.inputs[0]);
        }
        Self {
            stored,
            outputs,
            words: vec![fill.mark; 551],
            seconds: vec![fill.mark; 551],
            found: [fill.mark; 4],
            counts: [fill.mark; 2],
            value: f64::from_bits(fill.output),
            tally: [fill.output, fill.room],
            w: vec![f64::from_bits(fill.room); 8_231],
            iw: vec![fill.mark; 551],
            given: [0, if call.op == Op::Reconcile { 2 } else { 0 }, 0, 0, 0],
            readings: [readings(0), readings(1)],
            marks: vec![(fill.mark % 128 + 128) as u8; 551],
        }
    }

    fn next(&mut self, group: usize) -> usize {
        self.given[group] += 1;
        self.given[group] - 1
    }
}

impl Lender for Memory<'_> {
    fn size(&mut self) -> usize {
        let next = self.next(0);
        self.stored.call.sizes[next]
    }
    fn read(&mut self) -> (*const f64, usize) {
        let next = self.next(1);
        let values = &self.stored.call.inputs[next];
        (values.as_ptr(), values.len())
    }
    fn kind(&mut self) -> (*const u8, usize) {
        let kinds = &self.stored.call.kinds;
        (kinds.as_ptr(), kinds.len())
    }
    fn reading(&mut self) -> (*const u32, usize) {
        let next = self.next(4);
        (self.readings[next].as_ptr(), self.readings[next].len())
    }
    fn mark(&mut self) -> (*mut u8, usize) {
        (self.marks.as_mut_ptr(), self.stored.call.words)
    }
    fn write(&mut self) -> (*mut f64, usize) {
        let next = self.next(2);
        (self.outputs[next].as_mut_ptr(), self.stored.call.outputs[next])
    }
    fn both(&mut self) -> (*mut f64, usize) {
        let next = self.next(1);
        (self.outputs[0].as_mut_ptr(), self.stored.call.inputs[next].len())
    }
    fn index(&mut self) -> (*mut u32, usize) {
        (self.words.as_mut_ptr(), self.stored.call.words)
    }
    fn second(&mut self) -> (*mut u32, usize) {
        (self.seconds.as_mut_ptr(), self.stored.call.seconds)
    }
    fn found(&mut self) -> *mut [u32; 4] {
        &mut self.found
    }
    fn count(&mut self) -> *mut u32 {
        let next = self.next(3);
        &mut self.counts[next]
    }
    fn real(&mut self) -> *mut f64 {
        &mut self.value
    }
    fn given(&mut self) -> f64 {
        let next = self.next(1);
        self.stored.call.inputs[next][0]
    }
    fn tally(&mut self) -> *mut [u64; 2] {
        &mut self.tally
    }
    fn workspace(&mut self) -> (*mut f64, usize) {
        (self.w.as_mut_ptr(), self.stored.call.work[0])
    }
    fn index_workspace(&mut self) -> (*mut u32, usize) {
        (self.iw.as_mut_ptr(), self.stored.call.work[1])
    }
}

fn floats(values: &[f64]) -> impl Iterator<Item = u64> {
    values.iter().map(|&value| pattern(value))
}

fn longs(values: &[u32]) -> impl Iterator<Item = u64> {
    values.iter().map(|&value| u64::from(value))
}

/// Makes a call, and mixes its number and all memory in the order of oracle/README.md.
fn replay_lent(library: &Library, stored: &Stored, digest: &mut Digest) -> u32 {
    let mut memory = Memory::new(stored);
    let op = stored.call.op;
    let number = unsafe { library.call(op, &mut memory) };
    digest.mix(u64::from(number));
    match op {
        Op::Qr => {
            digest.mix(u64::from(memory.counts[0]));
            digest.mix_all(floats(&memory.outputs[2]));
            digest.mix_all(longs(&memory.words));
        }
        Op::Nnls => digest.mix_all(longs(&memory.counts)),
        Op::Lsi | Op::Lsei => digest.mix(u64::from(memory.counts[0])),
        Op::Reconcile => {
            digest.mix_all([u64::from(memory.counts[0]), memory.marks.len() as u64]);
            digest.mix_all(memory.marks.iter().map(|&mark| u64::from(mark)));
        }
        Op::Step | Op::StrictStep => {
            digest.mix(pattern(memory.value));
            let halves = |count: u64| [count >> 32, count & 0xffff_ffff];
            digest.mix_all(memory.tally.into_iter().flat_map(halves));
            digest.mix_all(longs(&memory.words));
            let kinds = &stored.call.kinds;
            digest.mix(kinds.len() as u64);
            digest.mix_all(kinds.iter().map(|&kind| u64::from(kind)));
        }
        Op::Suspect => {
            digest.mix_all([u64::from(memory.counts[0]), pattern(memory.value)]);
            digest.mix_all(longs(&memory.found));
            digest.mix_all(longs(&memory.words));
            digest.mix_all(longs(&memory.seconds));
            let still = &stored.call.kinds;
            digest.mix(still.len() as u64);
            digest.mix_all(still.iter().map(|&mark| u64::from(mark)));
        }
        Op::Settle | Op::Certify => {
            digest.mix_all([u64::from(memory.counts[0]), pattern(memory.value)]);
        }
        Op::Check => {
            digest.mix_all(longs(&memory.words));
            let kinds = &stored.call.kinds;
            digest.mix(kinds.len() as u64);
            digest.mix_all(kinds.iter().map(|&kind| u64::from(kind)));
        }
        _ => {}
    }
    digest.mix_all(floats(&memory.outputs[0]));
    digest.mix_all(floats(&memory.outputs[1]));
    digest.mix_all(floats(&memory.w));
    digest.mix_all(longs(&memory.iw));
    number
}

/// The root, the sum or the norm: 0 and the result.
fn replay_value(library: &Library, stored: &Stored, digest: &mut Digest) -> u32 {
    let input = &stored.call.inputs[0];
    let value = unsafe {
        match stored.call.op {
            Op::Sqrt => (library.sqrt)(input[0]),
            Op::Sum => (library.sum)(input.as_ptr(), input.len()),
            _ => (library.norm)(input.as_ptr(), input.len()),
        }
    };
    digest.mix_all([0, pattern(value)]);
    0
}

#[test]
fn lines_are_those_of_the_memory() {
    let (list, library) = (list(1, 4, SCHEMES), library::<Rust, Sound>());
    let mut rest = Rest(&list.calls);
    let calls = rest.words(2).expect("the start of a list")[1];
    assert_eq!(calls, list.lines.lines().count() as u64);
    for line in list.lines.lines() {
        let (code, bytes) = next(&mut rest).expect("a stored call");
        let Some(op) = Op::coded(code) else { continue };
        let stored = Stored::read(op, bytes).expect("a stored call");
        let mut digest = Digest::default();
        let run = if stored.call.op.is_lent() { replay_lent } else { replay_value };
        let number = run(&library, &stored, &mut digest);
        let mut bytes = stored.bytes();
        bytes.resize(BYTES, 0);
        let value = |bytes: &[u8]| {
            pattern(f64::from_bits(u64::from_le_bytes(bytes.try_into().expect("eight bytes"))))
        };
        digest.mix_all(bytes[HEADER..].chunks(8).map(value));
        assert_eq!(format!("{code} {number} {:016x}", digest.number()), line);
    }
    assert!(rest.0.is_empty());
}
