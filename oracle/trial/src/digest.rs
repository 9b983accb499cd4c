//! What a call leaves in the memory of the program `replay`, by the Rust's answer, and its digest.

use crate::stored::{BYTES, Fill, HEADER, NAN, Stored, pattern};
use reference::call::{Answer, Edge, Sound};
use reference::shape::{Op, WORKSPACES};

/// A prime, and a number whose powers are all numbers below it but 0.
const PRIME: u64 = 4_294_967_291;
const FACTOR: u64 = 1_664_525;

/// The memory of an output and of the two workspaces; that of the permutation, in which the report of
/// a step stands too, is as long as the second.
pub(crate) const OUTPUT: usize = 1_200;
pub(crate) const ROOMS: [usize; 2] = [8_231, 551];

/// A digest: two numbers below the prime, one of remainders and one of quotients.
#[derive(Debug, Clone, Copy, PartialEq)]
pub struct Digest {
    quotients: u64,
    remainders: u64,
}

impl Default for Digest {
    fn default() -> Self {
        Self { quotients: 1, remainders: 1 }
    }
}

impl Digest {
    /// A word more.
    pub fn mix(&mut self, word: u64) {
        self.quotients = (self.quotients * FACTOR + word / PRIME) % PRIME;
        self.remainders = (self.remainders * FACTOR + word % PRIME) % PRIME;
    }

    /// Words more.
    pub fn mix_all(&mut self, words: impl IntoIterator<Item = u64>) {
        words.into_iter().for_each(|word| self.mix(word));
    }

    /// The digest as one number.
    pub fn number(self) -> u64 {
        self.quotients << 32 | self.remainders
    }
}

/// So many words of memory: those given, and then what it held before.
pub(crate) fn memory(front: &[f64], before: u64, len: usize) -> Vec<u64> {
    let mut words = vec![pattern(f64::from_bits(before)); len];
    for (to, &value) in words.iter_mut().zip(front) {
        *to = pattern(value);
    }
    words
}

/// A workspace: cleared in front where the call clears it, and as it was before elsewhere.
pub(crate) fn room(which: usize, clears: bool, before: u64) -> Vec<u64> {
    let cleared = if clears { WORKSPACES[which] } else { 0 };
    let mut words = vec![before; ROOMS[which]];
    words[..cleared].fill(0);
    words
}

/// The memory of the permutation, of the report, of the verdict, of groups or of marks.
fn places(front: &[u32], mark: u32) -> Vec<u64> {
    let mut words = vec![u64::from(mark); ROOMS[1]];
    for (to, &word) in words.iter_mut().zip(front) {
        *to = u64::from(word);
    }
    words
}

/// A count in two words, each below the prime's square.
fn halves(count: u64) -> [u64; 2] {
    [count >> 32, count & 0xffff_ffff]
}

/// The tally: the two junk words of the call's floats, raised by what was spent.
fn tally(stored: &Stored, owed: &Answer) -> [u64; 2] {
    let before = [stored.fill.output, stored.fill.room];
    owed.spent.map_or(before, |spent| Sound::raised(before, spent))
}

/// The single results, the last output and the permutation of QR, the report and kinds of a step,
/// the marks of a day, the verdict and kinds of a check, all that the tests of meters tell beside
/// their numbers, place and bound of settled and certified volumes.
fn mix_own(digest: &mut Digest, stored: &Stored, owed: &Answer) {
    let Stored { call, fill: Fill { output, mark, .. } } = stored;
    let counts = |i: usize| u64::from(owed.counts.get(i).copied().unwrap_or(*mark));
    match call.op {
        Op::Qr => {
            digest.mix(counts(0));
            digest.mix_all(memory(written(owed, 2), *output, OUTPUT));
            digest.mix_all(places(&owed.words, *mark));
        }
        Op::Nnls => digest.mix_all([counts(0), counts(1)]),
        Op::Lsi | Op::Lsei => digest.mix(counts(0)),
        Op::Reconcile => {
            digest.mix_all([counts(0), ROOMS[1] as u64]);
            digest.mix_all(places(&owed.words, mark % 128 + 128));
        }
        Op::Step | Op::StrictStep => {
            digest.mix(owed.value.map_or(pattern(f64::from_bits(*output)), pattern));
            digest.mix_all(tally(stored, owed).map(halves).into_iter().flatten());
            digest.mix_all(places(&owed.words, *mark));
            digest.mix(call.kinds.len() as u64);
            digest.mix_all(call.kinds.iter().map(|&kind| u64::from(kind)));
        }
        Op::Suspect => {
            digest.mix(counts(0));
            digest.mix(owed.value.map_or(pattern(f64::from_bits(*output)), pattern));
            digest.mix_all(owed.found.unwrap_or([*mark; 4]).map(u64::from));
            digest.mix_all(places(&owed.words, *mark));
            digest.mix_all(places(&owed.seconds, *mark));
            digest.mix(call.kinds.len() as u64);
            digest.mix_all(call.kinds.iter().map(|&still| u64::from(still)));
        }
        Op::Settle | Op::Certify => {
            digest.mix(counts(0));
            digest.mix(owed.value.map_or(pattern(f64::from_bits(*output)), pattern));
        }
        Op::Check => {
            digest.mix_all(places(&owed.words, *mark));
            digest.mix(call.kinds.len() as u64);
            digest.mix_all(call.kinds.iter().map(|&kind| u64::from(kind)));
        }
        _ => {}
    }
}

/// An output of an answer; none after a refusal.
fn written(owed: &Answer, i: usize) -> &[f64] {
    owed.outputs.get(i).map_or(&[], Vec::as_slice)
}

/// The first output: `update` has its matrix there before the call.
fn first<'a>(stored: &'a Stored, owed: &'a Answer) -> &'a [f64] {
    match stored.call.op {
        op if op.is_update() && owed.number != 0 => &stored.call.inputs[0],
        _ => written(owed, 0),
    }
}

/// The floats that the program reads from a call's bytes, with zeros after them.
pub(crate) fn values(mut bytes: Vec<u8>) -> Vec<u64> {
    bytes.resize(BYTES, 0);
    let word = |bytes: &[u8]| u64::from_le_bytes(bytes.try_into().expect("eight bytes"));
    bytes[HEADER..].chunks(8).map(|bytes| pattern(f64::from_bits(word(bytes)))).collect()
}

/// The digest of all that a call leaves, by its answer.
pub fn digest(stored: &Stored, owed: &Answer) -> u64 {
    let (mut digest, fill) = (Digest::default(), stored.fill);
    digest.mix(u64::from(owed.number));
    if stored.call.op.is_lent() {
        mix_own(&mut digest, stored, owed);
        digest.mix_all(memory(first(stored, owed), fill.output, OUTPUT));
        digest.mix_all(memory(written(owed, 1), fill.output, OUTPUT));
        let clears = Sound::clears(owed.number);
        digest.mix_all(room(0, clears, pattern(f64::from_bits(fill.room))));
        digest.mix_all(room(1, clears, u64::from(fill.mark)));
    } else {
        digest.mix(owed.value.map_or(NAN, pattern));
    }
    digest.mix_all(values(stored.bytes()));
    digest.number()
}

/// The line that the program owes for a call.
pub fn line(stored: &Stored, owed: &Answer) -> String {
    format!("{} {} {:016x}\n", stored.call.op.code(), owed.number, digest(stored, owed))
}
