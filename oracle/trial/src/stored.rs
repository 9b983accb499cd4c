//! A stored call: its bytes in the list, which the program `replay` reads.

use crate::draw::{Draw, SPECIAL};
use reference::call::{Answer, Call};
use reference::check::{LOWERS, MULTIPLIERS};
use reference::settle::TOLERANCE;
use reference::shape::Op;
use reference::tally::NOWHERE;

/// What stands for every NaN.
pub const NAN: u64 = 0x7ff8_0000_0000_0000;

/// Bytes of a call at most, and before its first input.
pub const BYTES: usize = 12_288;
pub const HEADER: usize = 88;

/// Lengths that the header has, and how many of them stand before those of the inputs.
pub const LENGTHS: usize = 16;
const BEFORE_INPUTS: usize = 7;

/// The bits of a float, one pattern for every NaN.
pub fn pattern(value: f64) -> u64 {
    if value.is_nan() { NAN } else { value.to_bits() }
}

/// What memory holds before a call: outputs, the workspace, and everything of u32. The first two are a
/// step's tally as well, and some of these are near the end of the range, where they are NaNs.
#[derive(Debug, Clone, Copy, PartialEq)]
pub struct Fill {
    pub output: u64,
    pub room: u64,
    pub mark: u32,
}

impl Fill {
    /// Patterns that a call's answer does not have, and that clearing does not leave.
    pub fn new(seed: u64, index: u64, op: Op, owed: &Answer) -> Self {
        let mut draw = Draw::new(seed, op, "fill", index);
        let answers = owed.outputs.iter().flatten().chain(&owed.value);
        let taken: Vec<u64> = answers.map(|&value| pattern(value)).chain([0]).collect();
        let mut output = unlike(&mut draw, &taken);
        let mut room = unlike(&mut draw, &[0]);
        if op.is_step() && draw.below(4) == 0 && !taken.contains(&NAN) {
            [output, room] = [0, 1].map(|_| u64::MAX - draw.below(12) as u64);
        }
        let mark = (draw.bits() as u32 | 1 << 31).min(NOWHERE - 1);
        Self { output, room, mark }
    }
}

/// A NaN, a special value or any bits, none of those that are taken.
fn unlike(draw: &mut Draw, taken: &[u64]) -> u64 {
    loop {
        let bits = match draw.below(4) {
            0 => NAN,
            1 => draw.pick(&SPECIAL),
            _ => draw.bits(),
        };
        let bits = pattern(f64::from_bits(bits));
        if !taken.contains(&bits) {
            return bits;
        }
    }
}

/// The bytes of a call: sizes, what memory holds before it, lengths, inputs, kinds.
pub fn bytes_of<'a>(
    sizes: [u64; 4],
    fill: Fill,
    lengths: [usize; LENGTHS],
    inputs: impl Iterator<Item = &'a f64>,
    kinds: &[u8],
) -> Vec<u8> {
    let Fill { output, room, mark } = fill;
    let words = sizes.into_iter().chain([output, room, u64::from(mark)]);
    let mut bytes: Vec<u8> = words.flat_map(u64::to_le_bytes).collect();
    bytes.extend(lengths.into_iter().flat_map(|len| (len as u16).to_le_bytes()));
    bytes.extend(inputs.flat_map(|value| value.to_bits().to_le_bytes()));
    bytes.extend(kinds);
    bytes
}

/// A call and what its memory holds before it.
#[derive(Debug, Clone)]
pub struct Stored {
    pub call: Call,
    pub fill: Fill,
}

impl Stored {
    /// The lengths in the header's order: workspaces, outputs, permutation or report, kinds, inputs.
    fn lengths(&self) -> [usize; LENGTHS] {
        let call = &self.call;
        let mut lengths = [0; LENGTHS];
        lengths[..2].copy_from_slice(if call.op.is_lent() { &call.work } else { &[0; 2] });
        for (to, &len) in lengths[2..5].iter_mut().zip(&call.outputs) {
            *to = len;
        }
        if call.op.is_update() {
            lengths[2] = call.inputs[0].len();
        }
        if call.op == Op::Check {
            lengths[2..4].copy_from_slice(&[MULTIPLIERS, LOWERS].map(|at| call.inputs[at].len()));
        }
        if call.op == Op::Suspect {
            lengths[3] = call.seconds;
        }
        lengths[5] = call.words;
        lengths[6] = call.kinds.len();
        for (to, values) in lengths[BEFORE_INPUTS..].iter_mut().zip(&call.inputs) {
            *to = values.len();
        }
        if call.op == Op::Check {
            lengths[LENGTHS - 1] = call.inputs[MULTIPLIERS..].iter().map(Vec::len).sum();
        }
        if call.op == Op::Settle {
            lengths.swap(BEFORE_INPUTS + TOLERANCE, LENGTHS - 1);
        }
        lengths
    }

    /// The call's bytes, without the word before them.
    pub fn bytes(&self) -> Vec<u8> {
        let mut sizes = [0; 4];
        for (to, &size) in sizes.iter_mut().zip(&self.call.sizes) {
            *to = size as u64;
        }
        let inputs = self.call.inputs.iter().flatten();
        bytes_of(sizes, self.fill, self.lengths(), inputs, &self.call.kinds)
    }

    /// The word before the bytes, and the bytes.
    pub fn record(&self) -> Vec<u8> {
        let bytes = self.bytes();
        let head = self.call.op.code() as u64 | (bytes.len() as u64) << 16;
        head.to_le_bytes().into_iter().chain(bytes).collect()
    }

    /// Reads a call of an operation from its bytes.
    pub fn read(op: Op, bytes: &[u8]) -> Result<Self, String> {
        let mut rest = Rest(bytes);
        let sizes: Vec<usize> = rest.words(4)?.into_iter().map(|size| size as usize).collect();
        let fill = rest.words(3)?;
        let fill = Fill { output: fill[0], room: fill[1], mark: fill[2] as u32 };
        let mut lengths = rest.shorts(LENGTHS)?;
        if op == Op::Settle {
            lengths.swap(BEFORE_INPUTS + TOLERANCE, LENGTHS - 1);
        }
        let like = op.lengths(&vec![0; op.sizes().len()]);
        let count = if op.is_lent() { like.inputs.len() } else { 1 };
        let mut inputs = vec![];
        for &len in lengths[BEFORE_INPUTS..].iter().take(count) {
            inputs.push(rest.words(len)?.into_iter().map(f64::from_bits).collect());
        }
        if op == Op::Check {
            part(&mut inputs, &lengths)?;
        }
        let kinds = rest.take(lengths[6])?.to_vec();
        let sizes = sizes[..op.sizes().len()].to_vec();
        let outputs = lengths[2..2 + like.outputs.len()].to_vec();
        let (words, work) = (lengths[5], [lengths[0], lengths[1]]);
        let seconds = if op == Op::Suspect { lengths[3] } else { 0 };
        let call = Call { op, sizes, inputs, kinds, outputs, words, seconds, work };
        if rest.0.is_empty() { Ok(Self { call, fill }) } else { Err("a call is too long".into()) }
    }
}

/// Takes a check's last stored input apart: multipliers of constraints, of lower sides and of upper
/// sides, and the tolerance.
fn part(inputs: &mut Vec<Vec<f64>>, lengths: &[usize]) -> Result<(), String> {
    let mut rest = inputs.pop().ok_or("a check without inputs")?;
    let tolerance = rest.pop().ok_or("a check without a tolerance")?;
    for &len in &lengths[2..4] {
        if len > rest.len() {
            return Err("a check's multipliers are cut short".into());
        }
        let after = rest.split_off(len);
        inputs.push(std::mem::replace(&mut rest, after));
    }
    inputs.extend([rest, vec![tolerance]]);
    Ok(())
}

/// Bytes still to be read.
pub struct Rest<'a>(pub &'a [u8]);

impl<'a> Rest<'a> {
    pub fn take(&mut self, count: usize) -> Result<&'a [u8], String> {
        let (taken, rest) = self.0.split_at_checked(count).ok_or("the list is cut short")?;
        self.0 = rest;
        Ok(taken)
    }

    pub fn words(&mut self, count: usize) -> Result<Vec<u64>, String> {
        let word = |bytes: &[u8]| u64::from_le_bytes(bytes.try_into().expect("eight bytes"));
        Ok(self.take(8 * count)?.chunks(8).map(word).collect())
    }

    fn shorts(&mut self, count: usize) -> Result<Vec<usize>, String> {
        let short = |bytes: &[u8]| u16::from_le_bytes(bytes.try_into().expect("two bytes"));
        Ok(self.take(2 * count)?.chunks(2).map(|bytes| usize::from(short(bytes))).collect())
    }
}

/// The next call of a list: its operation's code and its bytes.
pub fn next<'a>(rest: &mut Rest<'a>) -> Result<(usize, &'a [u8]), String> {
    let head = rest.words(1)?[0];
    Ok(((head & 0xffff) as usize, rest.take((head >> 16) as usize)?))
}
