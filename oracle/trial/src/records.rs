//! An independent reading of the record program's input, written from docs/RULES.md alone.

use reference::Rust;
use reference::call::{Answer, Call, Sound, answer};
use reference::shape::Op;
use std::collections::HashSet;
use std::fmt::Write;

/// The bytes of a record.
pub const RECORD: usize = 16;

/// A slip that a reading can have, to try the comparison with.
#[derive(Debug, Clone, Copy, PartialEq, Eq)]
pub enum Slip {
    None,
    PlaceFromOne,
    MissingFirst,
    SizesLast,
    BothKinds,
    Repeats,
    ShortDropped,
    SpareDropped,
    AboveDiagonal,
    NoDiagonal,
    ClosedBounds,
    NanBits,
    SecondSizes,
    SizesValue,
    BigEndian,
    FixedColumn,
    WidthOfEquality,
    WidthFirst,
    WidthInPlace,
    WidthLost,
}

/// Every slip.
pub const SLIPS: [Slip; 19] = [
    Slip::PlaceFromOne,
    Slip::MissingFirst,
    Slip::SizesLast,
    Slip::BothKinds,
    Slip::Repeats,
    Slip::ShortDropped,
    Slip::SpareDropped,
    Slip::AboveDiagonal,
    Slip::NoDiagonal,
    Slip::ClosedBounds,
    Slip::NanBits,
    Slip::SecondSizes,
    Slip::SizesValue,
    Slip::BigEndian,
    Slip::FixedColumn,
    Slip::WidthOfEquality,
    Slip::WidthFirst,
    Slip::WidthInPlace,
    Slip::WidthLost,
];

/// Why an input is refused before the step.
#[derive(Debug, Clone, Copy, PartialEq, Eq)]
enum Refusal {
    /// A fault at a record.
    Fault(usize),
    /// Sizes out of the table.
    Sizes,
}

/// One record taken apart.
struct Record {
    tag: u8,
    row: usize,
    column: usize,
    bits: u64,
    spare: bool,
}

impl Record {
    fn new(bytes: &[u8], slip: Slip) -> Self {
        let pair = |at: usize| usize::from(u16::from_le_bytes([bytes[at], bytes[at + 1]]));
        let mut value: [u8; 8] = bytes[8..].try_into().expect("eight bytes");
        if slip == Slip::BigEndian {
            value.reverse();
        }
        let spare = bytes[1] != 0 || bytes[6] != 0 || bytes[7] != 0;
        Self {
            tag: bytes[0],
            row: pair(2),
            column: pair(4),
            bits: u64::from_le_bytes(value),
            spare: spare && slip != Slip::SpareDropped,
        }
    }
}

/// A problem as far as it is read.
struct Problem {
    call: Call,
    stated: Vec<bool>,
    /// Constraints that have a width.
    banded: Vec<bool>,
    seen: HashSet<(u8, usize, usize)>,
}

impl Problem {
    fn new(n: usize, m: usize, slip: Slip) -> Self {
        let mut factor = vec![0.0; n * n];
        if slip != Slip::NoDiagonal {
            factor.iter_mut().step_by(n + 1).for_each(|entry| *entry = 1.0);
        }
        let bound = if slip == Slip::ClosedBounds { 0.0 } else { f64::INFINITY };
        let inputs = vec![
            factor,
            vec![0.0; n],
            vec![0.0; m],
            vec![0.0; m],
            vec![0.0; m * n],
            vec![-bound; n],
            vec![bound; n],
        ];
        let call = Call::new(Op::StrictStep, &[n, m], inputs);
        Self { call, stated: vec![false; m], banded: vec![false; m], seen: HashSet::new() }
    }

    /// Where a record's value goes, if its indices are inside.
    fn place(&self, record: &Record, slip: Slip) -> Option<(usize, usize)> {
        let (n, m) = (self.call.sizes[0], self.call.sizes[1]);
        let (row, column) = (record.row, record.column);
        let (slice, height, width) = match record.tag {
            b'L' => (0, n, n),
            b'G' => (1, 1, n),
            b'E' | b'I' => (2, m, 1),
            b'W' => (3, m, 1),
            b'A' => (4, m, n),
            b'B' => (5, 1, n),
            b'T' => (6, 1, n),
            _ => return None,
        };
        let above = record.tag == b'L' && row < column && slip != Slip::AboveDiagonal;
        let column = if slip == Slip::FixedColumn && width == 1 { 0 } else { column };
        (row < height && column < width && !above).then_some((slice, row * width + column))
    }

    /// Takes a record in, or finds a fault in it.
    fn take(&mut self, record: &Record, slip: Slip) -> Option<()> {
        let (slice, at) = self.place(record, slip)?;
        let both = slip == Slip::BothKinds;
        let tag = if record.tag == b'I' && !both { b'E' } else { record.tag };
        let first = self.seen.insert((tag, record.row, record.column));
        if record.spare || (!first && slip != Slip::Repeats) {
            return None;
        }
        self.call.inputs[slice][at] = f64::from_bits(record.bits);
        if slice == 2 {
            self.stated[at] = true;
            self.call.kinds[at] = u8::from(record.tag == b'I');
            if self.banded[at] && slip == Slip::WidthFirst {
                return None;
            }
        }
        if slice == 3 {
            self.banded[at] = slip != Slip::WidthLost;
            if self.call.kinds[at] != 1 && slip == Slip::WidthInPlace {
                return None;
            }
        }
        Some(())
    }

    /// The problem, where no constraint is missing and each width has its inequality.
    fn whole(mut self, slip: Slip) -> Option<Call> {
        for at in 0..self.stated.len() {
            let alone = self.banded[at] && self.call.kinds[at] != 1;
            if !self.stated[at] || (alone && slip != Slip::WidthOfEquality) {
                return None;
            }
            if self.banded[at] && !alone {
                self.call.kinds[at] = 2;
            }
        }
        Some(self.call)
    }
}

/// Reads the sizes out of the first record.
fn sizes(record: &Record, slip: Slip) -> Option<(usize, usize)> {
    let valued = record.bits != 0 && slip != Slip::SizesValue;
    let sound = record.tag == b'D' && !record.spare && !valued;
    sound.then_some((record.column, record.row))
}

/// Reads an input.
fn read(bytes: &[u8], slip: Slip) -> Result<Call, Refusal> {
    let mut records = bytes.chunks(RECORD).enumerate();
    let whole = |(at, bytes): (usize, &[u8])| match bytes.len() {
        RECORD => Ok((at, Record::new(bytes, slip))),
        _ => Err(Refusal::Fault(at)),
    };
    let first = records.next().ok_or(Refusal::Fault(0)).and_then(whole)?;
    let (n, m) = sizes(&first.1, slip).ok_or(Refusal::Fault(0))?;
    let outside = !Op::Step.sizes_fit(&[n, m]);
    if outside && slip != Slip::SizesLast {
        return Err(Refusal::Sizes);
    }
    let mut problem = Problem::new(n.clamp(1, 16), m.min(16), slip);
    for next in records {
        if slip == Slip::ShortDropped && next.1.len() < RECORD {
            break;
        }
        let (at, record) = whole(next)?;
        if record.tag == b'D' && slip == Slip::SecondSizes {
            continue;
        }
        problem.take(&record, slip).ok_or(Refusal::Fault(at))?;
    }
    if outside {
        return Err(Refusal::Sizes);
    }
    let end = bytes.len().div_ceil(RECORD);
    problem.whole(slip).ok_or(Refusal::Fault(end))
}

/// The problem that an input says, if it has no fault.
pub fn problem(bytes: &[u8]) -> Option<Call> {
    read(bytes, Slip::None).ok()
}

/// The sixteen digits of a value, or `nan`.
fn digits(value: f64, slip: Slip) -> String {
    if value.is_nan() && slip != Slip::NanBits {
        return "nan".to_string();
    }
    format!("{:016x}", value.to_bits())
}

/// What the program prints for an answer of the step.
fn printed(owed: &Answer, slip: Slip) -> String {
    if owed.number != 0 {
        return format!("refused {}\n", owed.number);
    }
    let relaxation = digits(owed.value.unwrap_or(f64::NAN), slip);
    let mut text = format!("ok\nrelaxation {relaxation}\n");
    for (letter, values) in ["d", "m"].into_iter().zip(&owed.outputs) {
        for (at, &value) in values.iter().enumerate() {
            writeln!(text, "{letter} {at} {}", digits(value, slip)).expect("text");
        }
    }
    text
}

/// What the program owes for an input, and the step's answer if it comes to one.
pub fn owed(bytes: &[u8], slip: Slip) -> (String, Option<Answer>) {
    let faults = slip == Slip::MissingFirst && lacks_a_constraint(bytes);
    let read =
        if faults { Err(Refusal::Fault(bytes.len().div_ceil(RECORD))) } else { read(bytes, slip) };
    match read {
        Err(Refusal::Fault(at)) => {
            let at = at + usize::from(slip == Slip::PlaceFromOne);
            (format!("refused 9 at {at}\n"), None)
        }
        Err(Refusal::Sizes) => ("refused 1\n".to_string(), None),
        Ok(call) => {
            let answer = answer::<Rust, Sound>(&call);
            (printed(&answer, slip), Some(answer))
        }
    }
}

/// Whether some constraint of the sizes that are stated has no record, faults aside.
fn lacks_a_constraint(bytes: &[u8]) -> bool {
    let records: Vec<Record> =
        bytes.chunks_exact(RECORD).map(|bytes| Record::new(bytes, Slip::None)).collect();
    let Some((_, m)) = records.first().and_then(|first| sizes(first, Slip::None)) else {
        return false;
    };
    let stated = |row: usize| {
        records.iter().any(|record| matches!(record.tag, b'E' | b'I') && record.row == row)
    };
    m <= 16 && !(0..m).all(stated)
}
