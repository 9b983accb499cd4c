//! Kinds of input files for the record program: sound ones, and ones with a fault of each sort.

use crate::draw::{Draw, Palette};
use crate::kinds::{self, Share};
use crate::records::{RECORD, Slip, owed};
use crate::table::NUMBERS;
use reference::call::Call;
use reference::shape::Op;

/// What a kind of file is for.
#[derive(Debug, Clone, Copy, PartialEq, Eq)]
pub enum Aim {
    Ok,
    Relaxed,
    Nan,
    Refused(u32),
}

/// The kinds of files, with what each is for.
pub const KINDS: [(&str, &[Aim]); 24] = [
    ("smallest", &[Aim::Ok, Aim::Refused(1), Aim::Refused(9)]),
    ("sound", &[Aim::Ok, Aim::Relaxed, Aim::Nan, Aim::Refused(5), Aim::Refused(6)]),
    ("largest", &[Aim::Ok]),
    ("no entries", &[Aim::Ok]),
    ("sizes outside", &[Aim::Refused(1)]),
    ("empty or cut", &[Aim::Refused(9)]),
    ("sizes not first", &[Aim::Refused(9)]),
    ("sizes twice", &[Aim::Refused(9)]),
    ("sizes with a value", &[Aim::Refused(9)]),
    ("bad tag", &[Aim::Refused(9)]),
    ("index outside", &[Aim::Refused(9)]),
    ("fixed index", &[Aim::Refused(9)]),
    ("above the diagonal", &[Aim::Refused(9)]),
    ("spare byte", &[Aim::Refused(9)]),
    ("repeated", &[Aim::Refused(9)]),
    ("both kinds", &[Aim::Refused(9)]),
    ("missing constraint", &[Aim::Refused(9)]),
    ("width of an equality", &[Aim::Refused(9)]),
    ("width alone", &[Aim::Refused(9)]),
    ("two faults", &[Aim::Refused(9)]),
    ("flipped bits", &[Aim::Ok, Aim::Refused(9)]),
    ("any bytes", &[Aim::Refused(9)]),
    ("bad width", &[Aim::Refused(14)]),
    ("bad bound", &[Aim::Refused(15)]),
];

/// A record's bytes.
fn record(tag: u8, row: usize, column: usize, bits: u64) -> [u8; RECORD] {
    let mut bytes = [0; RECORD];
    bytes[0] = tag;
    bytes[2..4].copy_from_slice(&(row as u16).to_le_bytes());
    bytes[4..6].copy_from_slice(&(column as u16).to_le_bytes());
    bytes[8..].copy_from_slice(&bits.to_le_bytes());
    bytes
}

/// The records of a problem after its sizes, some that equal what is missing left out.
fn entries(call: &Call, draw: &mut Draw) -> Vec<[u8; RECORD]> {
    let (n, keep) = (call.sizes[0], draw.one_in(2));
    let mut records = vec![];
    let tags = [(b'L', n), (b'G', n), (b'E', 1), (b'W', 1), (b'A', n), (b'B', n), (b'T', n)];
    for ((tag, width), values) in tags.into_iter().zip(&call.inputs) {
        for (at, value) in values.iter().enumerate() {
            let (row, column) = (at / width, at % width);
            let missing = match tag {
                b'L' if row == column => 1.0,
                b'B' => f64::NEG_INFINITY,
                b'T' => f64::INFINITY,
                _ => 0.0f64,
            };
            let above = tag == b'L' && row < column;
            let left_out = match tag {
                b'E' => false,
                b'W' => call.kinds[at] != 2,
                _ => value.to_bits() == missing.to_bits() && !keep,
            };
            let tag = if tag == b'E' && call.kinds[at] != 0 { b'I' } else { tag };
            if !above && !left_out {
                records.push(record(tag, row, column, value.to_bits()));
            }
        }
    }
    if draw.below(4) > 0 {
        shuffle(&mut records, draw);
    }
    records
}

fn shuffle(records: &mut [[u8; RECORD]], draw: &mut Draw) {
    for last in (1..records.len()).rev() {
        records.swap(last, draw.below(last + 1));
    }
}

/// A sound file: a problem of one of the step's kinds.
fn sound(draw: &mut Draw) -> Vec<[u8; RECORD]> {
    let kinds: Vec<_> = kinds::of(Op::Step).into_iter().filter(|kind| !kind.is_spoiled()).collect();
    let kind = draw.pick(&kinds);
    let index = draw.bits() >> 40;
    let index = if let Share::All(count) = kind.share { index % count } else { index };
    let (call, _) = kind.call(draw.bits(), index);
    of(&call, draw)
}

fn of(call: &Call, draw: &mut Draw) -> Vec<[u8; RECORD]> {
    let mut records = vec![record(b'D', call.sizes[1], call.sizes[0], 0)];
    records.extend(entries(call, draw));
    records
}

/// Every entry of the largest problem.
fn largest(draw: &mut Draw) -> Vec<[u8; RECORD]> {
    let lengths = Op::Step.lengths(&[16, 16]).inputs;
    let inputs = lengths.into_iter().map(|len| draw.reals(Palette::Smooth, len)).collect();
    let mut call = Call::new(Op::Step, &[16, 16], inputs);
    call.inputs[0].iter_mut().step_by(17).for_each(|entry| *entry = entry.abs() + 0.5);
    call.inputs[5].iter_mut().for_each(|bound| *bound -= 3.0);
    call.inputs[6].iter_mut().for_each(|bound| *bound += 3.0);
    call.kinds = (0..16).map(|_| draw.pick(&[0, 1, 1, 2])).collect();
    call.inputs[3].iter_mut().for_each(|width| *width = width.abs());
    of(&call, draw)
}

/// One variable, no constraint, one more record: what a few bytes can say, by index.
fn smallest(index: u64, draw: &mut Draw) -> Vec<[u8; RECORD]> {
    let tags = *b"DLGEIABTX\0dW";
    let (n, m) = (index as usize % 3, index as usize / 3 % 2);
    let tag = tags[index as usize / 6 % tags.len()];
    let (row, column) = (index as usize / 72 % 2, index as usize / 144 % 2);
    let value = draw.real(Palette::Special).to_bits();
    vec![record(b'D', m, n, 0), record(tag, row, column, value)]
}

/// A place after the sizes, or the place of the sizes where there is no other.
fn place(records: &[[u8; RECORD]], draw: &mut Draw) -> usize {
    if records.len() < 2 { 0 } else { draw.between(1, records.len() - 1) }
}

/// Puts one fault of a sort into a file.
fn spoil(sort: &str, records: &mut Vec<[u8; RECORD]>, draw: &mut Draw) {
    let at = place(records, draw);
    let (rows, columns) = (usize::from(records[0][2]), usize::from(records[0][4]));
    let value = draw.smooth().to_bits();
    let far = draw.pick(&[0, 1, 15, 255, 65_535]);
    let added = match sort {
        "sizes twice" => records[0],
        "bad tag" => record(draw.pick(b"\0DdlgebatwCZ\xff"), 0, 0, value),
        "index outside" => outside(draw, rows, columns, far),
        "fixed index" => fixed(draw, rows, columns),
        "above the diagonal" => {
            let column = draw.between(1, 15).min(columns.max(2) - 1);
            record(b'L', draw.below(column), column, value)
        }
        "repeated" => {
            let mut again = records[at];
            again[15] ^= draw.pick(&[0, 0x80]);
            again
        }
        "both kinds" => match records.iter().find(|bytes| matches!(bytes[0], b'E' | b'I')) {
            Some(found) => {
                let mut other = *found;
                other[0] ^= b'E' ^ b'I';
                other
            }
            None => record(b'E', rows, 0, value),
        },
        "width of an equality" => match records.iter().find(|bytes| bytes[0] == b'E') {
            Some(found) => record(b'W', usize::from(found[2]), 0, 0),
            None => record(b'W', rows, 0, 0),
        },
        _ => return alter(sort, at, records, draw),
    };
    let put = draw.between(1, records.len());
    records.insert(put, added);
}

/// A record with an index one past its end, or further.
fn outside(draw: &mut Draw, rows: usize, columns: usize, far: usize) -> [u8; RECORD] {
    let tag = draw.pick(b"LGEIWABT");
    let beyond = |end: usize| (end + far).min(65_535);
    let (row, column) = match tag {
        b'L' => (beyond(columns), 0),
        b'E' | b'I' | b'W' => (beyond(rows), 0),
        b'A' if draw.one_in(2) => (beyond(rows), 0),
        _ => (0, beyond(columns)),
    };
    record(tag, row, column, 0)
}

/// A record with an index where 0 is fixed.
fn fixed(draw: &mut Draw, rows: usize, columns: usize) -> [u8; RECORD] {
    let other = draw.pick(&[1, 1, 2, 256, 65_535]);
    match draw.pick(b"GEIWBT") {
        tag if matches!(tag, b'E' | b'I' | b'W') => record(tag, draw.below(rows.max(1)), other, 0),
        tag => record(tag, other, draw.below(columns.max(1)), 0),
    }
}

/// Alters a record that is there, or takes one out.
fn alter(sort: &str, at: usize, records: &mut Vec<[u8; RECORD]>, draw: &mut Draw) {
    let value = draw.smooth().abs().to_bits();
    match sort {
        "sizes outside" => {
            let side = draw.pick(&[2, 4]);
            let size: u16 = draw.pick(&[17, 18, 255, 256, 272, 65_535]);
            records[0][side..side + 2].copy_from_slice(&size.to_le_bytes());
            if draw.one_in(4) {
                records[0][4..6].copy_from_slice(&[0, 0]);
            }
            records.truncate(draw.between(1, records.len()));
            if draw.one_in(2) {
                records.push(record(draw.pick(b"DXL"), 0, draw.below(40), 1));
            }
        }
        "sizes not first" => {
            let other = draw.below(records.len());
            records.swap(0, other);
            if other == 0 {
                records[0][0] = b'G';
            }
        }
        "sizes with a value" => records[0][draw.between(8, 15)] = draw.pick(&[1, 0x80, 0xff]),
        "spare byte" => {
            let at = if draw.one_in(5) { 0 } else { at };
            records[at][draw.pick(&[1, 6, 7])] = draw.pick(&[1, 0x80, 0xff]);
        }
        "missing constraint" => {
            let found = records.iter().position(|bytes| matches!(bytes[0], b'E' | b'I'));
            match found {
                Some(at) => drop(records.remove(at)),
                None => records[0][2] = 1,
            }
        }
        "bad bound" => {
            let (tag, facing) = draw.pick(&[(b'B', f64::INFINITY), (b'T', f64::NEG_INFINITY)]);
            let bound = draw.pick(&[f64::NAN, -f64::NAN, facing, facing]);
            let variable = draw.below(usize::from(records[0][4]));
            records.retain(|bytes| bytes[0] != tag || usize::from(bytes[4]) != variable);
            records.push(record(tag, 0, variable, bound.to_bits()));
        }
        "bad width" => {
            let found = records.iter().find(|bytes| bytes[0] == b'I').map(|bytes| bytes[2]);
            let row = found.unwrap_or_default();
            let bad = draw.pick(&[-1.0, -f64::MIN_POSITIVE, f64::INFINITY, f64::NAN, -f64::NAN]);
            records.retain(|bytes| bytes[0] != b'W' || bytes[2] != row);
            records.push(record(b'W', usize::from(row), 0, bad.to_bits()));
        }
        "width alone" => match records.iter().position(|bytes| bytes[0] == b'I') {
            Some(at) if draw.one_in(2) => records[at][0] = b'W',
            Some(at) => {
                let row = usize::from(records[at][2]);
                records[at] = record(b'W', row, 0, value);
                records.retain(|bytes| {
                    bytes[0] != b'W'
                        || bytes[2] as usize != row
                        || bytes[8..] == value.to_le_bytes()
                });
            }
            None => records[0][2] = 1,
        },
        _ => unreachable!("{sort}"),
    }
}

/// The file of a kind and index.
pub fn file(seed: u64, kind: &str, index: u64) -> Vec<u8> {
    let mut draw = Draw::new(seed, Op::Step, kind, index);
    let draw = &mut draw;
    let mut records = match kind {
        "smallest" => smallest(index, draw),
        "largest" => largest(draw),
        "no entries" => vec![record(b'D', 0, draw.between(1, 16), 0)],
        _ => sound(draw),
    };
    match kind {
        "smallest" | "largest" | "no entries" | "sound" => {}
        "two faults" => {
            let sorts: Vec<&str> = KINDS[7..19].iter().map(|kind| kind.0).collect();
            for _ in 0..draw.between(2, 3) {
                spoil(draw.pick(&sorts), &mut records, draw);
            }
        }
        "empty or cut" | "flipped bits" | "any bytes" => {}
        _ => spoil(kind, &mut records, draw),
    }
    damaged(kind, records.concat(), draw)
}

/// Damage that knows nothing of records.
fn damaged(kind: &str, mut bytes: Vec<u8>, draw: &mut Draw) -> Vec<u8> {
    match kind {
        "empty or cut" => {
            let cut = draw.pick(&[0, 1, 15, 17, draw.clone().below(bytes.len())]);
            bytes.truncate(cut);
        }
        "flipped bits" => {
            for _ in 0..draw.between(1, 3) {
                let at = draw.below(bytes.len());
                bytes[at] ^= 1 << draw.below(8);
            }
        }
        "any bytes" => {
            let start = if draw.one_in(2) { bytes.len().min(RECORD) } else { 0 };
            let end = bytes.len() + draw.below(40);
            bytes.truncate(start);
            while bytes.len() < end {
                let byte = draw.bits() as u8;
                bytes.push(if draw.one_in(2) { draw.pick(b"LGEIWABT\0\0\0") } else { byte });
            }
        }
        _ => {}
    }
    bytes
}

/// Counts of the files of one kind.
#[derive(Debug, Clone, Copy, Default)]
pub struct Counts {
    pub files: u64,
    pub ok: u64,
    pub relaxed: u64,
    pub nan: u64,
    pub refused: [u64; NUMBERS],
    pub different: u64,
}

impl Counts {
    /// Counts one file; `printed` is what a program printed for it.
    pub fn count(&mut self, bytes: &[u8], printed: &str) -> bool {
        let (text, answer) = owed(bytes, Slip::None);
        self.files += 1;
        let done = answer.as_ref().filter(|answer| answer.number == 0);
        self.ok += u64::from(done.is_some());
        self.relaxed += u64::from(done.is_some_and(|answer| answer.tally.relaxed > 0));
        self.nan += u64::from(done.is_some_and(|answer| answer.has_nan()));
        if let Some(rest) = text.strip_prefix("refused ") {
            let digits = rest.split([' ', '\n']).next().unwrap_or_default();
            self.refused[digits.parse::<usize>().expect("a number")] += 1;
        }
        self.different += u64::from(text != printed);
        text == printed
    }

    /// Adds the counts of another run.
    pub fn add(&mut self, other: &Counts) {
        self.files += other.files;
        self.ok += other.ok;
        self.relaxed += other.relaxed;
        self.nan += other.nan;
        self.refused.iter_mut().zip(other.refused).for_each(|(mine, theirs)| *mine += theirs);
        self.different += other.different;
    }

    /// How often an aim was reached.
    pub fn reached(&self, aim: Aim) -> u64 {
        match aim {
            Aim::Ok => self.ok,
            Aim::Relaxed => self.relaxed,
            Aim::Nan => self.nan,
            Aim::Refused(number) => self.refused[number as usize],
        }
    }
}
