//! Problem files: what docs/RULES.md, "Writing problem files", owes for a call, and whether a
//! library left it. Written from its words alone; files are read back by `records`.

use crate::draw::{Draw, SPECIAL};
use crate::records::{self, RECORD};
use reference::shape::Op;

/// A wrong reading of the rules, to try the comparison with.
#[derive(Debug, Clone, Copy, PartialEq, Eq)]
pub enum Slip {
    None,
    MinusZeroLeftOut,
    DiagonalWritten,
    OpenSidesWritten,
    ValuesLeftOut,
    WidthsLeftOut,
    WidthOfFloor,
    WidthFirst,
    WidthsLast,
    ColumnsFirst,
    GradientFirst,
    PayloadLost,
    AboveWritten,
    AboveByValue,
    RoomFirst,
    ExactRoom,
    HighestVariable,
    BoundsFirst,
}

/// Every slip.
pub const SLIPS: [Slip; 17] = [
    Slip::MinusZeroLeftOut,
    Slip::DiagonalWritten,
    Slip::OpenSidesWritten,
    Slip::ValuesLeftOut,
    Slip::WidthsLeftOut,
    Slip::WidthOfFloor,
    Slip::WidthFirst,
    Slip::WidthsLast,
    Slip::ColumnsFirst,
    Slip::GradientFirst,
    Slip::PayloadLost,
    Slip::AboveWritten,
    Slip::AboveByValue,
    Slip::RoomFirst,
    Slip::ExactRoom,
    Slip::HighestVariable,
    Slip::BoundsFirst,
];

const ONE: u64 = 0x3ff0_0000_0000_0000;
const LOW: u64 = 0xfff0_0000_0000_0000;
const HIGH: u64 = 0x7ff0_0000_0000_0000;
const SIGN: u64 = 1 << 63;

/// The longest file.
pub const LONGEST: usize = 473 * RECORD;

/// A call: the problem as bits, and the lengths of what is lent to write in.
#[derive(Debug, Clone, PartialEq, Eq)]
pub struct Problem {
    pub n: usize,
    pub m: usize,
    /// Factor, gradient, values, widths, Jacobian, lower and upper bounds.
    pub bits: [Vec<u64>; 7],
    pub kinds: Vec<u8>,
    pub out: usize,
    pub work: [usize; 2],
}

/// What a call owes: its number, the variable with 15, and the file with 0.
#[derive(Debug, Clone, PartialEq, Eq, Default)]
pub struct Owed {
    pub number: u32,
    pub place: Option<u32>,
    pub file: Vec<u8>,
}

impl Problem {
    fn sizes_fit(&self) -> bool {
        (1..=16).contains(&self.n) && self.m <= 16
    }

    fn lengths(&self) -> [usize; 7] {
        let (n, m) = (self.n, self.m);
        [n * n, n, m, m, m * n, n, n]
    }

    fn lengths_fit(&self) -> bool {
        let fit = self.bits.iter().zip(self.lengths()).all(|(slice, len)| slice.len() == len);
        fit && self.kinds.len() == self.m
    }

    /// The widths that belong to bands.
    fn widths_fit(&self) -> bool {
        let banded = self.kinds.iter().zip(&self.bits[3]).filter(|(kind, _)| **kind == 2);
        banded
            .map(|(_, &width)| f64::from_bits(width))
            .all(|width| width >= 0.0 && width < f64::INFINITY)
    }

    /// The first variable, or the last where a slip asks for it, with a bound that is none.
    fn unbounded(&self, slip: Slip) -> Option<u32> {
        let sound = |at: &usize| {
            let (lower, upper) =
                (f64::from_bits(self.bits[5][*at]), f64::from_bits(self.bits[6][*at]));
            lower < f64::INFINITY && upper > f64::NEG_INFINITY
        };
        let mut found = (0..self.n).filter(|at| !sound(at));
        let which = if slip == Slip::HighestVariable { found.last() } else { found.next() };
        which.map(|at| at as u32)
    }

    /// Whether every entry above the factor's diagonal is +0, by its bits.
    fn triangle(&self, slip: Slip) -> bool {
        let n = self.n;
        let mut above = (0..n).flat_map(|row| (row + 1..n).map(move |column| row * n + column));
        above.all(|at| match slip {
            Slip::AboveByValue => self.bits[0][at] & !SIGN == 0,
            _ => self.bits[0][at] == 0,
        })
    }

    /// The file, whatever the tests say.
    fn file(&self, slip: Slip) -> Vec<u8> {
        let (n, m) = (self.n, self.m);
        let mut file = Pages { bytes: vec![], slip };
        file.record(b'D', m, n, 0);
        let rows: Vec<(usize, usize)> = match slip {
            Slip::ColumnsFirst => (0..n).flat_map(|j| (j..n).map(move |i| (i, j))).collect(),
            Slip::AboveWritten => (0..n).flat_map(|i| (0..n).map(move |j| (i, j))).collect(),
            _ => (0..n).flat_map(|i| (0..=i).map(move |j| (i, j))).collect(),
        };
        if slip == Slip::GradientFirst {
            (0..n).for_each(|j| file.entry(b'G', 0, j, 0, self.bits[1][j]));
        }
        for (i, j) in rows {
            let missing = if i == j && slip != Slip::DiagonalWritten { ONE } else { 0 };
            file.entry(b'L', i, j, missing, self.bits[0][i * n + j]);
        }
        if slip != Slip::GradientFirst {
            (0..n).for_each(|j| file.entry(b'G', 0, j, 0, self.bits[1][j]));
        }
        self.constraints(&mut file);
        let rows: Vec<(usize, usize)> = match slip {
            Slip::ColumnsFirst => (0..n).flat_map(|j| (0..m).map(move |i| (i, j))).collect(),
            _ => (0..m).flat_map(|i| (0..n).map(move |j| (i, j))).collect(),
        };
        rows.into_iter().for_each(|(i, j)| file.entry(b'A', i, j, 0, self.bits[4][i * n + j]));
        let [low, high] = if slip == Slip::OpenSidesWritten { [0, 0] } else { [LOW, HIGH] };
        (0..n).for_each(|j| file.entry(b'B', 0, j, low, self.bits[5][j]));
        (0..n).for_each(|j| file.entry(b'T', 0, j, high, self.bits[6][j]));
        file.bytes
    }

    fn constraints(&self, file: &mut Pages) {
        let slip = file.slip;
        let width = |file: &mut Pages, row: usize| {
            let banded =
                self.kinds[row] == 2 || (slip == Slip::WidthOfFloor && self.kinds[row] == 1);
            let left_out = slip == Slip::WidthsLeftOut && self.bits[3][row] == 0;
            if banded && !left_out {
                file.record(b'W', row, 0, self.bits[3][row]);
            }
        };
        for row in 0..self.m {
            if slip == Slip::WidthFirst {
                width(file, row);
            }
            let tag = if self.kinds[row] == 0 { b'E' } else { b'I' };
            if slip != Slip::ValuesLeftOut || self.bits[2][row] != 0 {
                file.record(tag, row, 0, self.bits[2][row]);
            }
            if !matches!(slip, Slip::WidthFirst | Slip::WidthsLast) {
                width(file, row);
            }
        }
        if slip == Slip::WidthsLast {
            (0..self.m).for_each(|row| width(file, row));
        }
    }

    /// What the call owes.
    pub fn owed(&self, slip: Slip) -> Owed {
        let refused = |number: u32| Owed { number, ..Owed::default() };
        if !self.sizes_fit() {
            return refused(1);
        }
        if !self.lengths_fit() {
            return refused(2);
        }
        if self.work[0] < 8192 || self.work[1] < 512 {
            return refused(3);
        }
        if self.kinds.iter().any(|&kind| kind > 2) {
            return refused(4);
        }
        let bound =
            self.unbounded(slip).map(|at| Owed { number: 15, place: Some(at), file: vec![] });
        if slip == Slip::BoundsFirst && bound.is_some() {
            return bound.unwrap_or_default();
        }
        if !self.widths_fit() {
            return refused(14);
        }
        if let Some(owed) = bound {
            return owed;
        }
        let file = self.file(slip);
        let short = match slip {
            Slip::ExactRoom => self.out != file.len(),
            _ => self.out < file.len(),
        };
        let above = !self.triangle(slip) && slip != Slip::AboveWritten;
        match (above, short) {
            (true, true) if slip == Slip::RoomFirst => refused(19),
            (true, _) => refused(20),
            (_, true) => refused(19),
            _ => Owed { number: 0, place: None, file },
        }
    }

    /// Whether a file, read by the rules of the record program, says this problem bit for bit.
    pub fn is_said_by(&self, file: &[u8]) -> bool {
        let Some(read) = records::problem(file) else {
            return false;
        };
        let same = |at: usize| {
            let said = read.inputs[at].iter().map(|value| value.to_bits());
            let owed = self.bits[at].iter().zip(0..).map(|(&bits, row)| match at {
                3 if self.kinds[row] != 2 => 0,
                _ => bits,
            });
            said.eq(owed)
        };
        read.sizes == [self.n, self.m] && read.kinds == self.kinds && (0..7).all(same)
    }
}

/// Records one after the other.
struct Pages {
    bytes: Vec<u8>,
    slip: Slip,
}

impl Pages {
    fn record(&mut self, tag: u8, row: usize, column: usize, bits: u64) {
        let nan = f64::from_bits(bits).is_nan() && self.slip == Slip::PayloadLost;
        let bits = if nan { 0x7ff8_0000_0000_0000 } else { bits };
        self.bytes.extend([tag, 0]);
        self.bytes.extend((row as u16).to_le_bytes());
        self.bytes.extend((column as u16).to_le_bytes());
        self.bytes.extend([0, 0]);
        self.bytes.extend(bits.to_le_bytes());
    }

    fn entry(&mut self, tag: u8, row: usize, column: usize, missing: u64, bits: u64) {
        let zero = self.slip == Slip::MinusZeroLeftOut && missing == 0 && bits == SIGN;
        if bits != missing && !zero {
            self.record(tag, row, column, bits);
        }
    }
}

/// What a drawn call aims at, by the number that it must have at least once.
pub const NUMBERS: [u32; 9] = [0, 1, 2, 3, 4, 14, 15, 20, 19];

/// A pattern: of every class, and near those that are left out.
fn pattern(draw: &mut Draw) -> u64 {
    match draw.below(8) {
        0 | 1 => draw.pick(&[0, SIGN, ONE, LOW, HIGH]),
        2 => draw.pick(&[0, ONE, LOW, HIGH]) ^ (1 << draw.below(64)),
        3 | 4 => draw.pick(&SPECIAL),
        5 => (0x7ff << 52) | draw.bits(),
        6 => draw.smooth().to_bits(),
        _ => draw.bits(),
    }
}

/// A pattern that is a bound: no NaN, and not the infinity of the other side.
fn bound(draw: &mut Draw, other: f64) -> u64 {
    loop {
        let bits = pattern(draw);
        let value = f64::from_bits(bits);
        if !value.is_nan() && value != other {
            return bits;
        }
    }
}

/// A width of a band.
fn width(draw: &mut Draw) -> u64 {
    loop {
        let bits = pattern(draw);
        let value = f64::from_bits(bits);
        if value >= 0.0 && value < f64::INFINITY {
            return bits;
        }
    }
}

/// A problem that is written, with all the room there can be.
fn sound(draw: &mut Draw) -> Problem {
    let (n, m) = (draw.size(1, 16), draw.size(0, 16));
    let mut patterns = |count: usize| (0..count).map(|_| pattern(draw)).collect::<Vec<u64>>();
    let mut factor = patterns(n * n);
    let (gradient, values, jacobian) = (patterns(n), patterns(m), patterns(m * n));
    for row in 0..n {
        (row + 1..n).for_each(|column| factor[row * n + column] = 0);
    }
    let kinds: Vec<u8> = (0..m).map(|_| draw.below(3) as u8).collect();
    let widths = kinds.iter().map(|&kind| if kind == 2 { width(draw) } else { pattern(draw) });
    let widths = widths.collect();
    let lower = (0..n).map(|_| bound(draw, f64::INFINITY)).collect();
    let upper = (0..n).map(|_| bound(draw, f64::NEG_INFINITY)).collect();
    let bits = [factor, gradient, values, widths, jacobian, lower, upper];
    let work = [8192 + draw.below(20), 512 + draw.below(20)];
    Problem { n, m, bits, kinds, out: LONGEST, work }
}

/// A problem of which every entry is written: the longest file.
fn full(draw: &mut Draw) -> Problem {
    let mut problem = Problem { n: 16, m: 16, kinds: vec![2; 16], ..sound(draw) };
    let lengths = problem.lengths();
    for (slice, len) in lengths.into_iter().enumerate() {
        // The patterns of missing entries are even.
        let entries = (0..len).map(|_| match slice {
            0 | 1 | 2 | 4 => draw.bits() | 1,
            _ => draw.fraction().to_bits() | 1,
        });
        problem.bits[slice] = entries.collect();
    }
    for row in 0..16 {
        problem.bits[0][16 * row + row + 1..16 * row + 16].fill(0);
    }
    problem
}

/// Spoils a problem in one of eight ways, in the order of the tests.
fn spoil(draw: &mut Draw, problem: &mut Problem, way: usize) {
    let (n, m) = (problem.n.min(16), problem.m.min(16));
    match way {
        0 if draw.one_in(2) => problem.n = draw.pick(&[0, 17, 1 << 32, usize::MAX]),
        0 => problem.m = draw.pick(&[17, 18, 1 << 32, usize::MAX]),
        1 => {
            let slice = draw.below(8);
            if slice == 7 {
                problem.kinds.push(0);
            } else if problem.bits[slice].pop().is_none() || draw.one_in(2) {
                problem.bits[slice].extend([0, 0]);
            }
        }
        2 if draw.one_in(2) => problem.work[0] = draw.pick(&[8191, 8190, 0]),
        2 => problem.work[1] = draw.pick(&[511, 510, 0]),
        3 | 4 if m == 0 || problem.kinds.len() < m || problem.bits[3].len() < m => {}
        3 => problem.kinds[draw.below(m)] = draw.between(3, 255) as u8,
        4 => {
            let row = draw.below(m);
            problem.kinds[row] = 2;
            problem.bits[3][row] = draw.pick(&[HIGH, LOW, HIGH + 1, LOW + 1, SIGN + 1, ONE | SIGN]);
        }
        5 => (0..=draw.below(3)).for_each(|_| {
            let (side, infinity) = draw.pick(&[(5, HIGH), (6, LOW)]);
            let nan = LOW | draw.bits() >> 12 | 1;
            if let Some(entry) = problem.bits[side].get_mut(draw.below(n.max(1))) {
                *entry = draw.pick(&[infinity, HIGH + 1, nan]);
            }
        }),
        6 if n > 1 => {
            let row = draw.below(n - 1);
            let (column, any) = (draw.between(row + 1, n - 1), draw.bits() | 1);
            if let Some(entry) = problem.bits[0].get_mut(row * n + column) {
                *entry = draw.pick(&[SIGN, 1, ONE, HIGH + 1, any]);
            }
        }
        7 if problem.sizes_fit() && problem.lengths_fit() => {
            let length = problem.file(Slip::None).len();
            problem.out = draw.pick(&[length - 1, length - 16, length / 2, 0]);
        }
        _ => {}
    }
}

/// The call of an index: half of them are written, in room that just suffices or is longer; the
/// others are spoilt in one way or in several.
pub fn drawn(seed: u64, index: u64) -> Problem {
    let mut draw = Draw::new(seed, Op::Step, "problem", index);
    let mut problem = if index % 64 == 1 { full(&mut draw) } else { sound(&mut draw) };
    let (length, more) = (problem.file(Slip::None).len(), draw.below(40));
    problem.out = draw.pick(&[length, length + more, LONGEST]);
    match index % 4 {
        0 | 1 => {}
        2 => spoil(&mut draw, &mut problem, (index / 4 % 8) as usize),
        _ => (0..8).filter(|_| draw.one_in(2)).collect::<Vec<_>>().into_iter().rev().for_each(
            |way| {
                spoil(&mut draw, &mut problem, way);
            },
        ),
    }
    problem
}

/// What a call writes in.
pub struct Pad<'a> {
    pub out: &'a mut [u8],
    pub written: &'a mut usize,
    pub place: &'a mut u32,
    pub w: &'a mut [f64],
    pub iw: &'a mut [u32],
}

/// A writer of problem files.
pub type Writer<'a> = dyn Fn(&Problem, Pad) -> u32 + 'a;

/// Bytes of junk around every buffer.
const MARGIN: usize = 24;

/// Calls a writer on memory full of junk: its number, the file, and whatever is not as it is owed.
pub fn compare(writer: &Writer, problem: &Problem, owed: &Owed, draw: &mut Draw) -> Vec<String> {
    let mut found = vec![];
    let mut junk = |count: usize| (0..count).map(|_| draw.bits()).collect::<Vec<u64>>();
    let out: Vec<u8> = junk(problem.out + 2 * MARGIN).iter().map(|&word| word as u8).collect();
    let w: Vec<u64> = junk(problem.work[0] + 2 * MARGIN);
    let iw: Vec<u32> = junk(problem.work[1] + 2 * MARGIN).iter().map(|&word| word as u32).collect();
    let (written, place) = (junk(1)[0] as usize, junk(1)[0] as u32);
    let (mut out_left, mut iw_left) = (out.clone(), iw.clone());
    let mut w_left: Vec<f64> = w.iter().map(|&word| f64::from_bits(word)).collect();
    let (mut written_left, mut place_left) = (written, place);
    let before = problem.clone();
    let number = writer(
        problem,
        Pad {
            out: &mut out_left[MARGIN..MARGIN + problem.out],
            written: &mut written_left,
            place: &mut place_left,
            w: &mut w_left[MARGIN..MARGIN + problem.work[0]],
            iw: &mut iw_left[MARGIN..MARGIN + problem.work[1]],
        },
    );
    let done = owed.number == 0;
    let mut out_owed = out;
    out_owed[MARGIN..MARGIN + owed.file.len()].copy_from_slice(&owed.file);
    let (mut w_owed, mut iw_owed) = (w, iw);
    if done {
        w_owed[MARGIN..MARGIN + 8192].fill(0);
        iw_owed[MARGIN..MARGIN + 512].fill(0);
    }
    let mut hold = |name: &str, equal: bool| {
        if !equal {
            found.push(name.to_string());
        }
    };
    hold(&format!("number {number} for {}", owed.number), number == owed.number);
    hold("out", out_left == out_owed);
    hold("written", written_left == if done { owed.file.len() } else { written });
    hold("place", place_left == owed.place.unwrap_or(place));
    hold("w", w_left.iter().map(|value| value.to_bits()).eq(w_owed));
    hold("iw", iw_left == iw_owed);
    hold("the problem", *problem == before);
    if done {
        let file = &out_left[MARGIN..MARGIN + owed.file.len()];
        hold("what the file says", problem.is_said_by(file));
        hold("the longest file", owed.file.len() <= LONGEST);
    }
    found
}

/// What was found of many calls.
#[derive(Debug, Default, PartialEq, Eq)]
pub struct Found {
    /// By number, from 0.
    pub numbers: [u64; 21],
    pub records: u64,
    pub longest: usize,
    /// Problems with one bit changed, and those of them whose file is the same.
    pub neighbours: [u64; 2],
    pub different: u64,
    pub first: Option<(u64, Vec<String>)>,
}

/// A problem with one bit of one number changed, and whether that number belongs to it.
fn neighbour(draw: &mut Draw, problem: &Problem) -> (Problem, bool) {
    let mut other = problem.clone();
    other.out = LONGEST;
    let slices: Vec<usize> = (0..7).filter(|&slice| !problem.bits[slice].is_empty()).collect();
    let slice = draw.pick(&slices);
    let entry = draw.below(problem.bits[slice].len());
    other.bits[slice][entry] ^= 1 << draw.below(64);
    (other, slice != 3 || problem.kinds[entry] == 2)
}

/// Compares so many calls, and of each file that is written the files of two neighbours.
pub fn problems(writer: &Writer, calls: u64, seed: u64) -> Found {
    let mut found = Found::default();
    for index in 0..calls {
        let (problem, mut draw) = (drawn(seed, index), Draw::new(seed, Op::Step, "pad", index));
        let owed = problem.owed(Slip::None);
        let mut apart = compare(writer, &problem, &owed, &mut draw);
        found.numbers[owed.number as usize] += 1;
        found.records += (owed.file.len() / RECORD) as u64;
        found.longest = found.longest.max(owed.file.len());
        for _ in 0..2 * u64::from(owed.number == 0) {
            let (other, belongs) = neighbour(&mut draw, &problem);
            let others = other.owed(Slip::None);
            apart.extend(compare(writer, &other, &others, &mut draw));
            if others.number == 0 {
                found.neighbours[0] += 1;
                found.neighbours[1] += u64::from(others.file == owed.file);
                if (others.file != owed.file) != belongs {
                    apart.push("one bit is not told".to_string());
                }
            }
        }
        if !apart.is_empty() {
            found.different += 1;
            found.first = found.first.or(Some((index, apart)));
        }
    }
    found
}
