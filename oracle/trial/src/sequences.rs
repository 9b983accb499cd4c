//! Sequences of resets and updates of B from the identity: whether B stays its own mirror, and
//! whether B as its lower triangle agrees with the square.

use crate::draw::{Draw, Palette};
use peer::Library;
use reference::shape::{Op, WORKSPACES};
use reference::triangle;

/// What happens to B.
#[derive(Debug, Clone)]
pub enum Event {
    Reset,
    Update {
        s: Vec<f64>,
        y: Vec<f64>,
    },
    /// A reset that is refused with a number, 1, 2 or 3.
    RefusedReset(u32),
    /// An update that is refused with a number, 1, 2 or 3.
    RefusedUpdate(u32),
}

/// Events on a B of a dimension, from the identity on.
#[derive(Debug, Clone)]
pub struct Sequence {
    pub n: usize,
    pub events: Vec<Event>,
}

/// Where the vectors of an update are drawn from, beside the palettes.
const PALETTES: [Palette; 7] = [
    Palette::Smooth,
    Palette::Whole,
    Palette::Signs,
    Palette::Wide,
    Palette::Vast,
    Palette::Special,
    Palette::Bits,
];

/// A vector: zero, tiny, huge, ordinary with one special entry, or of a palette.
fn vector(draw: &mut Draw, n: usize) -> Vec<f64> {
    match draw.below(12) {
        0 => vec![draw.pick(&[0.0, -0.0]); n],
        1 => (0..n).map(|_| draw.smooth() * 2f64.powi(-560)).collect(),
        2 => (0..n).map(|_| draw.smooth() * 2f64.powi(560)).collect(),
        3 | 4 => {
            let mut ordinary = draw.reals(Palette::Smooth, n);
            let place = draw.below(n);
            ordinary[place] = draw.real(Palette::Special);
            ordinary
        }
        _ => {
            let palette = draw.pick(&PALETTES);
            draw.reals(palette, n)
        }
    }
}

/// An update as an optimizer makes it: s of one scale, and y = D s with some noise, D above zero.
fn ordinary(draw: &mut Draw, n: usize) -> Event {
    let scale = draw.power(-20, 20);
    let s: Vec<f64> = (0..n).map(|_| draw.smooth() * scale).collect();
    let noise = draw.pick(&[0.0, 0.1, 2.0]);
    let y = s.iter().map(|s| s * draw.fraction() * 4.0 + noise * scale * draw.smooth()).collect();
    Event::Update { s, y }
}

/// The sequence of an index: dimensions in turn; half of them of ordinary updates alone.
pub fn sequence(seed: u64, index: u64) -> Sequence {
    let mut draw = Draw::new(seed, Op::Update, "sequence", index);
    let n = 1 + (index % 16) as usize;
    let tame = draw.one_in(2);
    let one = |draw: &mut Draw| match draw.below(12) {
        0 => Event::Reset,
        1 => Event::RefusedReset(draw.pick(&[1, 2, 3])),
        2 => Event::RefusedUpdate(draw.pick(&[1, 2, 3])),
        _ if tame || draw.one_in(2) => ordinary(draw, n),
        _ => Event::Update { s: vector(draw, n), y: vector(draw, n) },
    };
    let count = draw.between(1, 14);
    Sequence { n, events: (0..count).map(|_| one(&mut draw)).collect() }
}

/// How B is kept.
#[derive(Debug, Clone, Copy, PartialEq, Eq)]
pub enum Form {
    Square,
    Packed,
}

/// The workspaces that each call is lent.
pub struct Room {
    w: Vec<f64>,
    iw: Vec<u32>,
}

impl Default for Room {
    fn default() -> Self {
        Self { w: vec![0.0; WORKSPACES[0]], iw: vec![0; WORKSPACES[1]] }
    }
}

impl Room {
    /// Makes an event happen to B, through the library: the number of its call.
    pub fn happen(
        &mut self,
        (library, form): (&Library, Form),
        n: usize,
        b: &mut [f64],
        event: &Event,
    ) -> u32 {
        let (identity, update) = match form {
            Form::Square => (library.identity, library.update),
            Form::Packed => (library.packed_identity, library.packed_update),
        };
        let none = vec![0.0; n];
        let (reset, refusal, s, y) = match event {
            Event::Reset => (true, 0, &none, &none),
            Event::Update { s, y } => (false, 0, s, y),
            Event::RefusedReset(number) => (true, *number, &none, &none),
            Event::RefusedUpdate(number) => (false, *number, &none, &none),
        };
        let size = if refusal == 1 { n + 16 } else { n };
        let length = if refusal == 2 { b.len() - 1 } else { b.len() };
        let room = if refusal == 3 { WORKSPACES[0] - 1 } else { WORKSPACES[0] };
        let (w, iw) = (self.w.as_mut_ptr(), self.iw.as_mut_ptr());
        let (b, words) = (b.as_mut_ptr(), WORKSPACES[1]);
        unsafe {
            if reset {
                identity(size, b, length, w, room, iw, words)
            } else {
                update(size, b, length, s.as_ptr(), n, y.as_ptr(), n, w, room, iw, words)
            }
        }
    }
}

impl Room {
    /// The product with a vector and the factor of B: their numbers and what they wrote.
    fn answers(
        &mut self,
        (library, form): (&Library, Form),
        n: usize,
        b: &[f64],
        v: &[f64],
    ) -> ([u32; 2], Vec<f64>) {
        let (times, cholesky) = match form {
            Form::Square => (library.times, library.cholesky),
            Form::Packed => (library.packed_times, library.packed_cholesky),
        };
        let (mut out, mut l) = (vec![-1.0; n], vec![-1.0; n * n]);
        let (w, iw) = (self.w.as_mut_ptr(), self.iw.as_mut_ptr());
        let (rooms, data, len) = (WORKSPACES, b.as_ptr(), b.len());
        let numbers = unsafe {
            [
                times(n, data, len, v.as_ptr(), n, out.as_mut_ptr(), n, w, rooms[0], iw, rooms[1]),
                cholesky(n, data, len, l.as_mut_ptr(), n * n, w, rooms[0], iw, rooms[1]),
            ]
        };
        out.extend(l);
        (numbers, out)
    }
}

/// What was counted where the two forms of B were compared.
#[derive(Debug, Clone, Copy, Default)]
pub struct Agreed {
    pub events: u64,
    /// Factors that were refused by both.
    pub refused: u64,
    /// Entries of B, of products and of factors, and how many of them are apart; numbers apart.
    pub entries: u64,
    pub apart: u64,
    pub numbers: u64,
    /// The first sequence with a difference.
    pub first: Option<u64>,
}

impl Agreed {
    fn entries(&mut self, owed: &[f64], found: &[f64], index: u64) {
        let apart = owed.iter().zip(found).filter(|(owed, found)| !same(**owed, **found)).count();
        self.entries += owed.len() as u64;
        self.apart += apart as u64;
        if apart > 0 || owed.len() != found.len() {
            self.first.get_or_insert(index);
        }
    }

    fn numbers(&mut self, owed: &[u32], found: &[u32], index: u64) {
        if owed != found {
            self.numbers += 1;
            self.first.get_or_insert(index);
        }
    }
}

/// Runs sequences on the square B of one library and on the triangle of another: after each event
/// the triangle must be the square's, and product and factor must answer alike.
pub fn agree(square: &Library, packed: &Library, sequences: u64, seed: u64) -> Agreed {
    let mut counts = Agreed::default();
    let mut room = Room::default();
    let (one, other) = ((square, Form::Square), (packed, Form::Packed));
    for index in 0..sequences {
        let Sequence { n, events } = sequence(seed, index);
        let mut draw = Draw::new(seed, Op::Times, "sequence", index);
        let (mut b, mut p) = (vec![f64::NAN; n * n], vec![f64::NAN; triangle::count(n)]);
        for event in std::iter::once(&Event::Reset).chain(&events) {
            let owed = room.happen(one, n, &mut b, event);
            let found = room.happen(other, n, &mut p, event);
            counts.events += 1;
            counts.numbers(&[owed], &[found], index);
            counts.entries(&triangle::packed(n, &b), &p, index);
            let v = vector(&mut draw, n);
            let (owed, found) = (room.answers(one, n, &b, &v), room.answers(other, n, &p, &v));
            counts.refused += u64::from(owed.0[1] != 0);
            counts.numbers(&owed.0, &found.0, index);
            counts.entries(&owed.1, &found.1, index);
        }
    }
    counts
}

/// What was counted over some sequences.
#[derive(Debug, Clone, Copy, Default)]
pub struct Mirrored {
    pub sequences: u64,
    pub resets: u64,
    /// Updates that changed B, that left it, and resets and updates that were refused.
    pub updates: [u64; 2],
    pub refused: u64,
    /// Numbers that are not the one that the event asks for.
    pub numbers: u64,
    /// Pairs of entries (i, j) and (j, i), how many of them are NaN, and how many are apart.
    pub pairs: u64,
    pub nans: u64,
    pub apart: u64,
    /// The first sequence with a pair apart.
    pub first: Option<u64>,
}

/// Whether two entries have the same bits, or are both NaN.
pub fn same(a: f64, b: f64) -> bool {
    a.to_bits() == b.to_bits() || (a.is_nan() && b.is_nan())
}

impl Mirrored {
    /// Counts the pairs of an n by n matrix.
    fn compare(&mut self, n: usize, b: &[f64], index: u64) {
        for i in 0..n {
            for j in 0..i {
                let (below, above) = (b[i * n + j], b[j * n + i]);
                self.pairs += 1;
                self.nans += u64::from(below.is_nan() && above.is_nan());
                if !same(below, above) {
                    self.apart += 1;
                    self.first.get_or_insert(index);
                }
            }
        }
    }

    /// Counts an event by its number and by whether it left B.
    fn event(&mut self, event: &Event, number: u32, left: bool) {
        let asked = match event {
            Event::Reset | Event::Update { .. } => 0,
            Event::RefusedReset(asked) | Event::RefusedUpdate(asked) => *asked,
        };
        self.numbers += u64::from(number != asked || (asked != 0 && !left));
        match event {
            Event::Reset => self.resets += 1,
            Event::Update { .. } => self.updates[usize::from(left)] += 1,
            _ => self.refused += 1,
        }
    }
}

/// Runs sequences through a library, and compares B with its mirror after each event.
pub fn mirrors(library: &Library, sequences: u64, seed: u64) -> Mirrored {
    let mut counts = Mirrored { sequences, ..Mirrored::default() };
    let mut room = Room::default();
    for index in 0..sequences {
        let Sequence { n, events } = sequence(seed, index);
        let mut b = vec![f64::NAN; n * n];
        let kept = (library, Form::Square);
        room.happen(kept, n, &mut b, &Event::Reset);
        counts.compare(n, &b, index);
        for event in &events {
            let before: Vec<u64> = b.iter().map(|entry| entry.to_bits()).collect();
            let number = room.happen(kept, n, &mut b, event);
            let left = b.iter().zip(&before).all(|(now, before)| now.to_bits() == *before);
            counts.event(event, number, left);
            counts.compare(n, &b, index);
        }
    }
    counts
}
