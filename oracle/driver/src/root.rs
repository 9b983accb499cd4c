//! Holds the library's square root against the hardware's, and times both.

use peer::Library;
use reference::shape::Op;
use std::hint::black_box;
use std::time::Instant;
use trial::draw::{Draw, SPECIAL};

/// A sort of patterns: its name and the pattern of an index.
type Sort = (&'static str, fn(u64, &mut Draw) -> u64);

const SORTS: [Sort; 9] = [
    ("specials", |index, _| SPECIAL[(index as usize) % SPECIAL.len()]),
    ("subnormals", |_, draw| draw.bits() >> 12 >> (draw.below(52))),
    ("low ends of binades", |index, draw| ((index % 2047) << 52) + draw.below(64) as u64),
    ("high ends of binades", |index, draw| ((index % 2047 + 1) << 52) - 1 - draw.below(64) as u64),
    ("squares and neighbours", |_, draw| {
        let root = (draw.bits() >> 38 | 1) as f64;
        let square = root * root * draw.power(-1000, 900);
        square.to_bits() + draw.below(5) as u64 - 2
    }),
    ("squares of halfway roots", |_, draw| {
        let root = 1.0 + draw.fraction();
        let half = f64::EPSILON / 2.0;
        let square = root.mul_add(root, 2.0 * root * half);
        (square.to_bits() + draw.below(3) as u64 - 1) + ((draw.below(2000) as u64) << 52)
            - (1000 << 52)
    }),
    ("below zero", |_, draw| draw.bits() | 1 << 63),
    ("numbers above zero", |_, draw| draw.bits() >> 1),
    ("any bits", |_, draw| draw.bits()),
];

/// Compares so many patterns, the same share of each sort, and prints what was found.
pub fn compare(library: &Library, patterns: u64, seed: u64) -> bool {
    let each = patterns.div_ceil(SORTS.len() as u64);
    let mut different = 0;
    for (name, pattern) in SORTS {
        let mut draw = Draw::new(seed, Op::Sqrt, name, 0);
        let mut found = 0u64;
        for index in 0..each {
            let x = f64::from_bits(pattern(index, &mut draw));
            let (owed, root) = (x.sqrt(), unsafe { (library.sqrt)(x) });
            let same = owed.to_bits() == root.to_bits() || (owed.is_nan() && root.is_nan());
            if !same && found == 0 {
                let (x, owed, root) = (x.to_bits(), owed.to_bits(), root.to_bits());
                println!("differs: root of {x:016x}: owed {owed:016x}, found {root:016x}");
            }
            found += u64::from(!same);
        }
        println!("{name:<26}{each:>12} patterns, {found} differ");
        different += found;
    }
    println!("all{:>35} patterns, {different} differ", each * SORTS.len() as u64);
    times(library, seed);
    different == 0
}

/// How calls follow each other: side by side, or each on the answer of the one before.
#[derive(Clone, Copy)]
enum Order {
    SideBySide,
    InTurn,
}

/// Nanoseconds a call, the least of several runs over the same numbers.
fn nanoseconds(numbers: &[f64], order: Order, root: impl Fn(f64) -> f64) -> f64 {
    let mask = black_box(match order {
        Order::SideBySide => None,
        Order::InTurn => Some(0),
    });
    let mut least = f64::INFINITY;
    for _ in 0..15 {
        let start = Instant::now();
        let mut kept = 0u64;
        for &number in numbers {
            kept = match mask {
                None => kept ^ root(black_box(number)).to_bits(),
                Some(mask) => root(f64::from_bits(number.to_bits() ^ (kept & mask))).to_bits(),
            };
        }
        black_box(kept);
        least = least.min(start.elapsed().as_nanos() as f64 / numbers.len() as f64);
    }
    least
}

/// The hardware's root behind a call, as the library's is.
#[inline(never)]
extern "C" fn hardware(x: f64) -> f64 {
    x.sqrt()
}

fn times(library: &Library, seed: u64) {
    for (name, shift) in [("numbers above zero", 1), ("subnormals", 13)] {
        let mut draw = Draw::new(seed, Op::Sqrt, "times", shift);
        let numbers: Vec<f64> = (0..100_000)
            .map(|_| f64::from_bits(draw.bits() >> shift))
            .filter(|number| number.is_finite())
            .collect();
        for (how, order) in
            [("side by side", Order::SideBySide), ("each on the last", Order::InTurn)]
        {
            let own = nanoseconds(&numbers, order, |x| unsafe { (library.sqrt)(x) });
            let called = nanoseconds(&numbers, order, |x| hardware(x));
            let times = own / called;
            println!(
                "{name}, {how}: {own:.1} ns a call, the hardware's {called:.1} ns: {times:.1} times"
            );
        }
    }
}
