//! A thousand problems, each drawn from its number, and a line for an answer. The tests of this crate hold its answers to the
//! stored lines; `reference` writes those lines from the Rust.

#![allow(dead_code)]

/// How many problems there are.
pub const COUNT: usize = 1000;

/// An operation that both sides have.
#[derive(Debug, Clone, Copy, PartialEq, Eq)]
pub enum Operation {
    Nnls,
    Ldp,
    Lsi,
    Lsei,
    /// A step without bands, whose bounds are open where they are not finite.
    Subproblem,
    /// A step with bands, whose bounds must mean something.
    Problem,
    /// Three updates of B from the identity; then its entries, a product and its factor.
    Hessian,
    Reconcile,
    Suspect,
}

/// Each operation, with how many in a hundred problems are its own.
const SHARES: [(Operation, usize); 9] = [
    (Operation::Nnls, 15),
    (Operation::Ldp, 5),
    (Operation::Lsi, 10),
    (Operation::Lsei, 20),
    (Operation::Subproblem, 20),
    (Operation::Problem, 10),
    (Operation::Hessian, 10),
    (Operation::Reconcile, 5),
    (Operation::Suspect, 5),
];

/// A drawn problem: sizes, slices of numbers and kinds in the order of the C interface.
#[derive(Debug, Clone)]
pub struct Drawn {
    pub operation: Operation,
    pub sizes: Vec<usize>,
    pub inputs: Vec<Vec<f64>>,
    pub kinds: Vec<u8>,
}

/// An answer: its number, a place where there is one, and all numbers and words that come with it.
#[derive(Debug, Clone, PartialEq, Default)]
pub struct Told {
    pub number: u32,
    pub place: Option<u32>,
    pub numbers: Vec<f64>,
    pub words: Vec<u32>,
}

impl Told {
    pub fn refused(number: u32, place: Option<u32>) -> Self {
        Self { number, place, ..Self::default() }
    }

    /// The operation, the number, the place, and a digest of the bits of all that came with them, any NaN for any NaN.
    pub fn line(&self, operation: Operation) -> String {
        let bits = |x: &f64| if x.is_nan() { 0x7ff8_0000_0000_0000 } else { x.to_bits() };
        let words = self.numbers.iter().map(bits).chain(self.words.iter().map(|&word| u64::from(word)));
        let digest = words
            .flat_map(u64::to_le_bytes)
            .fold(0xcbf2_9ce4_8422_2325_u64, |sum, byte| (sum ^ u64::from(byte)).wrapping_mul(0x0000_0100_0000_01b3));
        let place = self.place.map_or("-".to_string(), |place| place.to_string());
        format!("{operation:?} {} {place} {digest:016x}", self.number)
    }
}

/// A stream of numbers.
struct Draw(u64);

impl Draw {
    fn next(&mut self) -> u64 {
        self.0 = self.0.wrapping_add(0x9e37_79b9_7f4a_7c15);
        let mixed = (self.0 ^ (self.0 >> 30)).wrapping_mul(0xbf58_476d_1ce4_e5b9);
        let mixed = (mixed ^ (mixed >> 27)).wrapping_mul(0x94d0_49bb_1331_11eb);
        mixed ^ (mixed >> 31)
    }

    fn below(&mut self, count: usize) -> usize {
        (self.next() % count as u64) as usize
    }

    fn between(&mut self, from: usize, to: usize) -> usize {
        from + self.below(to - from + 1)
    }

    /// A number between -1 and 1.
    fn smooth(&mut self) -> f64 {
        (self.next() >> 11) as f64 / (1_u64 << 52) as f64 - 1.0
    }

    /// A list of numbers: all smooth, or all small and whole, for ties.
    fn list(&mut self, count: usize) -> Vec<f64> {
        let whole = self.below(3) == 0;
        let each = |_| if whole { self.below(7) as f64 - 3.0 } else { 4.0 * self.smooth() };
        (0..count).map(each).collect()
    }

    /// A list of numbers above zero.
    fn positive(&mut self, count: usize) -> Vec<f64> {
        (0..count).map(|_| 0.05 + 10.0 * self.smooth().abs()).collect()
    }

    /// Rows with few entries, 1 and -1, as balances have.
    fn balances(&mut self, rows: usize, columns: usize) -> Vec<f64> {
        let each = |_| [0.0, 0.0, 1.0, -1.0][self.below(4)];
        (0..rows * columns).map(each).collect()
    }

    /// A step's problem of n variables and m constraints, with bands where they are wanted.
    fn step(&mut self, n: usize, m: usize, most: usize) -> (Vec<Vec<f64>>, Vec<u8>) {
        let mut factor = self.list(n * n);
        for i in 0..n {
            factor[i * n + i] = 0.5 + self.smooth().abs();
            factor[i * n + i + 1..(i + 1) * n].fill(0.0);
        }
        let kinds: Vec<u8> = (0..m).map(|_| self.below(most) as u8).collect();
        let widths = self.positive(m);
        let mut sides = |sign: f64, open: f64| -> Vec<f64> {
            (0..n).map(|_| if self.below(3) == 0 { open } else { sign * 3.0 * self.smooth().abs() }).collect()
        };
        let (lower, upper) = (sides(-1.0, f64::NEG_INFINITY), sides(1.0, f64::INFINITY));
        let (gradient, values, jacobian) = (self.list(n), self.list(m), self.list(m * n));
        (vec![factor, gradient, values, widths, jacobian, lower, upper], kinds)
    }
}

/// The operation of a problem's number.
fn operation(index: usize) -> Operation {
    let mut left = index % 100;
    for (operation, share) in SHARES {
        if left < share {
            return operation;
        }
        left -= share;
    }
    unreachable!("the shares are a hundred")
}

/// The problem of a number.
pub fn drawn(index: usize) -> Drawn {
    let operation = operation(index);
    let mut draw = Draw(index as u64);
    let (mut kinds, sizes, inputs);
    kinds = vec![];
    match operation {
        Operation::Nnls => {
            let (m, n) = (draw.between(1, 10), draw.between(1, 12));
            (sizes, inputs) = (vec![m, n, 3 * n], vec![draw.list(m * n), draw.list(m)]);
        }
        Operation::Ldp => {
            let (m, n) = (draw.between(0, 10), draw.between(1, 6));
            (sizes, inputs) = (vec![m, n], vec![draw.list(m * n), draw.list(m)]);
        }
        Operation::Lsi => {
            let (n, me, mg) = (draw.between(1, 6), draw.between(1, 8), draw.between(0, 8));
            let lists = vec![draw.list(me * n), draw.list(me), draw.list(mg * n), draw.list(mg)];
            (sizes, inputs) = (vec![n, me, mg], lists);
        }
        Operation::Lsei => {
            let (n, mc) = (draw.between(2, 8), draw.between(0, 3));
            let (me, mg) = (draw.between(n - 1, 9), draw.between(0, 8));
            let (c, d, e) = (draw.list(mc * n), draw.list(mc), draw.list(me * n));
            let (f, g, h) = (draw.list(me), draw.list(mg * n), draw.list(mg));
            (sizes, inputs) = (vec![n, mc, me, mg], vec![c, d, e, f, g, h]);
        }
        Operation::Subproblem | Operation::Problem => {
            let (n, m) = (draw.between(1, 8), draw.between(0, 6));
            let most = if operation == Operation::Problem { 3 } else { 2 };
            let drawn = draw.step(n, m, most);
            (sizes, inputs, kinds) = (vec![n, m], drawn.0, drawn.1);
        }
        Operation::Hessian => {
            let n = draw.between(1, 10);
            (sizes, inputs) = (vec![n], (0..7).map(|_| draw.list(n)).collect());
        }
        Operation::Reconcile => {
            let (n, m) = (draw.between(2, 12), draw.between(1, 4));
            let readings = |draw: &mut Draw| (0..n).map(|_| draw.below(1_000_000) as f64).collect();
            let (before, after) = (readings(&mut draw), readings(&mut draw));
            (sizes, inputs) = (vec![n, m], vec![before, after, draw.positive(n), draw.balances(m, n)]);
        }
        Operation::Suspect => {
            let (n, m) = (draw.between(2, 12), draw.between(1, 4));
            (sizes, inputs) = (vec![n, m], vec![draw.list(n), draw.positive(n), draw.balances(m, n)]);
            kinds = (0..n).map(|_| u8::from(draw.below(8) == 0)).collect();
        }
    }
    Drawn { operation, sizes, inputs, kinds }
}
