//! The public operations: their sizes, and how long each slice is.

use crate::check::{self, VERDICT};
use crate::settle;
use crate::triangle;

/// A public operation.
#[derive(Debug, Clone, Copy, PartialEq, Eq, Hash)]
pub enum Op {
    Sqrt,
    Sum,
    Norm,
    Qr,
    Nnls,
    Ldp,
    Lsi,
    Lsei,
    Identity,
    Times,
    Cholesky,
    Update,
    Step,
    PackedIdentity,
    PackedTimes,
    PackedCholesky,
    PackedUpdate,
    Reconcile,
    StrictStep,
    Check,
    Suspect,
    Settle,
    Certify,
}

/// Every public operation, in the order of the port.
pub const OPS: [Op; 23] = [
    Op::Sqrt,
    Op::Sum,
    Op::Norm,
    Op::Qr,
    Op::Nnls,
    Op::Ldp,
    Op::Lsi,
    Op::Lsei,
    Op::Identity,
    Op::Times,
    Op::Cholesky,
    Op::Update,
    Op::Step,
    Op::PackedIdentity,
    Op::PackedTimes,
    Op::PackedCholesky,
    Op::PackedUpdate,
    Op::Reconcile,
    Op::StrictStep,
    Op::Check,
    Op::Suspect,
    Op::Settle,
    Op::Certify,
];

/// How many f64 and u32 the workspaces hold at least.
pub const WORKSPACES: [usize; 2] = [8192, 512];

/// How many entries a step's report has.
pub const REPORT: usize = 6;

/// The lengths of an operation's slices, each group in the order of the C interface.
#[derive(Debug, Clone, PartialEq, Eq, Default)]
pub struct Lengths {
    /// Slices of f64 that are read, and the readings of a day; the first of `update` is written too;
    /// a tolerance, a slice of one, is the last.
    pub inputs: Vec<usize>,
    /// Kinds of constraints; or which meters stand still.
    pub kinds: usize,
    /// Slices of f64 that are written.
    pub outputs: Vec<usize>,
    /// The slice of u32 that is written: QR's permutation, a step's report, a check's verdict, the
    /// groups of the tests of meters; and of u8, a day's marks.
    pub words: usize,
    /// The second slice of u32 that is written: the marks of the tests of meters.
    pub seconds: usize,
}

impl Op {
    /// The operation's place in the table, from 0.
    pub fn place(self) -> usize {
        self as usize
    }

    /// The number by which the stored list names it; 20 and 21 are a search's two calls.
    pub fn code(self) -> usize {
        match self {
            Op::Suspect => 22,
            Op::Settle => 23,
            Op::Certify => 24,
            _ => self.place(),
        }
    }

    /// The operation of a code.
    pub fn coded(code: usize) -> Option<Op> {
        OPS.into_iter().find(|op| op.code() == code)
    }

    /// The name after `gritstrut_`.
    pub fn name(self) -> &'static str {
        match self {
            Op::Sqrt => "sqrt",
            Op::Sum => "sum",
            Op::Norm => "norm",
            Op::Qr => "qr",
            Op::Nnls => "nnls",
            Op::Ldp => "ldp",
            Op::Lsi => "lsi",
            Op::Lsei => "lsei",
            Op::Identity => "identity",
            Op::Times => "times",
            Op::Cholesky => "cholesky",
            Op::Update => "update",
            Op::Step => "step",
            Op::PackedIdentity => "packed_identity",
            Op::PackedTimes => "packed_times",
            Op::PackedCholesky => "packed_cholesky",
            Op::PackedUpdate => "packed_update",
            Op::Reconcile => "reconcile",
            Op::StrictStep => "strict_step",
            Op::Check => "check",
            Op::Suspect => "suspect",
            Op::Settle => "settle",
            Op::Certify => "certify",
        }
    }

    /// The operation of a name.
    pub fn named(name: &str) -> Option<Op> {
        OPS.into_iter().find(|op| op.name() == name)
    }

    /// The operation on the square B that one on its lower triangle agrees with.
    pub fn square(self) -> Option<Op> {
        match self {
            Op::PackedIdentity => Some(Op::Identity),
            Op::PackedTimes => Some(Op::Times),
            Op::PackedCholesky => Some(Op::Cholesky),
            Op::PackedUpdate => Some(Op::Update),
            _ => None,
        }
    }

    /// Whether it is the step or the strict step.
    pub fn is_step(self) -> bool {
        matches!(self, Op::Step | Op::StrictStep)
    }

    /// Whether the first input is written too.
    pub fn is_update(self) -> bool {
        matches!(self, Op::Update | Op::PackedUpdate)
    }

    /// Where among the inputs its tolerance stands, as a slice of one.
    pub fn tolerance(self) -> Option<usize> {
        match self {
            Op::Check => Some(check::TOLERANCE),
            Op::Settle => Some(settle::TOLERANCE),
            _ => None,
        }
    }

    /// Whether constraints have kinds and widths.
    pub fn has_kinds(self) -> bool {
        self.is_step() || self == Op::Check
    }

    /// Whether the operation has sizes, refusals and workspaces: all but part 1.
    pub fn is_lent(self) -> bool {
        !matches!(self, Op::Sqrt | Op::Sum | Op::Norm)
    }

    /// From where to where each size may go, in the order of the C interface. The limit of
    /// NNLS's last one is for the most columns: see `sizes_fit`.
    pub fn sizes(self) -> &'static [(usize, usize)] {
        match self {
            Op::Sqrt | Op::Sum | Op::Norm => &[],
            Op::Qr => &[(0, 18), (0, 66)],
            Op::Nnls => &[(0, 18), (0, 66), (0, 198)],
            Op::Ldp => &[(0, 66), (0, 17)],
            Op::Lsi => &[(0, 17), (0, 17), (0, 66)],
            Op::Lsei => &[(0, 17), (0, 16), (0, 17), (0, 66)],
            Op::Identity | Op::Times | Op::Cholesky | Op::Update => &[(1, 16)],
            Op::PackedIdentity | Op::PackedTimes | Op::PackedCholesky | Op::PackedUpdate => {
                &[(1, 16)]
            }
            Op::Step | Op::StrictStep | Op::Check => &[(1, 16), (0, 16)],
            Op::Reconcile | Op::Suspect => &[(0, 16), (0, 16)],
            Op::Settle | Op::Certify => &[(0, 16), (0, 16), (0, 48)],
        }
    }

    /// Whether the sizes are those of the rules' table.
    pub fn sizes_fit(self, sizes: &[usize]) -> bool {
        let mut ranges = self.sizes().iter().zip(sizes);
        let within = ranges.all(|(&(from, to), &size)| from <= size && size <= to);
        within && (self != Op::Nnls || sizes[2] <= 3 * sizes[1])
    }

    /// The lengths that fitting sizes ask for; for `sum` and `norm` none is asked.
    pub fn lengths(self, sizes: &[usize]) -> Lengths {
        let size = |i: usize| sizes.get(i).copied().unwrap_or(0);
        let (first, second, third, fourth) = (size(0), size(1), size(2), size(3));
        let (inputs, outputs) = match self {
            Op::Sqrt | Op::Sum | Op::Norm => (vec![], vec![]),
            Op::Qr => {
                let steps = first.min(second);
                (vec![first * second], vec![first * second, steps * first, steps])
            }
            Op::Nnls => (vec![first * second, first], vec![second]),
            Op::Ldp => (vec![first * second, first], vec![second, first]),
            Op::Lsi => {
                let inputs = vec![second * first, second, third * first, third];
                (inputs, vec![first, third])
            }
            Op::Lsei => {
                let (n, mc, me, mg) = (first, second, third, fourth);
                (vec![mc * n, mc, me * n, me, mg * n, mg], vec![n, mc + mg])
            }
            Op::Identity => (vec![], vec![first * first]),
            Op::Times => (vec![first * first, first], vec![first]),
            Op::Cholesky => (vec![first * first], vec![first * first]),
            Op::Update => (vec![first * first, first, first], vec![]),
            Op::PackedIdentity => (vec![], vec![triangle::count(first)]),
            Op::PackedTimes => (vec![triangle::count(first), first], vec![first]),
            Op::PackedCholesky => (vec![triangle::count(first)], vec![first * first]),
            Op::PackedUpdate => (vec![triangle::count(first), first, first], vec![]),
            Op::Step | Op::StrictStep => {
                let (n, m) = (first, second);
                (vec![n * n, n, m, m, m * n, n, n], vec![n, m])
            }
            Op::Reconcile => (vec![first, first, first, second * first], vec![first]),
            Op::Suspect => (vec![first, first, second * first], vec![3 * first]),
            Op::Settle => {
                let (n, m, p) = (first, second, third);
                (vec![n, n, m * n, p * n, p, 1], vec![n, m + p])
            }
            Op::Certify => {
                let (n, m, p) = (first, second, third);
                (vec![n, n, m * n, p * n, p, n, m + p], vec![])
            }
            Op::Check => {
                let (n, m) = (first, second);
                (vec![n * n, n, m, m, m * n, n, n, n, m, n, n, 1], vec![])
            }
        };
        let kinds = match self {
            Op::Suspect => first,
            _ if self.has_kinds() => second,
            _ => 0,
        };
        let words = match self {
            Op::Qr => second,
            Op::Step | Op::StrictStep => REPORT,
            Op::Reconcile | Op::Suspect => first,
            Op::Check => VERDICT,
            _ => 0,
        };
        let seconds = if self == Op::Suspect { first } else { 0 };
        Lengths { inputs, kinds, outputs, words, seconds }
    }
}
