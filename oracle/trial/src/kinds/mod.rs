//! The kinds of calls, by operation.

mod check;
mod day;
mod hessian;
mod lsei;
mod nnls;
mod packed;
mod parts;
mod plain;
mod qr;
mod settle;
mod spoiled;
mod step;
mod strict;
mod suspect;

pub use nnls::{decides, overflow_numbered};

use crate::draw::Draw;
use crate::table::Aim;
use reference::call::Call;
use reference::shape::{OPS, Op};

/// How the calls of a kind are counted out.
#[derive(Debug, Clone, Copy)]
pub enum Share {
    /// All of so many, by index.
    All(u64),
    /// A part of the calls left, by weight.
    Weight(u64),
}

/// A kind of call.
#[derive(Clone, Copy)]
pub struct Kind {
    pub op: Op,
    pub name: &'static str,
    pub share: Share,
    pub aims: &'static [Aim],
    make: fn(Op, u64, &mut Draw) -> Call,
}

impl Kind {
    /// Whether its calls are refused before the arithmetic.
    pub fn is_spoiled(&self) -> bool {
        self.name.contains("bad")
    }

    /// The call of an index.
    pub fn call(&self, seed: u64, index: u64) -> (Call, Draw) {
        let mut draw = Draw::new(seed, self.op, self.name, index);
        let mut call = match self.is_spoiled() {
            true => (self.make)(self.op, index, &mut draw),
            false => packed::make(self.op, self.make, index, &mut draw),
        };
        if call.op.is_lent() && matches!(self.share, Share::Weight(_)) && draw.one_in(4) {
            lengthen(&mut call, &mut draw);
        }
        (call, draw)
    }
}

/// Lends more than is asked, where what is lent suffices.
fn lengthen(call: &mut Call, draw: &mut Draw) {
    if call.work == reference::shape::WORKSPACES {
        call.work = [call.work[0] + draw.below(40), call.work[1] + draw.below(40)];
    }
}

/// A kind's row: its name, share, aims and maker.
type Row = (&'static str, Share, &'static [Aim], fn(Op, u64, &mut Draw) -> Call);

fn kind(op: Op, row: &Row) -> Kind {
    Kind { op, name: row.0, share: row.1, aims: row.2, make: row.3 }
}

/// The rows that are an operation's own.
fn own(op: Op) -> Vec<Row> {
    match op {
        Op::Sqrt => plain::SQRT.to_vec(),
        Op::Sum => plain::LISTS.to_vec(),
        Op::Norm => [&plain::LISTS[..], &plain::NORM].concat(),
        Op::Qr => qr::ROWS.to_vec(),
        Op::Nnls => nnls::ROWS.to_vec(),
        Op::Ldp => lsei::LDP.to_vec(),
        Op::Lsi => lsei::LSI.to_vec(),
        Op::Lsei => lsei::LSEI.to_vec(),
        Op::Identity => hessian::IDENTITY.to_vec(),
        Op::Times => hessian::TIMES.to_vec(),
        Op::Cholesky => hessian::CHOLESKY.to_vec(),
        Op::Update => hessian::UPDATE.to_vec(),
        Op::Step => step::ROWS.to_vec(),
        Op::PackedIdentity => hessian::IDENTITY.to_vec(),
        Op::PackedTimes => hessian::TIMES.to_vec(),
        Op::PackedCholesky => hessian::CHOLESKY.to_vec(),
        Op::PackedUpdate => hessian::UPDATE.to_vec(),
        Op::Reconcile => day::ROWS.to_vec(),
        Op::StrictStep => [&step::ROWS[..], &strict::ROWS].concat(),
        Op::Check => check::ROWS.to_vec(),
        Op::Suspect => suspect::ROWS.to_vec(),
        Op::Settle => settle::ROWS.to_vec(),
        Op::Certify => settle::CERTIFY.to_vec(),
    }
}

/// Every kind of an operation.
pub fn of(op: Op) -> Vec<Kind> {
    let mut rows = own(op);
    if op.is_lent() {
        rows.extend(spoiled::ROWS);
    }
    if op.is_step() {
        rows.extend(spoiled::STEP);
    }
    if op == Op::StrictStep {
        rows.extend(strict::BAD);
    }
    if op == Op::Check {
        rows.extend(spoiled::CHECK);
    }
    if op == Op::Settle {
        rows.extend(spoiled::SETTLE);
    }
    rows.iter().map(|row| kind(op, row)).collect()
}

/// Every kind.
pub fn all() -> Vec<Kind> {
    OPS.into_iter().flat_map(of).collect()
}
