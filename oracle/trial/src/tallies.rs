//! Sequences of steps on one tally.

use crate::draw::Draw;
use crate::held::{Junk, compare_on};
use crate::kinds::{self, Share};
use peer::Library;
use reference::Rust;
use reference::call::{Sound, answer};
use reference::shape::Op;

/// Steps of a sequence.
const STEPS: usize = 12;

/// What sequences were found to do.
#[derive(Debug, Default, PartialEq)]
pub struct Tallied {
    pub steps: u64,
    /// Steps that the arithmetic refused, and those that a test before it refused.
    pub refused: [u64; 2],
    /// Steps of which a relaxed problem was tried.
    pub relaxed: u64,
    /// Steps after which a count stood at its largest value.
    pub ended: u64,
    /// Steps that left something else than is owed, the tally among it.
    pub different: u64,
    /// The first sequence with one.
    pub first: Option<u64>,
}

/// Runs sequences of steps of every kind, each on one tally, from none or from near the end of the
/// range.
pub fn tallies(library: &Library, sequences: u64, seed: u64) -> Tallied {
    let (kinds, junk) = (kinds::of(Op::Step), Junk::new(seed));
    let mut found = Tallied::default();
    for sequence in 0..sequences {
        let mut draw = Draw::new(seed, Op::Step, "tally", sequence);
        let mut tally = match sequence % 2 {
            0 => [0; 2],
            _ => [0, 1].map(|_| u64::MAX - draw.below(300) as u64),
        };
        for _ in 0..STEPS {
            let kind = &kinds[draw.below(kinds.len())];
            let most = match kind.share {
                Share::All(count) => count as usize,
                Share::Weight(_) => 1 << 20,
            };
            let (call, _) = kind.call(seed, draw.below(most) as u64);
            let owed = answer::<Rust, Sound>(&call);
            let apart = compare_on(&mut tally, library, &call, &owed, &junk, &mut draw);
            found.steps += 1;
            found.refused[0] += u64::from(owed.number != 0 && owed.spent.is_some());
            found.refused[1] += u64::from(owed.spent.is_none());
            found.relaxed += u64::from(owed.tally.relaxed > 0);
            found.ended += u64::from(tally.contains(&u64::MAX));
            if !apart.is_empty() {
                found.different += 1;
                found.first = found.first.or(Some(sequence));
            }
        }
    }
    found
}
