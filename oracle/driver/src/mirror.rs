//! B after sequences of resets and updates: held against its mirror, the Rust's and the library's;
//! and the library's B as its lower triangle held against the Rust's square.

use crate::arguments::Arguments;
use crate::linked::linked;
use peer::{Library, library};
use reference::Rust;
use reference::call::Sound;
use reference::shape::Op;
use trial::sequences::{Agreed, Mirrored, agree, mirrors};

/// Runs the sequences through one library and says what was counted: whether nothing is apart.
fn show(name: &str, library: &Library, sequences: u64, seed: u64) -> bool {
    let Mirrored {
        resets,
        updates: [moved, left],
        refused,
        numbers,
        pairs,
        nans,
        apart,
        first,
        ..
    } = mirrors(library, sequences, seed);
    println!("{name}: seed {seed}, {sequences} sequences from the identity, of every dimension");
    println!(
        "    resets {resets}; updates {moved} that changed B, {left} that left it; refused {refused}"
    );
    println!("    other numbers than asked for: {numbers}");
    println!("    pairs of entries {pairs}, of them NaN {nans}; apart: {apart}");
    if let Some(index) = first {
        println!("    first in sequence {index}");
    }
    apart == 0 && numbers == 0
}

/// Compares B with its mirror, by the Rust and by the library under test.
pub fn compare(arguments: &Arguments) -> Result<bool, String> {
    let sequences = arguments.value("sequences", 100_000)?;
    let seed = arguments.value("seed", 1)?;
    let (under_test, own) = linked();
    let mut equal = show("the Rust", &library::<Rust, Sound>(), sequences, seed);
    if own.contains(&Op::Update) {
        equal &= show("the library", &under_test, sequences, seed);
    }
    Ok(equal)
}

/// Compares the library's B as its lower triangle with the Rust's square.
pub fn packed(arguments: &Arguments) -> Result<bool, String> {
    let sequences = arguments.value("sequences", 20_000)?;
    let seed = arguments.value("seed", 1)?;
    let (under_test, own) = linked();
    let whose = if own.contains(&Op::PackedUpdate) { "the library" } else { "the peer" };
    let Agreed { events, refused, entries, apart, numbers, first } =
        agree(&library::<Rust, Sound>(), &under_test, sequences, seed);
    println!("{whose}: seed {seed}, {sequences} sequences from the identity, of every dimension");
    println!("    events {events}, after each a product and a factor, {refused} factors refused");
    println!("    entries {entries}; apart: {apart}; numbers apart: {numbers}");
    if let Some(index) = first {
        println!("    first in sequence {index}");
    }
    Ok(apart == 0 && numbers == 0 && first.is_none())
}
