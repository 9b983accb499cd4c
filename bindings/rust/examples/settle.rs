//! A day that can be signed: four measured volumes around one header, none below zero, with a proved bound on how far they can
//! be from the best, and the tests of the meters against each other. examples/settle.c is the same in C.
//!
//!     cargo run --example settle

use gritstrut::{Day, Failure};

pub fn report() -> Result<String, Failure> {
    let names = ["generator A", "generator B", "vessel 1", "vessel 2"];
    let day = Day {
        values: &[1200.0, 790.0, 1310.0, 700.0],
        spreads: &[10.0, 10.0, 20.0, 5.0],
        balances: &[1.0, 1.0, -1.0, -1.0],
        nonnegative: true,
        ..Day::default()
    };
    let (settled, suspected) = (day.settle()?, day.suspect(&[])?);
    let mut text = format!("{:<12} {:>10} {:>10} {:>8}\n", "meter", "measured", "settled", "test");
    for (i, name) in names.iter().enumerate() {
        let (value, volume, test) = (day.values[i], settled.volumes[i], suspected.tests[i]);
        text += &format!("{name:<12} {value:>10.3} {volume:>10.3} {test:>8.3}\n");
    }
    let word = if suspected.agree { "agree" } else { "disagree" };
    Ok(text + &format!("certain to {:.1e} spreads; the meters {word}\n", settled.bound))
}

#[allow(dead_code)]
fn main() {
    match report() {
        Ok(text) => print!("{text}"),
        Err(failure) => println!("refused {}: {failure}", failure.number()),
    }
}
