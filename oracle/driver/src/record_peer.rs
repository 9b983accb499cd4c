//! A record program over the Rust files, to try the comparison of record programs with.

use std::io::{self, Read, Write};
use trial::records::{Slip, owed};

fn main() -> io::Result<()> {
    let mut bytes = vec![];
    io::stdin().read_to_end(&mut bytes)?;
    io::stdout().write_all(owed(&bytes, Slip::None).0.as_bytes())
}
