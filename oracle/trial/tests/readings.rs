//! Tries the reading of record files: every slip in it is told by some drawn file.

use trial::files::{KINDS, file};
use trial::records::{SLIPS, Slip, owed};

#[test]
fn every_slip_is_told() {
    let files: Vec<Vec<u8>> = (0..400)
        .flat_map(|index| KINDS.iter().map(move |(kind, _)| file(1, kind, index)))
        .collect();
    let sound: Vec<String> = files.iter().map(|bytes| owed(bytes, Slip::None).0).collect();
    for slip in SLIPS {
        let told = files.iter().zip(&sound).any(|(bytes, text)| owed(bytes, slip).0 != *text);
        assert!(told, "{slip:?}");
    }
}
