//! The reports of the stored sheets are the stored reports, byte for byte. Where the crate stands alone there are none.

use std::fs;
use std::path::{Path, PathBuf};

use gritstrut::report::{Report, Verdict};

/// The sheets of the repository's examples.
fn sheets() -> Vec<PathBuf> {
    let folder = Path::new(env!("CARGO_MANIFEST_DIR")).join("../../examples");
    let files = fs::read_dir(folder).into_iter().flatten().map(|entry| entry.expect("an entry").path());
    files.filter(|path| path.extension().is_some_and(|end| end == "sheet")).collect()
}

#[test]
fn stored_reports() {
    let sheets = sheets();
    assert!(sheets.len() >= 6 || !Path::new(env!("CARGO_MANIFEST_DIR")).join("../../examples").exists());
    for path in sheets {
        let (sheet, owed) = (fs::read(&path).unwrap(), fs::read(path.with_extension("report")).unwrap());
        let report = gritstrut::report(&sheet);
        assert!(report.bytes() == owed, "{}:\n{}", path.display(), report.text());
        assert_eq!(report.sheet(), Some(&sheet[..]), "{}", path.display());
        assert_eq!(report, Report::stored(owed));
        let owed = match path.file_stem().and_then(|name| name.to_str()) {
            Some("header" | "pinned" | "plant") => Verdict::Closes,
            Some("plant-frozen" | "plant-stuck") => Verdict::Disagrees,
            Some("twice") => Verdict::NotCertain,
            _ => continue,
        };
        assert_eq!(report.verdict(), owed, "{}", path.display());
    }
}

#[test]
fn refusals() {
    for (sheet, line) in [
        (vec![], "refused 9: line 1: expected "),
        (vec![b'#'; 65_537], "refused 9: expected a sheet of at most 65536 bytes"),
        (b"title t\nmeter a 0 1 1\nbalance b a = a\n".to_vec(), "refused 9: line 3: expected "),
    ] {
        let report = gritstrut::report(&sheet);
        assert!(report.first_line().starts_with(line.as_bytes()), "{}", report.text());
        assert_eq!((report.verdict(), report.sheet()), (Verdict::Refused { number: 9 }, None));
        assert_eq!(report.verdict().status(), 2);
    }
}
