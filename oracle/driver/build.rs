//! Links the library under test, if one is given, and says which operations it holds.

use std::env;
use std::fs;
use std::path::Path;

/// The environment variable that names the static library under test.
const LIBRARY: &str = "GRITSTRUT_LIBRARY";

/// The C interface's names after `gritstrut_`.
const NAMES: [&str; 26] = [
    "sqrt",
    "sum",
    "norm",
    "qr",
    "nnls",
    "ldp",
    "lsi",
    "lsei",
    "identity",
    "times",
    "cholesky",
    "update",
    "step",
    "packed_identity",
    "packed_times",
    "packed_cholesky",
    "packed_update",
    "reconcile",
    "strict_step",
    "check",
    "write_problem",
    "search_begin",
    "search_tell",
    "suspect",
    "settle",
    "certify",
];

fn main() {
    println!("cargo::rerun-if-env-changed={LIBRARY}");
    println!("cargo::rerun-if-changed=build.rs");
    let values: Vec<String> = NAMES.iter().map(|name| format!("\"gritstrut_{name}\"")).collect();
    println!("cargo::rustc-check-cfg=cfg(linked, values({}))", values.join(", "));
    let Some(given) = env::var_os(LIBRARY) else {
        println!("cargo::rustc-env=LIBRARY=none");
        return;
    };
    let path = fs::canonicalize(Path::new(&given))
        .unwrap_or_else(|error| panic!("{LIBRARY}: {}: {error}", given.display()));
    println!("cargo::rerun-if-changed={}", path.display());
    println!("cargo::rustc-link-arg-bins={}", path.display());
    println!("cargo::rustc-env=LIBRARY={}", path.display());
    let archive = fs::read(&path).expect("the library");
    let symbols = symbols(&archive);
    for name in NAMES.iter().map(|name| format!("gritstrut_{name}")) {
        if symbols.contains(&name) {
            println!("cargo::rustc-cfg=linked=\"{name}\"");
        }
    }
}

/// The symbols that an archive's index names: a big-endian count, so many offsets, then names
/// that each end in a zero byte.
fn symbols(archive: &[u8]) -> Vec<String> {
    let is_archive = archive.starts_with(b"!<arch>\n/ ");
    assert!(is_archive, "{LIBRARY} is no archive with an index of symbols");
    let size = String::from_utf8_lossy(&archive[8 + 48..8 + 58]);
    let size: usize = size.trim().parse().expect("the index's size");
    let index = &archive[68..68 + size];
    let count = u32::from_be_bytes(index[..4].try_into().expect("four bytes")) as usize;
    let names = index[4 + 4 * count..].split(|&byte| byte == 0);
    names.take(count).map(|name| String::from_utf8_lossy(name).into_owned()).collect()
}
