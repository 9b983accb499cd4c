//! Finds the library: in the folder, or as the file, that GRITSTRUT_LIB names; where pkg-config says; where this crate was
//! installed beside it; or in the repository that this crate stands in.

use std::env;
use std::path::{Path, PathBuf};
use std::process::Command;

const NAME: &str = "libgritstrut.a";

/// The folder of the library that GRITSTRUT_LIB names.
fn given() -> Option<PathBuf> {
    let path = PathBuf::from(env::var_os("GRITSTRUT_LIB")?);
    let folder = if path.is_dir() { path } else { path.parent()?.to_path_buf() };
    assert!(folder.join(NAME).is_file(), "GRITSTRUT_LIB names no {NAME}");
    Some(folder)
}

/// The folder that pkg-config tells.
fn told() -> Option<PathBuf> {
    let output = Command::new("pkg-config").args(["--variable=libdir", "gritstrut"]).output().ok()?;
    let folder = PathBuf::from(String::from_utf8(output.stdout).ok()?.trim());
    folder.join(NAME).is_file().then_some(folder)
}

/// The folders that this crate may stand beside: PREFIX/lib, from PREFIX/share/gritstrut/rust, and the repository's.
fn beside() -> Option<PathBuf> {
    let here = PathBuf::from(env::var_os("CARGO_MANIFEST_DIR")?);
    let folders = ["../../../lib", "../../target/staticlib"].map(|folder| here.join(Path::new(folder)));
    folders.into_iter().find(|folder| folder.join(NAME).is_file())
}

fn main() {
    println!("cargo::rerun-if-env-changed=GRITSTRUT_LIB");
    println!("cargo::rerun-if-env-changed=PKG_CONFIG_PATH");
    println!("cargo::rerun-if-changed=build.rs");
    let folder = given()
        .or_else(beside)
        .or_else(told)
        .unwrap_or_else(|| panic!("{NAME} is not found: set GRITSTRUT_LIB to its folder, or have pkg-config find gritstrut"));
    let folder = folder.canonicalize().expect("the library's folder");
    println!("cargo::rerun-if-changed={}", folder.join(NAME).display());
    println!("cargo::rustc-link-search=native={}", folder.display());
    println!("cargo::rustc-link-lib=static=gritstrut");
}
