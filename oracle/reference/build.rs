//! Takes the Rust files in, from the folder that is given.

use std::fs;

fn main() {
    let out = gather::out();
    let sources = gather::gather();
    let modules = gather::tree(&sources, &out.join("rust"), "crate", gather::NORM);
    let plain = gather::tree(&sources, &out.join("plain"), "crate::plain", gather::PLAIN);
    let modules = format!("{modules}#[allow(clippy::duplicate_mod)]\nmod plain {{\n{plain}}}\n");
    fs::write(out.join("tree.rs"), modules).expect("the module tree written");
    println!("cargo::rerun-if-changed=build.rs");
    let rustc = std::env::var("RUSTC").expect("RUSTC");
    let version = std::process::Command::new(rustc).arg("--version").output();
    let version = version.expect("the toolchain's version").stdout;
    let version = String::from_utf8_lossy(&version);
    println!("cargo::rustc-env=TOOLCHAIN={}", version.trim());
}
