//! Takes the Rust files in by path, as they are, and links the library; and NLopt where it is.

use std::path::Path;
use std::process::Command;
use std::{env, fs};

const FILES: [(&str, &[&str]); 2] =
    [("lsq", &["householder", "nnls", "lsei"]), ("slsqp", &["hessian", "subproblem"])];

fn given(name: &str) -> String {
    println!("cargo::rerun-if-env-changed={name}");
    env::var(name).unwrap_or_else(|_| panic!("set {name}: see bench/README.md"))
}

/// The search's loop, with its own copy of what stands below it.
const LOOP: [(&str, &str); 3] =
    [("looped", "slsqp/mod.rs"), ("finite_difference", "finite_difference.rs"), ("problem", "problem.rs")];

/// The Rust files as modules.
fn tree(folder: &Path) -> String {
    let mut tree = String::new();
    for (name, what) in gather::STAND_INS {
        tree += &format!("#[allow(unused_imports)]\nmod {name} {{ pub use reference::{{{what}}}; }}\n");
    }
    for (name, file) in LOOP {
        let path = folder.join(file);
        println!("cargo::rerun-if-changed={}", path.display());
        tree += &format!("#[allow(dead_code)]\n#[path = {path:?}]\nmod {name};\n");
    }
    for (parent, names) in FILES {
        tree += &format!("#[allow(dead_code, unused_imports)]\nmod {parent} {{\n");
        tree += "pub(crate) use reference::stand_in::{Failure, MatRef, norm};\n";
        for name in names {
            let path = folder.join(parent).join(format!("{name}.rs"));
            println!("cargo::rerun-if-changed={}", path.display());
            tree += &format!("#[path = {path:?}]\npub(crate) mod {name};\n");
        }
        tree += "}\n";
    }
    tree
}

/// Compiles nlopt.c over the folder of NLopt's source and has it linked.
fn nlopt(out: &Path) {
    println!("cargo::rustc-check-cfg=cfg(nlopt)");
    println!("cargo::rerun-if-env-changed=GRITSTRUT_NLOPT");
    println!("cargo::rerun-if-changed=nlopt.c");
    let Ok(folder) = env::var("GRITSTRUT_NLOPT") else { return };
    let source = fs::canonicalize(folder).expect("the folder of NLopt's source").join("src");
    // NLopt's own build writes this header; what the benchmark calls needs nothing from it.
    fs::write(out.join("nlopt_config.h"), "").expect("an empty nlopt_config.h");
    let object = out.join("nlopt.o");
    let compiler = env::var("CC").unwrap_or_else(|_| "cc".into());
    let done = Command::new(compiler)
        .args(["-std=gnu11", "-O3", "-w", "-fPIC", "-ffunction-sections", "-c", "nlopt.c", "-o"])
        .arg(&object)
        .arg(format!("-DNLOPT_SLSQP={:?}", source.join("algs/slsqp/slsqp.c")))
        .args(["api", "util"].map(|below| format!("-I{}", source.join(below).display())))
        .arg(format!("-I{}", out.display()))
        .status();
    assert!(done.is_ok_and(|status| status.success()), "nlopt.c does not compile");
    println!("cargo::rustc-link-arg-bins={}", object.display());
    println!("cargo::rustc-link-arg-bins=-lm");
    println!("cargo::rustc-cfg=nlopt");
}

fn main() {
    let folder = Path::new(&given("GRITSTRUT_RUST")).join("crates/itofin-optimize/src");
    let out = env::var("OUT_DIR").expect("OUT_DIR");
    let out = Path::new(&out);
    fs::write(out.join("tree.rs"), tree(&folder)).expect("the module tree");
    let library = fs::canonicalize(given("GRITSTRUT_LIBRARY")).expect("the library");
    println!("cargo::rerun-if-changed={}", library.display());
    println!("cargo::rustc-link-arg-bins={}", library.display());
    nlopt(out);
}
