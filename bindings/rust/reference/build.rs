//! Takes the Rust's loop in, with its two imports changed: the step and the approximation of the Hessian come from gritstrut.

use std::path::{Path, PathBuf};
use std::{env, fs};

/// What is changed in the loop's text, and to what.
const CHANGED: [(&str, &str); 4] = [
    ("\nmod hessian;\nmod subproblem;\n", "\n"),
    ("#[cfg(test)]\nmod tests;\n", ""),
    ("use hessian::{Hessian, dot};", "use crate::dot;\nuse gritstrut::Hessian;"),
    ("use subproblem::{Linearization, solve};", "use gritstrut::subproblem::{Linearization, solve};"),
];

/// What the loop leans on, and the Rust files lack: each module, and what stands in for it (oracle/reference).
const STAND_INS: [(&str, &str); 6] = [
    ("stand_in", "gritstrut::ConstraintKind"),
    ("objective", "crate::ground::Objective, crate::stand_in::ConstraintKind"),
    ("counters", "crate::ground::Counters, crate::ground::Halt"),
    ("error", "crate::ground::InvalidInput, crate::ground::MinimizeError"),
    ("outcome", "crate::ground::Converged, crate::ground::Minimize, crate::ground::Termination"),
    (
        "global",
        "crate::ground::DifferentialEvolutionOptions, crate::ground::FireflyOptions, \
         crate::ground::HybridSimulatedAnnealingOptions, crate::ground::ParticleSwarmOptions",
    ),
];

fn main() {
    println!("cargo::rerun-if-env-changed=GRITSTRUT_RUST");
    println!("cargo::rerun-if-changed=build.rs");
    let given = PathBuf::from(env::var_os("GRITSTRUT_RUST").expect("GRITSTRUT_RUST names the folder of the Rust files"));
    let below = ["", "crates/itofin-optimize/src"].map(|below| given.join(below));
    let folder = below.iter().find(|folder| folder.join("slsqp/mod.rs").is_file()).expect("GRITSTRUT_RUST holds slsqp/mod.rs");
    let out = PathBuf::from(env::var_os("OUT_DIR").expect("OUT_DIR"));
    let read = |name: &str| {
        println!("cargo::rerun-if-changed={}", folder.join(name).display());
        fs::read_to_string(folder.join(name)).expect("a Rust file")
    };
    let mut text = read("slsqp/mod.rs");
    for (old, new) in CHANGED {
        assert_eq!(text.matches(old).count(), 1, "{old:?} stands once");
        text = text.replace(old, new);
    }
    fs::write(out.join("slsqp.rs"), text).expect("the loop written");
    let module = |name: &str, path: &Path| format!("#[allow(dead_code)]\n#[path = {path:?}]\nmod {name};\n");
    let mut tree = module("slsqp", &out.join("slsqp.rs"));
    for name in ["finite_difference", "problem"] {
        read(&format!("{name}.rs"));
        tree += &module(name, &folder.join(format!("{name}.rs")).canonicalize().expect("a Rust file"));
    }
    let ground = Path::new(env!("CARGO_MANIFEST_DIR")).join("../../../oracle/reference/src/ground.rs");
    tree += &module("ground", &ground);
    for (name, what) in STAND_INS {
        tree += &format!("#[allow(unused_imports)]\nmod {name} {{\n    pub use {{{what}}};\n}}\n");
    }
    fs::write(out.join("tree.rs"), tree).expect("the module tree");
}
