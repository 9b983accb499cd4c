//! Reads the Rust files out of the folder that is given and adds the lines by which a run is
//! counted, refusals are told apart and private fields are read. The arithmetic stays the text as published.

use std::env;
use std::fs;
use std::path::{Path, PathBuf};

/// The environment variable that names the folder of the Rust files.
pub const FOLDER: &str = "GRITSTRUT_RUST";

/// The Rust files, with the module of each.
const FILES: [(&str, &str); 8] = [
    ("lsq", "householder"),
    ("lsq", "nnls"),
    ("lsq", "lsei"),
    ("slsqp", "hessian"),
    ("slsqp", "subproblem"),
    ("slsqp", "mod"),
    ("", "finite_difference"),
    ("", "problem"),
];

/// What the Rust files lean on, and the documents lack: each module, and what stands in for it.
pub const STAND_INS: [(&str, &str); 5] = [
    ("objective", "stand_in::ConstraintKind, ground::Objective"),
    ("counters", "ground::Counters, ground::Halt"),
    ("error", "ground::InvalidInput, ground::MinimizeError"),
    ("outcome", "ground::Converged, ground::Minimize, ground::Termination"),
    (
        "global",
        "ground::DifferentialEvolutionOptions, ground::FireflyOptions, \
         ground::HybridSimulatedAnnealingOptions, ground::ParticleSwarmOptions",
    ),
];

/// The norm of docs/RULES.md, and the plain one.
pub const NORM: &str = "reference::stand_in::norm";
pub const PLAIN: &str = "reference::stand_in::plain_norm as norm";

/// Where the sources may stand below the folder that is given.
const BELOW: [&str; 2] = ["", "crates/itofin-optimize/src"];

/// One file: its module, its name and its text.
#[derive(Clone)]
pub struct Source {
    pub parent: &'static str,
    pub name: &'static str,
    pub text: String,
}

/// Reads every file of the folder in the environment, with the counting lines added.
pub fn gather() -> Vec<Source> {
    println!("cargo::rerun-if-env-changed={FOLDER}");
    let given = env::var_os(FOLDER)
        .unwrap_or_else(|| panic!("set {FOLDER} to the folder of the Rust files"));
    let root = root(Path::new(&given));
    FILES
        .iter()
        .map(|&(parent, name)| {
            let path = root.join(parent).join(format!("{name}.rs"));
            println!("cargo::rerun-if-changed={}", path.display());
            let text = fs::read_to_string(&path)
                .unwrap_or_else(|error| panic!("{}: {error}", path.display()));
            let text = counted(name, &text);
            Source { parent, name, text }
        })
        .collect()
}

/// The folder that holds `lsq` and `slsqp`.
fn root(given: &Path) -> PathBuf {
    BELOW
        .iter()
        .map(|below| given.join(below))
        .find(|root| root.join("lsq/nnls.rs").is_file())
        .unwrap_or_else(|| panic!("{FOLDER} holds no lsq/nnls.rs"))
}

/// The text with one line beside each place that is counted, and readers of private fields.
fn counted(name: &str, text: &str) -> String {
    match name {
        "householder" => {
            let mark = "pub(crate) fn factor(a: MatRef";
            after(text, mark, "        reference::tally::factoring();") + READ_QR
        }
        "nnls" => {
            let text =
                before(text, ".min_by(|p, q|", "                .map(reference::tally::ratio)");
            let block = "            reference::tally::block();";
            let text = before(&text, "z = solve_passive(a, b, &passive).0;", block);
            let text = before(&text, "x = z;", "                reference::tally::round();");
            before(&text, "Err(Failure::IterationCap)", "            reference::tally::refused(7);")
        }
        "lsei" => {
            let text = after(text, "if qr.rank() < n {", LOST_E);
            let text = after(&text, "if qr.rank() < mc {", LOST_EQUALITIES);
            before(&text, "Err(Failure::Infeasible)", "        reference::tally::refused(6);")
        }
        "subproblem" => after(text, "fn relaxed(", "    reference::tally::relaxed();"),
        "hessian" => format!("{text}{READ_HESSIAN}"),
        "mod" => passed(&shown(&text.replace("#[cfg(test)]\nmod tests;\n", ""))),
        _ => text.to_string(),
    }
}

/// The loop's text, its two modules to be seen from beside it.
fn shown(text: &str) -> String {
    let text = text.replace("\nmod hessian;\n", "\npub(crate) mod hessian;\n");
    text.replace("\nmod subproblem;\n", "\npub(crate) mod subproblem;\n")
}

/// The loop's text with what its turns pass through, counts of a step of its own for each, and the
/// constraints' values of the report.
fn passed(text: &str) -> String {
    let pass = |at: &str| format!("reference::tally::pass(reference::tally::Turn::{at});");
    let text = after(text, "let Some(l) = hessian.cholesky() else {", &pass("Unfactored"));
    let text = before(&text, "let Ok(step) = solve(", "reference::tally::take();");
    let relaxed = format!("if step.relaxation > 0.0 {{ {} }}", pass("Relaxed"));
    let text = before(&text, "let lambda = step.multipliers;", &relaxed);
    let text = after(&text, "+ complementarity < setup.ftol", &pass("Still"));
    let text = after(&text, "if !accepted && !fresh {", &pass("Reset"));
    let taken = format!("if !accepted {{ {} }}", pass("Taken"));
    let text = before(&text, "let mut g_new =", &taken);
    let text = after(&text, "if change < setup.ftol", &pass("Settled"));
    before(&text, "let mut result = Minimize::new(", "reference::ground::keep(&state.c);")
}

/// Say which matrix fell short, and where.
const LOST_E: &str = "        reference::tally::lost(reference::tally::Matrix::E, qr.standing());";
const LOST_EQUALITIES: &str =
    "        reference::tally::lost(reference::tally::Matrix::Equalities, qr.standing());";

/// Reads the factorization: the triangle, each reflector's vector and divisor, and, where the rank
/// is below the columns, the column that stands next after those taken, as the matrix counts it.
const READ_QR: &str = "
impl Qr {
    pub(crate) fn standing(&self) -> usize {
        self.perm[self.rank()]
    }
    pub(crate) fn triangle(&self) -> &[f64] {
        &self.r
    }
    pub(crate) fn reflectors(&self) -> impl Iterator<Item = (&[f64], f64)> {
        self.reflectors.iter().map(|one| (one.u.as_slice(), one.b))
    }
}
";

/// Makes an approximation of given entries and reads them back.
const READ_HESSIAN: &str = "
impl Hessian {
    pub(crate) fn of(b: Vec<f64>, n: usize) -> Self {
        Self { b, n }
    }
    pub(crate) fn entries(&self) -> &[f64] {
        &self.b
    }
}
";

/// Adds a line after the one line that holds the mark.
fn after(text: &str, mark: &str, line: &str) -> String {
    beside(text, mark, |found| format!("{found}\n{line}"))
}

/// Adds a line before the one line that holds the mark.
fn before(text: &str, mark: &str, line: &str) -> String {
    beside(text, mark, |found| format!("{line}\n{found}"))
}

fn beside(text: &str, mark: &str, put: impl Fn(&str) -> String) -> String {
    let found = text.lines().filter(|line| line.contains(mark)).count();
    assert_eq!(found, 1, "lines with {mark:?}");
    text.lines()
        .map(|line| if line.contains(mark) { put(line) } else { line.to_string() } + "\n")
        .collect()
}

/// Writes the files into a folder and answers the module tree that takes them in over a norm, for
/// the module `at` of the crate that is built (`crate` itself, or a module below it).
pub fn tree(sources: &[Source], folder: &Path, at: &str, norm: &str) -> String {
    let mut modules = format!(
        "#[allow(dead_code)]\npub(crate) mod lsq {{\n\
         pub(crate) use reference::stand_in::{{Failure, MatRef}};\npub(crate) use {norm};\n"
    );
    write(sources, folder, at);
    for source in sources.iter().filter(|source| source.parent == "lsq") {
        modules += &module(folder, source.parent, source.name, source.name);
    }
    modules += "}\n";
    modules += &module(folder, "slsqp", "mod", "slsqp");
    for source in sources.iter().filter(|source| source.parent.is_empty()) {
        modules += &module(folder, "", source.name, source.name);
    }
    for (name, what) in STAND_INS {
        modules += &format!(
            "#[allow(unused_imports)]\npub(crate) mod {name} {{\n\
             pub(crate) use reference::{{{what}}};\n}}\n"
        );
    }
    let kernels = Path::new(env!("CARGO_MANIFEST_DIR")).join("../reference/src/kernels.rs");
    println!("cargo::rerun-if-changed={}", kernels.display());
    modules += &format!("#[path = {kernels:?}]\npub mod kernels;\n");
    modules
}

/// Writes the files below a folder, each by its module, for the module `at`.
fn write(sources: &[Source], folder: &Path, at: &str) {
    for source in sources {
        let below = folder.join(source.parent);
        fs::create_dir_all(&below).expect("a folder for the sources");
        let text = source.text.replace("use crate::", &format!("use {at}::"));
        fs::write(below.join(format!("{}.rs", source.name)), text).expect("a source written");
    }
}

/// The line that takes a file in as a module.
fn module(folder: &Path, parent: &str, file: &str, name: &str) -> String {
    let path = folder.join(parent).join(format!("{file}.rs"));
    format!("#[allow(dead_code)]\n#[path = {path:?}]\npub(crate) mod {name};\n")
}

/// The folder that a build writes into.
pub fn out() -> PathBuf {
    PathBuf::from(env::var_os("OUT_DIR").expect("OUT_DIR"))
}
