//! Makes a copy of the Rust files for each slip, with that slip in it or in the norm below it.

use std::fmt::Write;
use std::fs;
use std::path::Path;

include!("slips.rs");

fn main() {
    println!("cargo::rerun-if-changed=build.rs");
    println!("cargo::rerun-if-changed=slips.rs");
    let sources = gather::gather();
    let out = gather::out();
    let (mut modules, mut list) = (String::new(), String::new());
    for (index, slip) in SLIPS.iter().enumerate() {
        let name = format!("slip_{index}");
        modules += &copy(&sources, slip, &name);
        writeln!(list, "    peer::library::<{name}::kernels::Rust, Sound>(),").expect("a line");
    }
    let mut searches = String::new();
    for (index, slip) in SEARCH_SLIPS.iter().enumerate() {
        let name = format!("search_{index}");
        modules += &copy(&sources, slip, &name);
        writeln!(searches, "    {name}::kernels::Rust::search,").expect("a line");
    }
    let mut pairs = String::new();
    let stand_in = stand_in();
    for (index, slip) in NORM_SLIPS.iter().enumerate() {
        let name = format!("norm_{index}");
        let (folder, at) = (out.join(&name), format!("crate::{name}"));
        let tree = gather::tree(&sources, &folder, &at, &format!("{at}::stand_in::norm"));
        let path = folder.join("stand_in.rs");
        let text = slipped(slip.name, slip.changes, &stand_in);
        fs::write(&path, text).expect("a stand-in written");
        writeln!(
            modules,
            "#[allow(warnings)]\nmod {name} {{\n{tree}#[path = {path:?}]\nmod stand_in;\n{EDGE}}}"
        )
        .expect("a module");
        writeln!(
            pairs,
            "    [peer::library::<reference::Rust, {name}::Slipped>(), \
             peer::library::<{name}::kernels::Rust, Sound>()],"
        )
        .expect("a line");
    }
    let text = format!(
        "{modules}\nfn searches() -> Vec<trial::search::Search> {{\n    vec![\n{searches}]\n}}\n\
         fn libraries() -> Vec<peer::Library> {{\n    vec![\n{list}]\n}}\n\
         fn norm_libraries() -> Vec<[peer::Library; 2]> {{\n    vec![\n{pairs}]\n}}\n"
    );
    fs::write(out.join("slipped.rs"), text).expect("the copies written");
}

/// A copy of the Rust files with a slip in it, as a module of a name.
fn copy(sources: &[gather::Source], slip: &Slip, name: &str) -> String {
    let mut copies = sources.to_vec();
    for source in copies.iter_mut().filter(|source| source.name == slip.file) {
        source.text = slipped(slip.name, slip.changes, &source.text);
    }
    let at = format!("crate::{name}");
    let tree = gather::tree(&copies, &gather::out().join(name), &at, gather::NORM);
    format!("#[allow(warnings)]\nmod {name} {{\n{tree}}}\n")
}

/// The edge whose norm is the slipped stand-in's.
const EDGE: &str = "
pub struct Slipped;
impl reference::call::Edge for Slipped {
    fn norm(x: &[f64]) -> f64 {
        stand_in::norm(x.iter().copied())
    }
}
";

/// The text of the stand-in.
fn stand_in() -> String {
    let path = Path::new(env!("CARGO_MANIFEST_DIR")).join("../reference/src/stand_in.rs");
    println!("cargo::rerun-if-changed={}", path.display());
    fs::read_to_string(&path).expect("the stand-in")
}

/// The text with a slip's changes in it.
fn slipped(name: &str, changes: &[(&str, usize, &str)], text: &str) -> String {
    let mut text = text.to_string();
    for &(found, place, put) in changes {
        let places: Vec<usize> = text.match_indices(found).map(|(at, _)| at).collect();
        assert!(places.len() >= place, "{name}: {found:?} stands {} times", places.len());
        let at = places[place - 1];
        text.replace_range(at..at + found.len(), put);
    }
    text
}
