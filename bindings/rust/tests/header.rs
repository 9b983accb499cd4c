//! The declarations of src/ffi.rs are those of the header: the same names, types and order; and the crate's version is the
//! library's.

use std::collections::BTreeMap;
use std::path::Path;

/// Each function, with its parameters as (name, Rust type).
type Functions = BTreeMap<String, Vec<(String, String)>>;

/// The Rust type of a C type.
fn type_of(c: &str) -> String {
    let (pointee, pointer) = match c.strip_suffix('*') {
        Some(pointee) => (pointee.trim(), true),
        None => (c.trim(), false),
    };
    let (pointee, constant) = match pointee.strip_prefix("const ") {
        Some(pointee) => (pointee, true),
        None => (pointee, false),
    };
    let name = match pointee {
        "size_t" => "usize",
        "double" => "f64",
        "uint8_t" => "u8",
        "uint32_t" => "u32",
        "uint64_t" => "u64",
        "gritstrut_finding" => "Finding",
        "gritstrut_tally" => "Tally",
        other => panic!("a type that is not known: {other}"),
    };
    let mark = if constant { "*const " } else { "*mut " };
    if pointer {
        format!("{mark}{name}")
    } else {
        name.to_string()
    }
}

/// A text without its comments, its blanks single.
fn plain(text: &str) -> String {
    let mut parts = text.split("/*");
    let first = parts.next().unwrap_or_default().to_string();
    let code = parts.fold(first, |code, part| code + part.split_once("*/").expect("a comment's end").1);
    code.split_whitespace().collect::<Vec<_>>().join(" ")
}

/// The functions that a header declares and does not define.
fn declared(header: &str) -> Functions {
    let code = plain(header);
    let functions = code.split("uint32_t gritstrut_").skip(1).filter_map(|rest| {
        let (name, rest) = rest.split_once('(')?;
        let (parameters, rest) = rest.split_once(')')?;
        if !rest.starts_with(';') {
            return None;
        }
        let each = |parameter: &str| {
            let at = parameter.rfind([' ', '*']).expect("a type and a name") + 1;
            (parameter[at..].to_string(), type_of(parameter[..at].trim()))
        };
        let list = if parameters == "void" { vec![] } else { parameters.split(',').map(|p| each(p.trim())).collect() };
        Some((name.to_string(), list))
    });
    functions.collect()
}

/// The functions of src/ffi.rs.
fn known(text: &str) -> Functions {
    let code = text.split_whitespace().collect::<Vec<_>>().join(" ");
    let functions = code.split("pub fn gritstrut_").skip(1).map(|rest| {
        let (name, rest) = rest.split_once('(').expect("parameters");
        let (parameters, rest) = rest.split_once(')').expect("their end");
        assert!(rest.starts_with(" -> u32;"), "{name} answers a number");
        let pairs = parameters.split(',').map(str::trim).filter(|pair| !pair.is_empty());
        let each = |pair: &str| pair.split_once(": ").map(|(name, kind)| (name.to_string(), kind.to_string()));
        (name.to_string(), pairs.map(|pair| each(pair).expect("a name and a type")).collect())
    });
    functions.collect()
}

#[test]
fn declarations_are_the_headers() {
    let here = Path::new(env!("CARGO_MANIFEST_DIR"));
    let folders = ["../../include", "../../../include"].map(|folder| here.join(folder).join("gritstrut.h"));
    let header = folders.iter().find_map(|path| std::fs::read_to_string(path).ok()).expect("gritstrut.h");
    let (declared, known) = (declared(&header), known(include_str!("../src/ffi.rs")));
    assert!(known.len() >= 18);
    for (name, parameters) in known {
        assert_eq!(declared.get(&name), Some(&parameters), "gritstrut_{name}");
    }
}

#[test]
fn version_is_the_librarys() {
    let number = gritstrut::version();
    let version = format!("{}.{}.{}", number / 10000, number / 100 % 100, number % 100);
    assert_eq!(version, env!("CARGO_PKG_VERSION"));
}
