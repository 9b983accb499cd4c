//! Writes the lines of the thousand drawn problems from the Rust (GRITSTRUT_RUST names its folder, as for the oracle).
//!
//!     cargo run -- write FILE    writes tests/answers.txt
//!     cargo run -- check FILE    status 0 where FILE has just those lines
//!     cargo test                 the Rust's own loop over this crate's step (src/swapped.rs)

use std::process::ExitCode;

#[path = "../../tests/drawn/mod.rs"]
mod drawn;

// The Rust's loop, its imports changed, over what stands in for the rest of the Rust (oracle/reference).
#[cfg(test)]
include!(concat!(env!("OUT_DIR"), "/tree.rs"));
#[cfg(test)]
mod swapped;

/// The sum of the products: the loop has it from the module that was changed.
#[cfg(test)]
fn dot(a: &[f64], b: &[f64]) -> f64 {
    a.iter().zip(b).map(|(a, b)| a * b).sum()
}

use drawn::{COUNT, Drawn, Operation, Told, drawn};
use reference::call::{Answer, Call, Kernels, Sound, answer};
use reference::shape::Op;
use reference::{Rust, day};

/// A call by the C interface's own lists.
fn call(op: Op, of: &Drawn, inputs: Vec<Vec<f64>>) -> Answer {
    let mut call = Call::new(op, &of.sizes, inputs);
    call.kinds = of.kinds.clone();
    answer::<Rust, Sound>(&call)
}

/// What is told of an answer: its lists one after the other, and the words that are compared.
fn told(answer: Answer, words: Vec<u32>) -> Told {
    if answer.number != 0 {
        let placed = matches!(answer.number, 5 | 11 | 12 | 13);
        return Told::refused(answer.number, answer.counts.first().copied().filter(|_| placed));
    }
    let numbers = answer.outputs.into_iter().flatten().chain(answer.value).collect();
    Told { numbers, words, ..Told::default() }
}

/// A step is refused with the place of its last stage.
fn stepped(answer: Answer, words: Vec<u32>) -> Told {
    let place = answer.words.get(if answer.number == 15 { 1 } else { 3 }).copied();
    let placed = matches!(answer.number, 5 | 15);
    Told { place: place.filter(|_| placed), ..told(answer, words) }
}

fn owed(of: &Drawn) -> Told {
    let inputs = of.inputs.clone();
    match of.operation {
        Operation::Nnls => {
            let answer = call(Op::Nnls, of, inputs);
            let counts = answer.counts.clone();
            told(answer, counts)
        }
        Operation::Ldp => told(call(Op::Ldp, of, inputs), vec![]),
        Operation::Lsi => told(call(Op::Lsi, of, inputs), vec![]),
        Operation::Lsei => told(call(Op::Lsei, of, inputs), vec![]),
        Operation::Subproblem => stepped(call(Op::Step, of, inputs), vec![]),
        Operation::Problem => {
            let answer = call(Op::StrictStep, of, inputs);
            let counts = answer.words.get(4..).unwrap_or_default().to_vec();
            stepped(answer, counts)
        }
        Operation::Hessian => {
            let n = of.sizes[0];
            let start = Rust::identity(n);
            let b = inputs[..6].chunks_exact(2).fold(start, |b, pair| Rust::update(n, &b, &pair[0], &pair[1]));
            let factor = Rust::cholesky(n, &b).unwrap_or_default();
            let numbers = [&b[..], &Rust::times(n, &b, &inputs[6]), &factor].concat();
            Told { numbers, ..Told::default() }
        }
        Operation::Reconcile => {
            let stored = |list: &Vec<f64>| list.iter().map(|&reading| day::stored(reading as u32)).collect();
            let lists = vec![stored(&inputs[0]), stored(&inputs[1]), inputs[2].clone(), inputs[3].clone()];
            let answer = call(Op::Reconcile, of, lists);
            let named = answer.words.clone();
            told(answer, named)
        }
        Operation::Suspect => {
            let answer = call(Op::Suspect, of, inputs);
            let found = answer.found.unwrap_or_default();
            let words = [&answer.words[..], &answer.seconds, &found].concat();
            told(answer, words)
        }
    }
}

fn main() -> ExitCode {
    let words: Vec<String> = std::env::args().skip(1).collect();
    let lines: String = (0..COUNT).map(drawn).map(|of| owed(&of).line(of.operation) + "\n").collect();
    match words.iter().map(String::as_str).collect::<Vec<_>>()[..] {
        ["write", file] => std::fs::write(file, lines).map_or(ExitCode::FAILURE, |()| ExitCode::SUCCESS),
        ["check", file] if std::fs::read_to_string(file).is_ok_and(|stored| stored == lines) => {
            println!("{file} has the Rust's {COUNT} answers");
            ExitCode::SUCCESS
        }
        ["check", file] => {
            println!("{file} has other lines than the Rust's");
            ExitCode::FAILURE
        }
        _ => {
            eprintln!("usage: held write|check FILE");
            ExitCode::from(2)
        }
    }
}
