//! The sets of inputs, and how each side goes through one.

use crate::problems::{Bounds, Matrix, Step, Valves};
use crate::{library, problems, rust};
use std::hint::black_box;

/// One side: it goes through a set once and tells how many calls were done (for QR, the ranks).
pub struct Side {
    pub who: &'static str,
    pub run: Box<dyn FnMut() -> usize>,
}

fn side(who: &'static str, run: impl FnMut() -> usize + 'static) -> Side {
    Side { who, run: Box::new(run) }
}

/// A set, with the sides that can do it: ours, the Rust, and NLopt where it is built in.
pub struct Set {
    pub calls: usize,
    /// Most factorings in one call, and how many in all, where there is an NNLS in it.
    pub factorings: Option<(u32, u32)>,
    /// The most factorings that the sizes of a step in it allow.
    pub bound: Option<u64>,
    /// The worst difference between our answers and NLopt's.
    pub away: Option<f64>,
    pub sides: Vec<Side>,
}

/// 3 + (3p^2 + 4p) + (3q^2 + 4q), with p exact inequality rows and q relaxed rows.
fn bound(problem: &Step) -> u64 {
    let closed = problem.lower.iter().chain(&problem.upper).filter(|bound| bound.is_finite()).count();
    let equalities = problem.kinds.iter().filter(|&&kind| kind == 0).count();
    let (p, q) = (problem.kinds.len() - equalities + closed, problem.kinds.len() + equalities + closed + 2);
    let most = |rows: usize| (3 * rows * rows + 4 * rows) as u64;
    3 + most(p) + most(q)
}

fn counted(each: impl Iterator<Item = u32>) -> Option<(u32, u32)> {
    each.fold(None, |seen: Option<(u32, u32)>, one| {
        let (most, all) = seen.unwrap_or_default();
        Some((most.max(one), all + one))
    })
}

fn same_bits(a: &[f64], b: &[f64]) -> bool {
    a.iter().zip(b).all(|(a, b)| a.to_bits() == b.to_bits())
}

/// Holds our answer to each step against the Rust's, bit for bit.
fn check_steps(problems: &[Step]) {
    let mut lent = library::Lent::new();
    for p in problems {
        let done = lent.step(p) == 0;
        match rust::step(p) {
            Ok(found) => {
                assert!(done && same_bits(&found.d, &lent.first), "other bits than the Rust's")
            }
            Err(_) => assert!(!done, "the Rust refuses and the library does not"),
        }
    }
}

fn steps(problems: Vec<Step>) -> Set {
    check_steps(&problems);
    let (ours, theirs) = (problems.clone(), problems.clone());
    let mut lent = library::Lent::new();
    #[allow(unused_mut)]
    let mut set = Set {
        calls: problems.len(),
        factorings: counted(problems.iter().map(rust::factorings_of_step)),
        bound: problems.iter().map(bound).max(),
        away: None,
        sides: vec![
            side("ours", move || ours.iter().filter(|p| lent.step(p) == 0).count()),
            side("rust", move || theirs.iter().filter(|p| rust::step(p).is_ok()).count()),
        ],
    };
    #[cfg(nlopt)]
    peer::add_steps(&mut set, &problems);
    set
}

fn least_squares(problems: Vec<Matrix>) -> Set {
    let (ours, theirs) = (problems.clone(), problems.clone());
    let mut lent = library::Lent::new();
    #[allow(unused_mut)]
    let mut set = Set {
        calls: problems.len(),
        factorings: counted(problems.iter().map(rust::factorings_of_nnls)),
        bound: None,
        away: None,
        sides: vec![
            side("ours", move || ours.iter().filter(|p| lent.nnls(p) == 0).count()),
            side("rust", move || theirs.iter().filter(|p| rust::nnls(p).is_ok()).count()),
        ],
    };
    #[cfg(nlopt)]
    peer::add_least_squares(&mut set, &problems);
    set
}

fn pair(
    calls: usize,
    ours: impl FnMut() -> usize + 'static,
    rust: impl FnMut() -> usize + 'static,
) -> Set {
    let sides = vec![side("ours", ours), side("rust", rust)];
    Set { calls, factorings: None, bound: None, away: None, sides }
}

fn factors(problems: Vec<Matrix>) -> Set {
    let theirs = problems.clone();
    let mut lent = library::Lent::new();
    pair(
        problems.len(),
        move || problems.iter().map(|p| lent.qr(p)).sum(),
        move || theirs.iter().map(rust::qr).sum(),
    )
}

/// Numbers and roots are hidden from the compiler one by one: it may neither take several roots
/// at once nor leave one out.
fn roots(numbers: Vec<f64>) -> Set {
    let theirs = numbers.clone();
    assert!(
        numbers.iter().all(|x| library::root(*x).to_bits() == x.sqrt().to_bits()),
        "other bits than the Rust's"
    );
    pair(
        numbers.len(),
        move || numbers.iter().filter(|x| black_box(library::root(black_box(**x))) > 0.0).count(),
        move || theirs.iter().filter(|x| black_box(black_box(**x).sqrt()) > 0.0).count(),
    )
}

fn norms(problems: Vec<Matrix>) -> Set {
    let theirs = problems.clone();
    pair(
        problems.len(),
        move || problems.iter().filter(|p| black_box(library::norm(black_box(&p.b))) > 0.0).count(),
        move || theirs.iter().filter(|p| black_box(rust::norm(black_box(&p.b))) > 0.0).count(),
    )
}

/// Whole searches, our machine beside the Rust's loop: both must be told as many numbers, and end at
/// the same bits.
fn searches(problems: Vec<Valves>, scheme: u32) -> Set {
    let mut machine = library::Machine::new();
    for p in &problems {
        let (count, (x, theirs)) = (machine.search(p, scheme), rust::search(p, scheme));
        assert!(count == theirs && same_bits(&x, machine.openings(x.len())), "another search than the Rust's");
    }
    let theirs = problems.clone();
    pair(
        problems.len(),
        move || problems.iter().map(|p| machine.search(p, scheme)).sum(),
        move || theirs.iter().map(|p| rust::search(p, scheme).1).sum(),
    )
}

/// A set that is made when it is asked for.
pub struct Planned {
    pub name: String,
    pub make: Box<dyn Fn() -> Set>,
}

fn planned(name: impl Into<String>, make: impl Fn() -> Set + 'static) -> Planned {
    Planned { name: name.into(), make: Box::new(make) }
}

/// The sets of the table.
pub fn all() -> Vec<Planned> {
    vec![
        planned("step 4/3", || steps(problems::steps(400, 4, 3, Bounds::None))),
        planned("step 12/4, floors", || steps(problems::days(100))),
        planned("step 16/16, all bounds", || steps(problems::steps(40, 16, 16, Bounds::All))),
        planned("step 16/16, crossed", || steps(problems::hard())),
        planned("step 8/6, relaxed", || steps(problems::incompatible(100, 8, 6))),
        planned("nnls 18x66", || least_squares(least_squares_problems())),
        planned("qr 18x66", || factors(problems::matrices(100, 18, 66))),
        planned("qr 17x17", || factors(problems::matrices(200, 17, 17))),
        planned("root", || roots(problems::numbers(20_000))),
        planned("norm of 18", || norms(problems::matrices(10_000, 18, 1))),
    ]
}

/// The problems of the NNLS set, which SciPy is given too.
pub fn least_squares_problems() -> Vec<Matrix> {
    problems::matrices(40, 18, 66)
}

/// Steps with 0 to 16 active rows.
pub fn growth() -> Vec<Planned> {
    (0..=16)
        .map(|rows| planned(format!("{rows} active"), move || steps(problems::active(40, rows))))
        .collect()
}

/// Searches of several sizes, with slopes that are told.
pub fn whole() -> Vec<Planned> {
    let sizes = [(3, 3), (8, 4), (16, 8), (16, 16)];
    let of = |(n, m)| planned(format!("search {n}/{m}"), move || searches(problems::valves(20, n, m), 0));
    sizes.into_iter().map(of).collect()
}

/// One operation on B in each form, packed first, over the same steps and changes of gradient.
fn both(n: usize, run: fn(&mut library::Approximation, &[f64], &[f64]) -> u32) -> Set {
    let steps = problems::matrices(200, 2, n);
    let side_of = |who, packed| {
        let steps = steps.clone();
        let mut b = library::Approximation::new(n, packed);
        side(who, move || {
            b.reset();
            let (s, y) = steps[0].a.split_at(n);
            b.update(s, y);
            let one = |p: &Matrix| run(&mut b, &p.a[..n], &p.a[n..]) == 0;
            steps.iter().map(one).filter(|done| *done).count()
        })
    };
    let sides = vec![side_of("packed", true), side_of("square", false)];
    Set { calls: steps.len(), factorings: None, bound: None, away: None, sides }
}

/// The operations on B as its lower triangle beside those on the square.
pub fn forms() -> Vec<Planned> {
    let mut sets = vec![];
    for n in [4, 8, 16] {
        sets.push(planned(format!("identity {n}"), move || both(n, |b, _, _| b.reset())));
        sets.push(planned(format!("product {n}"), move || both(n, |b, s, _| b.times(s))));
        sets.push(planned(format!("factor {n}"), move || both(n, |b, _, _| b.cholesky())));
        sets.push(planned(format!("update {n}"), move || both(n, |b, s, y| b.update(s, y))));
    }
    sets
}

/// NLopt as a further side, and how far its answers are from ours.
#[cfg(nlopt)]
mod peer {
    use super::{Set, side};
    use crate::problems::{self, Matrix};
    use crate::{library, nlopt};

    /// The largest difference, as a share of the larger of 1 and our largest entry.
    fn away(ours: &[f64], peer: &[f64]) -> f64 {
        let scale = ours.iter().fold(1.0, |most: f64, x| most.max(x.abs()));
        ours.iter().zip(peer).fold(0.0, |most: f64, (a, b)| most.max((a - b).abs())) / scale
    }

    pub fn add_steps(set: &mut Set, problems: &[problems::Step]) {
        let mut own: Vec<nlopt::Step> = problems.iter().map(nlopt::Step::new).collect();
        let (mut lent, mut room) = (library::Lent::new(), nlopt::Room::new());
        for (p, peer) in problems.iter().zip(&mut own) {
            let n = p.gradient.len();
            if lent.step(p) == 0 && peer.solve(&mut room) {
                set.away = Some(set.away.unwrap_or(0.0).max(away(&lent.first[..n], &room.x[..n])));
            }
        }
        set.sides.push(side("nlopt", move || {
            own.iter_mut().filter_map(|p| p.solve(&mut room).then_some(())).count()
        }));
    }

    /// The norm of A x - b, which is unique where x is not.
    fn residual(p: &Matrix, x: &[f64]) -> f64 {
        let row =
            |i: usize| p.a[i * p.n..(i + 1) * p.n].iter().zip(x).map(|(a, x)| a * x).sum::<f64>();
        (0..p.m).map(|i| (row(i) - p.b[i]).powi(2)).sum::<f64>().sqrt()
    }

    pub fn add_least_squares(set: &mut Set, problems: &[Matrix]) {
        let own: Vec<Matrix> = problems.iter().map(nlopt::by_columns).collect();
        let (mut lent, mut room) = (library::Lent::new(), nlopt::Room::new());
        for (p, peer) in problems.iter().zip(&own) {
            if lent.nnls(p) == 0 && nlopt::nnls(peer, &mut room) {
                let apart = (residual(p, &lent.first) - residual(p, &room.x)).abs();
                set.away = Some(set.away.unwrap_or(0.0).max(apart));
            }
        }
        set.sides
            .push(side("nlopt", move || own.iter().filter(|p| nlopt::nnls(p, &mut room)).count()));
    }
}
