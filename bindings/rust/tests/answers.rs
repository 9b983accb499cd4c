//! A thousand drawn problems, answered through this crate, have the Rust's answers, bit for bit (tests/answers.txt, which
//! `reference` writes).

mod drawn;

use drawn::{drawn, Drawn, Operation, Told, COUNT};
use gritstrut::subproblem::{self, Linearization};
use gritstrut::{Constraint, ConstraintKind, Day, Failure, Hessian, MatRef, Problem, Readings, Workspace};

/// The place that a failure carries.
fn place(failure: &Failure) -> Option<u32> {
    let place = match *failure {
        Failure::RankDeficient { column } => column,
        Failure::Dependent { equality } => equality,
        Failure::Reading { meter } | Failure::Spread { meter } => meter,
        Failure::Bound { place } => place,
        _ => return None,
    };
    Some(place as u32)
}

fn told(result: Result<(Vec<f64>, Vec<u32>), Failure>) -> Told {
    match result {
        Ok((numbers, words)) => Told { numbers, words, ..Told::default() },
        Err(failure) => Told::refused(failure.number(), place(&failure)),
    }
}

/// The answer to a problem, through this crate.
fn answer(of: &Drawn, work: &mut Workspace) -> Told {
    let (sizes, lists) = (&of.sizes[..], &of.inputs[..]);
    let matrix = |at: usize, rows: usize, cols: usize| MatRef::new(&lists[at], rows, cols);
    let both = |found: gritstrut::Lsq| ([found.x, found.multipliers].concat(), vec![]);
    told(match of.operation {
        Operation::Nnls => work
            .nnls(matrix(0, sizes[0], sizes[1]), &lists[1])
            .map(|found| (found.x, vec![found.iterations as u32, found.factorings as u32])),
        Operation::Ldp => work.ldp(matrix(0, sizes[0], sizes[1]), &lists[1]).map(both),
        Operation::Lsi => {
            let (n, me, mg) = (sizes[0], sizes[1], sizes[2]);
            work.lsi(matrix(0, me, n), &lists[1], matrix(2, mg, n), &lists[3]).map(both)
        }
        Operation::Lsei => {
            let (n, mc, me, mg) = (sizes[0], sizes[1], sizes[2], sizes[3]);
            let (c, e, g) = (matrix(0, mc, n), matrix(2, me, n), matrix(4, mg, n));
            work.lsei(c, &lists[1], e, &lists[3], g, &lists[5]).map(both)
        }
        Operation::Subproblem => {
            let form = |&kind: &u8| if kind == 0 { ConstraintKind::Eq } else { ConstraintKind::Ineq };
            let kinds: Vec<ConstraintKind> = of.kinds.iter().map(form).collect();
            let (gradient, values, jacobian) = (&lists[1][..], &lists[2][..], &lists[4][..]);
            let (lower, upper) = (&lists[5][..], &lists[6][..]);
            let model = Linearization { gradient, values, jacobian, kinds: &kinds, lower, upper };
            subproblem::solve_in(&lists[0], &model, work)
                .map(|step| ([step.d, step.multipliers, vec![step.relaxation]].concat(), vec![]))
        }
        Operation::Problem => {
            let form = |(&kind, &width): (&u8, &f64)| match kind {
                0 => Constraint::Equality,
                1 => Constraint::Floor,
                _ => Constraint::Band(width),
            };
            let constraints: Vec<Constraint> = of.kinds.iter().zip(&lists[3]).map(form).collect();
            let (gradient, values, jacobian) = (&lists[1][..], &lists[2][..], &lists[4][..]);
            let (factor, lower, upper) = (&lists[0][..], &lists[5][..], &lists[6][..]);
            let problem = Problem { factor, gradient, constraints: &constraints, values, jacobian, lower, upper };
            problem.solve_in(work).map(|step| {
                let counts = vec![step.report.rounds as u32, step.report.factorings as u32];
                ([step.d, step.multipliers, vec![step.relaxation]].concat(), counts)
            })
        }
        Operation::Hessian => {
            let mut b = Hessian::identity(sizes[0]);
            for pair in lists[..6].chunks_exact(2) {
                b.update(&pair[0], &pair[1]);
            }
            let factor = b.cholesky().unwrap_or_default();
            Ok(([b.entries(), &b.times(&lists[6])[..], &factor].concat(), vec![]))
        }
        Operation::Reconcile => {
            let readings = |at: usize| -> Vec<u32> { lists[at].iter().map(|&reading| reading as u32).collect() };
            let (before, after) = (readings(0), readings(1));
            let day = Readings { before: &before, after: &after, spreads: &lists[2], balances: &lists[3] };
            day.reconcile().map(|found| (found.volumes, found.named.into_iter().map(u32::from).collect()))
        }
        Operation::Suspect => {
            let day = Day { values: &lists[0], spreads: &lists[1], balances: &lists[2], ..Day::default() };
            let still: Vec<bool> = of.kinds.iter().map(|&still| still == 1).collect();
            day.suspect(&still).map(|found| {
                let numbers = [found.shares, found.spreads, found.tests, vec![found.misfit]].concat();
                let finding = [found.freedom as u32, found.first as u32, found.agree.into(), found.explained.into()];
                let groups = found.groups.into_iter().map(|group| group as u32);
                (numbers, groups.chain(found.marks).chain(finding).collect())
            })
        }
    })
}

#[test]
fn a_thousand_answers_are_the_rusts() {
    let stored: Vec<&str> = include_str!("answers.txt").lines().collect();
    assert_eq!(stored.len(), COUNT, "a line for each problem");
    let mut work = Workspace::new();
    for (index, line) in stored.into_iter().enumerate() {
        let of = drawn(index);
        let told = answer(&of, &mut work);
        assert_eq!(told.line(of.operation), line, "problem {index}: {told:?} of {of:?}");
    }
}
