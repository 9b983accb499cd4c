//! The examples answer what they should, and what is refused is told with its place.

#[path = "../examples/meters.rs"]
mod meters;
#[path = "../examples/settle.rs"]
mod settle;
#[path = "../examples/valves.rs"]
mod valves;

use gritstrut::subproblem::{solve, Linearization};
use gritstrut::{
    lsei, mend, nnls, Aim, Checked, ConstraintKind, Day, Ending, Failure, MatRef, Part, Problem, Readings, Reason, Search,
    Slopes, Test, Verdict,
};

#[test]
fn meters_balance() {
    let text = "\
meter          measured  corrected
generator A     120.400    120.816
generator B      79.100     79.516
vessel 1        131.900    130.236
vessel 2         70.200     70.096
header: -2.600 before, 0.000 after; multiplier 0.416000, relaxation 0.000
the check: yes
";
    assert_eq!(meters::report().unwrap(), text);
}

#[test]
fn day_is_settled() {
    let text = settle::report().unwrap();
    assert!(text.contains("vessel 1       1310.000   1297.200   -0.800"), "{text}");
    assert!(text.ends_with("the meters agree\n"), "{text}");
}

#[test]
fn valves_are_found() {
    let exact = [0.6541058292025478, 0.6419612970802866, 5.9868761104890575];
    for (scheme, within) in [(Slopes::Told, 1e-12), (Slopes::Forward, 1e-6), (Slopes::Central, 1e-9)] {
        let (ending, x) = valves::find(scheme).unwrap();
        assert_eq!(ending, Ending::Converged);
        assert!(x.iter().zip(&exact).all(|(x, exact)| (x - exact).abs() < within), "{scheme:?}: {x:?}");
    }
}

#[test]
fn certified_as_settled() {
    let day = Day {
        values: &[120.4, 79.1, 131.9, 70.2],
        spreads: &[1.0, 1.0, 2.0, 0.5],
        balances: &[1.0, 1.0, -1.0, -1.0],
        limits: &[-1.0, -1.0, 0.0, 0.0],
        least: &[-200.0],
        ..Day::default()
    };
    let settled = day.settle().unwrap();
    assert_eq!(day.certify(&settled), Ok(settled.bound));
    assert_eq!((settled.balance_multipliers.len(), settled.limit_multipliers.len()), (1, 1));
}

#[test]
fn refusals_have_places() {
    let day = Day { values: &[1.0, 2.0], spreads: &[1.0, -1.0], balances: &[1.0, -1.0], ..Day::default() };
    assert_eq!(day.settle(), Err(Failure::Spread { meter: 1 }));
    let day = Day { spreads: &[1.0], ..day };
    assert_eq!(day.settle(), Err(Failure::Length));
    let limit = Day { spreads: &[1.0, 1.0], limits: &[1.0, 0.0], least: &[f64::NAN], ..day };
    assert_eq!(limit.settle(), Err(Failure::Bound { place: 0 }));
    let twice = Day { spreads: &[1.0, 1.0], balances: &[1.0, -1.0, 1.0, -1.0], ..day };
    assert!(matches!(twice.settle(), Err(Failure::Dependent { .. })));
    let readings = Readings { before: &[0], after: &[7_510_000], spreads: &[1.0], balances: &[] };
    assert_eq!(readings.reconcile(), Err(Failure::Reading { meter: 0 }));
    let zeros = MatRef::new(&[0.0; 4], 2, 2);
    let found = lsei(MatRef::none(2), &[], zeros, &[0.0; 2], MatRef::none(2), &[]);
    assert_eq!(found.map(|_| ()), Err(Failure::RankDeficient { column: 0 }));
    assert_eq!(nnls(zeros, &[0.0]).map(|_| ()), Err(Failure::Length));
    assert_eq!(nnls(MatRef::new(&[], 19, 0), &[0.0; 19]).map(|_| ()), Err(Failure::Size));
    let aim = Aim {
        x0: &[0.0],
        kinds: &[ConstraintKind::Eq],
        lower: &[1.0],
        upper: &[0.0],
        ftol: 0.0,
        budget: 1,
        slopes: Slopes::Told,
    };
    assert_eq!(Search::begin(&aim).map(|_| ()), Err(Failure::Crossed));
    let wrong = Aim { lower: &[f64::NAN], ..aim };
    assert_eq!(Search::begin(&wrong).map(|_| ()), Err(Failure::Bound { place: 0 }));
}

#[test]
fn rows_may_stand_apart() {
    let (apart, near) = ([1.0, 2.0, 9.0, 3.0, 4.0, 9.0], [1.0, 2.0, 3.0, 4.0]);
    let wide = MatRef { data: &apart, rows: 2, cols: 2, stride: 3 };
    assert_eq!(nnls(wide, &[5.0, 6.0]), nnls(MatRef::new(&near, 2, 2), &[5.0, 6.0]));
    let short = MatRef { data: &apart[..4], rows: 2, cols: 2, stride: 3 };
    assert_eq!(nnls(short, &[5.0, 6.0]).map(|_| ()), Err(Failure::Length));
}

#[test]
fn records_are_mended() {
    let record = |minute: u32, reading: u32| {
        let words = [1_u32, minute, reading, 0];
        words.into_iter().flat_map(u32::to_le_bytes).collect::<Vec<u8>>()
    };
    let day = [record(0, 999_999), record(1, 4), record(1, 5), vec![7; 3]].concat();
    let mended = mend(&day).unwrap();
    assert_eq!(mended.kept, day[..32]);
    assert_eq!(mended.reasons, [Reason::Kept, Reason::Kept, Reason::Minute, Reason::Short]);
    assert_eq!((mended.totals[1], mended.rollovers[1]), (5, 1));
    assert!(mended.meters[1] && !mended.meters[0]);
}

/// One variable, its factor 1, and a gradient against a bound.
fn bounded<'a>(gradient: &'a [f64], lower: &'a [f64], upper: &'a [f64]) -> Problem<'a> {
    Problem { factor: &[1.0], gradient, constraints: &[], values: &[], jacobian: &[], lower, upper }
}

#[test]
fn sides_hold_checked_steps() {
    let (below, above) = (bounded(&[2.0], &[-1.5], &[9.0]), bounded(&[-2.0], &[-9.0], &[1.5]));
    for (problem, d) in [(below, -1.5), (above, 1.5)] {
        let step = problem.solve().unwrap();
        assert!((step.d[0] - d).abs() < 1e-12);
        let (lowers, uppers) = problem.sides(&step.d, &step.multipliers);
        let (d, multipliers) = (&step.d[..], &step.multipliers[..]);
        let checked = Checked { d, multipliers, lower_multipliers: &lowers, upper_multipliers: &uppers };
        assert_eq!(problem.check(&checked, 1e-9), Ok(Verdict::Yes));
        let turned = Checked { lower_multipliers: &uppers, upper_multipliers: &lowers, ..checked };
        assert_eq!(problem.check(&turned, 1e-9), Ok(Verdict::No(Test::Stationarity, Part::Variable(0))));
    }
}

#[test]
fn bounds_that_mean_nothing() {
    let bounds = [f64::INFINITY];
    assert_eq!(bounded(&[-2.0], &bounds, &bounds).solve().map(|_| ()), Err(Failure::Bound { place: 0 }));
    let (gradient, values, jacobian, kinds) = (&[-2.0][..], &[][..], &[][..], &[][..]);
    let model = Linearization { gradient, values, jacobian, kinds, lower: &bounds, upper: &bounds };
    assert_eq!(solve(&[1.0], &model).unwrap().d, [2.0]);
}

#[test]
fn searches_tell_what_they_found() {
    let mut aim = Aim {
        x0: &[2.0, 0.0],
        kinds: &[ConstraintKind::Ineq],
        lower: &[],
        upper: &[],
        ftol: 1e-12,
        budget: 500,
        slopes: Slopes::Forward,
    };
    let mut counts = vec![];
    for slopes in [Slopes::Forward, Slopes::Central] {
        aim.slopes = slopes;
        let (mut search, mut count) = (Search::begin(&aim).unwrap(), 0);
        let value = |function: usize, x: &[f64]| match function {
            0 => {
                count += 1;
                5.0 + (x[0] - 1.0).powi(2) + (x[1] - 2.5).powi(2)
            }
            _ => x[0] - 2.0 * x[1] + 2.0,
        };
        assert_eq!(search.run(value, |_, _, _| unreachable!()), Ok(Ending::Converged));
        assert!((search.multipliers()[0] - 0.8).abs() < 1e-5);
        assert!((search.values()[0] - 5.8).abs() < 1e-9 && search.values()[1].abs() < 1e-9);
        counts.push(count);
    }
    assert!(counts[0] < counts[1], "central differences cost twice: {counts:?}");
}
