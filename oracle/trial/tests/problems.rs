//! Tries the comparison of problem files: every slip is told, and what is left besides.

use trial::problems::{NUMBERS, Owed, Pad, Problem, SLIPS, Slip, problems};

const CALLS: u64 = 4_000;

/// Leaves what is owed by a reading.
fn leave(owed: &Owed, pad: Pad) -> u32 {
    if owed.number == 0 {
        pad.out[..owed.file.len()].copy_from_slice(&owed.file);
        *pad.written = owed.file.len();
        pad.w[..8192].fill(0.0);
        pad.iw[..512].fill(0);
    }
    if let Some(place) = owed.place {
        *pad.place = place;
    }
    owed.number
}

#[test]
fn the_rules_reading_has_no_difference() {
    let found = problems(&|problem: &Problem, pad| leave(&problem.owed(Slip::None), pad), CALLS, 1);
    assert_eq!((found.different, found.first), (0, None));
    assert!(NUMBERS.iter().all(|&number| found.numbers[number as usize] > 0));
    assert_eq!(found.numbers.iter().sum::<u64>(), CALLS);
    assert!(found.neighbours[1] > 0 && found.neighbours[1] < found.neighbours[0]);
}

#[test]
fn every_slip_is_told() {
    for slip in SLIPS {
        let writer = |problem: &Problem, pad: Pad| {
            let owed = problem.owed(slip);
            let fits = owed.file.len() <= pad.out.len();
            if fits { leave(&owed, pad) } else { 99 }
        };
        assert!(problems(&writer, CALLS, 1).different > 0, "{slip:?}");
    }
}

#[test]
fn what_is_left_besides_is_told() {
    let right = |problem: &Problem| problem.owed(Slip::None);
    let touched: [&dyn Fn(&Problem, Pad) -> u32; 6] = [
        &|problem, pad| {
            pad.out.iter_mut().for_each(|byte| *byte = 0);
            leave(&right(problem), pad)
        },
        &|problem, pad| {
            *pad.written = 0;
            leave(&right(problem), pad)
        },
        &|problem, pad| {
            *pad.place = 0;
            leave(&right(problem), pad)
        },
        &|problem, pad| {
            pad.w.iter_mut().for_each(|entry| *entry = 0.0);
            leave(&right(problem), pad)
        },
        &|problem, pad| {
            pad.iw.iter_mut().for_each(|entry| *entry = 0);
            leave(&right(problem), pad)
        },
        &|problem, pad| {
            let owed = right(problem);
            leave(&owed, Pad { w: &mut [0.0; 8192], ..pad })
        },
    ];
    for (at, writer) in touched.into_iter().enumerate() {
        assert!(problems(writer, CALLS, 1).different > 0, "{at}");
    }
}
