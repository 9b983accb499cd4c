//! Equalities of which one stands twice: the inputs of docs/DIFFERENCES.md, "What a place names",
//! and a search like the one that found them.

use reference::Rust;
use reference::call::{Call, Sound, answer};
use reference::shape::Op;
use trial::draw::Draw;

/// The number and the place of LSEI on equalities, rows of n entries, with the unit matrix for E.
fn told(n: usize, c: &[f64]) -> (u32, Option<u32>) {
    let mc = c.len() / n;
    let unit = (0..n * n).map(|at| if at % (n + 1) == 0 { 1.0 } else { 0.0 }).collect();
    let inputs = vec![c.to_vec(), vec![1.0; mc], unit, vec![0.0; n], vec![], vec![]];
    let found = answer::<Rust, Sound>(&Call::new(Op::Lsei, &[n, mc, n, 0], inputs));
    (found.number, found.counts.first().copied())
}

/// Rows, one after the other.
fn of<const N: usize>(rows: &[[f64; N]]) -> (u32, Option<u32>) {
    told(N, &rows.concat())
}

/// Rounding leaves the second just above the tolerance.
#[test]
fn some_are_not_told() {
    assert_eq!(of(&[[0.7, 2.8]; 2]), (0, None));
    assert_eq!(of(&[[3175.0, 7324.0]; 2]), (0, None));
    assert_eq!(of(&[[0.2, 5.7, 6.2]; 2]), (0, None));
    assert_eq!(of(&[[0.2, 6.2, 5.7], [0.2, 6.2, 5.7], [0.0, 1.0, -1.0]]), (0, None));
    let four = [0.008895863619907126, 0.9515467608511093, 0.3331881475038006, 0.29085337782254317];
    assert_eq!(of(&[four; 2]), (0, None));
    assert_eq!(of(&[[2.8, 0.7]; 2]), (11, Some(1)));
    assert_eq!(of(&[[7.0, 28.0]; 2]), (11, Some(1)));
}

/// Either of the two, as the swaps before have left them; of multiples the shorter.
#[test]
fn either_is_named() {
    let (a, b) = ([1.0, 0.0, 0.0], [0.0, 2.0, 0.0]);
    assert_eq!(of(&[a, b, a]), (11, Some(2)));
    assert_eq!(of(&[a, a, b]), (11, Some(0)));
    assert_eq!(of(&[[1.0, 1.0], [2.0, 2.0]]), (11, Some(0)));
    assert_eq!(of(&[[2.0, 2.0], [1.0, 1.0]]), (11, Some(1)));
}

/// One that stands once: units too far apart, rows too near one another, no number, a sum.
#[test]
fn another_is_named() {
    let far = 1_501_199_875_790_166.0;
    assert_eq!(of(&[[far, 0.0], [0.0, 1.0], [far, 0.0]]), (11, Some(1)));
    assert_eq!(of(&[[far - 1.0, 0.0], [0.0, 1.0], [far - 1.0, 0.0]]), (11, Some(2)));
    let (a, b) = ([39_088_169.0, 24_157_817.0], [24_157_817.0, 14_930_352.0]);
    assert_eq!(of(&[a, b, a]), (11, Some(1)));
    assert_eq!(of(&[[1.0, 0.0], [f64::INFINITY, 0.0]]), (11, Some(0)));
    let parts = [[1.0, 1.0, 0.0, 0.0], [0.0, 0.0, 1.0, 1.0], [1.0, 1.0, 1.0, 1.0]];
    assert_eq!(of(&parts), (11, Some(0)));
    assert_eq!(of(&[[1.0, 0.0], [0.0, 1.0], [1.0, 1.0]]), (11, Some(0)));
}

/// The rank of rows of whole numbers, by elimination without fractions.
fn rank(mut rows: Vec<Vec<i64>>, n: usize) -> usize {
    let (mut rank, mut last) = (0, 1);
    for column in 0..n {
        let Some(found) = (rank..rows.len()).find(|&i| rows[i][column] != 0) else { continue };
        rows.swap(rank, found);
        let pivot = rows[rank].clone();
        for row in &mut rows[rank + 1..] {
            let head = row[column];
            for j in column..n {
                row[j] = (row[j] * pivot[column] - head * pivot[j]) / last;
            }
        }
        last = pivot[column];
        rank += 1;
    }
    rank
}

/// Small whole numbers, the other rows independent: always told, and always one of the two.
#[test]
fn whole_numbers() {
    let mut draw = Draw::new(1, Op::Lsei, "whole twice", 0);
    let mut tried = 0;
    while tried < 50_000 {
        let n = draw.between(1, 6);
        let mc = draw.between(2, (n + 1).min(5));
        let most = draw.pick(&[1, 2, 9, 99]);
        let entry = |draw: &mut Draw| draw.between(0, 2 * most) as i64 - most as i64;
        let mut rows: Vec<Vec<i64>> =
            (1..mc).map(|_| (0..n).map(|_| entry(&mut draw)).collect()).collect();
        if rank(rows.clone(), n) < mc - 1 {
            continue;
        }
        let (from, to) = (draw.below(mc - 1), draw.below(mc));
        rows.insert(to, rows[from].clone());
        let twin = if from < to { from } else { from + 1 };
        let c: Vec<f64> = rows.concat().into_iter().map(|value| value as f64).collect();
        let (number, place) = told(n, &c);
        let place = place.map(|place| place as usize);
        assert!(number == 11 && (place == Some(to) || place == Some(twin)), "{rows:?}: {place:?}");
        tried += 1;
    }
}
