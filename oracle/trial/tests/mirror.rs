//! B is its own mirror: the Rust keeps it, and copies of its update that do not are told. And B as
//! its lower triangle agrees with the square; versions that do not are told.

use peer::{Library, library};
use reference::Rust;
use reference::call::Sound;
use std::slice;
use trial::sequences::{agree, mirrors};

/// The dot product, as the Rust has it.
fn dot(a: &[f64], b: &[f64]) -> f64 {
    a.iter().zip(b).map(|(a, b)| a * b).sum()
}

/// The Rust's update, with an entry's change by the function given.
fn update(b: &mut [f64], s: &[f64], y: &[f64], change: fn(&[f64], f64, usize, usize) -> f64) {
    let n = s.len();
    let bs: Vec<f64> = b.chunks_exact(n).map(|row| dot(row, s)).collect();
    let sbs = dot(s, &bs);
    if sbs <= 0.0 {
        return;
    }
    let sy = dot(s, y);
    let theta = if sy >= 0.2 * sbs { 1.0 } else { (1.0 - 0.2) * sbs / (sbs - sy) };
    let damped = |(y, bs): (&f64, &f64)| theta * y + (1.0 - theta) * bs;
    let r: Vec<f64> = y.iter().zip(&bs).map(damped).collect();
    let sr = dot(s, &r);
    for i in 0..n {
        for j in 0..n {
            b[i * n + j] += change(&r, sr, i, j) - bs[i] * bs[j] / sbs;
        }
    }
}

fn sound(r: &[f64], sr: f64, i: usize, j: usize) -> f64 {
    r[i] * r[j] / sr
}

/// The quotient is rounded before the product.
fn quotient_first(r: &[f64], sr: f64, i: usize, j: usize) -> f64 {
    r[i] * (r[j] / sr)
}

/// The same, below the diagonal alone.
fn quotient_first_below(r: &[f64], sr: f64, i: usize, j: usize) -> f64 {
    if j < i { quotient_first(r, sr, i, j) } else { sound(r, sr, i, j) }
}

/// Makes an update of the C interface, of a square B, from a change of its entries.
macro_rules! slipped {
    ($name:ident $change:ident) => {
        #[allow(clippy::too_many_arguments)]
        unsafe extern "C" fn $name(
            n: usize,
            b: *mut f64,
            b_len: usize,
            s: *const f64,
            s_len: usize,
            y: *const f64,
            y_len: usize,
            _w: *mut f64,
            w_len: usize,
            _iw: *mut u32,
            iw_len: usize,
        ) -> u32 {
            if !(1..=16).contains(&n) {
                return 1;
            }
            if b_len != n * n || s_len != n || y_len != n {
                return 2;
            }
            if w_len < 8192 || iw_len < 512 {
                return 3;
            }
            let (s, y) =
                unsafe { (slice::from_raw_parts(s, s_len), slice::from_raw_parts(y, y_len)) };
            update(unsafe { slice::from_raw_parts_mut(b, b_len) }, s, y, $change);
            0
        }
    };
}

slipped!(copied sound);
slipped!(slipped quotient_first);
slipped!(slipped_below quotient_first_below);

fn rust() -> Library {
    library::<Rust, Sound>()
}

#[test]
fn the_rust_keeps_the_mirror() {
    let found = mirrors(&rust(), 4_000, 1);
    assert_eq!((found.apart, found.numbers), (0, 0));
    assert!(found.updates.iter().all(|&count| count > 1_000) && found.refused > 1_000);
    assert!(found.nans > 1_000 && found.pairs - found.nans > 1_000);
}

#[test]
fn the_copy_keeps_the_mirror() {
    let found = mirrors(&Library { update: copied, ..rust() }, 4_000, 1);
    assert_eq!((found.apart, found.numbers), (0, 0));
}

#[test]
fn slips_are_told() {
    for update in [slipped, slipped_below] {
        let found = mirrors(&Library { update, ..rust() }, 4_000, 1);
        assert!(found.apart > 1_000 && found.numbers == 0, "{found:?}");
    }
}

/// A packed product, right but for one entry that is read by columns.
#[allow(clippy::too_many_arguments)]
unsafe extern "C" fn by_columns(
    n: usize,
    b: *const f64,
    b_len: usize,
    v: *const f64,
    v_len: usize,
    out: *mut f64,
    out_len: usize,
    w: *mut f64,
    w_len: usize,
    iw: *mut u32,
    iw_len: usize,
) -> u32 {
    let number =
        unsafe { (rust().packed_times)(n, b, b_len, v, v_len, out, out_len, w, w_len, iw, iw_len) };
    if number == 0 && n > 2 {
        let (b, v) = unsafe { (slice::from_raw_parts(b, b_len), slice::from_raw_parts(v, v_len)) };
        let column: f64 = [b[0], b[1], b[2]].iter().zip(v).map(|(b, v)| b * v).sum();
        unsafe { out.write(column) };
    }
    number
}

#[test]
fn the_triangle_agrees() {
    let found = agree(&rust(), &rust(), 2_000, 1);
    assert_eq!((found.apart, found.numbers, found.first), (0, 0, None));
    assert!(found.refused > 500 && found.events - found.refused > 500);
}

#[test]
fn triangles_that_do_not_agree_are_told() {
    let found = agree(&rust(), &Library { packed_times: by_columns, ..rust() }, 2_000, 1);
    assert!(found.apart > 500, "{found:?}");
    let lengths = Library { packed_update: rust().update, ..rust() };
    let found = agree(&rust(), &lengths, 2_000, 1);
    assert!(found.numbers > 500, "{found:?}");
}
