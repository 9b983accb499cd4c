//! The stand-in's norm on lists whose norms were worked out apart from it: with whole numbers and
//! fractions of any size, each rounding and each root carried out on them by the words of the rule.

use reference::stand_in::norm;

/// The least number above zero, the least normal one and the greatest.
const LEAST: f64 = f64::from_bits(1);
const NORMAL: f64 = f64::MIN_POSITIVE;
const GREATEST: f64 = f64::MAX;

/// Holds norms to their bits.
fn holds(cases: &[(&[f64], u64)]) {
    for (list, owed) in cases {
        let found = norm(list.iter().copied());
        assert_eq!(found.to_bits(), *owed, "{list:?}: found {found:e}");
    }
}

/// NaN before infinity, infinity before everything else, and +0 for zeros of either sign and for
/// the empty list.
#[test]
fn special_entries() {
    let (nan, infinity) = (f64::NAN, f64::INFINITY);
    for list in [&[nan, infinity][..], &[-infinity, nan], &[nan], &[0.0, nan], &[GREATEST, nan]] {
        assert!(norm(list.iter().copied()).is_nan(), "{list:?}");
    }
    let above = infinity.to_bits();
    holds(&[(&[infinity], above), (&[-infinity, 1.0], above), (&[0.0, -infinity], above)]);
    holds(&[(&[], 0), (&[0.0], 0), (&[-0.0], 0), (&[0.0, -0.0], 0), (&[-0.0, -0.0], 0)]);
}

#[test]
fn one_entry() {
    for value in [1e-170, 1e170, 1e200, 0.1, 3.0, LEAST, 3.0 * LEAST, NORMAL, GREATEST] {
        holds(&[(&[value], value.to_bits()), (&[-value], value.to_bits())]);
        holds(&[(&[0.0, value, -0.0], value.to_bits())]);
    }
}

#[test]
fn small_units() {
    holds(&[
        (&[3e-170, 4e-170], 0x1cc8_2742_91c6_065b), // 5e-170
        (&[1e-170; 18], 0x1cc4_7eab_8d21_d8df),     // 4.242640687119286e-170
        (&[2f64.powi(-538); 3], 0x1e5b_b67a_e858_4caa),
        (&[1e-160, 2e-160, 3e-160], 0x1ed5_0aaf_a39b_2427),
    ]);
}

/// Scaling back rounds once: the root of 2 places is 1 place, and on the way through half a place
/// it would be 2.
#[test]
fn least_units() {
    holds(&[
        (&[LEAST; 2], 1),
        (&[LEAST; 3], 2),
        (&[LEAST; 18], 4),
        (&[5.0 * LEAST, 12.0 * LEAST], 13),
        (&[3.0 * LEAST, 2.0 * LEAST], 4),
        (&[NORMAL, LEAST], NORMAL.to_bits()),
        (&[NORMAL; 2], 0x0016_a09e_667f_3bcd),
        (&[NORMAL - LEAST; 3], 0x001b_b67a_e858_4ca9),
    ]);
}

#[test]
fn large_units() {
    holds(&[
        (&[3e200, 4e200], 0x699a_20df_0dcd_3af0), // one place below 5e200
        (&[1e308; 2], 0x7fe9_2c80_954c_51f5),     // 1.4142135623730951e308
        (&[GREATEST; 2], f64::INFINITY.to_bits()),
    ]);
}

/// Entries that scaling makes subnormal, or nothing, add nothing; the largest counts by magnitude.
#[test]
fn unlike_units() {
    holds(&[
        (&[GREATEST, LEAST], GREATEST.to_bits()),
        (&[2f64.powi(1023), 3.0 * 2f64.powi(-51)], 2f64.powi(1023).to_bits()),
        (&[1.0, 1e-170], 1f64.to_bits()),
        (&[-1e300, 1e-300], 1e300f64.to_bits()),
        (&[-2f64.powi(600), 1.0], 2f64.powi(600).to_bits()),
    ]);
}

#[test]
fn usual_units() {
    holds(&[
        (&[3.0, 4.0], 5f64.to_bits()),
        (&[-3.0, -4.0], 5f64.to_bits()),
        (&[0.1, 0.2, 0.3], 0x3fd7_f254_dab9_cc3b),
    ]);
}
