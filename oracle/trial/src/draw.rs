//! Seeded drawing of numbers, sizes and values.

use reference::shape::Op;

/// Where the values of a slice are drawn from.
#[derive(Debug, Clone, Copy, PartialEq, Eq)]
pub enum Palette {
    /// Between -1 and 1.
    Smooth,
    /// Small whole numbers, for ties.
    Whole,
    /// Zeros of both signs and ones.
    Signs,
    /// Magnitudes some forty powers of two to either side of 1.
    Wide,
    /// Magnitudes over the whole range.
    Vast,
    /// Special values.
    Special,
    /// Any pattern of bits.
    Bits,
}

/// Values at which a rule changes or an operation leaves the numbers.
pub const SPECIAL: [u64; 26] = [
    0x0000_0000_0000_0000, // +0
    0x8000_0000_0000_0000, // -0
    0x3ff0_0000_0000_0000, // 1
    0xbff0_0000_0000_0000, // -1
    0x7ff0_0000_0000_0000, // +infinity
    0xfff0_0000_0000_0000, // -infinity
    0x7ff8_0000_0000_0000, // NaN
    0xfff8_0000_0000_1234, // NaN with the sign bit and a payload
    0x7ff0_0000_0000_0001, // signalling NaN
    0x0000_0000_0000_0001, // least above zero
    0x8000_0000_0000_0001, // greatest below zero
    0x000f_ffff_ffff_ffff, // greatest subnormal
    0x0010_0000_0000_0000, // least normal
    0x7fef_ffff_ffff_ffff, // greatest number
    0xffef_ffff_ffff_ffff, // least number
    0x3cb0_0000_0000_0000, // 2^-52
    0x3ff0_0000_0000_0001, // next after 1
    0x5fe0_0000_0000_0000, // 2^511: its square is finite
    0x5ff0_0000_0000_0000, // 2^512: its square is not
    0x1e60_0000_0000_0000, // 2^-537: its square is the least above zero
    0x1e50_0000_0000_0000, // 2^-538: its square vanishes
    0x2000_0000_0000_0000, // 2^-511
    0x4000_0000_0000_0000, // 2
    0xc008_0000_0000_0000, // -3
    0x412e_8480_0000_0000, // 1e6
    0x3fc9_9999_9999_999a, // 0.2
];

/// A stream of drawn numbers, set by a seed.
#[derive(Debug, Clone)]
pub struct Draw(u64);

impl Draw {
    /// The stream of one call: the same seed, operation, kind and index give the same call.
    pub fn new(seed: u64, op: Op, kind: &str, index: u64) -> Self {
        let mut draw = Self(seed);
        for part in kind.bytes().map(u64::from).chain([op.code() as u64, index]) {
            draw.0 = draw.bits() ^ part.wrapping_mul(0x9e37_79b9_7f4a_7c15);
        }
        draw
    }

    /// Sixty-four bits.
    pub fn bits(&mut self) -> u64 {
        self.0 = self.0.wrapping_add(0x9e37_79b9_7f4a_7c15);
        let mut mixed = self.0;
        mixed = (mixed ^ (mixed >> 30)).wrapping_mul(0xbf58_476d_1ce4_e5b9);
        mixed = (mixed ^ (mixed >> 27)).wrapping_mul(0x94d0_49bb_1331_11eb);
        mixed ^ (mixed >> 31)
    }

    /// A number below `count`, which is above 0.
    pub fn below(&mut self, count: usize) -> usize {
        ((u128::from(self.bits()) * count as u128) >> 64) as usize
    }

    /// A number from `from` to `to`, both among them.
    pub fn between(&mut self, from: usize, to: usize) -> usize {
        from + self.below(to - from + 1)
    }

    /// True once in so many draws.
    pub fn one_in(&mut self, draws: usize) -> bool {
        self.below(draws) == 0
    }

    /// One of several.
    pub fn pick<T: Copy>(&mut self, several: &[T]) -> T {
        several[self.below(several.len())]
    }

    /// A size in its range: an end, a small one or any.
    pub fn size(&mut self, from: usize, to: usize) -> usize {
        match self.below(4) {
            0 => self.pick(&[from, (from + 1).min(to), to.saturating_sub(1).max(from), to]),
            1 | 2 => self.between(from, (from + 5).min(to)),
            _ => self.between(from, to),
        }
    }

    /// A number between -1 and 1.
    pub fn smooth(&mut self) -> f64 {
        (self.bits() >> 11) as f64 / (1u64 << 52) as f64 - 1.0
    }

    /// A number between 0 and 1, 0 never among them.
    pub fn fraction(&mut self) -> f64 {
        ((self.bits() >> 12) + 1) as f64 / (1u64 << 52) as f64
    }

    /// A power of two, its exponent between the two given, which are at least -1074.
    pub fn power(&mut self, from: i32, to: i32) -> f64 {
        let exponent = from + self.below((to - from + 1) as usize) as i32;
        // `powi` takes an inverse, which is 0 below 2^-1023.
        2f64.powi(exponent.max(-1000)) * 2f64.powi(exponent.min(-1000) + 1000)
    }

    /// One value of a palette.
    pub fn real(&mut self, palette: Palette) -> f64 {
        match palette {
            Palette::Smooth => self.smooth(),
            Palette::Whole => self.between(0, 6) as f64 - 3.0,
            Palette::Signs => self.pick(&[0.0, -0.0, 1.0, -1.0]),
            Palette::Wide => self.smooth() * self.power(-40, 40),
            Palette::Vast => self.smooth() * self.power(-1000, 1000),
            Palette::Special => f64::from_bits(self.pick(&SPECIAL)),
            Palette::Bits => f64::from_bits(self.bits()),
        }
    }

    /// So many values of a palette.
    pub fn reals(&mut self, palette: Palette, count: usize) -> Vec<f64> {
        (0..count).map(|_| self.real(palette)).collect()
    }
}

/// The number `index` written with the given letters, `count` of them.
pub fn spell(index: u64, letters: &[f64], count: usize) -> Vec<f64> {
    let base = letters.len() as u64;
    let mut rest = index;
    (0..count)
        .map(|_| {
            let letter = letters[(rest % base) as usize];
            rest /= base;
            letter
        })
        .collect()
}

/// The special values as numbers.
pub fn specials() -> Vec<f64> {
    SPECIAL.into_iter().map(f64::from_bits).collect()
}
