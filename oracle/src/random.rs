//! Seeded random numbers (splitmix64), and floats that often find faults.

#[derive(Clone, Debug)]
pub struct Random {
    state: u64,
}

/// Bit patterns at which functions of floats take another branch: zeros, subnormals, ones, the ends
/// of exp2, counts that no longer fit, the infinities, NaN.
const EDGES: [u32; 32] = [
    0x0000_0000, // 0
    0x0000_0001, // the least subnormal
    0x0000_0002,
    0x007f_ffff, // the greatest subnormal
    0x0080_0000, // the least normal
    0x0080_0001,
    0x3380_0000, // 2^-24
    0x3727_c5ac, // 1e-5
    0x3e80_0000, // 0.25
    0x3eff_ffff,
    0x3f00_0000, // 0.5
    0x3f00_0001,
    0x3f7f_ffff,
    0x3f80_0000, // 1
    0x3f80_0001,
    0x3fc0_0000, // 1.5
    0x4000_0000, // 2
    0x40c9_0fdb, // a turn
    0x42fb_ffff,
    0x42fc_0000, // 126
    0x42fc_0001,
    0x42ff_ffff,
    0x4300_0000, // 128
    0x4aff_ffff, // 2^23 less a half
    0x4b00_0000, // 2^23
    0x4b7f_ffff,
    0x4b80_0000, // 2^24
    0x5eff_ffff,
    0x5f00_0000, // 2^63
    0x5f80_0000, // 2^64
    0x7f7f_ffff, // the greatest
    0x7f80_0000, // infinity
];

impl Random {
    pub fn new(seed: u64) -> Self {
        Self { state: seed }
    }

    pub fn word(&mut self) -> u64 {
        self.state = self.state.wrapping_add(0x9e37_79b9_7f4a_7c15);
        let mut z = self.state;
        z = (z ^ (z >> 30)).wrapping_mul(0xbf58_476d_1ce4_e5b9);
        z = (z ^ (z >> 27)).wrapping_mul(0x94d0_49bb_1331_11eb);
        z ^ (z >> 31)
    }

    /// A number from 0 to below `end`.
    pub fn below(&mut self, end: usize) -> usize {
        (self.word() % end as u64) as usize
    }

    /// True once in `times`.
    pub fn once_in(&mut self, times: usize) -> bool {
        self.below(times) == 0
    }

    pub fn pick<T: Copy>(&mut self, choices: &[T]) -> T {
        choices[self.below(choices.len())]
    }

    /// Puts all into any order.
    pub fn shuffle<T>(&mut self, all: &mut [T]) {
        for end in (2..=all.len()).rev() {
            all.swap(end - 1, self.below(end));
        }
    }

    /// A float from `low` to `high`, spread evenly.
    pub fn between(&mut self, low: f32, high: f32) -> f32 {
        let unit = (self.word() >> 40) as f32 / 16_777_216.0;
        (low + (high - low) * unit).clamp(low, high)
    }

    /// Any bit pattern: each sign and each of the 256 exponents equally often, so that NaN and the
    /// infinities are among them, and now and then a mantissa of 0, 1 or all ones, or an edge.
    pub fn bits(&mut self) -> u32 {
        let word = self.word();
        let sign = (word >> 63) as u32;
        if word & 0x3f == 0 {
            return sign << 31 | self.pick(&EDGES);
        }
        let exponent = (word >> 32) as u32 & 0xff;
        let mantissa = match word >> 6 & 0x1f {
            0 => 0,
            1 => 1,
            2 => 0x7f_ffff,
            _ => (word >> 40) as u32 & 0x7f_ffff,
        };
        sign << 31 | exponent << 23 | mantissa
    }

    pub fn float(&mut self) -> f32 {
        f32::from_bits(self.bits())
    }
}
