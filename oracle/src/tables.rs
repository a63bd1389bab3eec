//! The tables P, K and R of document 01, made from their rules with whole numbers. No entry is
//! typed in. (The Gaussian is made in spectral_dsp, where the Rust makes it.)

use crate::bignum::Natural;
use std::sync::LazyLock;

/// Of the 24 bits of F, the high ones choose an entry of P and the low ones a place after it.
pub const POWER_HIGH_BITS: usize = 10;
pub const POWER_LOW_BITS: usize = 24 - POWER_HIGH_BITS;
pub const POWER_STEPS: usize = 1 << POWER_HIGH_BITS;

/// R has 2^8 steps over a quarter turn, each of 2^14.
pub const SINE_HALVINGS: usize = 8;
pub const SINE_LOW_BITS: usize = 22 - SINE_HALVINGS;
pub const SINE_STEPS: usize = 1 << SINE_HALVINGS;

/// P[j], near 2^30 times the j-th of 1,024 equal steps from 1 to 2.
pub static POWERS: LazyLock<[u64; POWER_STEPS + 1]> =
    LazyLock::new(|| std::array::from_fn(power_entry));

/// K[i], near 2^30 times the cosine of a right angle halved i times.
pub static HALF_ANGLE_COSINES: LazyLock<[u64; SINE_HALVINGS + 1]> =
    LazyLock::new(half_angle_cosines);

/// R[j], near 2^30 times the sine of j parts in 256 of a quarter turn.
pub static SINES: LazyLock<[u64; SINE_STEPS + 1]> = LazyLock::new(sines);

/// The greatest allowed whole number from `low` to below `high`. `low` is allowed, and so is every
/// number below an allowed one.
fn greatest(mut low: u64, mut high: u64, allowed: impl Fn(u64) -> bool) -> u64 {
    while high - low > 1 {
        let middle = low + (high - low) / 2;
        if allowed(middle) {
            low = middle;
        } else {
            high = middle;
        }
    }
    low
}

/// P[j] is the greatest whole number with P[j]^1024 <= 2^(30720 + j); 30720 is 30 times 1,024. The
/// search begins at an estimate, which decides nothing but how long it takes.
fn power_entry(j: usize) -> u64 {
    let limit = Natural::power_of_two(30 * POWER_STEPS + j);
    let allowed = |p: u64| Natural::from(p).power(POWER_STEPS) <= limit;
    let mut p = (30.0 + j as f64 / POWER_STEPS as f64).exp2() as u64;
    while !allowed(p) {
        p -= 1;
    }
    while allowed(p + 1) {
        p += 1;
    }
    p
}

/// K[0] = 0, and K[i+1] is the greatest whole number whose square is at most (2^30 + K[i])·2^29.
fn half_angle_cosines() -> [u64; SINE_HALVINGS + 1] {
    let mut k = [0; SINE_HALVINGS + 1];
    for i in 0..SINE_HALVINGS {
        let limit = ((1 << 30) + k[i]) << 29;
        k[i + 1] = greatest(0, 1 << 31, |root| root * root <= limit);
    }
    k
}

/// R[0] = 0, R[256] = 2^30, and the middle of a span a..b of width 256/2^s is
/// floor((R[a] + R[b])·2^29 / K[s+1]).
fn sines() -> [u64; SINE_STEPS + 1] {
    let k = &*HALF_ANGLE_COSINES;
    let mut r = [0; SINE_STEPS + 1];
    r[SINE_STEPS] = 1 << 30;
    for s in 0..SINE_HALVINGS {
        let width = SINE_STEPS >> s;
        for a in (0..SINE_STEPS).step_by(width) {
            r[a + width / 2] = ((r[a] + r[a + width]) << 29) / k[s + 1];
        }
    }
    r
}
