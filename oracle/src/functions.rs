//! Document 01's functions, in place of the library calls of the ported Rust.

use crate::tables::{POWER_LOW_BITS, POWERS, SINE_LOW_BITS, SINES};
use std::f32::consts::{LOG2_10, LOG2_E, LOG10_2};

const TWO_TO_24: f64 = 16_777_216.0;

/// One turn as a part of an angle, as document 01 writes it.
const TURNS_PER_RADIAN: f32 = 0.15915494;

/// b if a < b, else a; where one of the two is NaN, the other.
pub fn max(a: f32, b: f32) -> f32 {
    if a < b || a.is_nan() { b } else { a }
}

/// b if b < a, else a; where one of the two is NaN, the other.
pub fn min(a: f32, b: f32) -> f32 {
    if b < a || a.is_nan() { b } else { a }
}

/// The low end for a number below it, the high end for one above it, else the number, NaN too.
pub fn clamp(x: f32, low: f32, high: f32) -> f32 {
    if x < low {
        low
    } else if high < x {
        high
    } else {
        x
    }
}

pub fn abs(x: f32) -> f32 {
    x.abs()
}

/// IEEE 754's square root, which is std's.
pub fn sqrt(x: f32) -> f32 {
    x.sqrt()
}

/// The whole number below, as a count: 0 for NaN and negatives, the largest where it is too large.
pub fn floor_to_count(x: f32) -> usize {
    x.floor() as usize
}

/// The whole number above, as a count: 0 for NaN and negatives, the largest where it is too large.
pub fn ceil_to_count(x: f32) -> usize {
    x.ceil() as usize
}

/// The remainder by 1, from 0 up; it is 1 where that sum rounds up to it.
pub fn rem_euclid(v: f32) -> f32 {
    let remainder = v % 1.0;
    if remainder < 0.0 {
        remainder + 1.0
    } else {
        remainder
    }
}

pub fn powi2(v: f32) -> f32 {
    v * v
}

pub fn powi5(v: f32) -> f32 {
    (v * v) * (v * v) * v
}

/// The sum, left to right from +0.0.
pub fn sum(terms: impl Iterator<Item = f32>) -> f32 {
    terms.fold(0.0, |total, term| total + term)
}

/// I(F): the line between the two entries of `table` around F, at its low bits, rounded down.
fn interpolate(table: &[u64], low_bits: usize, f: u64) -> u64 {
    let (h, r) = ((f >> low_bits) as usize, f & ((1 << low_bits) - 1));
    if r == 0 {
        return table[h];
    }
    table[h] + (((table[h + 1] - table[h]) * r) >> low_bits)
}

/// E2(x), for 2^x.
pub fn exp2(x: f32) -> f32 {
    if x.is_nan() || x < -126.0 {
        return 0.0;
    }
    if x >= 128.0 {
        return f32::MAX;
    }
    // In f64 the product, its floor and the result are exact.
    let scaled = (f64::from(x) * TWO_TO_24).floor() as i64;
    let (n, f) = (scaled >> 24, (scaled & 0xff_ffff) as u64);
    let significand = interpolate(&*POWERS, POWER_LOW_BITS, f) / 128;
    (significand as f64 * 2.0_f64.powi(n as i32 - 23)) as f32
}

/// L2(v), for log2 of a positive normal v. Elsewhere it is 0, which no accepted call asks for.
pub fn log2(v: f32) -> f32 {
    if !(v.is_normal() && v.is_sign_positive()) {
        return 0.0;
    }
    let e = i64::from(v.to_bits() >> 23) - 127;
    let m = u64::from(v.to_bits() & 0x7f_ffff | 0x80_0000);
    let f = greatest_at_most(128 * m);
    // In f64 the quotient is exact, so the result is rounded once.
    (((e << 24) + f as i64) as f64 / TWO_TO_24) as f32
}

/// The greatest F with I(F) <= value, for a value from P[0] to below the last entry.
fn greatest_at_most(value: u64) -> u64 {
    let h = POWERS.partition_point(|&entry| entry <= value) - 1;
    let (above, step) = (value - POWERS[h], POWERS[h + 1] - POWERS[h]);
    // With w low bits, floor(step·r / 2^w) <= above is the same as step·r < (above + 1)·2^w.
    let r = (((above + 1) << POWER_LOW_BITS) - 1) / step;
    ((h as u64) << POWER_LOW_BITS) + r
}

/// powf(10, y)
pub fn pow10(y: f32) -> f32 {
    exp2(y * LOG2_10)
}

pub fn exp(y: f32) -> f32 {
    exp2(y * LOG2_E)
}

pub fn log10(v: f32) -> f32 {
    log2(v) * LOG10_2
}

/// U: the angle in parts of 2^24 to the turn, less whole turns; 0 for NaN and the infinities.
fn turn_parts(angle: f32) -> u64 {
    // In f64 the product, its floor and the remainder are exact.
    let scaled = (f64::from(angle * TURNS_PER_RADIAN) * TWO_TO_24).floor();
    scaled.rem_euclid(TWO_TO_24) as u64
}

/// The sine at U parts of a turn, U below 2^24.
fn sine_at(u: u64) -> f32 {
    let (q, p) = (u >> 22, u & 0x3f_ffff);
    let turned = if q % 2 == 1 { (1 << 22) - p } else { p };
    let v = interpolate(&*SINES, SINE_LOW_BITS, turned) / 64;
    let size = v as f32 / TWO_TO_24 as f32;
    if q < 2 || v == 0 { size } else { -size }
}

pub fn sin(angle: f32) -> f32 {
    sine_at(turn_parts(angle))
}

pub fn cos(angle: f32) -> f32 {
    sine_at((turn_parts(angle) + (1 << 22)) & 0xff_ffff)
}
