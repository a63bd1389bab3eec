//! Facts over every float that is accepted, which the proofs rest on. They take half a minute:
//!
//!     cargo test --release --test exhaustive -- --ignored

use oracle::calls::note_emphasis_gain;
use oracle::functions::{cos, exp2, log2, sin};
use std::f32::consts::{FRAC_PI_4, SQRT_2};

/// Every float from one positive number to another.
fn every(low: f32, high: f32) -> impl DoubleEndedIterator<Item = f32> {
    (low.to_bits()..=high.to_bits()).map(f32::from_bits)
}

/// Below 2^-25 in size the power is that of a zero or of the least part below it.
#[test]
#[ignore = "it takes long"]
fn exp2_never_falls() {
    let least = 2.0_f32.powi(-25);
    let negative = every(least, 128.0).rev().map(|x| -x);
    let mut last = 0.0;
    for x in negative.chain(every(least, 128.0)) {
        let power = exp2(x);
        assert!(last <= power, "{x:e}");
        last = power;
    }
}

#[test]
#[ignore = "it takes long"]
fn log2_never_falls() {
    for e in [-126, -1, 0, 13, 126] {
        let octave = 2.0_f32.powi(e);
        let mut last = f32::NEG_INFINITY;
        for v in every(octave, 2.0 * octave) {
            let logarithm = log2(v);
            assert!(last <= logarithm, "{v:e}");
            last = logarithm;
        }
    }
}

/// The squares of the two balances add to 2 within 2^-14, and neither is below 0. The sum of pan
/// and 1 is rounded, so every pan gives a multiple of 2^-24 up to 1, or of 2^-23 up to 2.
#[test]
#[ignore = "it takes long"]
fn pan_law() {
    let below = (0..1 << 24).map(|part| part as f32 / 16_777_216.0);
    let above = (0..=1 << 23).map(|part| 1.0 + part as f32 / 8_388_608.0);
    let mut largest = 0.0_f64;
    for raised in below.chain(above) {
        let angle = raised * FRAC_PI_4;
        let balances = [cos(angle) * SQRT_2, sin(angle) * SQRT_2];
        assert!(balances.iter().all(|&x| x >= 0.0), "{raised:e}");
        let [left, right] = balances.map(f64::from);
        largest = largest.max((left * left + right * right - 2.0).abs());
    }
    println!("at most {largest:e}, which is 2^{:.2}", largest.log2());
    assert!(largest <= 2.0_f64.powi(-14));
}

#[test]
#[ignore = "it takes long"]
fn emphasis_is_at_least_1() {
    for width in every(1.0, 1200.0) {
        let gain = note_emphasis_gain(width).expect("the width is accepted");
        assert!((1.0..=2.0).contains(&gain), "{width:e}: {gain:e}");
    }
}
