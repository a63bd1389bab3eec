//! Document 01's functions against their definitions, worked out in whole numbers.

use oracle::functions::*;
use oracle::random::Random;
use oracle::tables::{POWERS, SINES};

const DRAWS: usize = 200_000;

/// floor(x·2^24), for a finite x below 2^100 in size.
fn floor_24(x: f32) -> i128 {
    let (exponent, mantissa) = (x.to_bits() >> 23 & 0xff, x.to_bits() & 0x7f_ffff);
    let hidden = if exponent > 0 { 0x80_0000 } else { 0 };
    let size = i128::from(mantissa | hidden);
    let signed = if x.is_sign_negative() { -size } else { size };
    // x is signed·2^(place - 149).
    let place = exponent.max(1) - 1;
    if place < 125 {
        signed >> (125 - place)
    } else {
        signed << (place - 125)
    }
}

/// A table between its entries, by `bits` low bits, with floor.
fn between(table: &[u64], bits: u32, f: i128) -> i128 {
    let (h, r) = ((f >> bits) as usize, f & ((1 << bits) - 1));
    let after = table.get(h + 1).copied().unwrap_or(table[h]);
    i128::from(table[h]) + ((i128::from(after - table[h]) * r) >> bits)
}

fn drawn(random: &mut Random, size: f32) -> f32 {
    if random.once_in(2) {
        random.float()
    } else {
        random.between(-size, size)
    }
}

#[test]
fn exp2_is_e2() {
    let mut random = Random::new(1);
    for _ in 0..DRAWS {
        let x = drawn(&mut random, 130.0);
        let result = exp2(x);
        if x.is_nan() || x < -126.0 {
            assert_eq!(result.to_bits(), 0);
        } else if x >= 128.0 {
            assert_eq!(result, f32::MAX);
        } else {
            let (n, f) = (floor_24(x) >> 24, floor_24(x) & 0xff_ffff);
            let significand = between(&*POWERS, 14, f) / 128;
            let bits = (n + 126) * (1 << 23) + significand;
            assert_eq!(i128::from(result.to_bits()), bits, "{x:e}");
        }
    }
}

#[test]
fn exp2_never_falls() {
    let mut random = Random::new(2);
    for _ in 0..DRAWS {
        let x = drawn(&mut random, 130.0);
        if !x.is_nan() {
            assert!(exp2(x) <= exp2(x.next_up()), "{x:e}");
        }
    }
}

/// e + F/2^24 is rounded once: the result lies as near as a neighbour, and evenly at a tie.
#[test]
fn log2_is_l2() {
    let mut random = Random::new(3);
    for _ in 0..DRAWS {
        let v = random.float();
        let result = log2(v);
        if !(v.is_normal() && v > 0.0) {
            assert_eq!(result.to_bits(), 0);
            continue;
        }
        let e = i128::from(v.to_bits() >> 23) - 127;
        let m = i128::from(v.to_bits() & 0x7f_ffff | 0x80_0000);
        let f = greatest(|f| between(&*POWERS, 14, f) <= 128 * m);
        // Scaled so, the exact number and the floats around it are whole.
        let exact = (e << 24) + f;
        let distance =
            |x: f32| (f64::from(x) * 2.0_f64.powi(49) - exact as f64 * 2.0_f64.powi(25)).abs();
        let (down, up) = (distance(result.next_down()), distance(result.next_up()));
        let own = distance(result);
        let even = result.to_bits().is_multiple_of(2);
        assert!(own < down || own == down && even, "{v:e}");
        assert!(own < up || own == up && even, "{v:e}");
    }
}

/// The greatest F below 2^24 that is allowed.
fn greatest(allowed: impl Fn(i128) -> bool) -> i128 {
    let (mut low, mut high) = (0, 1 << 24);
    while high - low > 1 {
        let middle = (low + high) / 2;
        if allowed(middle) {
            low = middle;
        } else {
            high = middle;
        }
    }
    low
}

#[test]
fn sine_and_cosine_are_as_defined() {
    let mut random = Random::new(4);
    for _ in 0..DRAWS {
        let angle = drawn(&mut random, 40.0);
        let u = angle * 0.15915494;
        let parts = if u.abs() < 1.0e30 {
            floor_24(u) & 0xff_ffff
        } else {
            0
        };
        for (result, parts) in [
            (sin(angle), parts),
            (cos(angle), (parts + (1 << 22)) & 0xff_ffff),
        ] {
            let (q, p) = (parts >> 22, parts & 0x3f_ffff);
            let turned = if q % 2 == 1 { (1 << 22) - p } else { p };
            let size = between(&*SINES, 14, turned) / 64;
            let exact = if q < 2 { size } else { -size };
            assert_eq!(f64::from(result) * 16_777_216.0, exact as f64, "{angle:e}");
            assert!(result != 0.0 || result.is_sign_positive());
        }
    }
}

/// The squares of the two pan balances add to 2 within 2^-14.
#[test]
fn pan_balances() {
    let mut random = Random::new(5);
    for _ in 0..DRAWS {
        let angle = (random.between(-1.0, 1.0) + 1.0) * std::f32::consts::FRAC_PI_4;
        let balances = [cos(angle), sin(angle)].map(|x| f64::from(x * std::f32::consts::SQRT_2));
        // Squares of 24 bits and their sum are exact in f64.
        let sum: f64 = balances.iter().map(|x| x * x).sum();
        assert!((sum - 2.0).abs() <= 2.0_f64.powi(-14), "{angle:e}");
    }
}

#[test]
fn rem_euclid_lies_in_0_to_1() {
    let mut random = Random::new(6);
    for _ in 0..DRAWS {
        let v = drawn(&mut random, 20.0);
        let result = rem_euclid(v);
        assert_eq!(result.is_nan(), !v.is_finite());
        assert!(result.is_nan() || (0.0..=1.0).contains(&result), "{v:e}");
    }
    assert_eq!(rem_euclid(-1.0e-8), 1.0);
    assert!(rem_euclid(-2.0).is_sign_negative());
}
