//! Document 01's bounds, over whole numbers.

use oracle::bignum::Natural;
use oracle::calls::{advance_note_envelopes, build_dual_synthesis_window, is_held, note_frequency};
use oracle::random::Random;

/// A float from 0 up, as a whole number of parts of 2^-149.
fn whole(x: f32) -> Natural {
    let (exponent, mantissa) = (
        x.to_bits() as usize >> 23,
        u64::from(x.to_bits() & 0x7f_ffff),
    );
    match exponent {
        0 => Natural::from(mantissa),
        _ => Natural::from(mantissa | 0x80_0000).shifted(exponent - 1),
    }
}

/// (f(1 - 2^-20))^12 <= 440^12·2^(note - 69) <= (f(1 + 2^-20))^12
#[test]
fn equal_temperament() {
    for note in 0..=127 {
        let f = whole(note_frequency(note).expect("a note is accepted"));
        // Both sides in parts of 2^-(149 + 20) to the 12th, times 2^69.
        let near = |parts: u64| f.times(&Natural::from(parts)).power(12).shifted(69);
        let tempered = Natural::from(440)
            .power(12)
            .shifted(12 * (149 + 20) + note as usize);
        assert!(near((1 << 20) - 1) <= tempered, "note {note}");
        assert!(tempered <= near((1 << 20) + 1), "note {note}");
    }
}

fn window_value(random: &mut Random) -> f32 {
    match random.below(6) {
        0 => 0.0,
        1 => random.pick(&[16.0, -16.0, 1.0, -0.0]),
        2 => random.between(-1.0e-4, 1.0e-4),
        _ => random.between(-2.0, 2.0),
    }
}

/// The exact sum, in parts of 2^-298, of products that are never negative.
fn sum_of_products(pairs: impl Iterator<Item = (f32, f32)>) -> Natural {
    pairs.fold(Natural::from(0), |sum, (a, b)| {
        sum.plus(&whole(a.abs()).times(&whole(b.abs())))
    })
}

/// Where the squares of a residue class add to at least 2^-30, the exact sum of analysis times
/// synthesis over it is 1 within 2^-19.
#[test]
fn dual_window() {
    let mut random = Random::new(7);
    let (one, least) = (Natural::power_of_two(298), Natural::power_of_two(298 - 30));
    let part = Natural::power_of_two(298 - 19);
    let mut held = 0;
    for _ in 0..2000 {
        let overlap = 1 + random.below(16);
        let hop = 1 + random.below(8);
        let length = hop * overlap;
        let analysis: Vec<f32> = (0..length).map(|_| window_value(&mut random)).collect();
        let mut synthesis = vec![0.0; length];
        let outcome = build_dual_synthesis_window(&analysis, &mut synthesis, overlap);
        assert_eq!(outcome, Ok(()));
        for residue in 0..hop {
            let class = || (residue..length).step_by(hop);
            assert!(class().all(|i| analysis[i] * synthesis[i] >= 0.0));
            if sum_of_products(class().map(|i| (analysis[i], analysis[i]))) < least {
                continue;
            }
            let sum = sum_of_products(class().map(|i| (analysis[i], synthesis[i])));
            assert!(sum <= one.plus(&part) && one <= sum.plus(&part));
            held += 1;
        }
    }
    assert!(held > 1000);
}

/// On every frame levels stay in 0..1, and none moves away from where it is held to.
#[test]
fn envelopes() {
    let mut random = Random::new(9);
    for _ in 0..500 {
        let size = random.pick(&[1.0, 1.0e-5, 1.0e-30]);
        let mut bank = std::array::from_fn(|_| random.between(0.0, size));
        for _ in 0..20 {
            let held = std::array::from_fn(|_| random.word() as u8);
            let elapsed = random.pick(&[0.0, 1.0e-6, 0.005, 0.1, 10.0]);
            let fade = random.pick(&[0.0, 1.0e-38, 1.0, 100.0, 60_000.0]);
            let (outcome, next) = advance_note_envelopes(bank, held, elapsed, fade);
            assert_eq!(outcome, Ok(()));
            for (note, (before, after)) in bank.into_iter().zip(next).enumerate() {
                assert!((0.0..=1.0).contains(&after), "{before:e} {after:e}");
                let small = before.abs() < 1.0e-6 && after == 0.0;
                let nearer = match is_held(held, note) {
                    true => before <= after,
                    false => after <= before,
                };
                assert!(nearer || small, "{before:e} {after:e}");
            }
            bank = next;
        }
    }
}
