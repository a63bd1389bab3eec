//! Document 01's proved cases, and a damaged curve point by change request 108: the only numbers
//! that are typed in.

use oracle::calls::*;
use oracle::functions::{exp2, log2};
use oracle::random::Random;
use oracle::record_calls::any_nan;
use oracle::spectral_dsp::MANUAL_MASK_POINTS;
use oracle::tables::{HALF_ANGLE_COSINES, SINES};

#[test]
fn powers_and_logarithms() {
    assert_eq!(exp2(0.0), 1.0);
    assert_eq!(exp2(-1.0), 0.5);
    assert_eq!(exp2(0.5), 11_863_283.0 / 8_388_608.0);
    assert_eq!(exp2(-127.0), 0.0);
    assert_eq!(log2(1.0), 0.0);
    assert_eq!(log2(8.0), 3.0);
}

#[test]
fn tables() {
    assert_eq!(HALF_ANGLE_COSINES[1], 759_250_124);
    assert_eq!(SINES[128], 759_250_125);
}

#[test]
fn notes() {
    assert_eq!(note_frequency(69), Ok(440.0));
    assert_eq!(note_frequency(57), Ok(220.0));
}

#[test]
fn curve() {
    let mut curve = [0.0; MANUAL_MASK_POINTS];
    curve[0] = -144.0;
    curve[2] = 6.0;
    assert_eq!(manual_gain_at_bin(&curve, 0, 8192), Ok(0.0));
    assert_eq!(manual_gain_at_bin(&curve, 1, 8192), Ok(1.0));
}

/// Bin 1 reads point 2 at size 8,192 and point 256 at size 64.
#[test]
fn curve_points() {
    for (fft_size, point) in [(8192, 2), (64, 256)] {
        let mut curve = [0.0; MANUAL_MASK_POINTS];
        curve[point] = -144.0;
        assert_eq!(manual_gain_at_bin(&curve, 1, fft_size), Ok(0.0));
    }
}

/// A NaN gives 0, whatever its sign and payload are, quiet or not.
#[test]
fn damaged_curve_point() {
    let ends = [0x7f80_0001, 0x7fbf_ffff, 0x7fc0_0000, 0x7fff_ffff];
    let random = &mut Random::new(1);
    let mut nans: Vec<f32> = (0..1_000).map(|_| any_nan(random)).collect();
    for bits in ends.into_iter().chain(ends.map(|bits| bits | 1 << 31)) {
        nans.push(f32::from_bits(bits));
    }
    let mut curve = [0.0; MANUAL_MASK_POINTS];
    for nan in nans {
        assert!(nan.is_nan());
        curve[2] = nan;
        let gain = |bin| manual_gain_at_bin(&curve, bin, 8192).map(f32::to_bits);
        let [zero, one] = [0.0_f32, 1.0].map(|gain| Ok(gain.to_bits()));
        assert_eq!([0, 1, 2].map(gain), [one, zero, one]);
    }
}

#[test]
fn dual_of_four_ones() {
    let mut dual = [0.0; 4];
    assert_eq!(build_dual_synthesis_window(&[1.0; 4], &mut dual, 2), Ok(()));
    assert_eq!(dual, [0.5; 4]);
}

#[test]
fn softening_keeps_ones() {
    let mut output = [0.0; 3];
    assert_eq!(soften_spectral_edges(&[1.0; 3], &mut output), Ok(()));
    assert_eq!(output, [1.0; 3]);
}
