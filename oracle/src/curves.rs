//! Drawn curves with damaged points, which are NaN, and the rank of points by change request 108.

use crate::random::Random;
use crate::record_calls::any_nan;
use crate::spectral_dsp::MANUAL_MASK_POINTS;

/// Masks of every size read the points at the multiples of this.
const READ_AT_EVERY_SIZE: usize = 256;

/// The point that a bin reads, by document 01.
pub fn point_of(bin: usize, fft_size: usize) -> usize {
    let last = MANUAL_MASK_POINTS - 1;
    ((bin * last + fft_size / 4) / (fft_size / 2)).min(last)
}

/// Whether a bin reads a damaged point.
pub fn mutes_a_bin(curve: &[f32], fft_size: usize) -> bool {
    let is_damaged = |bin| curve[point_of(bin, fft_size)].is_nan();
    (0..=fft_size / 2).any(is_damaged)
}

/// Damages runs of a curve's points, of which many begin at a point that is read at every size.
pub fn damage(random: &mut Random, curve: &mut [f32]) {
    for _ in 0..random.pick(&[1, 1, 2, 8]) {
        let any = random.below(curve.len());
        let first = random.pick(&[any, any / READ_AT_EVERY_SIZE * READ_AT_EVERY_SIZE]);
        let length = random.pick(&[1, 1, 16, 256, curve.len()]);
        let run = curve[first..].iter_mut().take(length);
        run.for_each(|point| *point = any_nan(random));
    }
}

/// Whether a point is above another: NaN ranks below every number, and two NaNs are equal.
pub fn is_above(point: f32, other: f32) -> bool {
    !point.is_nan() && (other.is_nan() || point > other)
}

/// Puts equal points for some: another NaN for each NaN, and zeros of the other sign.
pub fn equal(random: &mut Random, curve: &[f32]) -> Vec<f32> {
    let point = |&point: &f32| match point {
        _ if point.is_nan() => any_nan(random),
        0.0 => random.pick(&[0.0, -0.0]),
        _ => point,
    };
    curve.iter().map(point).collect()
}

/// A curve nowhere above another: equal, lower by little or by much, or with runs of NaN of its
/// own.
pub fn lowered(random: &mut Random, curve: &[f32]) -> Vec<f32> {
    let step = random.pick(&[0.0, 1.0e-3, 1.0, 60.0]);
    let mut lower = equal(random, curve);
    for point in &mut lower {
        match random.below(4) {
            0 => (),
            1 if step > 0.0 => *point = point.next_down(),
            _ => *point -= random.between(0.0, step),
        }
    }
    if random.once_in(2) {
        damage(random, &mut lower);
    }
    lower
}
