//! The chord law on random pairs of stereo calls: where each voice of A has a voice of B of the
//! same pitch, timbre and pan and no lower level, pressure, volume or expression, and A's curve is
//! nowhere above B's, no bin of A's masks is above B's. A NaN point ranks below every number.

use oracle::calls::build_stereo_masks_with_voices_precomputed as stereo;
use oracle::curves::{equal as equal_curve, is_above, lowered, point_of};
use oracle::random::Random;
use oracle::scenes::{Scene, voice};
use oracle::spectral_dsp::{MaskVoice, Pitch};

fn masks(scene: &Scene, table: &[f32]) -> Vec<f32> {
    let mut left = vec![0.0; table.len()];
    let mut right = left.clone();
    let outcome = stereo(
        &mut left,
        &mut right,
        &scene.curve,
        &scene.voices,
        scene.config,
        table,
    );
    assert_eq!(outcome, Ok(()));
    [left, right].concat()
}

/// A pitch that is equal, although maybe not in its bits: the two zeros are equal.
fn equal(random: &mut Random, pitch: Pitch) -> Pitch {
    let same = match pitch {
        Pitch::Note(note, 0.0) => Pitch::Note(note, random.pick(&[0.0, -0.0])),
        other => other,
    };
    assert_eq!(same, pitch);
    same
}

fn raised(random: &mut Random, voice: &MaskVoice) -> MaskVoice {
    let pitch = equal(random, voice.pitch);
    let mut up = |x: f32| {
        let size = random.pick(&[0.0, 1.0e-7, 0.1, 1.0]);
        x + random.between(0.0, size)
    };
    MaskVoice {
        pitch,
        level: up(voice.level).min(1.0),
        pressure: up(voice.pressure),
        volume_gain: up(voice.volume_gain),
        expression_gain: up(voice.expression_gain),
        ..*voice
    }
}

/// A small scene of few voices, and its table.
fn small(random: &mut Random) -> (Scene, Vec<f32>) {
    let (mut scene, table) = Scene::small(random, 4);
    scene.voices.truncate(8);
    (scene, table)
}

/// Whether a bin reads a point of A and one of B that are so.
fn some_bin(a: &Scene, b: &Scene, holds: fn(f32, f32) -> bool) -> bool {
    let size = a.config.fft_size;
    let points = |bin| (a.curve[point_of(bin, size)], b.curve[point_of(bin, size)]);
    (0..=size / 2).map(points).any(|(a, b)| holds(a, b))
}

#[test]
fn no_bin_is_above() {
    let random = &mut Random::new(8);
    let (mut by_hertz, mut lower, mut in_a_alone, mut in_both) = (0, 0, 0, 0);
    for _ in 0..400 {
        let (mut a, table) = small(random);
        let is_hertz = |voice: &&MaskVoice| matches!(voice.pitch, Pitch::Hertz(_));
        by_hertz += a.voices.iter().filter(is_hertz).count();
        let mut b = a.clone();
        a.curve = lowered(random, &b.curve);
        let mut points = a.curve.iter().zip(&b.curve);
        assert!(points.all(|(&a, &b)| !is_above(a, b)));
        lower += usize::from(some_bin(&a, &b, |a, b| a < b));
        in_a_alone += usize::from(some_bin(&a, &b, |a, b| a.is_nan() && !b.is_nan()));
        in_both += usize::from(some_bin(&a, &b, |a, b| a.is_nan() && b.is_nan()));
        b.voices = a
            .voices
            .iter()
            .rev()
            .map(|voice| raised(random, voice))
            .collect();
        b.voices.extend((0..random.below(3)).map(|_| voice(random)));
        let (lower, higher) = (masks(&a, &table), masks(&b, &table));
        assert!(lower.iter().zip(&higher).all(|(x, y)| x <= y), "{a:?}");
    }
    let reached = [by_hertz, lower, in_a_alone, in_both];
    assert!(reached.iter().all(|&count| count >= 80), "{reached:?}");
}

/// Where each of two scenes meets the premises with the other, their masks are equal.
#[test]
fn equal_scenes_have_equal_masks() {
    let random = &mut Random::new(9);
    let mut damaged = 0;
    for _ in 0..400 {
        let (a, table) = small(random);
        let mut b = a.clone();
        b.curve = equal_curve(random, &a.curve);
        for voice in &mut b.voices {
            voice.pitch = equal(random, voice.pitch);
        }
        let again = random.below(b.voices.len() + 1);
        b.voices.extend_from_within(..again);
        random.shuffle(&mut b.voices);
        let mut points = a.curve.iter().zip(&b.curve);
        assert!(points.all(|(&a, &b)| !is_above(a, b) && !is_above(b, a)));
        damaged += usize::from(some_bin(&a, &b, |a, b| a.is_nan() && b.is_nan()));
        let (one, other) = (masks(&a, &table), masks(&b, &table));
        assert!(one.iter().zip(&other).all(|(x, y)| x == y), "{a:?}");
    }
    assert!(damaged >= 80, "{damaged} scenes with NaN");
}

/// A number is above a NaN: the law has to leave such curves out.
#[test]
fn a_nan_in_b_alone_is_no_premise() {
    let random = &mut Random::new(10);
    let (a, table) = small(random);
    let a = Scene {
        curve: vec![0.0; a.curve.len()],
        ..a
    };
    let mut b = a.clone();
    b.curve[point_of(1, b.config.fft_size)] = f32::NAN;
    assert!(is_above(0.0, f32::NAN) && !is_above(f32::NAN, 0.0));
    assert!(!is_above(f32::NAN, -f32::NAN));
    assert!(masks(&a, &table)[1] > masks(&b, &table)[1]);
}

#[test]
fn equal_in_pitch_is_the_same_form_and_the_same_numbers() {
    assert_eq!(Pitch::Note(69, 0.0), Pitch::Note(69, -0.0));
    assert_eq!(Pitch::Hertz(440.0), Pitch::Hertz(440.0));
    // Both sound 440 Hz.
    assert_ne!(Pitch::Note(69, 0.0), Pitch::Hertz(440.0));
    assert_ne!(Pitch::Note(69, 0.0), Pitch::Note(57, 12.0));
    assert_ne!(Pitch::Hertz(440.0), Pitch::Hertz(440.0_f32.next_up()));
}
