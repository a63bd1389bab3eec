//! What the program `panel` prints: both masks of one scene, in rows at the chord's partials, and
//! as a drawing.

mod plot;

use super::List;
use crate::calls;
use crate::functions::{floor_to_count, log10};
use crate::oiko_dsp::note_frequency_with_tuning;
use crate::refusals::Refusal;
use crate::spectral_dsp::{
    MANUAL_CURVE_MUTE_DB, MANUAL_MASK_POINTS, MaskConfig, MaskVoice, MotionConfig, MotionShape,
    Pitch,
};

const RATE: usize = 48_000;
const SIZE: usize = 8_192;
const BINS: usize = SIZE / 2 + 1;
const PARTIALS: usize = 8;

fn config() -> MaskConfig {
    MaskConfig {
        sample_rate: RATE as f32,
        fft_size: SIZE,
        note_depth_db: 48.0,
        note_layer_enabled: true,
        width_cents: 40.0,
        partials: PARTIALS,
        harmonic_rolloff_db_per_octave: 3.0,
        motion: MotionConfig {
            shape: MotionShape::Ripple,
            depth_db: 6.0,
            phase: 0.25,
            size_octaves: 2.0,
        },
    }
}

/// C minor seventh: the third on the left, the fifth on the right, and the seventh near 7:4.
fn voices() -> [MaskVoice; 4] {
    let voice = |note, level, semitones, pan| MaskVoice {
        pitch: Pitch::Note(note, semitones),
        level,
        pan,
        ..MaskVoice::default()
    };
    [
        voice(60, 1.0, 0.0, 0.0),
        voice(63, 0.75, 0.0, -1.0),
        voice(67, 0.875, 0.0, 1.0),
        voice(70, 0.5, -0.3125, 0.0),
    ]
}

/// Falls by 3 dB every 1,024 points, and is silent around the seventh's highest partial.
fn curve() -> Vec<f32> {
    let drawn = |point| match point {
        1_200..1_300 => MANUAL_CURVE_MUTE_DB,
        _ => point as f32 * (-3.0 / 1_024.0),
    };
    (0..MANUAL_MASK_POINTS).map(drawn).collect()
}

/// The logarithms of the bins' frequencies, and both masks.
struct Built {
    table: Vec<f32>,
    left: Vec<f32>,
    right: Vec<f32>,
}

fn build() -> Result<Built, Refusal> {
    let [mut table, mut left, mut right] = [0; 3].map(|_| vec![0.0; BINS]);
    let config = config();
    calls::prepare(&mut table, config.sample_rate, config.fft_size)?;
    calls::build_stereo_masks_with_voices_precomputed(
        &mut left,
        &mut right,
        &curve(),
        &voices(),
        config,
        &table,
    )?;
    Ok(Built { table, left, right })
}

fn decibels(gain: f32) -> f32 {
    20.0 * log10(gain)
}

/// In f64 the product is exact.
fn millionths(gain: f32) -> u64 {
    (f64::from(gain) * 1e6).floor() as u64
}

/// To the nearest hundredth, a half away from zero.
fn decibel_text(gain: f32) -> String {
    if gain == 0.0 {
        return "-inf".to_string();
    }
    let db = decibels(gain);
    let hundredths = floor_to_count(db.abs() * 100.0 + 0.5);
    let sign = if db < 0.0 { "-" } else { "" };
    format!("{sign}{}.{:02}", hundredths / 100, hundredths % 100)
}

/// Whether the bin is the closest to a partial of a voice.
fn of_partial(bin: usize) -> bool {
    let closest = |hertz: f32| floor_to_count(hertz * SIZE as f32 / RATE as f32 + 0.5);
    voices().iter().any(|voice| {
        let first = match voice.pitch {
            Pitch::Note(note, semitones) => note_frequency_with_tuning(note, semitones),
            Pitch::Hertz(hertz) => hertz,
        };
        (1..=PARTIALS).any(|partial| closest(first * partial as f32) == bin)
    })
}

fn row(built: &Built, bin: usize) -> String {
    let (left, right) = (built.left[bin], built.right[bin]);
    format!(
        "{bin:4}{:7}{:12}{:12}{:>10}{:>10}",
        bin * RATE / SIZE,
        millionths(left),
        millionths(right),
        decibel_text(left),
        decibel_text(right)
    )
}

fn rows(list: &mut List, built: &Built) {
    list.line("C minor seventh at 48000 Hz, size 8192: the bins closest to its partials");
    list.line("                   gain, millionths            decibels");
    list.line(" bin  hertz        left       right      left     right");
    let bins = (0..BINS).filter(|&bin| of_partial(bin));
    bins.for_each(|bin| list.line(&row(built, bin)));
}

pub fn list() -> List {
    let mut list = List::default();
    let built = build().expect("the scene is accepted");
    rows(&mut list, &built);
    list.plot = plot::svg(&built);
    list
}
