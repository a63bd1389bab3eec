//! The calls for a single number, the envelopes and the frequency table. In each unsafe block a
//! pointer and a length are those of one slice.

use crate::refused::{Refused, outcome, value};
use crate::scene::MotionConfig;
use crate::sys;

/// Amplitude decibels to a linear gain. Tests: 2, db in -700..700.
pub fn db_to_gain(db: f32) -> Result<f32, Refused> {
    value(|gain, place| sys::dovetable_db_to_gain(db, gain, place))
}

/// The frequency of a MIDI note, at A4 = 440 Hz. Tests: 2, note at most 127.
pub fn note_frequency(note: u8) -> Result<f32, Refused> {
    value(|hertz, place| sys::dovetable_note_frequency(note, hertz, place))
}

/// The same with an offset in semitones. Tests: 2, note at most 127, tuning in -48..48.
pub fn note_frequency_with_tuning(note: u8, tuning_semitones: f32) -> Result<f32, Refused> {
    value(|hertz, place| {
        sys::dovetable_note_frequency_with_tuning(note, tuning_semitones, hertz, place)
    })
}

/// The gain of a fully open note centre. Tests: 2, width in 1..1,200.
pub fn note_emphasis_gain(width_cents: f32) -> Result<f32, Refused> {
    value(|gain, place| sys::dovetable_note_emphasis_gain(width_cents, gain, place))
}

/// The note layer's gain at an openness. Tests: 2, depth in 0..144, width, openness finite.
pub fn note_gate_gain(note_depth_db: f32, width_cents: f32, openness: f32) -> Result<f32, Refused> {
    value(|gain, place| {
        sys::dovetable_note_gate_gain(note_depth_db, width_cents, openness, gain, place)
    })
}

/// The drawn curve's gain at a bin. A point of -144 dB or less, or NaN, mutes its bin: gain 0. One
/// above 0 dB counts as 0. Tests: 1, size; 2, bin at most 8,192; 4, a curve of 8,193 points.
pub fn manual_gain_at_bin(mask_db: &[f32], bin: usize, fft_size: usize) -> Result<f32, Refused> {
    let (curve, points) = (mask_db.as_ptr(), mask_db.len());
    value(|gain, place| unsafe {
        sys::dovetable_manual_gain_at_bin(curve, points, bin, fft_size, gain, place)
    })
}

/// A motion's settings as they are passed to the library.
fn crossing(config: MotionConfig) -> (u32, f32, f32, f32) {
    let shape = config.shape as u32;
    (shape, config.depth_db, config.phase, config.size_octaves)
}

/// A call that answers one number about the moving field at a frequency.
type AtFrequency = extern "C" fn(f32, u32, f32, f32, f32, &mut f32, &mut usize) -> u32;

fn at_frequency(call: AtFrequency, hertz: f32, config: MotionConfig) -> Result<f32, Refused> {
    let (shape, depth_db, phase, size_octaves) = crossing(config);
    value(|number, place| call(hertz, shape, depth_db, phase, size_octaves, number, place))
}

/// The moving field's openness at a frequency, 0..1. Tests: 2, frequency in 0..192,000, depth in
/// 0..96, phase finite, size in 0..100.
pub fn motion_openness(frequency: f32, config: MotionConfig) -> Result<f32, Refused> {
    at_frequency(sys::dovetable_motion_openness, frequency, config)
}

/// The moving field's attenuation at a frequency. Tests: as [`motion_openness`].
pub fn motion_attenuation_db(frequency: f32, config: MotionConfig) -> Result<f32, Refused> {
    at_frequency(sys::dovetable_motion_attenuation_db, frequency, config)
}

/// The gain that compensates for the moving field's attenuation. Tests: 2, depth, phase, size.
pub fn motion_compensation_gain(config: MotionConfig) -> Result<f32, Refused> {
    let (shape, depth_db, phase, size_octaves) = crossing(config);
    value(|gain, place| {
        sys::dovetable_motion_compensation_gain(shape, depth_db, phase, size_octaves, gain, place)
    })
}

/// Advances 128 note envelopes by one frame. Held notes are 16 bytes, note 0 the top bit of byte 0.
/// Tests: 2, elapsed in 0..10, fade in 0..60,000; 4, 128 levels and 16 bytes; 7, levels in 0..1.
pub fn advance_note_envelopes(
    levels: &mut [f32],
    held: &[u8],
    elapsed_seconds: f32,
    fade_ms: f32,
) -> Result<(), Refused> {
    let (bank, notes) = (levels.as_mut_ptr(), levels.len());
    let (bits, bytes) = (held.as_ptr(), held.len());
    outcome(|place| unsafe {
        sys::dovetable_advance_note_envelopes(
            bank,
            notes,
            bits,
            bytes,
            elapsed_seconds,
            fade_ms,
            place,
        )
    })
}

/// The Rust's workspace. The caller owns its table, so nothing is stored here.
pub struct MaskWorkspace;

impl MaskWorkspace {
    /// Fills a frequency table: the logarithm to base 2 of each bin's frequency, 0 at bin 0.
    /// Tests: 1, size, rate; 4, a table of size/2 + 1 entries.
    pub fn prepare(table: &mut [f32], sample_rate: f32, fft_size: usize) -> Result<(), Refused> {
        let (written, entries) = (table.as_mut_ptr(), table.len());
        outcome(|place| unsafe {
            sys::dovetable_prepare(written, entries, sample_rate, fft_size, place)
        })
    }
}
