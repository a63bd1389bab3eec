//! original/oiko-dsp/src/lib.rs with document 01's functions put for its library calls.

use super::functions::{exp2, pow10};

/// Convert amplitude decibels to a linear gain. The caller owns range validation.
#[inline]
pub fn db_to_gain(db: f32) -> f32 {
    pow10(db / 20.0)
}

/// MIDI note frequency in twelve-tone equal temperament at A4 = 440 Hz.
#[inline]
pub fn note_frequency(note: u8) -> f32 {
    note_frequency_with_tuning(note, 0.0)
}

/// MIDI note frequency with an additional offset in semitones.
#[inline]
pub fn note_frequency_with_tuning(note: u8, tuning_semitones: f32) -> f32 {
    440.0 * exp2((note as f32 + tuning_semitones - 69.0) / 12.0)
}
