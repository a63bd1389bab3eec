//! Settings and voices in words of 32 bits, in the order in which C and the replay lists have their
//! fields. A float is its bits.

use crate::plain_pitch::plain;
use crate::spectral_dsp::{MaskConfig, MaskVoice};

pub const SETTINGS_WORDS: usize = 11;
pub const VOICE_WORDS: usize = 8;

pub fn settings_words(config: &MaskConfig) -> [u32; SETTINGS_WORDS] {
    let motion = config.motion;
    [
        config.sample_rate.to_bits(),
        config.fft_size as u32,
        config.note_depth_db.to_bits(),
        u32::from(config.note_layer_enabled),
        config.width_cents.to_bits(),
        config.partials as u32,
        config.harmonic_rolloff_db_per_octave.to_bits(),
        motion.shape as u32,
        motion.depth_db.to_bits(),
        motion.phase.to_bits(),
        motion.size_octaves.to_bits(),
    ]
}

/// The first word is 256 times the form of the pitch, plus the note.
pub fn voice_words(voice: &MaskVoice) -> [u32; VOICE_WORDS] {
    let (form, note, semitones_or_hertz) = plain(voice.pitch);
    [
        u32::from(form) * 256 + u32::from(note),
        semitones_or_hertz.to_bits(),
        voice.level.to_bits(),
        voice.pressure.to_bits(),
        voice.timbre.to_bits(),
        voice.volume_gain.to_bits(),
        voice.expression_gain.to_bits(),
        voice.pan.to_bits(),
    ]
}
