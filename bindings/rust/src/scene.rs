//! Voices and settings, under the Rust's names and with its defaults.

use crate::sys;

/// The points of a drawn curve, any floats, in decibels. One of -144 or less, or NaN, mutes its
/// bin; one above 0 counts as 0.
pub const MANUAL_MASK_POINTS: usize = 8193;
/// The levels of a bank.
pub const MIDI_NOTES: usize = 128;
/// The most partials that a note may have.
pub const MAX_PARTIALS: usize = 24;
/// The most voices that a call takes.
pub const MOST_VOICES: usize = 128;

/// A voice's pitch. The two forms are never equal, even where they sound the same frequency.
#[repr(u8)]
#[derive(Clone, Copy, Debug, PartialEq)]
pub enum Pitch {
    /// A note, 0..127, and an offset from its equal-tempered pitch, -48..48 semitones.
    Note { note: u8, semitones: f32 },
    /// The fundamental itself, 1..20,000 Hz, with no tuning added.
    Hertz { hertz: f32 },
}

/// A held pitch with its expression. The last five take any finite number. It lies in memory as a
/// [`sys::VoiceRecord`] does, so that a slice of voices is passed without copying.
#[repr(C)]
#[derive(Clone, Copy, Debug, PartialEq)]
pub struct MaskVoice {
    pub pitch: Pitch,
    /// 0..1, note envelope level; 0 contributes nothing.
    pub level: f32,
    /// Clamped to 0..1.
    pub pressure: f32,
    /// Harmonic tilt, clamped to 0..1. 0.5 keeps the configured rolloff; lower values darken the
    /// partials and higher values brighten them.
    pub timbre: f32,
    /// Base strength (including velocity), bounded to openness before expression.
    pub volume_gain: f32,
    /// Linear gain of the note-opened component, independent of the background floor.
    pub expression_gain: f32,
    /// Stereo placement, clamped: -1 left through 0 center to +1 right. Ignored in mono.
    pub pan: f32,
}

impl Default for MaskVoice {
    fn default() -> Self {
        Self {
            pitch: Pitch::Note {
                note: 0,
                semitones: 0.0,
            },
            level: 0.0,
            pressure: 1.0,
            timbre: 0.5,
            volume_gain: 1.0,
            expression_gain: 1.0,
            pan: 0.0,
        }
    }
}

/// By hertz the note is 0.
impl From<&MaskVoice> for sys::VoiceRecord {
    fn from(voice: &MaskVoice) -> Self {
        let (pitch_form, note, semitones_or_hertz) = match voice.pitch {
            Pitch::Note { note, semitones } => (0, note, semitones),
            Pitch::Hertz { hertz } => (1, 0, hertz),
        };
        Self {
            pitch_form,
            note,
            semitones_or_hertz,
            level: voice.level,
            pressure: voice.pressure,
            timbre: voice.timbre,
            volume_gain: voice.volume_gain,
            expression_gain: voice.expression_gain,
            pan: voice.pan,
        }
    }
}

/// The moving field's shapes; they are passed as 0 to 7.
#[derive(Clone, Copy, Debug, Default, Eq, PartialEq)]
pub enum MotionShape {
    #[default]
    Ripple,
    Harmonic,
    Drift,
    Scan,
    Notch,
    Saw,
    Sprinkle,
    Cloud,
}

#[derive(Clone, Copy, Debug, PartialEq)]
pub struct MotionConfig {
    pub shape: MotionShape,
    /// 0..96: attenuation where the field is closed.
    pub depth_db: f32,
    /// Any finite: position in a cycle of length 1.
    pub phase: f32,
    /// 0..100.
    pub size_octaves: f32,
}

impl Default for MotionConfig {
    fn default() -> Self {
        Self {
            shape: MotionShape::Ripple,
            depth_db: 0.0,
            phase: 0.0,
            size_octaves: 1.0,
        }
    }
}

#[derive(Clone, Copy, Debug, PartialEq)]
pub struct MaskConfig {
    /// 8,000..192,000 Hz.
    pub sample_rate: f32,
    /// A power of two in 64..16,384.
    pub fft_size: usize,
    /// 0..144: attenuation below the drawn ceiling away from held notes.
    pub note_depth_db: f32,
    pub note_layer_enabled: bool,
    /// 1..1,200.
    pub width_cents: f32,
    /// 1..24.
    pub partials: usize,
    /// 0..48.
    pub harmonic_rolloff_db_per_octave: f32,
    pub motion: MotionConfig,
}

impl Default for MaskConfig {
    fn default() -> Self {
        Self {
            sample_rate: 48_000.0,
            fft_size: 8192,
            note_depth_db: 0.0,
            note_layer_enabled: true,
            width_cents: 100.0,
            partials: 1,
            harmonic_rolloff_db_per_octave: 6.0,
            motion: MotionConfig::default(),
        }
    }
}

impl MaskConfig {
    /// The length of a mask and of a frequency table at this size.
    pub fn bins(self) -> usize {
        self.fft_size / 2 + 1
    }
}

impl From<MaskConfig> for sys::Settings {
    fn from(config: MaskConfig) -> Self {
        Self {
            sample_rate: config.sample_rate,
            fft_size: config.fft_size,
            note_depth_db: config.note_depth_db,
            note_layer_enabled: config.note_layer_enabled,
            width_cents: config.width_cents,
            partials: config.partials,
            harmonic_rolloff_db_per_octave: config.harmonic_rolloff_db_per_octave,
            motion_shape: config.motion.shape as u32,
            motion_depth_db: config.motion.depth_db,
            motion_phase: config.motion.phase,
            motion_size_octaves: config.motion.size_octaves,
        }
    }
}
