//! Scene records: settings and voices as bytes, to store them. docs/CARD.md has the layout.
//! In each unsafe block a pointer and a length are those of one slice.

use crate::refused::{Refused, answered, outcome};
use crate::scene::{MOST_VOICES, MaskConfig, MaskVoice, MotionConfig, MotionShape, Pitch};
use crate::sys;

/// The bytes of a record before its voices.
pub const RECORD_HEAD_BYTES: usize = 31;
/// The bytes of each of its voices.
pub const RECORD_VOICE_BYTES: usize = 29;

/// What a record holds. There and back:
///
/// ```
/// use dovetable::*;
///
/// # fn main() -> Result<(), Refused> {
/// let fifth = Pitch::Hertz { hertz: 392.44 };
/// let voice = MaskVoice { pitch: fifth, level: 1.0, ..MaskVoice::default() };
/// let scene = Scene::new(MaskConfig::default(), &[voice]);
/// let mut record = vec![0; scene.record_length()];
/// write_scene(&mut record, &scene)?;
/// assert_eq!(record.len(), 60);
/// assert_eq!(read_scene(&record)?, scene);
///
/// let refused = read_scene(&record[1..]).unwrap_err();
/// assert_eq!(refused.number, 9);
/// # Ok(())
/// # }
/// ```
#[derive(Clone, Debug, PartialEq)]
pub struct Scene {
    pub config: MaskConfig,
    /// Silent from the count on.
    voices: [MaskVoice; MOST_VOICES],
    count: usize,
}

const SILENT: MaskVoice = MaskVoice {
    pitch: Pitch::Note {
        note: 0,
        semitones: 0.0,
    },
    level: 0.0,
    pressure: 0.0,
    timbre: 0.0,
    volume_gain: 0.0,
    expression_gain: 0.0,
    pan: 0.0,
};

impl Scene {
    /// Of more than 128 voices the first 128 are kept, but all are counted, so that [`write_scene`]
    /// refuses the scene under 3.
    pub fn new(config: MaskConfig, voices: &[MaskVoice]) -> Self {
        let voice = |index| voices.get(index).copied().unwrap_or(SILENT);
        Self {
            config,
            voices: std::array::from_fn(voice),
            count: voices.len(),
        }
    }

    /// The voices that are kept.
    pub fn voices(&self) -> &[MaskVoice] {
        &self.voices[..self.count.min(MOST_VOICES)]
    }

    /// The bytes that the scene's record has.
    pub fn record_length(&self) -> usize {
        RECORD_HEAD_BYTES + RECORD_VOICE_BYTES * self.count
    }
}

impl From<&Scene> for sys::Scene {
    fn from(scene: &Scene) -> Self {
        Self {
            settings: scene.config.into(),
            count: scene.count,
            voices: std::array::from_fn(|index| (&scene.voices[index]).into()),
        }
    }
}

/// The shape of a number from 0 to 7.
fn shape_of(number: u32) -> MotionShape {
    use MotionShape::*;
    [Ripple, Harmonic, Drift, Scan, Notch, Saw, Sprinkle, Cloud][number as usize]
}

/// Settings that the library has read, all within their limits.
fn config_of(settings: &sys::Settings) -> MaskConfig {
    MaskConfig {
        sample_rate: settings.sample_rate,
        fft_size: settings.fft_size,
        note_depth_db: settings.note_depth_db,
        note_layer_enabled: settings.note_layer_enabled,
        width_cents: settings.width_cents,
        partials: settings.partials,
        harmonic_rolloff_db_per_octave: settings.harmonic_rolloff_db_per_octave,
        motion: MotionConfig {
            shape: shape_of(settings.motion_shape),
            depth_db: settings.motion_depth_db,
            phase: settings.motion_phase,
            size_octaves: settings.motion_size_octaves,
        },
    }
}

/// A voice that the library has read: its form is 0 or 1.
fn voice_of(record: &sys::VoiceRecord) -> MaskVoice {
    let number = record.semitones_or_hertz;
    let pitch = match record.pitch_form {
        0 => Pitch::Note {
            note: record.note,
            semitones: number,
        },
        _ => Pitch::Hertz { hertz: number },
    };
    MaskVoice {
        pitch,
        level: record.level,
        pressure: record.pressure,
        timbre: record.timbre,
        volume_gain: record.volume_gain,
        expression_gain: record.expression_gain,
        pan: record.pan,
    }
}

/// Writes a scene as a record. Tests: 1, size, rate; 2, every other setting; 3, at most 128 voices;
/// 4, a record of [`Scene::record_length`] bytes; 5, the voices.
pub fn write_scene(record: &mut [u8], scene: &Scene) -> Result<(), Refused> {
    let (written, bytes) = (record.as_mut_ptr(), record.len());
    let scene = scene.into();
    outcome(|place| unsafe { sys::dovetable_write_scene(written, bytes, scene, place) })
}

/// The scene of a record. Tests: 9, before all others, a length of 31 bytes and 29 for each voice
/// that the record counts, and no forbidden bit; then, on the fields, 1, 2, 3 and 5 as
/// [`write_scene`].
pub fn read_scene(record: &[u8]) -> Result<Scene, Refused> {
    let read = unsafe { sys::dovetable_read_scene(record.as_ptr(), record.len()) };
    answered(read.number, read.place)?;
    Ok(Scene {
        config: config_of(&read.scene.settings),
        voices: read.scene.voices.each_ref().map(voice_of),
        count: read.scene.count,
    })
}
