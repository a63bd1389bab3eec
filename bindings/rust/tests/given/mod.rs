//! What the tests of a bank and of a mixer give to the calls.

use dovetable::*;

pub static CURVE: [f32; MANUAL_MASK_POINTS] = [0.0; MANUAL_MASK_POINTS];

/// What a mask holds before the call.
pub const BEFORE: f32 = 7.0;

pub fn refused<T>(number: u32, place: usize) -> Result<T, Refused> {
    Err(Refused { number, place })
}

pub fn config() -> MaskConfig {
    MaskConfig {
        fft_size: 1024,
        note_depth_db: 48.0,
        partials: 4,
        ..MaskConfig::default()
    }
}

pub fn table() -> Vec<f32> {
    let mut table = vec![0.0; config().bins()];
    MaskWorkspace::prepare(&mut table, config().sample_rate, config().fft_size).unwrap();
    table
}

pub fn voice(note: u8, pan: f32) -> MaskVoice {
    MaskVoice {
        pitch: Pitch::Note {
            note,
            semitones: 0.0,
        },
        level: 1.0,
        pan,
        ..MaskVoice::default()
    }
}
