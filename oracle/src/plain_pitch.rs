//! A voice's pitch in plain numbers, as a caller in C and the replay lists give it: its form, a
//! note, and one more number, which is the note's semitones or the hertz.

use crate::spectral_dsp::Pitch;

pub const NOTE: u8 = 0;
pub const HERTZ: u8 = 1;

/// The form, the note, which is 0 by hertz, and the semitones or the hertz.
pub fn plain(pitch: Pitch) -> (u8, u8, f32) {
    match pitch {
        Pitch::Note(note, semitones) => (NOTE, note, semitones),
        Pitch::Hertz(hertz) => (HERTZ, 0, hertz),
    }
}

/// The pitch of plain numbers. By hertz the note does not count. A form that is neither of the two
/// is refusal 5 at its voice: it is read as a frequency that is outside every limit.
pub fn pitch_of(form: u8, note: u8, number: f32) -> Pitch {
    match form {
        NOTE => Pitch::Note(note, number),
        HERTZ => Pitch::Hertz(number),
        _ => Pitch::Hertz(f32::NAN),
    }
}
