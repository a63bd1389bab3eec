//! What the program `note_frequencies` prints: the 128 notes. It reads no calls, so the list has no
//! records.

use super::List;
use crate::oiko_dsp::note_frequency;
use crate::spectral_dsp::MIDI_NOTES;

/// The frequency in whole micro-hertz, rounded down. In f64 the product is exact.
fn micro_hertz(frequency: f32) -> u64 {
    (f64::from(frequency) * 1e6).floor() as u64
}

pub fn list() -> List {
    let mut list = List::default();
    list.line("note microhertz");
    for note in 0..MIDI_NOTES as u8 {
        list.line(&format!("{note} {}", micro_hertz(note_frequency(note))));
    }
    list
}
