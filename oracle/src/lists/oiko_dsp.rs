//! The list `oiko_dsp`: gains from decibels, and frequencies of notes.

use super::{List, answer_text, around_limits};
use crate::calls;
use crate::random::Random;
use crate::refusals::{DECIBELS, TUNING};

const SEED: u64 = 31;
const RANDOM_CALLS: usize = 500;

fn db_to_gain(db: f32) -> List {
    let mut record = List::default();
    record.words(&[0, db.to_bits(), 0]);
    let answer = answer_text(calls::db_to_gain(db));
    record.line(&format!("db_to_gain {:08x} {answer}", db.to_bits()));
    record
}

fn note_frequency(note: u8) -> List {
    let mut record = List::default();
    record.words(&[1, u32::from(note), 0]);
    let answer = answer_text(calls::note_frequency(note));
    record.line(&format!("note_frequency {note} {answer}"));
    record
}

fn note_frequency_with_tuning(note: u8, tuning: f32) -> List {
    let mut record = List::default();
    record.words(&[2, u32::from(note), tuning.to_bits()]);
    let answer = answer_text(calls::note_frequency_with_tuning(note, tuning));
    let bits = tuning.to_bits();
    record.line(&format!(
        "note_frequency_with_tuning {note} {bits:08x} {answer}"
    ));
    record
}

pub fn list() -> List {
    let mut list = List::default();
    for db in around_limits(DECIBELS) {
        list.add(db_to_gain(db));
    }
    for db in [-144.0, -20.0, -6.0, 6.0, 12.0, 20.0, 600.0, -650.0] {
        list.add(db_to_gain(db));
    }
    for note in 0..=255 {
        list.add(note_frequency(note));
    }
    for note in [0, 57, 69, 127, 128, 255] {
        for tuning in around_limits(TUNING) {
            list.add(note_frequency_with_tuning(note, tuning));
        }
    }
    let mut random = Random::new(SEED);
    for _ in 0..RANDOM_CALLS {
        list.add(db_to_gain(random.between(-720.0, 720.0)));
        let note = random.below(132) as u8;
        list.add(note_frequency_with_tuning(
            note,
            random.between(-50.0, 50.0),
        ));
    }
    list
}
