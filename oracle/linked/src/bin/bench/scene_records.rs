//! The calls on scene records, which the Rust does not have, beside the oracle's.

use crate::open_calls::{SHORT, heading, row};
use linked::calls::passed;
use linked::{dovetable_read_scene, dovetable_write_scene};
use oracle::calls::{read_scene, write_scene};
use oracle::random::Random;
use oracle::refusals::MAX_VOICES;
use oracle::scene_records::{StoredScene, length_of};
use oracle::scenes;
use oracle::spectral_dsp::{MaskConfig, MaskVoice, Pitch};
use std::hint::black_box;

/// A scene of as many voices as there can be, every second one by hertz.
pub fn full_scene() -> StoredScene {
    let mut random = Random::new(1);
    let voice = |index: usize| {
        let voice = scenes::voice_by_note(&mut random);
        let pitch = match index % 2 {
            0 => voice.pitch,
            _ => Pitch::Hertz(scenes::hertz(&mut random)),
        };
        MaskVoice { pitch, ..voice }
    };
    StoredScene {
        config: MaskConfig::default(),
        voices: (0..MAX_VOICES).map(voice).collect(),
    }
}

/// The library's functions are called themselves, as a program in C calls them.
pub fn table() {
    heading("oracle");
    let scene = full_scene();
    let crossing = passed(&scene);
    let mut ours = vec![0; length_of(MAX_VOICES)];
    let (mut theirs, mut place) = (ours.clone(), 0);
    row(
        "write_scene, 128 voices",
        SHORT,
        || {
            let (record, n) = (ours.as_mut_ptr(), ours.len());
            let scene = *black_box(&crossing);
            // The pointer and the length are those of one slice.
            black_box(unsafe { dovetable_write_scene(record, n, scene, &mut place) });
            black_box(&ours);
        },
        || {
            let outcome = write_scene(&mut theirs, black_box(&scene));
            black_box(&theirs);
            outcome.expect("it is accepted");
        },
    );
    assert!(ours == theirs, "the record is not the oracle's");
    row(
        "read_scene, 128 voices",
        SHORT,
        || {
            let (record, n) = (black_box(&ours).as_ptr(), ours.len());
            // The pointer and the length are those of one slice.
            black_box(unsafe { dovetable_read_scene(record, n) });
        },
        || {
            let (outcome, scene) = read_scene(black_box(&theirs));
            black_box(scene);
            outcome.expect("it is accepted");
        },
    );
}
