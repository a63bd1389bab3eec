//! Scene records: a chord there and back to the bit, each refusal of both calls, and what a reading
//! leaves in the struct that it returns.

use dovetable::*;
use std::ptr::{null, null_mut};

const BEFORE: u8 = 0xa5;

fn refused<T>(number: u32, place: usize) -> Result<T, Refused> {
    Err(Refused { number, place })
}

fn config() -> MaskConfig {
    MaskConfig {
        sample_rate: 44_100.0,
        fft_size: 1024,
        note_depth_db: 48.0,
        note_layer_enabled: false,
        width_cents: 50.0,
        partials: 9,
        harmonic_rolloff_db_per_octave: 3.0,
        motion: MotionConfig {
            shape: MotionShape::Sprinkle,
            depth_db: 12.0,
            phase: -0.0,
            size_octaves: f32::from_bits(1),
        },
    }
}

fn voice(pitch: Pitch, pan: f32) -> MaskVoice {
    MaskVoice {
        pitch,
        level: 0.5,
        pressure: 0.25,
        timbre: 0.75,
        volume_gain: 1.5,
        expression_gain: 1.25,
        pan,
    }
}

/// A note, a frequency, and a note again.
fn chord() -> [MaskVoice; 3] {
    let note = |note, semitones| Pitch::Note { note, semitones };
    [
        voice(note(127, -0.5), -0.0),
        voice(Pitch::Hertz { hertz: 392.44 }, -1.0),
        voice(note(0, 48.0), f32::MAX),
    ]
}

/// The record of a scene; a refused writing has changed no byte.
fn record_of(scene: &Scene, length: usize) -> Result<Vec<u8>, Refused> {
    let mut record = vec![BEFORE; length];
    let outcome = write_scene(&mut record, scene);
    assert!(outcome.is_ok() || record.iter().all(|&byte| byte == BEFORE));
    outcome.map(|()| record)
}

fn chord_record() -> Vec<u8> {
    let scene = Scene::new(config(), &chord());
    record_of(&scene, scene.record_length()).unwrap()
}

/// All numbers of a voice, as bits.
fn bits(voice: &MaskVoice) -> [u32; 9] {
    let (form, note, number) = match voice.pitch {
        Pitch::Note { note, semitones } => (0, note, semitones),
        Pitch::Hertz { hertz } => (1, 0, hertz),
    };
    let [level, pressure, timbre] = [voice.level, voice.pressure, voice.timbre].map(f32::to_bits);
    let gains = [voice.volume_gain, voice.expression_gain, voice.pan];
    let [volume, expression, pan] = gains.map(f32::to_bits);
    let number = number.to_bits();
    [
        form,
        u32::from(note),
        number,
        level,
        pressure,
        timbre,
        volume,
        expression,
        pan,
    ]
}

#[test]
fn a_chord_comes_back_to_the_bit() {
    let record = chord_record();
    assert_eq!(record.len(), RECORD_HEAD_BYTES + 3 * RECORD_VOICE_BYTES);
    let scene = read_scene(&record).unwrap();
    assert_eq!(scene.config, config());
    assert!(scene.config.motion.phase.is_sign_negative());
    let both = [scene.voices().to_vec(), chord().to_vec()];
    let [back, given] = both.map(|voices| voices.iter().map(bits).collect::<Vec<_>>());
    assert_eq!(back, given);
    assert_eq!(scene, Scene::new(config(), &chord()));
    assert_eq!(record_of(&scene, scene.record_length()), Ok(record));
}

#[test]
fn a_record_has_the_headers_layout() {
    let floats = |xs: [f32; 7]| {
        xs.into_iter()
            .flat_map(f32::to_be_bytes)
            .collect::<Vec<u8>>()
    };
    // Size 2^10, no note layer, shape 6, 9 partials, 3 voices.
    let head = vec![0b1010_0110, 0b0100_1000, 0b0001_1000];
    let least = f32::from_bits(1);
    let parts = [
        head,
        floats([44_100.0, 48.0, 50.0, 3.0, 12.0, -0.0, least]),
        vec![127 << 1],
        floats([0.5, -0.5, 0.25, 0.75, 1.5, 1.25, -0.0]),
        vec![1],
        floats([0.5, 392.44, 0.25, 0.75, 1.5, 1.25, -1.0]),
        vec![0],
        floats([0.5, 48.0, 0.25, 0.75, 1.5, 1.25, f32::MAX]),
    ];
    assert_eq!(chord_record(), parts.concat());
}

#[test]
fn no_voices_and_all_128() {
    for count in [0, 1, 127, 128] {
        let voices = vec![chord()[1]; count];
        let scene = Scene::new(config(), &voices);
        let record = record_of(&scene, 31 + 29 * count).unwrap();
        let back = read_scene(&record).unwrap();
        assert_eq!(back, scene);
        assert_eq!(back.voices(), voices);
    }
}

#[test]
fn a_writing_tests_1_2_3_4_5() {
    let mut voices = vec![chord()[0]; 129];
    voices[2].pitch = Pitch::Hertz { hertz: 0.5 };
    let small = MaskConfig {
        fft_size: 96,
        partials: 25,
        ..config()
    };
    let many = MaskConfig {
        partials: 25,
        ..config()
    };
    let written = |config, voices: &[MaskVoice], length| {
        record_of(&Scene::new(config, voices), length).map(|_| ())
    };
    let right = 31 + 29 * 128;
    assert_eq!(written(small, &voices, right), refused(1, 0));
    assert_eq!(written(many, &voices, right), refused(2, 0));
    assert_eq!(written(config(), &voices, right), refused(3, 0));
    assert_eq!(written(config(), &voices, right + 29), refused(3, 0));
    assert_eq!(written(config(), &voices[..128], right - 1), refused(4, 0));
    assert_eq!(written(config(), &voices[..128], right + 1), refused(4, 0));
    assert_eq!(written(config(), &voices[..128], 0), refused(4, 0));
    assert_eq!(written(config(), &voices[..128], right), refused(5, 2));
    voices[2].pitch = Pitch::Hertz { hertz: 1.0 };
    assert_eq!(written(config(), &voices[..128], right), Ok(()));
}

#[test]
fn a_damaged_record_is_refused() {
    let record = chord_record();
    let changed = |at: usize, byte: u8| {
        let mut record = record.clone();
        record[at] = byte;
        read_scene(&record)
    };
    for length in [0, 1, 30, 31, record.len() - 29, record.len() - 1] {
        assert_eq!(read_scene(&record[..length]), refused(9, 0));
    }
    assert_eq!(read_scene(&[&record[..], &[0]].concat()), refused(9, 0));
    for bit in [1, 2, 4] {
        assert_eq!(changed(2, record[2] | bit), refused(9, 0));
    }
    for bit in 1..8 {
        assert_eq!(changed(31 + 29, record[31 + 29] | 1 << bit), refused(9, 0));
    }
    assert_eq!(changed(0, 0x56), refused(1, 0)); // size 32
    assert_eq!(changed(1, 0xc8), refused(2, 0)); // 25 partials
    assert_eq!(changed(31 + 29 + 1, 0x7f), refused(5, 1)); // its level
    let mut long = record.clone();
    long[1..3].copy_from_slice(&[0x4c, 0x08]); // 129 voices
    assert_eq!(read_scene(&long), refused(9, 0));
    long.resize(31 + 29 * 129, 0);
    assert_eq!(read_scene(&long), refused(3, 0));
}

/// Whether a voice is note 0 with +0 in every float.
fn is_silent(voice: &sys::VoiceRecord) -> bool {
    let floats = [
        voice.semitones_or_hertz,
        voice.level,
        voice.pressure,
        voice.timbre,
        voice.volume_gain,
        voice.expression_gain,
        voice.pan,
    ];
    (voice.pitch_form, voice.note) == (0, 0) && floats.iter().all(|x| x.to_bits() == 0)
}

/// The library's own answer, part of which the safe call hides.
fn read(record: &[u8]) -> sys::SceneRead {
    // The pointer and the length are those of one slice.
    unsafe { sys::dovetable_read_scene(record.as_ptr(), record.len()) }
}

#[test]
fn voices_past_the_count_are_silent() {
    let done = read(&chord_record());
    assert_eq!((done.number, done.place, done.scene.count), (0, 0, 3));
    let (chord, rest) = done.scene.voices.split_at(3);
    assert!(rest.iter().all(is_silent));
    assert_eq!((chord[1].pitch_form, chord[1].note), (1, 0));
}

#[test]
fn a_refused_reading_gives_a_blank_scene() {
    let mut record = chord_record();
    record[31 + 29 + 1] = 0x7f;
    let refused = read(&record);
    assert_eq!((refused.number, refused.place), (5, 1));
    let sys::Scene {
        settings,
        count,
        voices,
    } = refused.scene;
    assert!(count == 0 && voices.iter().all(is_silent));
    assert!(!settings.note_layer_enabled && settings.motion_shape == 0);
    assert_eq!((settings.fft_size, settings.partials), (0, 0));
    let floats = [
        settings.sample_rate,
        settings.note_depth_db,
        settings.width_cents,
        settings.harmonic_rolloff_db_per_octave,
        settings.motion_depth_db,
        settings.motion_phase,
        settings.motion_size_octaves,
    ];
    assert_eq!(floats.map(f32::to_bits), [0; 7]);
}

/// The header's promise on a null pointer with no bytes, which the safe calls never pass.
#[test]
fn null_is_an_empty_record() {
    let mut place = 7;
    let scene = sys::Scene::from(&Scene::new(config(), &chord()));
    let (number, read) = unsafe {
        let number = sys::dovetable_write_scene(null_mut(), 0, scene, &mut place);
        (number, sys::dovetable_read_scene(null(), 0))
    };
    assert_eq!((number, place, read.number, read.place), (4, 0, 9, 0));
}

/// The number and the place of the library's own call.
fn written(scene: sys::Scene, record: &mut [u8]) -> (u32, usize) {
    let (mut place, bytes) = (7, record.len());
    // The pointer and the length are those of one slice.
    let number =
        unsafe { sys::dovetable_write_scene(record.as_mut_ptr(), bytes, scene, &mut place) };
    (number, place)
}

/// The note of a voice by hertz, and the voices past the count.
#[test]
fn what_does_not_count_is_not_written() {
    let mut scene = sys::Scene::from(&Scene::new(config(), &chord()));
    scene.voices[1].note = 255;
    let other = sys::VoiceRecord {
        pitch_form: 255,
        level: f32::NAN,
        ..scene.voices[0]
    };
    scene.voices[3..].fill(other);
    let mut record = vec![BEFORE; chord_record().len()];
    assert_eq!(written(scene, &mut record), (0, 7));
    assert_eq!(record, chord_record());
}

/// Counts that no array has, and a form and a shape that are none.
#[test]
fn numbers_that_the_safe_call_cannot_pass_are_refused() {
    let mut scene = sys::Scene::from(&Scene::new(config(), &chord()));
    let mut record = vec![BEFORE; chord_record().len()];
    for count in [129, usize::MAX, usize::MAX / 29, usize::MAX / 29 + 1] {
        let other = sys::Scene { count, ..scene };
        assert_eq!(written(other, &mut record), (3, 0));
    }
    scene.voices[2].pitch_form = 2;
    assert_eq!(written(scene, &mut record), (5, 2));
    scene.settings.motion_shape = 8;
    assert_eq!(written(scene, &mut record), (2, 0));
    scene.settings.fft_size = 0;
    assert_eq!(written(scene, &mut record), (1, 0));
    assert!(record.iter().all(|&byte| byte == BEFORE));
}
