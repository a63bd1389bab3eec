//! A voice lies in memory as the record that is passed, and as the header's: a slice of voices is
//! passed without copying. The other records lie in memory as the header's.

use dovetable::sys::{Bank, Banked, Scene, SceneRead, Settings, VoiceRecord};
use dovetable::sys::{Filed, Mixer, Served, StripScenes, Turned};
use dovetable::{MaskVoice, Pitch};
use std::mem::{align_of, offset_of, size_of};
use std::path::Path;
use std::process::{Command, Stdio};

/// Each field's name with its offset in the record.
macro_rules! offsets {
    ($record:ty: $($field:ident),+) => { [$((stringify!($field), offset_of!($record, $field))),+] };
}

/// How far into a voice a part of it lies.
fn offset_in<T>(voice: &MaskVoice, part: &T) -> usize {
    std::ptr::from_ref(part).addr() - std::ptr::from_ref(voice).addr()
}

/// The byte at which a record has its form, where `repr(u8)` puts the tag.
fn form(voice: &MaskVoice) -> u8 {
    let bytes = std::ptr::from_ref(voice).cast::<u8>();
    // The byte is part of the voice, and the tag is always set.
    unsafe { bytes.add(offset_of!(VoiceRecord, pitch_form)).read() }
}

fn voice(pitch: Pitch) -> MaskVoice {
    MaskVoice {
        pitch,
        ..MaskVoice::default()
    }
}

#[test]
fn a_voice_has_a_records_size_and_fields() {
    assert_eq!(size_of::<MaskVoice>(), 32);
    assert_eq!(size_of::<MaskVoice>(), size_of::<VoiceRecord>());
    assert_eq!(align_of::<MaskVoice>(), align_of::<VoiceRecord>());
    assert_eq!(
        offset_of!(MaskVoice, pitch),
        offset_of!(VoiceRecord, pitch_form)
    );
    assert_eq!(
        offsets!(MaskVoice: level, pressure, timbre, volume_gain, expression_gain, pan),
        offsets!(VoiceRecord: level, pressure, timbre, volume_gain, expression_gain, pan)
    );
}

#[test]
fn a_note_lies_where_a_record_has_it() {
    let voice = voice(Pitch::Note {
        note: 69,
        semitones: 0.5,
    });
    let Pitch::Note { note, semitones } = &voice.pitch else {
        unreachable!("it was made a note");
    };
    assert_eq!(form(&voice), 0);
    assert_eq!(offset_in(&voice, note), offset_of!(VoiceRecord, note));
    let number = offset_of!(VoiceRecord, semitones_or_hertz);
    assert_eq!(offset_in(&voice, semitones), number);
}

#[test]
fn hertz_lie_where_a_record_has_them() {
    let voice = voice(Pitch::Hertz { hertz: 440.0 });
    let Pitch::Hertz { hertz } = &voice.pitch else {
        unreachable!("it was made hertz");
    };
    assert_eq!(form(&voice), 1);
    let number = offset_of!(VoiceRecord, semitones_or_hertz);
    assert_eq!(offset_in(&voice, hertz), number);
}

/// Asserts in C that a struct of the header has this size, and its fields at these offsets.
fn asserts(name: &str, size: usize, fields: &[(&str, usize)]) -> String {
    let offset = |(field, at): &(&str, usize)| {
        format!("_Static_assert(offsetof(struct {name}, {field}) == {at}, \"{name} {field}\");\n")
    };
    let offsets: String = fields.iter().map(offset).collect();
    format!("_Static_assert(sizeof(struct {name}) == {size}, \"{name}\");\n{offsets}")
}

/// What the C compiler, where there is one, says of asserts on the header.
fn hold(name: &str, asserts: &str) {
    let file = Path::new(env!("CARGO_TARGET_TMPDIR")).join(name);
    std::fs::write(&file, format!("#include \"dovetable.h\"\n{asserts}")).unwrap();
    let include = Path::new(env!("CARGO_MANIFEST_DIR")).join("../../include");
    let mut cc = Command::new("cc");
    cc.args(["-std=c11", "-fsyntax-only", "-I"])
        .arg(include)
        .arg(file);
    match cc.stdout(Stdio::null()).status() {
        Ok(status) => assert!(status.success()),
        Err(_) => eprintln!("cc is not on this machine"),
    }
}

#[test]
fn the_headers_voice_has_the_records_offsets() {
    let fields = offsets!(VoiceRecord: pitch_form, note, semitones_or_hertz, level, pressure,
        timbre, volume_gain, expression_gain, pan);
    let asserts = asserts("DovetableVoice", size_of::<VoiceRecord>(), &fields);
    hold("voice.c", &asserts);
}

#[test]
fn the_headers_settings_have_the_records_offsets() {
    let fields = offsets!(Settings: sample_rate, fft_size, note_depth_db, note_layer_enabled,
        width_cents, partials, harmonic_rolloff_db_per_octave, motion_shape, motion_depth_db,
        motion_phase, motion_size_octaves);
    let asserts = asserts("DovetableSettings", size_of::<Settings>(), &fields);
    hold("settings.c", &asserts);
}

#[test]
fn the_headers_scene_and_its_answer_have_the_records_offsets() {
    let fields = offsets!(Scene: settings, count, voices);
    let scene = asserts("DovetableScene", size_of::<Scene>(), &fields);
    let fields = offsets!(SceneRead: number, place, scene);
    let read = asserts("DovetableSceneRead", size_of::<SceneRead>(), &fields);
    hold("scene.c", &(scene + &read));
}

#[test]
fn the_headers_bank_and_its_answer_have_the_records_offsets() {
    let fields = offsets!(Bank: ids, voices, count);
    let bank = asserts("DovetableBank", size_of::<Bank>(), &fields);
    let fields = offsets!(Banked: number, place, bank);
    let banked = asserts("DovetableBanked", size_of::<Banked>(), &fields);
    hold("bank.c", &(bank + &banked));
}

#[test]
fn the_headers_mixer_and_its_answers_have_the_records_offsets() {
    let fields = offsets!(Mixer: strips, count, served);
    let mixer = asserts("DovetableMixer", size_of::<Mixer>(), &fields);
    let fields = offsets!(Filed: number, place, mixer);
    let filed = asserts("DovetableFiled", size_of::<Filed>(), &fields);
    let fields = offsets!(Turned: named, strip, mixer);
    let turned = asserts("DovetableTurned", size_of::<Turned>(), &fields);
    let fields = offsets!(Served: number, place, named, strip, mixer);
    let served = asserts("DovetableServed", size_of::<Served>(), &fields);
    let fields = offsets!(StripScenes: scenes);
    let scenes = asserts("DovetableStripScenes", size_of::<StripScenes>(), &fields);
    hold("mixer.c", &[mixer, filed, turned, served, scenes].concat());
}
