//! The open calls of the static library on slices. In each unsafe block a pointer and a length are
//! those of one slice.

use crate::*;
use oracle::bank_calls::Step;
use oracle::builders::{Builder, Lent, Masks};
use oracle::config_in;
use oracle::mixer;
use oracle::plain_pitch::{HERTZ, pitch_of, plain};
use oracle::plain_words::{SETTINGS_WORDS, VOICE_WORDS};
use oracle::scene_records::{SILENT, StoredScene};
use oracle::spectral_dsp::{MaskVoice, MotionConfig};

/// What a call gives: its number, and what it leaves in the place and the values that are lent.
#[derive(Clone, Copy, Debug)]
pub struct Given {
    pub number: u32,
    pub place: usize,
    pub values: [f32; 2],
}

/// What is lent for the place and the values before a call. No call answers these.
pub const BEFORE: Given = Given {
    number: u32::MAX,
    place: 0x5a5a_5a5a,
    values: [-1234.5, -5432.25],
};

/// A call that is lent a value and a place.
fn value(call: impl FnOnce(&mut f32, &mut usize) -> u32) -> Given {
    let mut given = BEFORE;
    given.number = call(&mut given.values[0], &mut given.place);
    given
}

/// A call that is lent a place.
fn outcome(call: impl FnOnce(&mut usize) -> u32) -> Given {
    let mut given = BEFORE;
    given.number = call(&mut given.place);
    given
}

pub fn db_to_gain(db: f32) -> Given {
    value(|gain, place| dovetable_db_to_gain(db, gain, place))
}

pub fn note_frequency(note: u8) -> Given {
    value(|hertz, place| dovetable_note_frequency(note, hertz, place))
}

pub fn note_frequency_with_tuning(note: u8, tuning: f32) -> Given {
    value(|hertz, place| dovetable_note_frequency_with_tuning(note, tuning, hertz, place))
}

pub fn note_emphasis_gain(width: f32) -> Given {
    value(|gain, place| dovetable_note_emphasis_gain(width, gain, place))
}

pub fn note_gate_gain(depth: f32, width: f32, openness: f32) -> Given {
    value(|gain, place| dovetable_note_gate_gain(depth, width, openness, gain, place))
}

pub fn manual_gain_at_bin(curve: &[f32], bin: usize, size: usize) -> Given {
    let (points, n) = (curve.as_ptr(), curve.len());
    value(|gain, place| unsafe { dovetable_manual_gain_at_bin(points, n, bin, size, gain, place) })
}

/// The settings of a motion with the shape as a number, which may be none of the eight.
#[derive(Clone, Copy, Debug)]
pub struct Motion {
    pub shape: u32,
    pub depth_db: f32,
    pub phase: f32,
    pub size_octaves: f32,
}

impl From<MotionConfig> for Motion {
    fn from(config: MotionConfig) -> Self {
        Self {
            shape: config.shape as u32,
            depth_db: config.depth_db,
            phase: config.phase,
            size_octaves: config.size_octaves,
        }
    }
}

/// A call for a number of the moving field at a frequency.
type AtFrequency = extern "C" fn(f32, u32, f32, f32, f32, &mut f32, &mut usize) -> u32;

fn at_frequency(call: AtFrequency, hertz: f32, m: Motion) -> Given {
    value(|number, place| {
        let (depth, phase, size) = (m.depth_db, m.phase, m.size_octaves);
        call(hertz, m.shape, depth, phase, size, number, place)
    })
}

pub fn motion_openness(frequency: f32, motion: Motion) -> Given {
    at_frequency(dovetable_motion_openness, frequency, motion)
}

pub fn motion_attenuation_db(frequency: f32, motion: Motion) -> Given {
    at_frequency(dovetable_motion_attenuation_db, frequency, motion)
}

pub fn motion_compensation_gain(m: Motion) -> Given {
    value(|gain, place| {
        let (depth, phase, size) = (m.depth_db, m.phase, m.size_octaves);
        dovetable_motion_compensation_gain(m.shape, depth, phase, size, gain, place)
    })
}

pub fn advance_note_envelopes(levels: &mut [f32], held: &[u8], elapsed: f32, fade: f32) -> Given {
    let (notes, n) = (levels.as_mut_ptr(), levels.len());
    outcome(|place| unsafe {
        dovetable_advance_note_envelopes(notes, n, held.as_ptr(), held.len(), elapsed, fade, place)
    })
}

pub fn prepare(table: &mut [f32], rate: f32, size: usize) -> Given {
    let (entries, n) = (table.as_mut_ptr(), table.len());
    outcome(|place| unsafe { dovetable_prepare(entries, n, rate, size, place) })
}

pub fn record_of(voice: &MaskVoice) -> VoiceRecord {
    let (pitch_form, note, semitones_or_hertz) = plain(voice.pitch);
    VoiceRecord {
        pitch_form,
        note,
        semitones_or_hertz,
        level: voice.level,
        pressure: voice.pressure,
        timbre: voice.timbre,
        volume_gain: voice.volume_gain,
        expression_gain: voice.expression_gain,
        pan: voice.pan,
    }
}

/// The voice of a record, as the oracle reads it.
pub fn voice_of(record: &VoiceRecord) -> MaskVoice {
    let (form, number) = (record.pitch_form, record.semitones_or_hertz);
    MaskVoice {
        pitch: pitch_of(form, record.note, number),
        level: record.level,
        pressure: record.pressure,
        timbre: record.timbre,
        volume_gain: record.volume_gain,
        expression_gain: record.expression_gain,
        pan: record.pan,
    }
}

/// What a mask builder is lent that crosses in another form: the settings and the voices.
#[derive(Clone, Debug)]
pub struct Crossing {
    pub settings: Settings,
    pub voices: Vec<VoiceRecord>,
}

impl Crossing {
    /// The voices of the records.
    pub fn read_voices(&self) -> Vec<MaskVoice> {
        self.voices.iter().map(voice_of).collect()
    }
}

impl From<&Lent> for Crossing {
    fn from(lent: &Lent) -> Self {
        Self {
            settings: config_in!(lent.config, dovetable).into(),
            voices: lent.voices.iter().map(record_of).collect(),
        }
    }
}

/// One of the five mask builders.
pub fn build(
    builder: Builder,
    lent: &Lent,
    crossing: &Crossing,
    [left, right]: &mut Masks,
) -> Given {
    let settings = crossing.settings;
    let (voices, count) = (crossing.voices.as_ptr(), crossing.voices.len());
    let (curve, points) = (lent.curve.as_ptr(), lent.curve.len());
    let (levels, notes) = (lent.levels.as_ptr(), lent.levels.len());
    let (table, entries) = (lent.table.as_ptr(), lent.table.len());
    let (block, length) = (lent.block.as_ptr(), lent.block.len());
    let (left, bins) = (left.as_mut_ptr(), left.len());
    let (right, right_bins) = (right.as_mut_ptr(), right.len());
    outcome(|place| unsafe {
        match builder {
            Builder::Mask => {
                dovetable_build_mask(left, bins, curve, points, levels, notes, settings, place)
            }
            Builder::WithVoices => dovetable_build_mask_with_voices(
                left, bins, curve, points, voices, count, settings, place,
            ),
            Builder::WithVoicesPrecomputed => dovetable_build_mask_with_voices_precomputed(
                left, bins, curve, points, voices, count, settings, table, entries, place,
            ),
            Builder::StereoPrecomputed => dovetable_build_stereo_masks_with_voices_precomputed(
                left, bins, right, right_bins, curve, points, voices, count, settings, table,
                entries, place,
            ),
            Builder::StereoPrepared => dovetable_build_stereo_masks_with_prepared_spectrum(
                left, bins, right, right_bins, curve, points, voices, count, settings, block,
                length, place,
            ),
        }
    })
}

pub fn build_dual_synthesis_window(
    analysis: &[f32],
    synthesis: &mut [f32],
    overlap: usize,
) -> Given {
    let (written, n) = (synthesis.as_mut_ptr(), synthesis.len());
    outcome(|place| unsafe {
        dovetable_build_dual_synthesis_window(
            analysis.as_ptr(),
            analysis.len(),
            written,
            n,
            overlap,
            place,
        )
    })
}

pub fn soften_spectral_edges(source: &[f32], output: &mut [f32]) -> Given {
    let (written, n) = (output.as_mut_ptr(), output.len());
    outcome(|place| unsafe {
        dovetable_soften_spectral_edges(source.as_ptr(), source.len(), written, n, place)
    })
}

pub fn smooth_mask_in_db(current: &mut [f32], target: &[f32], elapsed: f32) -> Given {
    let (written, n) = (current.as_mut_ptr(), current.len());
    outcome(|place| unsafe {
        dovetable_smooth_mask_in_db(written, n, target.as_ptr(), target.len(), elapsed, place)
    })
}

pub fn prepared_spectrum_new(
    rate: f32,
    window: &[f32],
    smooth: &[f32],
    overlap: usize,
    block: &mut [f32],
) -> Given {
    let (written, n) = (block.as_mut_ptr(), block.len());
    let mut given = BEFORE;
    let [first, second] = &mut given.values;
    given.number = unsafe {
        dovetable_prepared_spectrum_new(
            rate,
            window.as_ptr(),
            window.len(),
            smooth.as_ptr(),
            smooth.len(),
            overlap,
            written,
            n,
            first,
            second,
            &mut given.place,
        )
    };
    given
}

/// A scene as it is passed: the first 128 voices, and silent ones past its own.
pub fn passed(scene: &StoredScene) -> Scene {
    let voice = |index| record_of(scene.voices.get(index).unwrap_or(&SILENT));
    Scene {
        settings: config_in!(scene.config, dovetable).into(),
        count: scene.voices.len(),
        voices: std::array::from_fn(voice),
    }
}

/// A count as a word; one that does not fit is the greatest word, which no count of a scene is.
fn count_word(count: usize) -> u32 {
    u32::try_from(count).unwrap_or(u32::MAX)
}

fn settings_words(settings: &Settings) -> [u32; SETTINGS_WORDS] {
    [
        settings.sample_rate.to_bits(),
        count_word(settings.fft_size),
        settings.note_depth_db.to_bits(),
        u32::from(settings.note_layer_enabled),
        settings.width_cents.to_bits(),
        count_word(settings.partials),
        settings.harmonic_rolloff_db_per_octave.to_bits(),
        settings.motion_shape,
        settings.motion_depth_db.to_bits(),
        settings.motion_phase.to_bits(),
        settings.motion_size_octaves.to_bits(),
    ]
}

pub fn voice_words(voice: &VoiceRecord) -> [u32; VOICE_WORDS] {
    [
        u32::from(voice.pitch_form) * 256 + u32::from(voice.note),
        voice.semitones_or_hertz.to_bits(),
        voice.level.to_bits(),
        voice.pressure.to_bits(),
        voice.timbre.to_bits(),
        voice.volume_gain.to_bits(),
        voice.expression_gain.to_bits(),
        voice.pan.to_bits(),
    ]
}

/// A scene that was answered in plain words, as the oracle's `StoredScene` has them.
pub fn scene_words(scene: &Scene) -> Vec<u32> {
    let mut words = settings_words(&scene.settings).to_vec();
    words.push(count_word(scene.count));
    words.extend(scene.voices.iter().flat_map(voice_words));
    words
}

pub fn write_scene(record: &mut [u8], scene: Scene) -> Given {
    let (written, n) = (record.as_mut_ptr(), record.len());
    outcome(|place| unsafe { dovetable_write_scene(written, n, scene, place) })
}

pub fn read_scene(record: &[u8]) -> SceneRead {
    unsafe { dovetable_read_scene(record.as_ptr(), record.len()) }
}

/// A voice as a bank holds it, for a bank of the oracle's.
#[derive(Clone, Copy, Debug)]
pub struct Held(pub VoiceRecord);

impl Held {
    /// A voice that is passed: by hertz its note is stored as 0.
    pub fn stored(mut voice: VoiceRecord) -> Self {
        if voice.pitch_form == HERTZ {
            voice.note = 0;
        }
        Self(voice)
    }
}

impl From<Held> for MaskVoice {
    fn from(held: Held) -> Self {
        voice_of(&held.0)
    }
}

/// A bank with these ids and voices in its first places, and nothing past them.
pub fn bank_of(held: impl IntoIterator<Item = (u16, VoiceRecord)>) -> Bank {
    let mut bank = dovetable_new_bank();
    for (id, voice) in held {
        bank.ids[bank.count] = id;
        bank.voices[bank.count] = voice;
        bank.count += 1;
    }
    bank
}

/// Whether a bank counts these voices, and has them in their places.
pub fn holds(bank: &Bank, present: &[(u16, Held)]) -> bool {
    let places = bank.ids.iter().zip(&bank.voices);
    let same = |((id, voice), other): ((&u16, &VoiceRecord), &(u16, Held))| {
        *id == other.0 && voice_words(voice) == voice_words(&other.1.0)
    };
    bank.count == present.len() && places.zip(present).all(same)
}

/// A call that may change a bank.
pub fn change(bank: Bank, step: Step<VoiceRecord>) -> Banked {
    match step {
        Step::Add(id, voice) => dovetable_add_voice(bank, id, voice),
        Step::Remove(id) => dovetable_remove_voice(bank, id),
        Step::Change(id, voice) => dovetable_change_voice(bank, id, voice),
    }
}

/// Reads the masks of a bank, with what a mask builder is lent beside its voices.
pub fn read_masks(bank: Bank, lent: &Lent, settings: Settings, [left, right]: &mut Masks) -> Given {
    let (curve, points) = (lent.curve.as_ptr(), lent.curve.len());
    let (table, entries) = (lent.table.as_ptr(), lent.table.len());
    let (left, bins) = (left.as_mut_ptr(), left.len());
    let (right, right_bins) = (right.as_mut_ptr(), right.len());
    outcome(|place| unsafe {
        dovetable_read_masks(
            left, bins, right, right_bins, curve, points, bank, settings, table, entries, place,
        )
    })
}

/// Whether a mixer has this line, in its first places, and this counter.
pub fn has_line(block: &Mixer, expected: &mixer::Mixer) -> bool {
    let line = block.strips.iter().take(block.count);
    block.count == expected.waiting.len()
        && line.eq(&expected.waiting)
        && block.served == expected.served
}

/// Takes a turn and serves the strip that it names, with what a mask builder is lent beside its
/// voices.
pub fn serve(mixer: Mixer, scenes: &StripScenes, lent: &Lent, [left, right]: &mut Masks) -> Served {
    let (curve, points) = (lent.curve.as_ptr(), lent.curve.len());
    let (table, entries) = (lent.table.as_ptr(), lent.table.len());
    let (left, bins) = (left.as_mut_ptr(), left.len());
    let (right, right_bins) = (right.as_mut_ptr(), right.len());
    unsafe {
        dovetable_serve(
            left, bins, right, right_bins, curve, points, *scenes, table, entries, mixer,
        )
    }
}
