//! The declarations of all exported functions and records of the static library.
//! include/dovetable.h says what each call does and what it requires of the caller.

use crate::mixer::STRIPS;
use crate::scene::MOST_VOICES;

/// Works on `n` numbers in place.
pub type All = unsafe extern "C" fn(xs: *mut f32, n: usize);

/// A voice as it is passed. The form of its pitch is a number, which may be neither of the two.
#[repr(C)]
#[derive(Clone, Copy, Debug)]
pub struct VoiceRecord {
    pub pitch_form: u8,
    pub note: u8,
    pub semitones_or_hertz: f32,
    pub level: f32,
    pub pressure: f32,
    pub timbre: f32,
    pub volume_gain: f32,
    pub expression_gain: f32,
    pub pan: f32,
}

/// The settings of a mask as they are passed. The shape is a number, which may be none of the
/// eight.
#[repr(C)]
#[derive(Clone, Copy, Debug)]
pub struct Settings {
    pub sample_rate: f32,
    pub fft_size: usize,
    pub note_depth_db: f32,
    pub note_layer_enabled: bool,
    pub width_cents: f32,
    pub partials: usize,
    pub harmonic_rolloff_db_per_octave: f32,
    pub motion_shape: u32,
    pub motion_depth_db: f32,
    pub motion_phase: f32,
    pub motion_size_octaves: f32,
}

/// A scene as it is passed. The count may be any number; voices past it do not count.
#[repr(C)]
#[derive(Clone, Copy, Debug)]
pub struct Scene {
    pub settings: Settings,
    pub count: usize,
    pub voices: [VoiceRecord; MOST_VOICES],
}

/// What reading a record answers: 0 and the scene, or a refusal with its place and a blank scene.
#[repr(C)]
#[derive(Clone, Copy, Debug)]
pub struct SceneRead {
    pub number: u32,
    pub place: usize,
    pub scene: Scene,
}

/// A bank of voices as it is passed. The count may be any number, and an id may stand several
/// times; the calls look at no more than the 128 places.
#[repr(C)]
#[derive(Clone, Copy, Debug)]
pub struct Bank {
    pub ids: [u16; MOST_VOICES],
    pub voices: [VoiceRecord; MOST_VOICES],
    pub count: usize,
}

/// What a call that changes a bank answers: 0 and the changed bank, or a refusal with its place and
/// the bank as it came.
#[repr(C)]
#[derive(Clone, Copy, Debug)]
pub struct Banked {
    pub number: u32,
    pub place: usize,
    pub bank: Bank,
}

/// A mixer as it is passed. The count and the strips may be any numbers; the calls look at no more
/// than the 16 places.
#[repr(C)]
#[derive(Clone, Copy, Debug)]
pub struct Mixer {
    pub strips: [usize; STRIPS],
    pub count: usize,
    pub served: u64,
}

/// What a request answers: 0 and the mixer in which the strip waits, or a refusal with its place
/// and the mixer as it came.
#[repr(C)]
#[derive(Clone, Copy, Debug)]
pub struct Filed {
    pub number: u32,
    pub place: usize,
    pub mixer: Mixer,
}

/// What a turn answers: whether it named a strip, which one, else 0, and the mixer without it.
#[repr(C)]
#[derive(Clone, Copy, Debug)]
pub struct Turned {
    pub named: bool,
    pub strip: usize,
    pub mixer: Mixer,
}

/// What a turn that goes on to the builder answers: what the stereo call answers, and what the turn
/// does.
#[repr(C)]
#[derive(Clone, Copy, Debug)]
pub struct Served {
    pub number: u32,
    pub place: usize,
    pub named: bool,
    pub strip: usize,
    pub mixer: Mixer,
}

/// The strips' scenes as they are passed, each at its strip's number.
#[repr(C)]
#[derive(Clone, Copy, Debug)]
pub struct StripScenes {
    pub scenes: [Scene; STRIPS],
}

unsafe extern "C" {
    pub fn dovetable_exp2_all(xs: *mut f32, n: usize);
    pub fn dovetable_log2_all(xs: *mut f32, n: usize);
    pub fn dovetable_sin_all(xs: *mut f32, n: usize);
    pub fn dovetable_cos_all(xs: *mut f32, n: usize);
    pub fn dovetable_sqrt_all(xs: *mut f32, n: usize);
    pub fn dovetable_pow10_all(xs: *mut f32, n: usize);
    pub fn dovetable_exp_all(xs: *mut f32, n: usize);
    pub fn dovetable_log10_all(xs: *mut f32, n: usize);
    pub fn dovetable_rem_euclid_all(xs: *mut f32, n: usize);
    pub fn dovetable_powi2_all(xs: *mut f32, n: usize);
    pub fn dovetable_powi5_all(xs: *mut f32, n: usize);
    pub fn dovetable_abs_all(xs: *mut f32, n: usize);

    pub safe fn dovetable_max(a: f32, b: f32) -> f32;
    pub safe fn dovetable_min(a: f32, b: f32) -> f32;
    pub safe fn dovetable_clamp(x: f32, lo: f32, hi: f32) -> f32;
    pub safe fn dovetable_floor_to_count(x: f32) -> usize;
    pub safe fn dovetable_ceil_to_count(x: f32) -> usize;
    pub safe fn dovetable_bits_of(x: f32) -> u32;
    pub safe fn dovetable_of_bits(n: u32) -> f32;

    pub safe fn dovetable_db_to_gain(db: f32, gain: &mut f32, place: &mut usize) -> u32;
    pub safe fn dovetable_note_frequency(note: u8, hertz: &mut f32, place: &mut usize) -> u32;
    pub safe fn dovetable_note_frequency_with_tuning(
        note: u8,
        tuning_semitones: f32,
        hertz: &mut f32,
        place: &mut usize,
    ) -> u32;

    pub safe fn dovetable_note_emphasis_gain(
        width_cents: f32,
        gain: &mut f32,
        place: &mut usize,
    ) -> u32;
    pub safe fn dovetable_note_gate_gain(
        note_depth_db: f32,
        width_cents: f32,
        openness: f32,
        gain: &mut f32,
        place: &mut usize,
    ) -> u32;
    pub fn dovetable_manual_gain_at_bin(
        mask_db: *const f32,
        points: usize,
        bin: usize,
        fft_size: usize,
        gain: &mut f32,
        place: &mut usize,
    ) -> u32;
    pub safe fn dovetable_motion_openness(
        frequency: f32,
        shape: u32,
        depth_db: f32,
        phase: f32,
        size_octaves: f32,
        openness: &mut f32,
        place: &mut usize,
    ) -> u32;
    pub safe fn dovetable_motion_attenuation_db(
        frequency: f32,
        shape: u32,
        depth_db: f32,
        phase: f32,
        size_octaves: f32,
        attenuation_db: &mut f32,
        place: &mut usize,
    ) -> u32;
    pub safe fn dovetable_motion_compensation_gain(
        shape: u32,
        depth_db: f32,
        phase: f32,
        size_octaves: f32,
        gain: &mut f32,
        place: &mut usize,
    ) -> u32;
    pub fn dovetable_advance_note_envelopes(
        levels: *mut f32,
        notes: usize,
        held: *const u8,
        bytes: usize,
        elapsed_seconds: f32,
        fade_ms: f32,
        place: &mut usize,
    ) -> u32;
    pub fn dovetable_prepare(
        table: *mut f32,
        entries: usize,
        sample_rate: f32,
        fft_size: usize,
        place: &mut usize,
    ) -> u32;

    pub fn dovetable_build_mask(
        output: *mut f32,
        output_bins: usize,
        manual_mask_db: *const f32,
        points: usize,
        note_levels: *const f32,
        notes: usize,
        settings: Settings,
        place: &mut usize,
    ) -> u32;
    pub fn dovetable_build_mask_with_voices(
        output: *mut f32,
        output_bins: usize,
        manual_mask_db: *const f32,
        points: usize,
        voices: *const VoiceRecord,
        count: usize,
        settings: Settings,
        place: &mut usize,
    ) -> u32;
    pub fn dovetable_build_mask_with_voices_precomputed(
        output: *mut f32,
        output_bins: usize,
        manual_mask_db: *const f32,
        points: usize,
        voices: *const VoiceRecord,
        count: usize,
        settings: Settings,
        table: *const f32,
        entries: usize,
        place: &mut usize,
    ) -> u32;
    pub fn dovetable_build_stereo_masks_with_voices_precomputed(
        left: *mut f32,
        left_bins: usize,
        right: *mut f32,
        right_bins: usize,
        manual_mask_db: *const f32,
        points: usize,
        voices: *const VoiceRecord,
        count: usize,
        settings: Settings,
        table: *const f32,
        entries: usize,
        place: &mut usize,
    ) -> u32;
    pub fn dovetable_build_stereo_masks_with_prepared_spectrum(
        left: *mut f32,
        left_bins: usize,
        right: *mut f32,
        right_bins: usize,
        manual_mask_db: *const f32,
        points: usize,
        voices: *const VoiceRecord,
        count: usize,
        settings: Settings,
        block: *const f32,
        block_length: usize,
        place: &mut usize,
    ) -> u32;

    pub fn dovetable_build_dual_synthesis_window(
        analysis: *const f32,
        analysis_length: usize,
        synthesis: *mut f32,
        synthesis_length: usize,
        overlap: usize,
        place: &mut usize,
    ) -> u32;
    pub fn dovetable_soften_spectral_edges(
        source: *const f32,
        source_length: usize,
        output: *mut f32,
        output_length: usize,
        place: &mut usize,
    ) -> u32;
    pub fn dovetable_smooth_mask_in_db(
        current: *mut f32,
        current_length: usize,
        target: *const f32,
        target_length: usize,
        elapsed_seconds: f32,
        place: &mut usize,
    ) -> u32;
    pub fn dovetable_prepared_spectrum_new(
        sample_rate: f32,
        window: *const f32,
        window_length: usize,
        smooth_analysis_window: *const f32,
        smooth_length: usize,
        overlap: usize,
        block: *mut f32,
        block_length: usize,
        window_coherent_gain: &mut f32,
        smooth_window_coherent_gain: &mut f32,
        place: &mut usize,
    ) -> u32;

    pub fn dovetable_write_scene(
        record: *mut u8,
        bytes: usize,
        scene: Scene,
        place: &mut usize,
    ) -> u32;
    pub fn dovetable_read_scene(record: *const u8, bytes: usize) -> SceneRead;

    pub safe fn dovetable_new_bank() -> Bank;
    pub safe fn dovetable_add_voice(bank: Bank, id: u16, voice: VoiceRecord) -> Banked;
    pub safe fn dovetable_remove_voice(bank: Bank, id: u16) -> Banked;
    pub safe fn dovetable_change_voice(bank: Bank, id: u16, voice: VoiceRecord) -> Banked;
    pub fn dovetable_read_masks(
        left: *mut f32,
        left_bins: usize,
        right: *mut f32,
        right_bins: usize,
        manual_mask_db: *const f32,
        points: usize,
        bank: Bank,
        settings: Settings,
        table: *const f32,
        entries: usize,
        place: &mut usize,
    ) -> u32;

    pub safe fn dovetable_new_mixer() -> Mixer;
    pub safe fn dovetable_request(mixer: Mixer, strip: usize) -> Filed;
    pub safe fn dovetable_turn(mixer: Mixer) -> Turned;
    pub fn dovetable_serve(
        left: *mut f32,
        left_bins: usize,
        right: *mut f32,
        right_bins: usize,
        manual_mask_db: *const f32,
        points: usize,
        scenes: StripScenes,
        table: *const f32,
        entries: usize,
        mixer: Mixer,
    ) -> Served;
}
