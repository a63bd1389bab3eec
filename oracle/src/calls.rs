//! The open calls: each tests its own input in the order of the refusals' numbers, and then does
//! what the Rust does, or what its change request says where the Rust has no such call. A refused
//! call changes nothing.

use crate::mixer::{Mixer, STRIPS, Served};
use crate::refusals::{self as refuse, MAX_VOICES, Outcome, Refusal, within};
use crate::scene_records::{self, StoredScene};
use crate::spectral_dsp::{
    self as dsp, MANUAL_MASK_POINTS, MIDI_NOTES, MaskConfig, MaskVoice, MaskWorkspace,
    MotionConfig, processing,
};
use crate::voice_bank::{Bank, place_of};

/// What a call for a single number answers.
pub type Answer = Result<f32, Refusal>;

pub fn db_to_gain(db: f32) -> Answer {
    refuse::setting(within(db, refuse::DECIBELS))?;
    Ok(crate::oiko_dsp::db_to_gain(db))
}

pub fn note_frequency(note: u8) -> Answer {
    refuse::setting(note <= refuse::MAX_NOTE)?;
    Ok(crate::oiko_dsp::note_frequency(note))
}

pub fn note_frequency_with_tuning(note: u8, tuning_semitones: f32) -> Answer {
    refuse::setting(note <= refuse::MAX_NOTE)?;
    refuse::setting(within(tuning_semitones, refuse::TUNING))?;
    Ok(crate::oiko_dsp::note_frequency_with_tuning(
        note,
        tuning_semitones,
    ))
}

pub fn note_emphasis_gain(width_cents: f32) -> Answer {
    refuse::setting(within(width_cents, refuse::WIDTH))?;
    Ok(dsp::note_emphasis_gain(width_cents))
}

pub fn note_gate_gain(note_depth_db: f32, width_cents: f32, openness: f32) -> Answer {
    refuse::setting(within(note_depth_db, refuse::NOTE_DEPTH))?;
    refuse::setting(within(width_cents, refuse::WIDTH))?;
    refuse::setting(openness.is_finite())?;
    Ok(dsp::note_gate_gain(note_depth_db, width_cents, openness))
}

/// The curve as the Rust takes it, once its length is tested.
fn whole_curve(manual_mask_db: &[f32]) -> &[f32; MANUAL_MASK_POINTS] {
    manual_mask_db.try_into().expect("the length was tested")
}

pub fn manual_gain_at_bin(mask_db: &[f32], bin: usize, fft_size: usize) -> Answer {
    refuse::size(fft_size)?;
    refuse::setting(bin <= refuse::MAX_BIN)?;
    refuse::length(mask_db.len() == MANUAL_MASK_POINTS)?;
    Ok(dsp::manual_gain_at_bin(whole_curve(mask_db), bin, fft_size))
}

pub fn motion_openness(frequency: f32, config: MotionConfig) -> Answer {
    refuse::setting(within(frequency, refuse::FREQUENCY))?;
    refuse::motion(config)?;
    Ok(dsp::motion_openness(frequency, config))
}

pub fn motion_attenuation_db(frequency: f32, config: MotionConfig) -> Answer {
    refuse::setting(within(frequency, refuse::FREQUENCY))?;
    refuse::motion(config)?;
    Ok(dsp::motion_attenuation_db(frequency, config))
}

pub fn motion_compensation_gain(config: MotionConfig) -> Answer {
    refuse::motion(config)?;
    Ok(dsp::motion_compensation_gain(config))
}

/// Whether a note is held: the most significant bit comes first.
pub fn is_held(held: [u8; 16], note: usize) -> bool {
    held[note / 8] >> (7 - note % 8) & 1 == 1
}

/// The bank goes in by value and comes back beside the outcome, as it came where it is refused.
pub fn advance_note_envelopes(
    mut levels: [f32; MIDI_NOTES],
    held: [u8; 16],
    elapsed_seconds: f32,
    fade_ms: f32,
) -> (Outcome, [f32; MIDI_NOTES]) {
    let tests = || {
        refuse::setting(within(elapsed_seconds, refuse::ELAPSED))?;
        refuse::setting(within(fade_ms, refuse::FADE))?;
        refuse::values(&levels, refuse::LEVEL)
    };
    let outcome = tests();
    if outcome.is_ok() {
        let held = std::array::from_fn(|note| is_held(held, note));
        dsp::advance_note_envelopes(&mut levels, &held, elapsed_seconds, fade_ms);
    }
    (outcome, levels)
}

/// `MaskWorkspace::prepare` on a lent table.
pub fn prepare(table: &mut [f32], sample_rate: f32, fft_size: usize) -> Outcome {
    refuse::size_and_rate(fft_size, sample_rate)?;
    refuse::length(table.len() == fft_size / 2 + 1)?;
    let mut workspace = MaskWorkspace::default();
    workspace.prepare(sample_rate, fft_size);
    table.copy_from_slice(&workspace.bin_log2_hz);
    Ok(())
}

/// Refusal 4 of the mask builders: the curve's length, and that of each slice with an entry for
/// each bin.
fn mask_lengths(config: MaskConfig, manual_mask_db: &[f32], bins: &[&[f32]]) -> Outcome {
    let whole = |slice: &&[f32]| slice.len() == config.fft_size / 2 + 1;
    refuse::length(bins.iter().all(whole))?;
    refuse::length(manual_mask_db.len() == MANUAL_MASK_POINTS)
}

/// The tests of a builder that is given voices, from 1 to 5.
fn mask_with_voices(
    config: MaskConfig,
    manual_mask_db: &[f32],
    voices: &[MaskVoice],
    bins: &[&[f32]],
) -> Outcome {
    refuse::config(config)?;
    refuse::count(voices)?;
    mask_lengths(config, manual_mask_db, bins)?;
    refuse::voices(voices)
}

pub fn build_mask(
    output: &mut [f32],
    manual_mask_db: &[f32],
    note_levels: &[f32],
    config: MaskConfig,
) -> Outcome {
    refuse::config(config)?;
    mask_lengths(config, manual_mask_db, &[output])?;
    refuse::length(note_levels.len() == MIDI_NOTES)?;
    refuse::values(note_levels, refuse::LEVEL)?;
    let note_levels = note_levels.try_into().expect("the length was tested");
    dsp::build_mask(output, whole_curve(manual_mask_db), note_levels, config);
    Ok(())
}

pub fn build_mask_with_voices(
    output: &mut [f32],
    manual_mask_db: &[f32],
    voices: &[MaskVoice],
    config: MaskConfig,
) -> Outcome {
    mask_with_voices(config, manual_mask_db, voices, &[output])?;
    dsp::build_mask_with_voices(output, whole_curve(manual_mask_db), voices, config);
    Ok(())
}

pub fn build_mask_with_voices_precomputed(
    output: &mut [f32],
    manual_mask_db: &[f32],
    voices: &[MaskVoice],
    config: MaskConfig,
    table: &[f32],
) -> Outcome {
    mask_with_voices(config, manual_mask_db, voices, &[output, table])?;
    refuse::table(table)?;
    dsp::build_mask_with_voices_precomputed(
        output,
        whole_curve(manual_mask_db),
        voices,
        config,
        &MaskWorkspace::lent(table),
    );
    Ok(())
}

pub fn build_stereo_masks_with_voices_precomputed(
    left: &mut [f32],
    right: &mut [f32],
    manual_mask_db: &[f32],
    voices: &[MaskVoice],
    config: MaskConfig,
    table: &[f32],
) -> Outcome {
    mask_with_voices(config, manual_mask_db, voices, &[left, right, table])?;
    refuse::table(table)?;
    dsp::build_stereo_masks_with_voices_precomputed(
        left,
        right,
        whole_curve(manual_mask_db),
        voices,
        config,
        &MaskWorkspace::lent(table),
    );
    Ok(())
}

/// The same by the table of a prepared spectrum's block, which begins after four windows. A shorter
/// block has none.
pub fn build_stereo_masks_with_prepared_spectrum(
    left: &mut [f32],
    right: &mut [f32],
    manual_mask_db: &[f32],
    voices: &[MaskVoice],
    config: MaskConfig,
    block: &[f32],
) -> Outcome {
    let table = block.get(4 * config.fft_size..).unwrap_or_default();
    build_stereo_masks_with_voices_precomputed(left, right, manual_mask_db, voices, config, table)
}

pub fn build_dual_synthesis_window(
    analysis: &[f32],
    synthesis: &mut [f32],
    overlap: usize,
) -> Outcome {
    refuse::length((1..=refuse::MAX_WINDOW).contains(&analysis.len()))?;
    refuse::length(analysis.len() == synthesis.len())?;
    refuse::values(analysis, refuse::WINDOW)?;
    refuse::overlap(overlap, analysis.len())?;
    processing::build_dual_synthesis_window(analysis, synthesis, overlap);
    Ok(())
}

pub fn soften_spectral_edges(source: &[f32], output: &mut [f32]) -> Outcome {
    refuse::length(source.len() <= refuse::MAX_GAINS)?;
    refuse::length(source.len() == output.len())?;
    refuse::values(source, refuse::GAIN)?;
    processing::soften_spectral_edges(source, output);
    Ok(())
}

pub fn smooth_mask_in_db(current: &mut [f32], target: &[f32], elapsed_seconds: f32) -> Outcome {
    refuse::setting(within(elapsed_seconds, refuse::ELAPSED))?;
    refuse::length(current.len() <= refuse::MAX_GAINS)?;
    refuse::length(current.len() == target.len())?;
    refuse::value_pairs(current, target, refuse::GAIN)?;
    processing::smooth_mask_in_db(current, target, elapsed_seconds);
    Ok(())
}

/// `PreparedSpectrum::new`, which fills one lent block with the window, its dual, the smooth
/// window, its dual and the logarithms, and answers both coherent gains.
pub fn prepared_spectrum_new(
    sample_rate: f32,
    window: &[f32],
    smooth_analysis_window: &[f32],
    overlap: usize,
    block: &mut [f32],
) -> Result<[f32; 2], Refusal> {
    let size = window.len();
    refuse::size_and_rate(size, sample_rate)?;
    refuse::length(smooth_analysis_window.len() == size)?;
    refuse::length(block.len() == 4 * size + size / 2 + 1)?;
    refuse::value_pairs(window, smooth_analysis_window, refuse::WINDOW)?;
    refuse::overlap(overlap, size)?;
    let prepared = processing::PreparedSpectrum::new(
        sample_rate,
        window.to_vec(),
        smooth_analysis_window.to_vec(),
        overlap,
    );
    let parts = [
        prepared.window,
        prepared.synthesis_window,
        prepared.smooth_analysis_window,
        prepared.smooth_synthesis_window,
        prepared.mask_workspace.bin_log2_hz,
    ];
    block.copy_from_slice(&parts.concat());
    Ok([
        prepared.window_coherent_gain,
        prepared.smooth_window_coherent_gain,
    ])
}

/// Writes a scene as a record, of which every byte is written.
pub fn write_scene(record: &mut [u8], scene: &StoredScene) -> Outcome {
    refuse::config(scene.config)?;
    refuse::count(&scene.voices)?;
    refuse::length(record.len() == scene_records::length_of(scene.voices.len()))?;
    refuse::voices(&scene.voices)?;
    record.copy_from_slice(&scene_records::written(scene));
    Ok(())
}

/// The scene of a record, or the blank one where it is refused. That it is a record, 9, is tested
/// before its fields are.
pub fn read_scene(record: &[u8]) -> (Outcome, StoredScene) {
    let tests = || {
        let scene = refuse::record(scene_records::fields_of(record))?;
        refuse::config(scene.config)?;
        refuse::count(&scene.voices)?;
        refuse::voices(&scene.voices)?;
        Ok(scene)
    };
    match tests() {
        Ok(scene) => (Ok(()), scene),
        Err(refusal) => (Err(refusal), StoredScene::blank()),
    }
}

/// The bank goes in by value and comes back beside the outcome, as it came where the call is
/// refused. The voice joins at the end.
pub fn add_voice<V>(mut bank: Bank<V>, id: u16, voice: V) -> (Outcome, Bank<V>)
where
    V: Copy + Into<MaskVoice>,
{
    let tests = || {
        refuse::room(bank.len())?;
        refuse::voices(&[voice.into()])?;
        refuse::new_id(place_of(&bank, id))
    };
    let outcome = tests();
    if outcome.is_ok() {
        bank.push((id, voice));
    }
    (outcome, bank)
}

/// Takes a voice out; the others keep their order.
pub fn remove_voice<V>(mut bank: Bank<V>, id: u16) -> (Outcome, Bank<V>) {
    let place = refuse::present_id(place_of(&bank, id));
    if let Ok(place) = place {
        bank.truncate(MAX_VOICES);
        bank.remove(place);
    }
    (place.map(|_| ()), bank)
}

/// Puts another voice in the place of the one with this id.
pub fn change_voice<V>(mut bank: Bank<V>, id: u16, voice: V) -> (Outcome, Bank<V>)
where
    V: Copy + Into<MaskVoice>,
{
    let tests = || {
        refuse::voices(&[voice.into()])?;
        refuse::present_id(place_of(&bank, id))
    };
    let place = tests();
    if let Ok(place) = place {
        bank.truncate(MAX_VOICES);
        bank[place].1 = voice;
    }
    (place.map(|_| ()), bank)
}

/// The stereo call on the voices of a bank.
pub fn read_masks<V: Copy + Into<MaskVoice>>(
    left: &mut [f32],
    right: &mut [f32],
    manual_mask_db: &[f32],
    bank: &[(u16, V)],
    config: MaskConfig,
    table: &[f32],
) -> Outcome {
    let voices: Vec<MaskVoice> = bank.iter().map(|&(_, voice)| voice.into()).collect();
    build_stereo_masks_with_voices_precomputed(left, right, manual_mask_db, &voices, config, table)
}

/// Files a strip's request. The mixer goes in by value and comes back beside the outcome, as it
/// came where the strip waits already. A full line without the strip is one that a caller has made,
/// and it too comes back as it came.
pub fn request(mut mixer: Mixer, strip: usize) -> (Outcome, Mixer) {
    let outcome = refuse::strip(strip);
    let waits = mixer.waiting.contains(&strip);
    if outcome.is_ok() && !waits && mixer.waiting.len() < STRIPS {
        mixer.waiting.push_back(strip);
    }
    (outcome, mixer)
}

/// Names the strip that has waited longest, takes it off and counts; none where nobody waits.
pub fn turn(mut mixer: Mixer) -> (Option<usize>, Mixer) {
    let named = mixer.waiting.pop_front();
    if named.is_some() {
        mixer.served = mixer.served.saturating_add(1);
    }
    (named, mixer)
}

/// A turn, and the stereo call on the scene of the strip that it names. The turn is taken also
/// where the scene is refused. Where nobody is named, nothing is tested and nothing is written.
pub fn serve(
    left: &mut [f32],
    right: &mut [f32],
    manual_mask_db: &[f32],
    scenes: &[StoredScene; STRIPS],
    table: &[f32],
    mixer: Mixer,
) -> Served {
    let (named, mixer) = turn(mixer);
    let build = |strip| {
        refuse::strip(strip)?;
        let (voices, config) = (&scenes[strip].voices, scenes[strip].config);
        build_stereo_masks_with_voices_precomputed(
            left,
            right,
            manual_mask_db,
            voices,
            config,
            table,
        )
    };
    Served {
        named,
        outcome: named.map_or(Ok(()), build),
        mixer,
    }
}
