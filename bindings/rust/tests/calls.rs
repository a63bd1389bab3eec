//! The safe calls: a chord, each refusal, empty slices, the prepared spectrum.

use dovetable::processing::*;
use dovetable::*;
use std::ptr::{null, null_mut};

static CURVE: [f32; MANUAL_MASK_POINTS] = [0.0; MANUAL_MASK_POINTS];

fn config() -> MaskConfig {
    MaskConfig {
        fft_size: 1024,
        note_depth_db: 48.0,
        ..MaskConfig::default()
    }
}

fn table() -> Vec<f32> {
    let mut table = vec![0.0; config().bins()];
    MaskWorkspace::prepare(&mut table, config().sample_rate, config().fft_size).unwrap();
    table
}

fn note(note: u8) -> Pitch {
    Pitch::Note {
        note,
        semitones: 0.0,
    }
}

fn pitched(pitch: Pitch, pan: f32) -> MaskVoice {
    MaskVoice {
        pitch,
        level: 1.0,
        pan,
        ..MaskVoice::default()
    }
}

fn voice(key: u8, pan: f32) -> MaskVoice {
    pitched(note(key), pan)
}

fn stereo(
    voices: &[MaskVoice],
    config: MaskConfig,
    table: &[f32],
) -> Result<[Vec<f32>; 2], Refused> {
    let mut masks = [vec![7.0; table.len()], vec![7.0; table.len()]];
    let [left, right] = &mut masks;
    let outcome =
        build_stereo_masks_with_voices_precomputed(left, right, &CURVE, voices, config, table);
    if outcome.is_err() {
        assert!(masks.iter().flatten().all(|&gain| gain == 7.0));
    }
    outcome.map(|()| masks)
}

fn refused(number: u32, place: usize) -> Refused {
    Refused { number, place }
}

#[test]
fn a_chord_opens_its_notes_on_their_sides() {
    let chord = [voice(69, -1.0), voice(93, 1.0)];
    let [left, right] = stereo(&chord, config(), &table()).unwrap();
    let bin = |note| (note_frequency(note).unwrap() * 1024.0 / 48_000.0).round() as usize;
    assert!(left[bin(69)] > 1.0 && right[bin(69)] < 0.01);
    assert!(left[bin(93)] < 0.01 && right[bin(93)] > 1.0);
}

fn bits(mask: &[f32]) -> Vec<u32> {
    mask.iter().map(|gain| gain.to_bits()).collect()
}

/// To the bit, wherever it stands among the voices, and panned past its side too.
#[test]
fn a_voice_hard_on_one_side_leaves_the_other_as_it_was() {
    let table = table();
    let (first, second) = (voice(69, -0.5), voice(76, 0.5));
    let [left, right] = stereo(&[first, second], config(), &table).unwrap();
    let with = |pan| stereo(&[first, voice(93, pan), second], config(), &table).unwrap();
    for pan in [1.0, 1.5, f32::MAX] {
        let hard_right = with(pan);
        assert_eq!(bits(&hard_right[0]), bits(&left));
        assert_ne!(hard_right[1], right);
        let hard_left = with(-pan);
        assert_ne!(hard_left[0], left);
        assert_eq!(bits(&hard_left[1]), bits(&right));
    }
}

#[test]
fn a_centred_chord_is_the_mono_mask_on_both_sides() {
    let (chord, table) = ([voice(69, 0.0), voice(93, 0.0)], table());
    let mut mono = vec![0.0; table.len()];
    build_mask_with_voices_precomputed(&mut mono, &CURVE, &chord, config(), &table).unwrap();
    assert_eq!(
        stereo(&chord, config(), &table).unwrap(),
        [mono.clone(), mono]
    );
}

#[test]
fn note_levels_are_default_voices() {
    let mut levels = [0.0; MIDI_NOTES];
    (levels[69], levels[93]) = (1.0, 0.5);
    let softer = MaskVoice {
        level: 0.5,
        ..voice(93, 0.0)
    };
    let mut masks = [vec![0.0; config().bins()], vec![0.0; config().bins()]];
    let [one, two] = &mut masks;
    build_mask(one, &CURVE, &levels, config()).unwrap();
    build_mask_with_voices(two, &CURVE, &[voice(69, 0.0), softer], config()).unwrap();
    assert_eq!(masks[0], masks[1]);
}

/// A voice by hertz, panned, beside a note.
fn with_hertz(hertz: f32) -> [MaskVoice; 2] {
    [voice(69, -1.0), pitched(Pitch::Hertz { hertz }, 1.0)]
}

#[test]
fn hertz_from_1_to_20_000_are_accepted() {
    for hertz in [1.0, 1.0_f32.next_up(), 440.5, 20_000.0] {
        assert!(stereo(&with_hertz(hertz), config(), &table()).is_ok());
    }
    let past = [1.0_f32.next_down(), 20_000.0_f32.next_up()];
    let far = [0.0, -440.0, f32::NAN, f32::INFINITY, f32::NEG_INFINITY];
    for hertz in past.into_iter().chain(far) {
        let answer = stereo(&with_hertz(hertz), config(), &table());
        assert_eq!(answer, Err(refused(5, 1)), "{hertz}");
    }
}

#[test]
fn a_note_and_the_hertz_that_it_sounds_have_the_same_masks() {
    for (key, semitones) in [(69, 0.0), (60, 0.0), (93, -0.3125), (24, 47.5)] {
        let tuned = Pitch::Note {
            note: key,
            semitones,
        };
        let hertz = note_frequency_with_tuning(key, semitones).unwrap();
        let by_note = [voice(69, -1.0), pitched(tuned, 1.0)];
        let masks = stereo(&by_note, config(), &table()).unwrap();
        assert_eq!(
            masks,
            stereo(&with_hertz(hertz), config(), &table()).unwrap()
        );
        let higher = stereo(&with_hertz(hertz * 1.01), config(), &table()).unwrap();
        assert_ne!(masks, higher);
    }
}

/// The number and the place that each builder gives on records, in the order of the header.
fn of_records(records: &[sys::VoiceRecord]) -> [(u32, usize); 4] {
    let (voices, count) = (records.as_ptr(), records.len());
    let (curve, points) = (CURVE.as_ptr(), CURVE.len());
    let window = [1.0; 1024];
    let table = table();
    let prepared = [&window[..], &window, &window, &window, &table].concat();
    let (entries, n) = (table.as_ptr(), table.len());
    let (block, length) = (prepared.as_ptr(), prepared.len());
    let (settings, mut places) = (config().into(), [0; 4]);
    let (mut left, mut right) = (table.clone(), table.clone());
    let (left, right) = (left.as_mut_ptr(), right.as_mut_ptr());
    let [first, second, third, fourth] = &mut places;
    // Each pointer and length are those of one slice.
    let numbers = unsafe {
        [
            sys::dovetable_build_mask_with_voices(
                left, n, curve, points, voices, count, settings, first,
            ),
            sys::dovetable_build_mask_with_voices_precomputed(
                left, n, curve, points, voices, count, settings, entries, n, second,
            ),
            sys::dovetable_build_stereo_masks_with_voices_precomputed(
                left, n, right, n, curve, points, voices, count, settings, entries, n, third,
            ),
            sys::dovetable_build_stereo_masks_with_prepared_spectrum(
                left, n, right, n, curve, points, voices, count, settings, block, length, fourth,
            ),
        ]
    };
    std::array::from_fn(|call| (numbers[call], places[call]))
}

/// In every builder that takes voices, and whatever the note's byte of a record by hertz holds.
#[test]
fn a_form_that_is_neither_is_refused_at_its_voice() {
    let good = sys::VoiceRecord {
        pitch_form: 1,
        note: 255,
        semitones_or_hertz: 440.0,
        level: 1.0,
        pressure: 1.0,
        timbre: 0.5,
        volume_gain: 1.0,
        expression_gain: 1.0,
        pan: 0.0,
    };
    assert_eq!(of_records(&[good; 3]), [(0, 0); 4]);
    for pitch_form in [2, 3, 127, 128, 255] {
        let mut records = [good; 3];
        records[1].pitch_form = pitch_form;
        records[2].semitones_or_hertz = 0.5;
        assert_eq!(of_records(&records), [(5, 1); 4]);
    }
}

#[test]
fn single_numbers() {
    assert_eq!(db_to_gain(0.0), Ok(1.0));
    assert_eq!(note_frequency(69), Ok(440.0));
    assert_eq!(note_frequency_with_tuning(69, -12.0), Ok(220.0));
    assert_eq!(note_emphasis_gain(1200.0), Ok(1.0));
    assert_eq!(note_gate_gain(0.0, 1200.0, 0.5), Ok(1.0));
    assert_eq!(manual_gain_at_bin(&CURVE, 5, 64), Ok(1.0));
    let rest = MotionConfig::default();
    assert_eq!(motion_openness(440.0, rest), Ok(1.0));
    assert_eq!(motion_attenuation_db(440.0, rest), Ok(0.0));
    assert_eq!(motion_compensation_gain(rest), Ok(1.0));
}

#[test]
fn every_shape_crosses_as_its_own_number() {
    use MotionShape::*;
    let shapes = [Ripple, Harmonic, Drift, Scan, Notch, Saw, Sprinkle, Cloud];
    assert_eq!(shapes.map(|shape| shape as u32), [0, 1, 2, 3, 4, 5, 6, 7]);
    let openness = |shape| {
        let depth_db = 24.0;
        motion_openness(
            440.0,
            MotionConfig {
                shape,
                depth_db,
                ..MotionConfig::default()
            },
        )
        .unwrap()
    };
    assert_eq!(openness(Notch), 1.0 - openness(Scan));
    assert_eq!(openness(Cloud), 1.0);
}

#[test]
fn each_refusal_has_its_number_and_place() {
    let good = [voice(69, 0.0); 3];
    let (wide, small) = (
        MaskConfig {
            width_cents: 0.5,
            ..config()
        },
        MaskConfig {
            fft_size: 96,
            ..config()
        },
    );
    let mut bad_voice = good;
    bad_voice[2].pitch = note(128);
    let mut bad_table = table();
    bad_table[4] = f32::NAN;
    let short = &table()[1..];
    let mut bank = [0.0; MIDI_NOTES];
    bank[3] = 1.5;
    let answers = [
        (stereo(&good, small, &table()).unwrap_err(), 1, 0),
        (stereo(&good, wide, &table()).unwrap_err(), 2, 0),
        (
            stereo(&[good[0]; 129], config(), &table()).unwrap_err(),
            3,
            0,
        ),
        (stereo(&good, config(), short).unwrap_err(), 4, 0),
        (stereo(&bad_voice, config(), &table()).unwrap_err(), 5, 2),
        (stereo(&good, config(), &bad_table).unwrap_err(), 6, 4),
        (
            advance_note_envelopes(&mut bank, &[0; 16], 0.1, 10.0).unwrap_err(),
            7,
            3,
        ),
        (
            build_dual_synthesis_window(&[1.0; 8], &mut [0.0; 8], 3).unwrap_err(),
            8,
            0,
        ),
        (read_scene(&[]).unwrap_err(), 9, 0),
    ];
    for (answer, number, place) in answers {
        assert_eq!(answer, refused(number, place));
    }
}

#[test]
fn a_refusal_says_its_condition() {
    let shown = |number, place| refused(number, place).to_string();
    assert_eq!(shown(3, 0), "refusal 3: over 128 voices");
    assert_eq!(
        shown(5, 2),
        "refusal 5: a voice outside its limits (voice 2)"
    );
    assert_eq!(
        shown(9, 0),
        "refusal 9: a record of the wrong length, or with a forbidden bit set"
    );
    assert_eq!(
        shown(10, 0),
        "refusal 10: an id that is in the bank already, or is not in it"
    );
    assert_eq!(shown(11, 0), "refusal 11: a strip above 15");
    let error: Box<dyn std::error::Error> = Box::new(refused(6, 4));
    assert!(error.to_string().ends_with("-2..17 (entry 4)"));
}

#[test]
fn empty_slices() {
    assert_eq!(soften_spectral_edges(&[], &mut []), Ok(()));
    assert_eq!(smooth_mask_in_db(&mut [], &[], 0.1), Ok(()));
    assert_eq!(
        build_dual_synthesis_window(&[], &mut [], 1),
        Err(refused(4, 0))
    );
    assert_eq!(
        MaskWorkspace::prepare(&mut [], 48_000.0, 64),
        Err(refused(4, 0))
    );
    assert_eq!(
        PreparedSpectrum::new(48_000.0, &[], &[], 1),
        Err(refused(1, 0))
    );
    // No voices: the whole spectrum is at the floor.
    let [left, right] = stereo(&[], config(), &table()).unwrap();
    let floor = note_gate_gain(48.0, 100.0, 0.0).unwrap();
    assert!(left.iter().chain(&right).all(|&gain| gain == floor));
}

/// The header's promise on a null pointer with no entries, which the safe calls never pass.
#[test]
fn null_is_an_empty_slice() {
    let (mut place, mut mask) = (0, vec![0.0; config().bins()]);
    let (bins, curve, points) = (mask.len(), CURVE.as_ptr(), CURVE.len());
    unsafe {
        sys::dovetable_exp2_all(null_mut(), 0);
        let softened = sys::dovetable_soften_spectral_edges(null(), 0, null_mut(), 0, &mut place);
        assert_eq!(softened, 0);
        let prepared = sys::dovetable_prepare(null_mut(), 0, 48_000.0, 64, &mut place);
        assert_eq!(prepared, 4);
        let (settings, written) = (config().into(), mask.as_mut_ptr());
        let built = sys::dovetable_build_mask_with_voices(
            written,
            bins,
            curve,
            points,
            null(),
            0,
            settings,
            &mut place,
        );
        assert_eq!(built, 0);
    }
    let mut without = vec![1.0; bins];
    build_mask_with_voices(&mut without, &CURVE, &[], config()).unwrap();
    assert_eq!(mask, without);
}

#[test]
fn envelopes_follow_the_held_bits() {
    let mut levels = [0.0; MIDI_NOTES];
    let mut held = [0; 16];
    held[8] = 0b0000_0100; // note 69
    advance_note_envelopes(&mut levels, &held, 0.1, 0.0).unwrap();
    assert_eq!(levels[69], 1.0);
    assert_eq!(levels.iter().sum::<f32>(), 1.0);
}

#[test]
fn lists_of_gains() {
    let mut softened = [0.0; 3];
    soften_spectral_edges(&[1.0; 3], &mut softened).unwrap();
    assert_eq!(softened, [1.0; 3]);
    let mut current = [0.5, 1.0];
    smooth_mask_in_db(&mut current, &[1.0, 1.0], 0.03).unwrap();
    assert!(0.5 < current[0] && current[0] < 1.0 && current[1] == 1.0);
}

#[test]
fn a_prepared_spectrum_has_its_parts() {
    let (window, smooth) = ([1.0; 1024], [0.5; 1024]);
    let prepared = PreparedSpectrum::new(48_000.0, &window, &smooth, 2).unwrap();
    assert_eq!(prepared.window(), window);
    assert_eq!(prepared.synthesis_window(), [0.5; 1024]);
    assert_eq!(prepared.smooth_analysis_window(), smooth);
    assert_eq!(prepared.smooth_synthesis_window(), [1.0; 1024]);
    assert_eq!(prepared.bin_log2_hz(), table());
    assert_eq!(prepared.window_coherent_gain(), 1.0);
    assert_eq!(prepared.smooth_window_coherent_gain(), 0.5);
    let long = vec![1.0; 32_768];
    let answer = PreparedSpectrum::new(48_000.0, &long, &long, 2);
    assert_eq!(answer, Err(refused(1, 0)));
}

#[test]
fn a_prepared_spectrum_lends_its_table() {
    let chord = [voice(69, -1.0), voice(93, 1.0)];
    let window = [1.0; 1024];
    let prepared = PreparedSpectrum::new(48_000.0, &window, &window, 2).unwrap();
    let mut masks = [vec![7.0; config().bins()], vec![7.0; config().bins()]];
    let [left, right] = &mut masks;
    let mut build = |config| {
        build_stereo_masks_with_prepared_spectrum(left, right, &CURVE, &chord, config, &prepared)
    };
    let rate = MaskConfig {
        sample_rate: 7_999.0,
        ..config()
    };
    assert_eq!(build(rate), Err(refused(1, 0)));
    assert_eq!(build(config()), Ok(()));
    assert_eq!(masks, stereo(&chord, config(), &table()).unwrap());
}

#[test]
fn a_spectrum_of_another_size_is_refused() {
    let window = [1.0; 1024];
    let prepared = PreparedSpectrum::new(48_000.0, &window, &window, 2).unwrap();
    for fft_size in [64, 512, 2048, 16_384] {
        let other = MaskConfig {
            fft_size,
            ..config()
        };
        let mut masks = [vec![7.0; other.bins()], vec![7.0; other.bins()]];
        let [left, right] = &mut masks;
        let answer =
            build_stereo_masks_with_prepared_spectrum(left, right, &CURVE, &[], other, &prepared);
        assert_eq!(answer, Err(refused(4, 0)));
        assert!(masks.iter().flatten().all(|&gain| gain == 7.0));
    }
}
