//! Refusals: their order, their places, and that a refused call changes nothing.

use oracle::calls::*;
use oracle::refusals::{Outcome, Refusal};
use oracle::spectral_dsp::{MANUAL_MASK_POINTS, MaskConfig, MaskVoice, MotionConfig, Pitch};

const BEFORE: f32 = 7.0;

fn refused<T>(number: u8, place: usize) -> Result<T, Refusal> {
    Err(Refusal { number, place })
}

/// All that a stereo call is given, at size 64.
struct Scene {
    left: Vec<f32>,
    right: Vec<f32>,
    curve: Vec<f32>,
    voices: Vec<MaskVoice>,
    config: MaskConfig,
    table: Vec<f32>,
}

impl Scene {
    fn good() -> Self {
        let voice = MaskVoice {
            pitch: Pitch::Note(69, 0.0),
            level: 1.0,
            ..MaskVoice::default()
        };
        Self {
            left: vec![BEFORE; 33],
            right: vec![BEFORE; 33],
            curve: vec![0.0; MANUAL_MASK_POINTS],
            voices: vec![voice; 3],
            config: MaskConfig {
                fft_size: 64,
                ..MaskConfig::default()
            },
            table: vec![10.0; 33],
        }
    }

    fn call(&mut self) -> Outcome {
        build_stereo_masks_with_voices_precomputed(
            &mut self.left,
            &mut self.right,
            &self.curve,
            &self.voices,
            self.config,
            &self.table,
        )
    }
}

/// Every fault at once, then one fewer each time: the numbers come in their order.
#[test]
fn the_stereo_call_tests_in_the_order_of_the_numbers() {
    let good = Scene::good();
    let mut scene = Scene::good();
    scene.config.fft_size = 96;
    scene.config.width_cents = 0.5;
    scene.voices = vec![good.voices[0]; 129];
    scene.voices[2].pitch = Pitch::Hertz(f32::NAN);
    scene.curve.pop();
    scene.table[1] = f32::NAN;
    assert_eq!(scene.call(), refused(1, 0));
    scene.config.fft_size = 64;
    assert_eq!(scene.call(), refused(2, 0));
    scene.config.width_cents = 1.0;
    assert_eq!(scene.call(), refused(3, 0));
    scene.voices.pop();
    assert_eq!(scene.call(), refused(4, 0));
    scene.curve.push(0.0);
    assert_eq!(scene.call(), refused(5, 2));
    scene.voices[2].pitch = Pitch::Hertz(20_000.0);
    assert_eq!(scene.call(), refused(6, 1));
    assert!(scene.left.iter().chain(&scene.right).all(|&x| x == BEFORE));
    scene.table[1] = 17.0;
    assert_eq!(scene.call(), Ok(()));
    assert!(scene.left.iter().chain(&scene.right).all(|&x| x != BEFORE));
}

#[test]
fn entry_0_of_the_table_is_neither_tested_nor_read() {
    let (mut scene, mut other) = (Scene::good(), Scene::good());
    other.table[0] = f32::NAN;
    assert_eq!((scene.call(), other.call()), (Ok(()), Ok(())));
    assert_eq!((scene.left, scene.right), (other.left, other.right));
}

/// Each field of a voice, past its limits; the other voices are good.
#[test]
fn every_field_of_a_voice_is_tested() {
    let faults: [fn(&mut MaskVoice); 9] = [
        |voice| voice.level = 1.0_f32.next_up(),
        |voice| voice.level = (-0.0_f32).next_down(),
        |voice| voice.level = f32::NAN,
        |voice| voice.pressure = f32::INFINITY,
        |voice| voice.timbre = f32::NAN,
        |voice| voice.volume_gain = f32::NEG_INFINITY,
        |voice| voice.expression_gain = f32::NAN,
        |voice| voice.pan = f32::INFINITY,
        |voice| (voice.level, voice.pan) = (0.0, f32::NAN),
    ];
    for fault in faults {
        let mut scene = Scene::good();
        fault(&mut scene.voices[1]);
        assert_eq!(scene.call(), refused(5, 1));
    }
}

/// A pitch's ends are accepted, and one step past each is refused at its voice, also where the
/// voice is silent.
#[test]
fn both_forms_of_a_pitch_are_tested() {
    let ends = [
        Pitch::Note(0, -48.0),
        Pitch::Note(127, 48.0),
        Pitch::Hertz(1.0),
        Pitch::Hertz(20_000.0),
    ];
    let [nan, infinity] = [f32::NAN, f32::INFINITY];
    let notes = [
        Pitch::Note(128, 0.0),
        Pitch::Note(255, 0.0),
        Pitch::Note(69, 48.0_f32.next_up()),
        Pitch::Note(69, (-48.0_f32).next_down()),
        Pitch::Note(69, nan),
    ];
    let past = [1.0_f32.next_down(), 20_000.0_f32.next_up()];
    let far = [0.0, -0.0, -1.0, -440.0, nan, infinity, -infinity];
    let hertz = past.into_iter().chain(far).map(Pitch::Hertz);
    let outcome = |pitch, level| {
        let mut scene = Scene::good();
        (scene.voices[1].pitch, scene.voices[1].level) = (pitch, level);
        scene.call()
    };
    for level in [0.0, 1.0] {
        for end in ends {
            assert_eq!(outcome(end, level), Ok(()), "{end:?}");
        }
        for pitch in notes.into_iter().chain(hertz.clone()) {
            assert_eq!(outcome(pitch, level), refused(5, 1), "{pitch:?}");
        }
    }
}

/// Of several voices outside their limits the lowest is named, whatever their forms.
#[test]
fn the_lowest_voice_is_named() {
    let bad = [Pitch::Note(128, 0.0), Pitch::Hertz(0.5)];
    for (first, second) in [(bad[0], bad[1]), (bad[1], bad[0])] {
        let mut scene = Scene::good();
        (scene.voices[1].pitch, scene.voices[2].pitch) = (first, second);
        assert_eq!(scene.call(), refused(5, 1));
    }
}

type Change = fn(&mut MaskConfig);

/// Each setting just past its limits, and at them.
#[test]
fn every_setting_is_tested() {
    let faults: [(u8, Change); 16] = [
        (1, |config| config.fft_size = 32),
        (1, |config| config.fft_size = 32_768),
        (1, |config| config.sample_rate = 8_000.0_f32.next_down()),
        (1, |config| config.sample_rate = 192_000.0_f32.next_up()),
        (1, |config| config.sample_rate = f32::NAN),
        (2, |config| config.note_depth_db = 144.0_f32.next_up()),
        (2, |config| config.width_cents = 1.0_f32.next_down()),
        (2, |config| config.width_cents = 1200.0_f32.next_up()),
        (2, |config| config.partials = 0),
        (2, |config| config.partials = 25),
        (2, |config| {
            config.harmonic_rolloff_db_per_octave = 48.0_f32.next_up()
        }),
        (2, |config| config.motion.depth_db = 96.0_f32.next_up()),
        (2, |config| config.motion.phase = f32::INFINITY),
        (2, |config| config.motion.phase = f32::NAN),
        (2, |config| config.motion.size_octaves = 100.0_f32.next_up()),
        (2, |config| {
            config.motion.size_octaves = f32::from_bits(0x8000_0001)
        }),
    ];
    for (number, fault) in faults {
        let mut scene = Scene::good();
        scene.config.note_layer_enabled = false;
        fault(&mut scene.config);
        assert_eq!(scene.call(), refused(number, 0));
    }
    let ends: [Change; 4] = [
        |config| (config.sample_rate, config.note_depth_db) = (8_000.0, -0.0),
        |config| (config.sample_rate, config.note_depth_db) = (192_000.0, 144.0),
        |config| (config.width_cents, config.partials) = (1200.0, 24),
        |config| (config.motion.depth_db, config.motion.size_octaves) = (96.0, -0.0),
    ];
    for end in ends {
        let mut scene = Scene::good();
        end(&mut scene.config);
        assert_eq!(scene.call(), Ok(()));
    }
}

#[test]
fn envelopes_hand_a_refused_bank_back() {
    let mut levels = [0.5; 128];
    levels[3] = 1.5;
    levels[9] = f32::NAN;
    let held = [0; 16];
    let same = |bank: [f32; 128]| bank.map(f32::to_bits) == levels.map(f32::to_bits);
    let (outcome, bank) = advance_note_envelopes(levels, held, f32::NAN, 10.0);
    assert_eq!((outcome, same(bank)), (refused(2, 0), true));
    let (outcome, bank) = advance_note_envelopes(levels, held, 0.1, 60_000.0_f32.next_up());
    assert_eq!((outcome, same(bank)), (refused(2, 0), true));
    let (outcome, bank) = advance_note_envelopes(levels, held, 0.1, 10.0);
    assert_eq!((outcome, same(bank)), (refused(7, 3), true));
}

#[test]
fn note_0_is_the_top_bit_of_byte_0() {
    let mut held = [0; 16];
    (held[0], held[15]) = (0x80, 0x01);
    let (outcome, bank) = advance_note_envelopes([0.0; 128], held, 0.0, 0.0);
    assert_eq!(outcome, Ok(()));
    for (note, level) in bank.into_iter().enumerate() {
        assert_eq!(level == 1.0, note == 0 || note == 127);
    }
}

#[test]
fn windows_test_length_then_value_then_overlap() {
    let mut analysis = vec![1.0; 8];
    analysis[5] = f32::NAN;
    let mut synthesis = vec![BEFORE; 7];
    assert_eq!(
        build_dual_synthesis_window(&analysis, &mut synthesis, 3),
        refused(4, 0)
    );
    synthesis.push(BEFORE);
    assert_eq!(
        build_dual_synthesis_window(&analysis, &mut synthesis, 3),
        refused(7, 5)
    );
    analysis[5] = -16.0;
    for overlap in [0, 3, 16, 17] {
        assert_eq!(
            build_dual_synthesis_window(&analysis, &mut synthesis, overlap),
            refused(8, 0)
        );
    }
    assert_eq!(synthesis, [BEFORE; 8]);
    assert_eq!(build_dual_synthesis_window(&[], &mut [], 1), refused(4, 0));
}

#[test]
fn paired_slices_name_the_lowest_index_of_either() {
    let (mut current, mut target) = (vec![1.0; 6], vec![1.0; 6]);
    current[4] = -1.0;
    target[2] = 64.0_f32.next_up();
    assert_eq!(
        smooth_mask_in_db(&mut current, &target, 10.1),
        refused(2, 0)
    );
    assert_eq!(
        smooth_mask_in_db(&mut current, &target[1..], 0.1),
        refused(4, 0)
    );
    assert_eq!(smooth_mask_in_db(&mut current, &target, 0.1), refused(7, 2));
    target[2] = 64.0;
    assert_eq!(smooth_mask_in_db(&mut current, &target, 0.1), refused(7, 4));
    assert_eq!(current, [1.0, 1.0, 1.0, 1.0, -1.0, 1.0]);
    assert_eq!(smooth_mask_in_db(&mut [], &[], 0.1), Ok(()));
}

#[test]
fn the_prepared_spectrum_tests_1_4_7_8() {
    let (mut window, mut smooth) = (vec![1.0; 64], vec![1.0; 63]);
    let mut block = vec![BEFORE; 4 * 64 + 32 + 1];
    window[9] = 17.0;
    let mut new = |rate, window: &[f32], smooth: &[f32], overlap| {
        let answer = prepared_spectrum_new(rate, window, smooth, overlap, &mut block);
        assert!(answer.is_ok() || block.iter().all(|&x| x == BEFORE));
        answer
    };
    assert_eq!(new(7_999.0, &window, &smooth, 3), refused(1, 0));
    assert_eq!(new(48_000.0, &window[1..], &smooth, 3), refused(1, 0));
    assert_eq!(new(48_000.0, &window, &smooth, 3), refused(4, 0));
    smooth.push(f32::NAN);
    assert_eq!(new(48_000.0, &window, &smooth, 3), refused(7, 9));
    window[9] = 16.0;
    assert_eq!(new(48_000.0, &window, &smooth, 3), refused(7, 63));
    smooth[63] = 1.0;
    assert_eq!(new(48_000.0, &window, &smooth, 3), refused(8, 0));
    assert!(new(48_000.0, &window, &smooth, 4).is_ok());
}

#[test]
fn lone_numbers() {
    assert_eq!(db_to_gain(700.0_f32.next_up()), refused(2, 0));
    assert!(db_to_gain(-700.0).is_ok());
    assert_eq!(note_frequency(128), refused(2, 0));
    assert_eq!(note_frequency_with_tuning(0, f32::NAN), refused(2, 0));
    assert_eq!(note_emphasis_gain(0.5), refused(2, 0));
    assert_eq!(note_gate_gain(0.0, 1.0, f32::INFINITY), refused(2, 0));
    assert!(note_gate_gain(144.0, 1200.0, f32::MAX).is_ok());
    assert_eq!(manual_gain_at_bin(&[], 8193, 96), refused(1, 0));
    assert_eq!(manual_gain_at_bin(&[], 8193, 64), refused(2, 0));
    assert_eq!(manual_gain_at_bin(&[], 8192, 64), refused(4, 0));
    let motion = MotionConfig::default();
    assert_eq!(
        motion_openness(192_000.0_f32.next_up(), motion),
        refused(2, 0)
    );
    assert_eq!(motion_attenuation_db(f32::NAN, motion), refused(2, 0));
    let motion = MotionConfig {
        depth_db: f32::NAN,
        ..motion
    };
    assert_eq!(motion_compensation_gain(motion), refused(2, 0));
}
