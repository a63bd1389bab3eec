//! Scene records: the layout byte by byte, each refusal and their order, and that scenes and
//! records come back to the bit.

use oracle::calls::{read_scene, write_scene};
use oracle::random::Random;
use oracle::record_calls::{damage, fault, flip, scene};
use oracle::refusals::{Outcome, Refusal};
use oracle::scene_records::{HEAD_BYTES, SILENT, StoredScene, VOICE_BYTES, length_of};
use oracle::spectral_dsp::{MaskConfig, MaskVoice, MotionConfig, MotionShape, Pitch};

const BEFORE: u8 = 0xa5;

fn refused(number: u8, place: usize) -> Outcome {
    Err(Refusal { number, place })
}

/// The record of a scene that has to be accepted.
fn record_of(scene: &StoredScene) -> Vec<u8> {
    let mut record = vec![BEFORE; length_of(scene.voices.len())];
    assert_eq!(write_scene(&mut record, scene), Ok(()));
    record
}

/// The outcome of a writing, which where it is refused has changed no byte.
fn writing(scene: &StoredScene, length: usize) -> Outcome {
    let mut record = vec![BEFORE; length];
    let outcome = write_scene(&mut record, scene);
    assert!(outcome.is_ok() || record.iter().all(|&byte| byte == BEFORE));
    outcome
}

/// The outcome of a reading, which where it is refused has given the blank scene.
fn reading(record: &[u8]) -> Outcome {
    let (outcome, scene) = read_scene(record);
    assert!(outcome.is_ok() || scene.words().iter().all(|&word| word == 0));
    outcome
}

/// A reading that is done gives a scene whose record is this one.
fn is_refused_or_comes_back(record: &[u8]) -> bool {
    let (outcome, scene) = read_scene(record);
    let mut again = vec![BEFORE; record.len()];
    outcome.is_err() || (write_scene(&mut again, &scene) == Ok(()) && again == record)
}

/// Two voices, the second by hertz. No two floats of the head are the same, nor of a voice.
fn hand_made() -> StoredScene {
    let motion = MotionConfig {
        shape: MotionShape::Scan,
        depth_db: 12.5,
        phase: -0.0,
        size_octaves: f32::from_bits(1),
    };
    let config = MaskConfig {
        sample_rate: 44_100.0,
        fft_size: 8192,
        note_depth_db: 48.0,
        note_layer_enabled: true,
        width_cents: 50.0,
        partials: 24,
        harmonic_rolloff_db_per_octave: 6.0,
        motion,
    };
    let voice = |pitch, level, pan| MaskVoice {
        pitch,
        level,
        pressure: 0.75,
        timbre: 0.25,
        volume_gain: 1.5,
        expression_gain: 1.25,
        pan,
    };
    let voices = vec![
        voice(Pitch::Note(69, -0.5), 1.0, -1.0),
        voice(Pitch::Hertz(440.5), 0.5, 3.0),
    ];
    StoredScene { config, voices }
}

/// Floats one behind the other, most significant byte first.
fn floats(xs: [f32; 7]) -> Vec<u8> {
    xs.into_iter().flat_map(f32::to_be_bytes).collect()
}

#[test]
fn every_field_lies_where_the_request_puts_it() {
    // 1101 is the logarithm, 1 the layer, 011 the shape, 11000 the partials, 00000010 the count.
    let head = [0b1101_1011, 0b1100_0000, 0b0001_0000];
    let parts = [
        head.to_vec(),
        floats([44_100.0, 48.0, 50.0, 6.0, 12.5, -0.0, f32::from_bits(1)]),
        vec![69 << 1], // note 69
        floats([1.0, -0.5, 0.75, 0.25, 1.5, 1.25, -1.0]),
        vec![1], // hertz
        floats([0.5, 440.5, 0.75, 0.25, 1.5, 1.25, 3.0]),
    ];
    let by_hand = parts.concat();
    assert_eq!(by_hand.len(), 31 + 2 * 29);
    assert_eq!(record_of(&hand_made()), by_hand);
    let (outcome, scene) = read_scene(&by_hand);
    assert_eq!(outcome, Ok(()));
    assert_eq!(scene.words(), hand_made().words());
}

/// Each field of the head before its floats, over all its values, by the text's widths.
#[test]
fn every_value_of_a_small_field_has_its_bits() {
    let record = record_of(&hand_made());
    let fields = |record: &[u8]| u32::from_be_bytes([0, record[0], record[1], record[2]]);
    let rest = |low: u32, width: u32| fields(&record) & !(((1 << width) - 1) << low);
    let shown = |change: &dyn Fn(&mut StoredScene), low, width, value: u32| {
        let mut scene = hand_made();
        change(&mut scene);
        assert_eq!(fields(&record_of(&scene)), rest(low, width) | value << low);
    };
    for log in 6..=14 {
        shown(&|scene| scene.config.fft_size = 1 << log, 20, 4, log);
    }
    shown(&|scene| scene.config.note_layer_enabled = false, 19, 1, 0);
    let shapes = oracle::scenes::SHAPES;
    for (number, shape) in shapes.into_iter().enumerate() {
        shown(
            &|scene| scene.config.motion.shape = shape,
            16,
            3,
            number as u32,
        );
    }
    for partials in 1..=24 {
        shown(
            &|scene| scene.config.partials = partials,
            11,
            5,
            partials as u32,
        );
    }
    for count in 0..=128 {
        let fill = |scene: &mut StoredScene| scene.voices.resize(count, SILENT);
        shown(&fill, 3, 8, count as u32);
    }
}

/// Seven bits of note and one of form, of which the lowest is the form.
#[test]
fn every_note_has_its_bits() {
    for note in 0..=127 {
        let mut scene = hand_made();
        scene.voices[1].pitch = Pitch::Note(note, 0.0);
        assert_eq!(record_of(&scene)[31 + 29], note << 1);
    }
}

#[test]
fn every_valid_scene_comes_back_to_the_bit() {
    let random = &mut Random::new(1);
    for turn in 0..20_000 {
        let voices = match turn % 64 {
            0 => random.below(129),
            _ => random.below(4),
        };
        let scene = scene(random, voices);
        let record = record_of(&scene);
        let (outcome, back) = read_scene(&record);
        assert_eq!(outcome, Ok(()));
        assert_eq!(back.words(), scene.words());
        assert_eq!(back.voices.len(), voices);
        assert!(is_refused_or_comes_back(&record));
    }
}

/// One bit after the other, in records of up to three voices.
#[test]
fn a_flipped_bit_is_refused_or_comes_back() {
    let random = &mut Random::new(2);
    let (mut accepted, mut refused) = (0, 0);
    for turn in 0..40 {
        let mut record = record_of(&scene(random, turn % 4));
        for bit in 0..8 * record.len() {
            flip(&mut record, bit);
            assert!(is_refused_or_comes_back(&record), "bit {bit}");
            match reading(&record) {
                Ok(()) => accepted += 1,
                Err(_) => refused += 1,
            }
            flip(&mut record, bit);
        }
    }
    assert!(
        accepted > 10_000 && refused > 1_000,
        "{accepted}, {refused}"
    );
}

#[test]
fn a_record_with_many_changes_is_refused_or_comes_back() {
    let random = &mut Random::new(3);
    for _ in 0..50_000 {
        let voices = random.below(3);
        let mut scene = scene(random, voices);
        for number in [1, 2, 5] {
            if random.once_in(4) {
                fault(random, number, &mut scene);
            }
        }
        let mut record = oracle::scene_records::written(&scene);
        for _ in 0..random.below(4) {
            let bit = random.below(8 * record.len());
            flip(&mut record, bit);
        }
        assert!(is_refused_or_comes_back(&record));
        record[..HEAD_BYTES].fill_with(|| random.word() as u8);
        assert!(is_refused_or_comes_back(&record));
    }
}

#[test]
fn damage_is_refusal_9() {
    let random = &mut Random::new(4);
    for _ in 0..5_000 {
        let voices = random.below(4);
        let mut scene = scene(random, voices);
        (1..=5).for_each(|number| fault(random, number, &mut scene));
        let mut record = oracle::scene_records::written(&scene);
        damage(random, &mut record);
        assert_eq!(reading(&record), refused(9, 0));
    }
}

#[test]
fn every_length_but_one_is_refusal_9() {
    let mut record = record_of(&hand_made());
    record.resize(8_000, 0);
    for length in 0..8_000 {
        let expected = match length == 31 + 2 * 29 {
            true => Ok(()),
            false => refused(9, 0),
        };
        assert_eq!(reading(&record[..length]), expected, "{length} bytes");
    }
}

/// A record of this many silent voices, built without the writer.
fn counted(count: usize) -> Vec<u8> {
    let mut record = record_of(&hand_made());
    record[1] = record[1] & 0xf8 | (count >> 5) as u8;
    record[2] = (count << 3) as u8;
    record.truncate(HEAD_BYTES);
    record.resize(HEAD_BYTES + VOICE_BYTES * count, 0);
    record
}

#[test]
fn every_count_asks_for_its_length() {
    for count in 0..=255 {
        let mut record = counted(count);
        let expected = match count <= 128 {
            true => Ok(()),
            false => refused(3, 0),
        };
        assert_eq!(reading(&record), expected, "{count} voices");
        record.push(0);
        assert_eq!(reading(&record), refused(9, 0));
        record.truncate(record.len() - 2);
        assert_eq!(reading(&record), refused(9, 0));
    }
}

#[test]
fn each_forbidden_bit_is_refusal_9() {
    for bits in 1..8 {
        let mut record = record_of(&hand_made());
        record[2] |= bits;
        assert_eq!(reading(&record), refused(9, 0));
    }
    for count in [1, 2, 127, 128, 129, 200, 255] {
        for voice in [0, 1, count / 2, 127, 128, 199, count - 1] {
            let mut record = counted(count);
            let at = HEAD_BYTES + VOICE_BYTES * voice;
            if voice >= count {
                continue;
            }
            for note in 1..128 {
                record[at] = note << 1 | 1;
                assert_eq!(reading(&record), refused(9, 0), "voice {voice} of {count}");
                record[at] = note << 1;
                assert_ne!(reading(&record), refused(9, 0), "voice {voice} of {count}");
            }
        }
    }
}

/// Every fault at once, then one fewer each time.
#[test]
fn a_reading_tests_9_then_1_2_3_5() {
    let mut record = counted(129);
    record[2] |= 4;
    record[0] = 5 << 4; // size 32
    record[11..15].copy_from_slice(&0.5_f32.to_be_bytes()); // the width
    let bad = HEAD_BYTES + 2 * VOICE_BYTES + 1;
    record[bad..bad + 4].copy_from_slice(&f32::NAN.to_be_bytes()); // the level of voice 2
    assert_eq!(reading(&record), refused(9, 0));
    record[2] ^= 4;
    assert_eq!(reading(&record), refused(1, 0));
    record[0] = 6 << 4;
    assert_eq!(reading(&record), refused(2, 0));
    record[11..15].copy_from_slice(&1.0_f32.to_be_bytes());
    assert_eq!(reading(&record), refused(3, 0));
    record[2] ^= 1 << 3; // 128 voices
    assert_eq!(reading(&record), refused(9, 0));
    record.truncate(HEAD_BYTES + VOICE_BYTES * 128);
    assert_eq!(reading(&record), refused(5, 2));
    record[bad..bad + 4].fill(0);
    assert_eq!(reading(&record), Ok(()));
}

/// The same; a refused writing has changed no byte of a slice of any length.
#[test]
fn a_writing_tests_1_2_3_4_5() {
    let mut scene = hand_made();
    scene.voices.resize(129, SILENT);
    scene.voices[2].pitch = Pitch::Note(128, 0.0);
    scene.config.fft_size = 96;
    scene.config.partials = 25;
    assert_eq!(writing(&scene, 31), refused(1, 0));
    scene.config.fft_size = 64;
    assert_eq!(writing(&scene, 31), refused(2, 0));
    scene.config.partials = 24;
    assert_eq!(writing(&scene, 31), refused(3, 0));
    assert_eq!(writing(&scene, length_of(129)), refused(3, 0));
    scene.voices.pop();
    for length in [
        0,
        31,
        length_of(128) - 1,
        length_of(128) + 1,
        length_of(129),
    ] {
        assert_eq!(writing(&scene, length), refused(4, 0));
    }
    assert_eq!(writing(&scene, length_of(128)), refused(5, 2));
    scene.voices[2].pitch = Pitch::Note(127, 0.0);
    assert_eq!(writing(&scene, length_of(128)), Ok(()));
}

/// Patterns of NaN and the infinities, in each float of a head and of a voice.
#[test]
fn no_record_with_nan_or_infinity_is_accepted() {
    let nans = [0x7f80_0001, 0x7fbf_ffff, 0x7fc0_0000, 0x7fff_ffff];
    let positive = nans.into_iter().chain([0x7f80_0000_u32]);
    let patterns: Vec<u32> = positive.flat_map(|bits| [bits, bits | 1 << 31]).collect();
    let heads = (0..7).map(|float| (3 + 4 * float, if float == 0 { (1, 0) } else { (2, 0) }));
    let voices = (0..14).map(|float| {
        let (voice, float) = (float / 7, float % 7);
        (31 + 29 * voice + 1 + 4 * float, (5, voice))
    });
    for (at, (number, place)) in heads.chain(voices) {
        for bits in &patterns {
            let mut record = record_of(&hand_made());
            record[at..at + 4].copy_from_slice(&bits.to_be_bytes());
            assert_eq!(
                reading(&record),
                refused(number, place),
                "{bits:08x} at {at}"
            );
        }
    }
}
