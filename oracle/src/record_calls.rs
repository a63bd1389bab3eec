//! Random scenes to write and records to read, and faults in them. The replay list of scene records
//! holds such calls, and the comparison with the static library starts from them.

use crate::edges::around_limits;
use crate::random::Random;
use crate::refusals::*;
use crate::scene_records::{HEAD_BYTES, StoredScene, VOICE_BYTES, length_of};
use crate::scenes;
use crate::spectral_dsp::{MaskConfig, MaskVoice, Pitch};

/// A float that is tested, and its limits.
type Limited<'a> = (&'a mut f32, (f32, f32));

/// The limits of what may be any finite number.
const FINITE: (f32, f32) = (f32::MIN, f32::MAX);

/// The byte of a head that ends in the three zero bits.
const ZEROS_AT: usize = 2;

fn any_setting<'a>(random: &mut Random, config: &'a mut MaskConfig) -> Limited<'a> {
    match random.below(7) {
        0 => (&mut config.sample_rate, RATE),
        1 => (&mut config.note_depth_db, NOTE_DEPTH),
        2 => (&mut config.width_cents, WIDTH),
        3 => (&mut config.harmonic_rolloff_db_per_octave, ROLLOFF),
        4 => (&mut config.motion.depth_db, MOTION_DEPTH),
        5 => (&mut config.motion.phase, FINITE),
        _ => (&mut config.motion.size_octaves, MOTION_SIZE),
    }
}

fn tuning(pitch: &mut Pitch) -> Limited<'_> {
    match pitch {
        Pitch::Note(_, semitones) => (semitones, TUNING),
        Pitch::Hertz(hertz) => (hertz, HERTZ),
    }
}

fn any_of_voice<'a>(random: &mut Random, voice: &'a mut MaskVoice) -> Limited<'a> {
    match random.below(7) {
        0 => (&mut voice.level, LEVEL),
        1 => tuning(&mut voice.pitch),
        2 => (&mut voice.pressure, FINITE),
        3 => (&mut voice.timbre, FINITE),
        4 => (&mut voice.volume_gain, FINITE),
        5 => (&mut voice.expression_gain, FINITE),
        _ => (&mut voice.pan, FINITE),
    }
}

/// None where there is no voice.
fn any_voice<'a>(random: &mut Random, scene: &'a mut StoredScene) -> Option<&'a mut MaskVoice> {
    let index = random.below(scene.voices.len().max(1));
    scene.voices.get_mut(index)
}

/// NaN of either sign, with any payload, quiet or not.
pub fn any_nan(random: &mut Random) -> f32 {
    let payload = 1 + random.below(0x7f_ffff) as u32;
    let sign = random.pick(&[0, 1 << 31]);
    f32::from_bits(sign | 0x7f80_0000 | payload)
}

/// A number at its limits or past them, or from anywhere.
fn odd_number(random: &mut Random, limits: (f32, f32)) -> f32 {
    match random.below(8) {
        0 => any_nan(random),
        1 => random.float(),
        _ => random.pick(&around_limits(limits)),
    }
}

/// A number within its limits: an end, a zero of either sign, a subnormal one, or from anywhere.
fn rare_number(random: &mut Random, limits: (f32, f32)) -> f32 {
    loop {
        let number = odd_number(random, limits);
        if within(number, limits) {
            return number;
        }
    }
}

/// A scene that every test accepts.
pub fn scene(random: &mut Random, voices: usize) -> StoredScene {
    let mut scene = StoredScene {
        config: scenes::config(random),
        voices: (0..voices).map(|_| scenes::voice(random)).collect(),
    };
    for _ in 0..random.below(4) {
        let (float, limits) = any_setting(random, &mut scene.config);
        *float = rare_number(random, limits);
        if let Some(voice) = any_voice(random, &mut scene) {
            let (float, limits) = any_of_voice(random, voice);
            *float = rare_number(random, limits);
        }
    }
    scene
}

/// Brings what one refusal tests to its limits or past them: 1, 2, else 5. A record can hold it.
pub fn fault(random: &mut Random, number: u8, scene: &mut StoredScene) {
    let config = &mut scene.config;
    let (float, limits) = match number {
        1 if random.once_in(2) => {
            config.fft_size = 1 << random.pick(&[0, 1, 2, 3, 4, 5, 6, 14, 15]);
            return;
        }
        1 => (&mut config.sample_rate, RATE),
        2 if random.once_in(4) => {
            config.partials = random.pick(&[0, 1, 24, 25, 26, 30, 31]);
            return;
        }
        2 => any_setting(random, config),
        _ => match any_voice(random, scene) {
            Some(voice) => any_of_voice(random, voice),
            None => return,
        },
    };
    *float = odd_number(random, limits);
}

/// Puts a number that is refused and that no record can hold: 1, 2, else 5.
pub fn oversize(random: &mut Random, number: u8, scene: &mut StoredScene) {
    let most = u32::MAX as usize;
    match number {
        1 => scene.config.fft_size = random.pick(&[0, 63, 65, 96, 16_385, 65_536, most]),
        2 => scene.config.partials = random.pick(&[32, 33, 56, 257, most]),
        _ => {
            if let Some(voice) = any_voice(random, scene) {
                voice.pitch = Pitch::Note(random.pick(&[128, 129, 192, 255]), 0.0);
            }
        }
    }
}

/// Sets some of the three zero bits.
pub fn set_zeros(record: &mut [u8], bits: u8) {
    record[ZEROS_AT] |= bits;
}

/// Makes a voice one by hertz, with some of its note bits set.
pub fn set_note_bits(record: &mut [u8], voice: usize, note: u8) {
    record[length_of(voice)] = note << 1 | 1;
}

/// A length that is one off, or another one.
fn odd_length(random: &mut Random, length: usize) -> usize {
    match random.below(4) {
        0 => length - 1,
        1 => length + 1,
        2 => random.pick(&[0, 1, HEAD_BYTES - 1, length - VOICE_BYTES.min(length)]),
        _ => random.below(length),
    }
}

/// One of the lowest bits, or several.
fn some_bits(random: &mut Random, width: usize) -> u8 {
    match random.once_in(2) {
        true => 1 << random.below(width),
        false => 1 + random.below((1 << width) - 1) as u8,
    }
}

/// Makes a whole record none: its length, a zero bit, or a note bit of a voice by hertz.
pub fn damage(random: &mut Random, record: &mut Vec<u8>) {
    let voices = (record.len() - HEAD_BYTES) / VOICE_BYTES;
    match random.below(3) {
        0 => record.resize(odd_length(random, record.len()), 0),
        1 if voices > 0 => {
            let voice = random.below(voices);
            set_note_bits(record, voice, some_bits(random, 7));
        }
        _ => set_zeros(record, some_bits(random, 3)),
    }
}

/// Flips a bit, counted from the most significant of the first byte.
pub fn flip(record: &mut [u8], bit: usize) {
    record[bit / 8] ^= 0x80 >> (bit % 8);
}
