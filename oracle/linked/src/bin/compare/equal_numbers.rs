//! Numbers that are equal as f32 compares, though their bits differ: zeros of the two signs. In a
//! curve any NaN is equal to any other.

use crate::stereo_calls::same_bits;
use oracle::builders::Lent;
use oracle::curves::equal;
use oracle::random::Random;
use oracle::spectral_dsp::{MaskConfig, MaskVoice, Pitch};

/// What of the settings may be 0.
fn of_settings(config: &mut MaskConfig) -> [&mut f32; 5] {
    [
        &mut config.note_depth_db,
        &mut config.harmonic_rolloff_db_per_octave,
        &mut config.motion.depth_db,
        &mut config.motion.phase,
        &mut config.motion.size_octaves,
    ]
}

/// What of a voice may be 0.
fn of_voice(voice: &mut MaskVoice) -> Vec<&mut f32> {
    let mut numbers = vec![
        &mut voice.level,
        &mut voice.pressure,
        &mut voice.timbre,
        &mut voice.volume_gain,
        &mut voice.expression_gain,
        &mut voice.pan,
    ];
    if let Pitch::Note(_, semitones) = &mut voice.pitch {
        numbers.push(semitones);
    }
    numbers
}

/// Puts a zero for one number of `rare`.
fn put_zeros<'a>(random: &mut Random, rare: usize, numbers: impl IntoIterator<Item = &'a mut f32>) {
    for number in numbers {
        if random.once_in(rare) {
            *number = random.pick(&[0.0, -0.0]);
        }
    }
}

/// Puts zeros into all that may hold them.
pub fn zeros(random: &mut Random, call: &mut Lent) {
    let rare = [2, 16, 256, usize::MAX];
    let (points, entries) = (random.pick(&rare), random.pick(&rare));
    put_zeros(random, 4, of_settings(&mut call.config));
    put_zeros(random, 8, call.voices.iter_mut().flat_map(of_voice));
    put_zeros(random, points, &mut call.curve);
    put_zeros(random, entries, &mut call.table);
}

/// Turns the sign of half of the zeros, and answers whether of any.
fn turn_zeros<'a>(random: &mut Random, numbers: impl IntoIterator<Item = &'a mut f32>) -> bool {
    let mut turned = false;
    for number in numbers {
        if *number == 0.0 && random.once_in(2) {
            *number = -*number;
            turned = true;
        }
    }
    turned
}

/// Puts equal numbers for those of a call, and answers whether zeros are turned in a voice, in the
/// settings, in the curve and in the table. No call reads entry 0 of the table.
pub fn equal_numbers(random: &mut Random, call: &mut Lent) -> [bool; 4] {
    let curve = equal(random, &call.curve);
    let mut points = curve.iter().zip(&call.curve);
    let is_turned = points.any(|(&a, &b)| a == b && !same_bits(a, b));
    call.curve = curve;
    call.table[0] = random.float();
    [
        turn_zeros(random, call.voices.iter_mut().flat_map(of_voice)),
        turn_zeros(random, of_settings(&mut call.config)),
        is_turned,
        turn_zeros(random, &mut call.table[1..]),
    ]
}
