//! The chord law: where each voice of A has a voice of B of the same pitch, timbre and pan and of
//! no lower level, pressure, volume and expression, and A's curve is nowhere above B's, no bin of
//! A's masks is above B's. A NaN point ranks below every number. Where it holds both ways, the
//! masks are equal. Table and settings are equal as f32 compares, and no mask holds a NaN.

use crate::equal_numbers::{equal_numbers, zeros};
use crate::run::Run;
use crate::stereo_calls::{accepted, masks, same_bits, some_of};
use crate::tally::count_met;
use oracle::builders::Lent;
use oracle::curves::{is_above, lowered, point_of};
use oracle::random::Random;
use oracle::refusals::MAX_VOICES;
use oracle::spectral_dsp::MaskVoice;

const BELOW: [&str; 8] = [
    "a NaN in A alone at a bin's point",
    "one in both",
    "a lower number",
    "a softer voice",
    "a voice in B alone",
    "a voice of A several times",
    "a zero of another sign",
    "a lower bin",
];

const EQUAL: [&str; 6] = [
    "a NaN in both at a bin's point",
    "voices in another order",
    "a softer double",
    "a zero of another sign",
    "audible voices",
    "masks of other bits",
];

/// A number that is no higher and at least `least`: now and then the same, the next, one a little
/// lower, or any.
fn no_higher(random: &mut Random, number: f32, least: f32) -> f32 {
    let lower = match random.below(8) {
        0 => number.next_down(),
        1 => number - random.between(0.0, 0.1),
        2 => number - random.between(0.0, 1.0),
        3 => random.between(0.0, 1.0),
        4 => random.float(),
        _ => number,
    };
    // NaN passes neither test.
    match least <= lower && lower <= number {
        true => lower,
        false => number,
    }
}

/// A voice that this one matches.
fn softer(random: &mut Random, voice: &MaskVoice) -> MaskVoice {
    MaskVoice {
        level: no_higher(random, voice.level, 0.0),
        pressure: no_higher(random, voice.pressure, f32::MIN),
        volume_gain: no_higher(random, voice.volume_gain, f32::MIN),
        expression_gain: no_higher(random, voice.expression_gain, f32::MIN),
        ..*voice
    }
}

/// Whether a voice is matched by another.
fn is_matched(voice: &MaskVoice, by: &MaskVoice) -> bool {
    let same = |voice: &MaskVoice| (voice.pitch, voice.timbre, voice.pan);
    same(voice) == same(by)
        && voice.level <= by.level
        && voice.pressure <= by.pressure
        && voice.volume_gain <= by.volume_gain
        && voice.expression_gain <= by.expression_gain
}

fn is_equal(voice: &MaskVoice, other: &MaskVoice) -> bool {
    is_matched(voice, other) && is_matched(other, voice)
}

/// Whether each voice of a list is matched by one of another.
fn are_matched(voices: &[MaskVoice], by: &[MaskVoice]) -> bool {
    voices.iter().all(|a| by.iter().any(|b| is_matched(a, b)))
}

/// Adds voices that are matched by one of a list, and puts all into any order. Answers how many
/// were added.
fn add_doubles(random: &mut Random, voices: &mut Vec<MaskVoice>) -> usize {
    let count = match voices.len() {
        0 => 0,
        some => some_of(random, MAX_VOICES - some),
    };
    for _ in 0..count {
        let voice = random.pick(voices);
        voices.push(softer(random, &voice));
    }
    random.shuffle(voices);
    count
}

/// Two calls with equal numbers, and whether a zero has another sign in them.
fn equal_calls(random: &mut Random) -> (Lent, Lent, bool) {
    let mut call = accepted(random);
    if random.once_in(2) {
        zeros(random, &mut call);
    }
    let mut other = call.clone();
    let turned = equal_numbers(random, &mut other).contains(&true);
    (other, call, turned)
}

/// Whether the points of A and of B that a bin reads are so.
fn some_bin(a: &Lent, b: &Lent, holds: fn(f32, f32) -> bool) -> bool {
    let size = a.config.fft_size;
    let mut points = (0..=size / 2).map(|bin| point_of(bin, size));
    points.any(|point| holds(a.curve[point], b.curve[point]))
}

/// Says at which bin the masks of A and of B are not so.
fn compare_bins(
    [a, b]: [&Lent; 2],
    masks: [&[f32]; 2],
    holds: fn(f32, f32) -> bool,
) -> Result<(), String> {
    let Some(entry) = (0..masks[0].len()).find(|&n| !holds(masks[0][n], masks[1][n])) else {
        return Ok(());
    };
    let bins = a.config.fft_size / 2 + 1;
    let point = point_of(entry % bins, a.config.fft_size);
    let gains = masks.map(|mask| mask[entry]);
    let points = [a, b].map(|call| call.curve[point]);
    Err(format!(
        "{:?}: {gains:?} at entry {entry} on points {points:?}, voices {:?} and {:?}",
        a.config, a.voices, b.voices
    ))
}

/// Leaves each voice or some, puts a voice that is matched by it for each, and adds doubles.
fn soften(random: &mut Random, voices: &mut Vec<MaskVoice>) -> usize {
    let often = random.pick(&[1, 1, 2]);
    voices.retain(|_| random.once_in(often));
    for voice in voices.iter_mut() {
        *voice = softer(random, voice);
    }
    add_doubles(random, voices)
}

/// A's voices are softer than B's and its curve is lower, or the same in part: so are its masks.
fn below(random: &mut Random, met: &mut [u64; BELOW.len()]) -> Result<(), String> {
    let (mut a, b, turned) = equal_calls(random);
    a.curve = lowered(random, &a.curve);
    let doubles = soften(random, &mut a.voices);
    let mut points = a.curve.iter().zip(&b.curve);
    let premises = are_matched(&a.voices, &b.voices) && points.all(|(&a, &b)| !is_above(a, b));
    assert!(premises, "the calls are drawn so");
    let (lower, higher) = (masks(random, &a)?.concat(), masks(random, &b)?.concat());
    let of_pair = [
        some_bin(&a, &b, |a, b| a.is_nan() && !b.is_nan()),
        some_bin(&a, &b, |a, b| a.is_nan() && b.is_nan()),
        some_bin(&a, &b, |a, b| a < b),
        !a.voices
            .iter()
            .all(|a| b.voices.iter().any(|b| is_equal(a, b))),
        !are_matched(&b.voices, &a.voices),
        doubles > 0,
        turned,
        lower.iter().zip(&higher).any(|(a, b)| a < b),
    ];
    count_met(met, of_pair);
    compare_bins([&a, &b], [&lower, &higher], |a, b| a <= b)
}

/// The two calls have equal voices, each with softer doubles of its own, and equal curves: so are
/// the masks.
fn equal(random: &mut Random, met: &mut [u64; EQUAL.len()]) -> Result<(), String> {
    let (mut a, mut b, turned) = equal_calls(random);
    let doubles = add_doubles(random, &mut a.voices) + add_doubles(random, &mut b.voices);
    let [in_a, in_b] = [&a, &b].map(|call| &call.voices);
    assert!(are_matched(in_a, in_b) && are_matched(in_b, in_a));
    let none = Lent {
        voices: Vec::new(),
        ..a.clone()
    };
    let none = masks(random, &none)?.concat();
    let (one, other) = (masks(random, &a)?.concat(), masks(random, &b)?.concat());
    let of_pair = [
        some_bin(&a, &b, |a, b| a.is_nan() && b.is_nan()),
        in_a.iter().zip(in_b).any(|(a, b)| !is_equal(a, b)),
        doubles > 0,
        turned,
        one != none,
        !one.iter().zip(&other).all(|(&a, &b)| same_bits(a, b)),
    ];
    count_met(met, of_pair);
    compare_bins([&a, &b], [&one, &other], |a, b| a == b)
}

pub fn compare(run: &mut Run) {
    run.law("chord_law", BELOW, below);
    run.law("chord_law_equal", EQUAL, equal);
}
