//! The law of joined lists: each bin of their masks is the greater of the two lists' bins. On a
//! curve of 0 dB and without motion a bin holds the gate of its openness alone.

use crate::open_calls::first_change;
use crate::run::Run;
use crate::stereo_calls::{accepted, masks, some_of};
use crate::tally::count_met;
use oracle::bank_calls::good_voice;
use oracle::builders::Lent;
use oracle::functions::max;
use oracle::random::Random;
use oracle::refusals::MAX_VOICES;
use oracle::spectral_dsp::{MaskVoice, MotionConfig};

const CASES: [&str; 7] = [
    "bins where the first list is the greater",
    "bins where the second is",
    "bins of both kinds",
    "128 voices",
    "an empty list",
    "the note layer off",
    "gates alone",
];

/// An accepted call, often with more voices, and half of the time with gates alone.
fn whole(random: &mut Random) -> (Lent, bool) {
    let mut lent = accepted(random);
    let more = some_of(random, MAX_VOICES - lent.voices.len());
    lent.voices.extend((0..more).map(|_| good_voice(random)));
    let gates_alone = random.once_in(2);
    if gates_alone {
        lent.curve.fill(0.0);
        lent.config.motion = MotionConfig::default();
    }
    (lent, gates_alone)
}

fn joined_lists(random: &mut Random, met: &mut [u64; CASES.len()]) -> Result<(), String> {
    let (whole, gates_alone) = whole(random);
    let count = whole.voices.len();
    let cut = random.below(count + 1);
    let mut of = |voices: &[MaskVoice]| {
        let voices = voices.to_vec();
        let lent = Lent {
            voices,
            ..whole.clone()
        };
        masks(random, &lent).map(|masks| masks.concat())
    };
    let (first, second) = whole.voices.split_at(cut);
    let (first, second, joined) = (of(first)?, of(second)?, of(&whole.voices)?);
    let bins = || first.iter().zip(&second);
    let (firsts, seconds) = (bins().any(|(a, b)| a > b), bins().any(|(a, b)| a < b));
    let of_scene = [
        firsts,
        seconds,
        firsts && seconds,
        count == MAX_VOICES,
        cut == 0 || cut == count,
        !whole.config.note_layer_enabled,
        gates_alone,
    ];
    count_met(met, of_scene);
    let greater: Vec<f32> = bins().map(|(&a, &b)| max(a, b)).collect();
    match first_change(&joined, &greater) {
        None => Ok(()),
        Some(entry) => Err(format!(
            "{:?}, {cut} of {count} voices first: {} and {}, joined {}, at entry {entry}",
            whole.config, first[entry], second[entry], joined[entry]
        )),
    }
}

pub fn compare(run: &mut Run) {
    run.law("joined_lists", CASES, joined_lists);
}
