//! The lists `masks` and `mask_refusals`: the four mask builders.

use super::slices::hash_text;
use super::{List, float_text, outcome_text};
use crate::builders::Builder;
use crate::mask_calls::{Call, Damage, any_scene, chord, fault, other_table};
use crate::plain_words::settings_words;
use crate::random::Random;
use crate::scenes;
use crate::spectral_dsp::MaskConfig;

const SEED: u64 = 34;
const DAMAGED_SEED: u64 = 108;

/// How often each refusal of each builder is shown.
const TIMES: usize = 20;

fn call_words(list: &mut List, call: &Call, builder: Builder) {
    list.word(builder as u32);
    list.words(&settings_words(&call.config));
    list.word(call.left.length as u32);
    if builder.is_stereo() {
        list.word(call.right.length as u32);
    }
    list.slices(&[call.curve]);
    if builder.takes_table() {
        list.float(call.prepared_at);
        list.slices(&[call.table]);
    }
    if builder.takes_voices() {
        list.voices(call.count, &call.voices);
    } else {
        list.slices(&[call.levels]);
    }
}

/// A mask's hash and, where it has two bins, four of them.
pub fn mask_text(mask: &[f32]) -> String {
    let n = mask.len();
    let bins = match n {
        0 | 1 => &[][..],
        _ => &[1, n / 16, n / 4, n - 1],
    };
    let bins = bins.iter().map(|&bin| float_text(mask[bin]));
    let parts: Vec<String> = [hash_text(mask)].into_iter().chain(bins).collect();
    parts.join(" ")
}

fn record(call: &Call, builder: Builder) -> List {
    let mut record = List::default();
    call_words(&mut record, call, builder);
    let mut masks = call.masks();
    let answer = outcome_text(builder.build(&call.lent(), &mut masks));
    let [left, right] = masks.map(|mask| mask_text(&mask));
    let name = builder.name();
    match builder.is_stereo() {
        true => record.line(&format!("{name} {answer} {left} {right}")),
        false => record.line(&format!("{name} {answer} {left}")),
    }
    record
}

fn add_counts(list: &mut List, random: &mut Random) {
    for count in [0, 1, 127, 128, 129, 256] {
        let mut call = chord(random);
        call.count = count;
        call.voices.truncate(count);
        for builder in Builder::LISTED {
            list.add(record(&call, builder));
        }
    }
    let config = chord(random).config;
    let voices = (0..128).map(|_| scenes::voice(random)).collect();
    let full = Call::good(random, config, voices);
    list.add(record(&full, Builder::StereoPrecomputed));
}

/// Each size, once with a prepared table and once with another.
fn add_sizes(list: &mut List, random: &mut Random) {
    for power in 6..=14 {
        let chord = chord(random);
        let config = MaskConfig {
            fft_size: 1 << power,
            ..chord.config
        };
        let mut call = Call::good(random, config, chord.voices);
        for builder in Builder::LISTED {
            list.add(record(&call, builder));
        }
        other_table(random, &mut call);
        list.add(record(&call, Builder::WithVoicesPrecomputed));
        list.add(record(&call, Builder::StereoPrecomputed));
    }
}

/// Chords on curves that are damaged at bins which a voice opens, by each builder.
fn damaged() -> List {
    let mut list = List::default();
    let random = &mut Random::new(DAMAGED_SEED);
    for damage in Damage::TWICE {
        for builder in Builder::LISTED {
            let mut call = chord(random);
            damage.put_into(random, &mut call, builder);
            list.add(record(&call, builder));
        }
    }
    list
}

/// Whole masks, most of them accepted: sizes, counts, tables of every kind, ends of the limits; at
/// the end on damaged curves.
pub fn list() -> List {
    let damaged = damaged();
    let mut list = List::before(&damaged);
    let random = &mut Random::new(SEED);
    add_counts(&mut list, random);
    add_sizes(&mut list, random);
    loop {
        let mut call = match random.below(3) {
            0 => chord(random),
            _ => any_scene(random),
        };
        if random.once_in(3) {
            other_table(random, &mut call);
        }
        if random.once_in(3) {
            let number = random.pick(&[2, 2, 5, 5, 6, 7]);
            fault(random, number, &mut call);
        }
        let builder = match random.once_in(2) {
            true => Builder::StereoPrecomputed,
            false => random.pick(&Builder::LISTED),
        };
        if !list.add(record(&call, builder)) {
            return list.end_with(damaged);
        }
    }
}

/// Draws calls until one is refused by this number, with faults of later numbers beside it.
fn refused(random: &mut Random, builder: Builder, number: u8) -> List {
    loop {
        let mut call = chord(random);
        call.voices.truncate(random.below(3));
        call.count = call.voices.len();
        fault(random, number, &mut call);
        for later in number + 1..=7 {
            if random.once_in(2) {
                fault(random, later, &mut call);
            }
        }
        let record = record(&call, builder);
        if record.stdout.contains(&format!(" refused {number} ")) {
            return record;
        }
    }
}

/// Every refusal of every builder, each equally often.
pub fn refusals() -> List {
    let mut list = List::default();
    let random = &mut Random::new(SEED);
    let rows: [(Builder, &[u8]); 4] = [
        (Builder::Mask, &[1, 2, 4, 7]),
        (Builder::WithVoices, &[1, 2, 3, 4, 5]),
        (Builder::WithVoicesPrecomputed, &[1, 2, 3, 4, 5, 6]),
        (Builder::StereoPrecomputed, &[1, 2, 3, 4, 5, 6]),
    ];
    for (builder, numbers) in rows {
        for &number in numbers {
            for _ in 0..TIMES {
                list.add(refused(random, builder, number));
            }
        }
    }
    list
}
