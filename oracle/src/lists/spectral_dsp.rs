//! The list `spectral_dsp`: the calls of spectral_dsp's lib, without the mask builders.

use super::slices::{Slice, hash_text};
use super::{List, answer_text, around_finite, around_limits, outcome_text};
use crate::calls;
use crate::random::Random;
use crate::refusals::*;
use crate::scenes::{self, SHAPES};
use crate::spectral_dsp::{MANUAL_MASK_POINTS, MIDI_NOTES, MotionConfig};

const SEED: u64 = 32;

/// A call's number, its arguments' words and its line.
fn numbers(call: u32, name: &str, words: &[u32], answer: String) -> List {
    let mut record = List::default();
    record.word(call);
    record.words(words);
    let text: String = words.iter().map(|word| format!("{word:08x} ")).collect();
    record.line(&format!("{name} {text}{answer}"));
    record
}

fn note_emphasis_gain(width: f32) -> List {
    let answer = answer_text(calls::note_emphasis_gain(width));
    numbers(0, "note_emphasis_gain", &[width.to_bits()], answer)
}

fn note_gate_gain(depth: f32, width: f32, openness: f32) -> List {
    let answer = answer_text(calls::note_gate_gain(depth, width, openness));
    let words = [depth, width, openness].map(f32::to_bits);
    numbers(1, "note_gate_gain", &words, answer)
}

fn manual_gain_at_bin(bin: usize, size: usize, curve: Slice) -> List {
    let answer = calls::manual_gain_at_bin(&curve.made(), bin, size);
    let mut record = List::default();
    record.words(&[2, bin as u32, size as u32]);
    curve.words(&mut record);
    record.line(&format!(
        "manual_gain_at_bin {bin} {size} {}",
        answer_text(answer)
    ));
    record
}

fn motion_words(motion: MotionConfig) -> [u32; 4] {
    let floats = [motion.depth_db, motion.phase, motion.size_octaves].map(f32::to_bits);
    [motion.shape as u32, floats[0], floats[1], floats[2]]
}

fn motion_at(frequency: f32, motion: MotionConfig) -> [List; 2] {
    let words = [&[frequency.to_bits()][..], &motion_words(motion)].concat();
    let openness = answer_text(calls::motion_openness(frequency, motion));
    let attenuation = answer_text(calls::motion_attenuation_db(frequency, motion));
    [
        numbers(3, "motion_openness", &words, openness),
        numbers(4, "motion_attenuation_db", &words, attenuation),
    ]
}

fn motion_compensation_gain(motion: MotionConfig) -> List {
    let answer = answer_text(calls::motion_compensation_gain(motion));
    numbers(5, "motion_compensation_gain", &motion_words(motion), answer)
}

fn advance_note_envelopes(elapsed: f32, fade: f32, held: [u8; 16], levels: Slice) -> List {
    let bank = levels.made().try_into().expect("a bank has 128 levels");
    let (outcome, bank) = calls::advance_note_envelopes(bank, held, elapsed, fade);
    let mut record = List::default();
    record.word(6);
    record.floats(&[elapsed, fade]);
    record.calls.extend(held);
    levels.words(&mut record);
    let (answer, hash) = (outcome_text(outcome), hash_text(&bank));
    record.line(&format!("advance_note_envelopes {answer} {hash}"));
    record
}

fn prepare(rate: f32, size: usize, table: Slice) -> List {
    let mut lent = table.made();
    let answer = outcome_text(calls::prepare(&mut lent, rate, size));
    let mut record = List::default();
    record.word(7);
    record.float(rate);
    record.word(size as u32);
    table.words(&mut record);
    record.line(&format!("prepare {answer} {}", hash_text(&lent)));
    record
}

/// Motions at and past their limits, one setting at a time, with every shape.
fn edge_motions() -> Vec<MotionConfig> {
    let usual = MotionConfig {
        depth_db: 24.0,
        phase: 0.25,
        ..MotionConfig::default()
    };
    let mut found: Vec<MotionConfig> = SHAPES.map(|shape| MotionConfig { shape, ..usual }).into();
    for depth_db in around_limits(MOTION_DEPTH)
        .into_iter()
        .chain([0.001, 0.001_000_1])
    {
        found.push(MotionConfig { depth_db, ..usual });
    }
    for phase in around_finite().into_iter().chain([-1.0e-9]) {
        found.push(MotionConfig { phase, ..usual });
    }
    for size_octaves in around_limits(MOTION_SIZE).into_iter().chain([0.05]) {
        found.push(MotionConfig {
            size_octaves,
            ..usual
        });
    }
    found
}

fn add_single_numbers(list: &mut List) {
    for width in around_limits(WIDTH)
        .into_iter()
        .chain([100.0, 100.00001, 300.0])
    {
        list.add(note_emphasis_gain(width));
    }
    for depth in around_limits(NOTE_DEPTH) {
        list.add(note_gate_gain(depth, 100.0, 0.5));
    }
    for width in around_limits(WIDTH) {
        list.add(note_gate_gain(24.0, width, 0.5));
    }
    for openness in around_finite() {
        list.add(note_gate_gain(24.0, 300.0, openness));
    }
    for motion in edge_motions() {
        list.add(motion_compensation_gain(motion));
        for frequency in [0.0, 440.0] {
            list.add_all(motion_at(frequency, motion));
        }
    }
    let usual = edge_motions()[0];
    for frequency in around_limits(FREQUENCY)
        .into_iter()
        .chain([20.0, 19.999998, 20.000002])
    {
        list.add_all(motion_at(frequency, usual));
    }
}

fn add_curves(list: &mut List, random: &mut Random) {
    let values = [
        -144.0,
        (-144.0_f32).next_up(),
        (-144.0_f32).next_down(),
        6.0,
        f32::NAN,
    ];
    for value in values
        .into_iter()
        .chain([f32::INFINITY, f32::NEG_INFINITY, 0.0, -0.0, -72.0])
    {
        let flat = Slice::of(MANUAL_MASK_POINTS, value);
        list.add(manual_gain_at_bin(1, 8192, flat));
    }
    for size in [0, 1, 32, 64, 65, 96, 8192, 16_384, 16_385, 32_768] {
        for bin in [0, 1, 33, 8192, 8193] {
            let curve = Slice::spread(random, MANUAL_MASK_POINTS, (-150.0, 10.0));
            list.add(manual_gain_at_bin(bin, size, curve));
        }
    }
    for length in [0, 1, 4096, 8192, 8194] {
        let curve = Slice::spread(random, length, (-150.0, 10.0));
        for bin in [0, 1, 32, 8192, 8193, 100_000] {
            list.add(manual_gain_at_bin(bin, 64, curve));
        }
        for bin in [8193, usize::MAX >> 32] {
            list.add(manual_gain_at_bin(bin, 16_384, curve));
            list.add(manual_gain_at_bin(bin, 63, curve));
        }
    }
}

fn add_envelopes(list: &mut List, random: &mut Random) {
    let held = |random: &mut Random| std::array::from_fn(|_| random.word() as u8);
    for elapsed in around_limits(ELAPSED).into_iter().chain([0.01, 0.1]) {
        let levels = Slice::spread(random, MIDI_NOTES, LEVEL);
        list.add(advance_note_envelopes(elapsed, 50.0, held(random), levels));
    }
    for fade in around_limits(FADE).into_iter().chain([1.0, 1_000.0]) {
        let levels = Slice::spread(random, MIDI_NOTES, LEVEL);
        list.add(advance_note_envelopes(0.01, fade, held(random), levels));
    }
    for level in around_limits(LEVEL)
        .into_iter()
        .chain([1.0e-6, 1.0e-6_f32.next_down()])
    {
        let mut levels = Slice::of(MIDI_NOTES, level);
        list.add(advance_note_envelopes(0.0, 50.0, held(random), levels));
        levels = Slice::spread(random, MIDI_NOTES, LEVEL);
        levels.put(random, level);
        levels.put(random, 2.0);
        for elapsed in [0.01, random.pick(&[10.0, f32::NAN])] {
            list.add(advance_note_envelopes(elapsed, 50.0, held(random), levels));
        }
    }
    // One note at a time, so that a wrong order of the bits is found.
    for note in [0, 1, 7, 8, 63, 64, 120, 127] {
        let mut one = [0; 16];
        one[note / 8] = 0x80 >> (note % 8);
        list.add(advance_note_envelopes(
            0.01,
            20.0,
            one,
            Slice::of(MIDI_NOTES, 0.5),
        ));
    }
}

fn add_tables(list: &mut List, random: &mut Random) {
    for power in 5..=15 {
        let size = 1 << power;
        for length in [size / 2, size / 2 + 1, size / 2 + 2] {
            let rate = random.pick(&[8_000.0, 44_100.0, 48_000.0, 192_000.0]);
            list.add(prepare(rate, size, Slice::of(length, 7.0)));
        }
        let rate = random.between(8_000.0, 192_000.0);
        list.add(prepare(rate, size, Slice::of(size / 2 + 1, 7.0)));
    }
    for rate in around_limits(RATE) {
        list.add(prepare(rate, 64, Slice::of(33, 7.0)));
        list.add(prepare(rate, 96, Slice::of(33, 7.0)));
        list.add(prepare(rate, 64, Slice::of(32, 7.0)));
    }
}

/// A number between limits, and now and then any number at all.
fn mostly_within(random: &mut Random, (low, high): (f32, f32)) -> f32 {
    if random.once_in(8) {
        random.float()
    } else {
        random.between(low, high)
    }
}

fn add_random(list: &mut List, random: &mut Random) -> bool {
    let motion = MotionConfig {
        depth_db: mostly_within(random, MOTION_DEPTH),
        ..scenes::motion(random)
    };
    let (depth, width) = (
        mostly_within(random, NOTE_DEPTH),
        mostly_within(random, WIDTH),
    );
    let openness = mostly_within(random, (-0.2, 1.2));
    let [field, attenuation] = motion_at(mostly_within(random, (0.0, 24_000.0)), motion);
    list.add_all([
        note_emphasis_gain(width),
        note_gate_gain(depth, width, openness),
        field,
        attenuation,
        motion_compensation_gain(motion),
    ])
}

pub fn list() -> List {
    let mut list = List::default();
    let random = &mut Random::new(SEED);
    add_single_numbers(&mut list);
    add_curves(&mut list, random);
    add_envelopes(&mut list, random);
    add_tables(&mut list, random);
    while add_random(&mut list, random) {}
    list
}
