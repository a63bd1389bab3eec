//! The open calls: answers, places, values, and the slices at exit, after a refusal too.

use crate::run::Run;
use crate::tally::Tally;
use crate::{draw, envelopes};
use linked::calls::{self as port, BEFORE, Given, Motion};
use oracle::calls;
use oracle::curves::point_of;
use oracle::numbers::{bits_of, first_difference};
use oracle::random::Random;
use oracle::refusals::*;
use oracle::scenes::{self, SHAPES};
use oracle::spectral_dsp::{MANUAL_MASK_POINTS, MotionConfig};
use std::fmt::Debug;

/// What a call has to give where the oracle answers so: the values where it is done, and the place
/// where it is refused.
pub fn expected<const N: usize>(answer: Result<[f32; N], Refusal>) -> Given {
    let mut given = BEFORE;
    match answer {
        Ok(values) => {
            given.number = 0;
            given.values[..N].copy_from_slice(&values);
        }
        Err(refusal) => {
            given.number = u32::from(refusal.number);
            given.place = refusal.place;
        }
    }
    given
}

pub fn same_given(a: Given, b: Given) -> bool {
    (a.number, a.place, a.values.map(bits_of)) == (b.number, b.place, b.values.map(bits_of))
}

/// The first entry at which two slices differ in any bit.
pub fn first_change(a: &[f32], b: &[f32]) -> Option<usize> {
    a.iter()
        .zip(b)
        .position(|(a, b)| a.to_bits() != b.to_bits())
}

/// A call without slices to write.
fn note_value(tally: &mut Tally, arguments: impl Debug, port: Given, oracle: calls::Answer) {
    let oracle = expected(oracle.map(|value| [value]));
    tally.note(oracle.number as usize, same_given(port, oracle), || {
        format!("{arguments:?}: port {port:?}, oracle {oracle:?}")
    });
}

/// A call that may write one slice: what it held before, and what either side has left there. A
/// refused call must leave every bit as it was.
pub fn note_slice<const N: usize>(
    tally: &mut Tally,
    arguments: impl Debug,
    port: Given,
    oracle: Result<[f32; N], Refusal>,
    [before, by_port, by_oracle]: [&[f32]; 3],
) {
    let oracle = expected(oracle);
    let entry = match oracle.number {
        0 => first_difference(by_port, by_oracle),
        _ => first_change(by_port, before),
    };
    let same = same_given(port, oracle) && entry.is_none();
    tally.note(oracle.number as usize, same, || {
        format!("{arguments:?}: port {port:?}, oracle {oracle:?}, entry {entry:?}")
    });
}

fn tuning(run: &mut Run) {
    run.calls_of("db_to_gain", |random, tally| {
        let db = draw::setting(random, DECIBELS);
        note_value(tally, db, port::db_to_gain(db), calls::db_to_gain(db));
    });
    run.calls_of("note_frequency", |random, tally| {
        let note = random.word() as u8;
        let answer = calls::note_frequency(note);
        note_value(tally, note, port::note_frequency(note), answer);
    });
    run.calls_of("note_frequency_with_tuning", |random, tally| {
        let (note, tuning) = (draw::note(random), draw::setting(random, TUNING));
        let answer = calls::note_frequency_with_tuning(note, tuning);
        let given = port::note_frequency_with_tuning(note, tuning);
        note_value(tally, (note, tuning), given, answer);
    });
}

fn gates(run: &mut Run) {
    run.calls_of("note_emphasis_gain", |random, tally| {
        let width = draw::setting(random, WIDTH);
        let answer = calls::note_emphasis_gain(width);
        note_value(tally, width, port::note_emphasis_gain(width), answer);
    });
    run.calls_of("note_gate_gain", |random, tally| {
        let (depth, width) = (
            draw::setting(random, NOTE_DEPTH),
            draw::setting(random, WIDTH),
        );
        let openness = match random.once_in(2) {
            true => random.between(-0.2, 1.2),
            false => draw::finite(random),
        };
        let given = port::note_gate_gain(depth, width, openness);
        let answer = calls::note_gate_gain(depth, width, openness);
        note_value(tally, (depth, width, openness), given, answer);
    });
}

/// Curves from all over, some of them damaged.
fn curves(random: &mut Random) -> Vec<Vec<f32>> {
    let mut curves: Vec<Vec<f32>> = (0..64).map(|_| scenes::curve(random)).collect();
    curves.iter_mut().for_each(|one| draw::damage(random, one));
    curves
}

fn drawn_curve(run: &mut Run) {
    let name = "manual_gain_at_bin";
    let curves = curves(&mut Random::new(run.seed));
    let longest = vec![0.0; MANUAL_MASK_POINTS + 1];
    let mut damaged = 0;
    run.calls_of(name, |random, tally| {
        let size = draw::size(random);
        let bin = match random.below(16) {
            0 => random.pick(&[8192, 8193, 8194, usize::MAX]),
            1 => random.below(8193),
            _ => random.below((size / 2).min(8192) + 1),
        };
        let whole = &curves[random.below(curves.len())];
        let curve = match random.below(32) {
            0 => &longest[..],
            1 => &whole[..random.below(MANUAL_MASK_POINTS)],
            _ => &whole[..],
        };
        let given = port::manual_gain_at_bin(curve, bin, size);
        let answer = calls::manual_gain_at_bin(curve, bin, size);
        let is_damaged = answer.is_ok() && curve[point_of(bin, size)].is_nan();
        damaged += u64::from(is_damaged);
        note_value(tally, (curve.len(), bin, size), given, answer);
    });
    if run.takes(name) {
        println!("{name}, calls done with  a NaN at the bin's point: {damaged}");
    }
}

/// The settings with the shape of this number; refusal 2 where there is none.
fn shaped(motion: Motion) -> Result<MotionConfig, Refusal> {
    let shape = SHAPES.get(motion.shape as usize).copied();
    let shape = shape.ok_or(Refusal {
        number: 2,
        place: 0,
    })?;
    Ok(MotionConfig {
        shape,
        depth_db: motion.depth_db,
        phase: motion.phase,
        size_octaves: motion.size_octaves,
    })
}

fn motions(run: &mut Run) {
    let frequency = |random: &mut Random| match random.once_in(2) {
        true => random.between(0.0, 24_000.0),
        false => draw::setting(random, FREQUENCY),
    };
    run.calls_of("motion_openness", |random, tally| {
        let (hertz, motion) = (frequency(random), draw::motion(random));
        let given = port::motion_openness(hertz, motion);
        let answer = shaped(motion).and_then(|config| calls::motion_openness(hertz, config));
        note_value(tally, (hertz, motion), given, answer);
    });
    run.calls_of("motion_attenuation_db", |random, tally| {
        let (hertz, motion) = (frequency(random), draw::motion(random));
        let given = port::motion_attenuation_db(hertz, motion);
        let answer = shaped(motion).and_then(|config| calls::motion_attenuation_db(hertz, config));
        note_value(tally, (hertz, motion), given, answer);
    });
    run.calls_of("motion_compensation_gain", |random, tally| {
        let motion = draw::motion(random);
        let given = port::motion_compensation_gain(motion);
        let answer = shaped(motion).and_then(calls::motion_compensation_gain);
        note_value(tally, motion, given, answer);
    });
}

fn tables(run: &mut Run) {
    run.calls_of("prepare", |random, tally| {
        let (size, rate) = (draw::size(random), draw::setting(random, RATE));
        let entries = draw::mostly(random, size.min(32_768) / 2 + 1);
        let table = draw::list(random, entries, (7.0, 7.0));
        let (mut ours, mut theirs) = (table.clone(), table.clone());
        let given = port::prepare(&mut ours, rate, size);
        let answer = calls::prepare(&mut theirs, rate, size).map(|()| []);
        let arguments = (rate, size, entries);
        note_slice(tally, arguments, given, answer, [&table, &ours, &theirs]);
    });
}

fn gain_lists(run: &mut Run) {
    run.calls_of("soften_spectral_edges", |random, tally| {
        let length = draw::length(random, MAX_GAINS);
        let source = draw::list(random, length, GAIN);
        let others = draw::mostly(random, length);
        let output = draw::list(random, others, (7.0, 7.0));
        let (mut ours, mut theirs) = (output.clone(), output.clone());
        let given = port::soften_spectral_edges(&source, &mut ours);
        let answer = calls::soften_spectral_edges(&source, &mut theirs).map(|()| []);
        let slices = [&output[..], &ours, &theirs];
        note_slice(tally, (length, others), given, answer, slices);
    });
    run.calls_of("smooth_mask_in_db", |random, tally| {
        let length = draw::length(random, MAX_GAINS);
        let current = draw::list(random, length, GAIN);
        let others = draw::mostly(random, length);
        let target = draw::list(random, others, GAIN);
        let elapsed = match random.once_in(2) {
            true => random.between(0.0, 0.1),
            false => draw::setting(random, ELAPSED),
        };
        let (mut ours, mut theirs) = (current.clone(), current.clone());
        let given = port::smooth_mask_in_db(&mut ours, &target, elapsed);
        let answer = calls::smooth_mask_in_db(&mut theirs, &target, elapsed).map(|()| []);
        let arguments = (elapsed, length, others);
        note_slice(tally, arguments, given, answer, [&current, &ours, &theirs]);
    });
}

fn windows(run: &mut Run) {
    run.calls_of("build_dual_synthesis_window", |random, tally| {
        let overlap = draw::overlap(random);
        let length = match random.once_in(8) {
            true => draw::length(random, MAX_WINDOW),
            false => {
                let hops = draw::length(random, MAX_WINDOW / 16);
                hops * overlap.min(16)
            }
        };
        let analysis = draw::list(random, length, WINDOW);
        let others = draw::mostly(random, length);
        let synthesis = draw::list(random, others, (7.0, 7.0));
        let (mut ours, mut theirs) = (synthesis.clone(), synthesis.clone());
        let given = port::build_dual_synthesis_window(&analysis, &mut ours, overlap);
        let answer = calls::build_dual_synthesis_window(&analysis, &mut theirs, overlap);
        let arguments = (overlap, length, others);
        let slices = [&synthesis[..], &ours, &theirs];
        note_slice(tally, arguments, given, answer.map(|()| []), slices);
    });
    run.calls_of("prepared_spectrum_new", |random, tally| {
        let (size, rate) = (draw::size(random).min(32_768), draw::setting(random, RATE));
        let overlap = match random.once_in(2) {
            true => 1 << random.below(5),
            false => draw::overlap(random),
        };
        let window = draw::list(random, size, WINDOW);
        let smooths = draw::mostly(random, size);
        let smooth = draw::list(random, smooths, WINDOW);
        let entries = draw::mostly(random, 4 * size + size / 2 + 1);
        let block = draw::list(random, entries, (7.0, 7.0));
        let (mut ours, mut theirs) = (block.clone(), block.clone());
        let given = port::prepared_spectrum_new(rate, &window, &smooth, overlap, &mut ours);
        let answer = calls::prepared_spectrum_new(rate, &window, &smooth, overlap, &mut theirs);
        let arguments = (rate, size, smooths, overlap, entries);
        note_slice(tally, arguments, given, answer, [&block, &ours, &theirs]);
    });
}

pub fn compare(run: &mut Run) {
    tuning(run);
    gates(run);
    drawn_curve(run);
    motions(run);
    envelopes::compare(run);
    tables(run);
    gain_lists(run);
    windows(run);
}
