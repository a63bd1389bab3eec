//! The open calls that answer one number, each on a thousand arguments in turn.

use crate::open_calls::{SHORT, row, spread};
use linked::calls::Motion;
use linked::*;
use oracle::spectral_dsp::MotionConfig;
use std::hint::black_box;
use std::iter::Cycle;
use std::slice::Iter;

fn next<T: Copy>(arguments: &mut Cycle<Iter<T>>) -> T {
    black_box(*arguments.next().expect("there are arguments"))
}

/// Both sides of a row go through the arguments, each on its own. The library's function is called
/// itself, as a program in C calls it: what `linked::calls` lends and looks at around a call can
/// take longer than the call.
fn each<T: Copy>(
    name: &str,
    arguments: &[T],
    ours: impl Fn(T, &mut f32, &mut usize) -> u32,
    theirs: impl Fn(T) -> f32,
) {
    let (mut given, mut same) = (arguments.iter().cycle(), arguments.iter().cycle());
    row(
        name,
        SHORT,
        || {
            let (mut value, mut place) = (0.0, 0);
            black_box(ours(next(&mut given), &mut value, &mut place));
            black_box(value);
        },
        || {
            black_box(theirs(next(&mut same)));
        },
    );
}

fn gains() {
    let decibels = spread(SHORT as usize, -96.0, 12.0);
    each(
        "db_to_gain",
        &decibels,
        |db, gain, place| dovetable_db_to_gain(db, gain, place),
        original_oiko::db_to_gain,
    );
    let widths = spread(SHORT as usize, 10.0, 1200.0);
    each(
        "note_emphasis_gain",
        &widths,
        |width, gain, place| dovetable_note_emphasis_gain(width, gain, place),
        original::note_emphasis_gain,
    );
    each(
        "note_gate_gain",
        &widths,
        |width, gain, place| {
            dovetable_note_gate_gain(width / 20.0, width, width / 1200.0, gain, place)
        },
        |width| original::note_gate_gain(width / 20.0, width, width / 1200.0),
    );
    let curve: [f32; 8193] = spread(8193, -96.0, 0.0).try_into().expect("a whole curve");
    let bins: Vec<usize> = (0..SHORT as usize).map(|k| k * 401 % 4097).collect();
    each(
        "manual_gain_at_bin",
        &bins,
        // The pointer and the length are those of one array.
        |bin, gain, place| unsafe {
            dovetable_manual_gain_at_bin(curve.as_ptr(), curve.len(), bin, 8192, gain, place)
        },
        |bin| original::manual_gain_at_bin(&curve, bin, 8192),
    );
}

fn pitches() {
    let tunings = spread(SHORT as usize, -48.0, 48.0);
    each(
        "note_frequency_with_tuning",
        &tunings,
        |tuning, hertz, place| dovetable_note_frequency_with_tuning(60, tuning, hertz, place),
        |tuning| original_oiko::note_frequency_with_tuning(60, tuning),
    );
    let notes: Vec<u8> = (0..128).collect();
    each(
        "note_frequency",
        &notes,
        |note, hertz, place| dovetable_note_frequency(note, hertz, place),
        original_oiko::note_frequency,
    );
}

/// The same motion for the port and for the Rust.
fn motions(shape: u32, same: original::MotionShape) -> (Motion, original::MotionConfig) {
    let motion = Motion {
        shape,
        depth_db: 24.0,
        ..Motion::from(MotionConfig::default())
    };
    let other = original::MotionConfig {
        shape: same,
        depth_db: 24.0,
        phase: motion.phase,
        size_octaves: motion.size_octaves,
    };
    (motion, other)
}

fn moving_field() {
    use original::MotionShape::{Cloud, Ripple, Scan};
    let hertz = spread(SHORT as usize, 20.0, 20_000.0);
    for (name, shape, same) in [("Ripple", 0, Ripple), ("Scan", 3, Scan)] {
        let (motion, other) = motions(shape, same);
        each(
            &format!("motion_openness, {name}"),
            &hertz,
            |hertz, openness, place| {
                let (depth, phase, size) = (motion.depth_db, motion.phase, motion.size_octaves);
                dovetable_motion_openness(hertz, shape, depth, phase, size, openness, place)
            },
            |hertz| original::motion_openness(hertz, other),
        );
    }
    for (name, shape, same) in [("Ripple", 0, Ripple), ("Cloud", 7, Cloud)] {
        let (motion, other) = motions(shape, same);
        row(
            &format!("motion_compensation_gain, {name}"),
            10,
            || {
                black_box(calls::motion_compensation_gain(black_box(motion)));
            },
            || {
                black_box(original::motion_compensation_gain(black_box(other)));
            },
        );
    }
}

pub fn rows() {
    gains();
    pitches();
    moving_field();
}
