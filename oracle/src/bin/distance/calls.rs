//! The calls below the mask builders, on accepted input, beside the unaltered Rust's.

use crate::measure::Distance;
use crate::variants;
use oracle::random::Random;
use oracle::scenes;
use oracle::spectral_dsp::{MANUAL_MASK_POINTS, MotionConfig};

const NAMES: [&str; 13] = [
    "db_to_gain",
    "note_frequency",
    "note_frequency_with_tuning",
    "note_emphasis_gain",
    "note_gate_gain",
    "manual_gain_at_bin",
    "motion_openness",
    "motion_attenuation_db",
    "motion_compensation_gain",
    "advance_note_envelopes",
    "soften_spectral_edges",
    "smooth_mask_in_db",
    "windows of PreparedSpectrum",
];

/// One draw of what every call is given.
struct Given {
    db: f32,
    note: u8,
    tuning: f32,
    depth: f32,
    width: f32,
    openness: f32,
    curve: Box<[f32; MANUAL_MASK_POINTS]>,
    frequency: f32,
    motion: MotionConfig,
    levels: [f32; 128],
    held: [bool; 128],
    elapsed: f32,
    fade: f32,
    current: Vec<f32>,
    target: Vec<f32>,
    window: Vec<f32>,
    smooth: Vec<f32>,
    overlap: usize,
}

impl Given {
    fn draw(random: &mut Random) -> Self {
        let (high, size) = (random.pick(&[1.0, 4.0, 64.0]), 64 << random.below(4));
        let mut spread = |length: usize, low: f32, high: f32| -> Vec<f32> {
            (0..length).map(|_| random.between(low, high)).collect()
        };
        let (current, target) = (spread(65, 0.0, high), spread(65, 0.0, high));
        let (window, smooth) = (spread(size, -1.0, 1.0), spread(size, 0.0, 1.0));
        Self {
            db: random.between(-700.0, 700.0),
            note: random.below(128) as u8,
            tuning: random.between(-48.0, 48.0),
            depth: random.between(0.0, 144.0),
            width: random.between(1.0, 1200.0),
            openness: random.between(-0.5, 1.5),
            curve: Box::new([random.between(-150.0, 10.0); MANUAL_MASK_POINTS]),
            frequency: random.between(0.0, 24_000.0),
            motion: scenes::motion(random),
            levels: std::array::from_fn(|_| random.between(0.0, 1.0)),
            held: std::array::from_fn(|_| random.once_in(2)),
            elapsed: random.between(0.0, 0.1),
            fade: random.between(0.0, 2_000.0),
            current,
            target,
            window,
            smooth,
            overlap: 1 << random.below(5),
        }
    }
}

/// What the calls of one text give, in the order of the names.
macro_rules! answers {
    ($given:expr, $oiko:ident $(:: $oiko_rest:ident)*, $dsp:ident $(:: $dsp_rest:ident)*) => {{
        use $oiko$(::$oiko_rest)* as oiko;
        use $dsp$(::$dsp_rest)* as dsp;
        use dsp::MotionShape::*;
        let given: &Given = $given;
        let shapes = [Ripple, Harmonic, Drift, Scan, Notch, Saw, Sprinkle, Cloud];
        let motion = dsp::MotionConfig {
            shape: shapes[given.motion.shape as usize],
            depth_db: given.motion.depth_db,
            phase: given.motion.phase,
            size_octaves: given.motion.size_octaves,
        };
        let mut levels = given.levels;
        dsp::advance_note_envelopes(&mut levels, &given.held, given.elapsed, given.fade);
        let mut softened = given.current.clone();
        dsp::processing::soften_spectral_edges(&given.current, &mut softened);
        let mut smoothed = given.current.clone();
        dsp::processing::smooth_mask_in_db(&mut smoothed, &given.target, given.elapsed);
        let prepared = dsp::processing::PreparedSpectrum::new(
            48_000.0,
            given.window.clone(),
            given.smooth.clone(),
            given.overlap,
        );
        let gains = vec![prepared.window_coherent_gain, prepared.smooth_window_coherent_gain];
        [
            vec![oiko::db_to_gain(given.db)],
            vec![oiko::note_frequency(given.note)],
            vec![oiko::note_frequency_with_tuning(given.note, given.tuning)],
            vec![dsp::note_emphasis_gain(given.width)],
            vec![dsp::note_gate_gain(given.depth, given.width, given.openness)],
            vec![dsp::manual_gain_at_bin(&given.curve, 1, 8192)],
            vec![dsp::motion_openness(given.frequency, motion)],
            vec![dsp::motion_attenuation_db(given.frequency, motion)],
            vec![dsp::motion_compensation_gain(motion)],
            levels.to_vec(),
            softened,
            smoothed,
            [prepared.synthesis_window, prepared.smooth_synthesis_window, gains].concat(),
        ]
    }};
}

pub fn print(seed: u64, count: u64) {
    let mut random = Random::new(seed);
    let mut agreed = vec![Distance::default(); NAMES.len()];
    let mut text = agreed.clone();
    for _ in 0..count {
        let given = Given::draw(&mut random);
        let rust = answers!(&given, original_oiko, original);
        let port = answers!(&given, oracle::oiko_dsp, oracle::spectral_dsp);
        let same = answers!(
            &given,
            variants::plain::oiko_dsp,
            variants::plain::spectral_dsp
        );
        for call in 0..NAMES.len() {
            for (index, &a) in rust[call].iter().enumerate() {
                agreed[call].count(a, port[call][index], &String::new);
                text[call].count(a, same[call][index], &String::new);
            }
        }
    }
    println!("\n## The other calls on accepted input, {count} calls each");
    println!(
        "{:<28}{:>10}{:>12}{:>12}{:>22}",
        "", "differ", "relative", "absolute", "on std's functions"
    );
    for (name, (distance, text)) in NAMES.iter().zip(agreed.iter().zip(&text)) {
        let (share, relative) = (distance.share(), distance.relative.size);
        let (absolute, other) = (distance.absolute.size, text.differing);
        println!("{name:<28}{share:>9.3}%{relative:>12.2e}{absolute:>12.2e}{other:>15} differ");
    }
}
