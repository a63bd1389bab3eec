//! The mask builders on whole scenes, beside the unaltered Rust, and on chords by hertz beside the
//! same chords by note. Each scene's masks are compared with the oracle's in the same run, so that
//! a fast wrong answer does not pass.

use crate::classes::{CHORDS, CLASSES, Class};
use linked::calls::{self as port, Crossing};
use oracle::builders::{Builder, Lent, Masks, block_of};
use oracle::given;
use oracle::numbers::first_difference;
use oracle::oiko_dsp::note_frequency_with_tuning;
use oracle::random::Random;
use oracle::scenes::{RESTING_DEPTH, Scene};
use oracle::spectral_dsp::{MANUAL_MASK_POINTS, MIDI_NOTES, Pitch};
use std::hint::black_box;
use std::time::Instant;

/// The time that a scene is given, and the rounds that it has at least.
const NANOSECONDS: u128 = 100_000_000;
const ROUNDS: usize = 5;

/// What the unaltered Rust is given, its workspace prepared.
struct Original {
    config: original::MaskConfig,
    voices: Vec<original::MaskVoice>,
    curve: [f32; MANUAL_MASK_POINTS],
    levels: [f32; MIDI_NOTES],
    workspace: original::MaskWorkspace,
}

/// The levels of a scene's notes, for the builder that is given no voices.
fn levels(scene: &Scene) -> [f32; MIDI_NOTES] {
    let mut levels = [0.0; MIDI_NOTES];
    for voice in &scene.voices {
        if let Pitch::Note(note, _) = voice.pitch {
            levels[usize::from(note)] = voice.level;
        }
    }
    levels
}

fn lent(scene: &Scene) -> Lent {
    let table = scene.table();
    Lent {
        config: scene.config,
        curve: scene.curve.clone(),
        levels: levels(scene).to_vec(),
        voices: scene.voices.clone(),
        block: block_of(scene.config.fft_size, &table),
        table,
    }
}

impl Original {
    fn new(scene: &Scene) -> Self {
        let (config, voices, &curve) = given!(scene, original);
        let mut workspace = original::MaskWorkspace::default();
        workspace.prepare(config.sample_rate, config.fft_size);
        Self {
            config,
            voices,
            curve,
            levels: levels(scene),
            workspace,
        }
    }

    fn build(&self, builder: Builder, [left, right]: &mut Masks) {
        let (config, curve, voices) = (self.config, &self.curve, &self.voices);
        let workspace = &self.workspace;
        match builder {
            Builder::Mask => original::build_mask(left, curve, &self.levels, config),
            Builder::WithVoices => original::build_mask_with_voices(left, curve, voices, config),
            Builder::WithVoicesPrecomputed => {
                original::build_mask_with_voices_precomputed(left, curve, voices, config, workspace)
            }
            Builder::StereoPrecomputed | Builder::StereoPrepared => {
                original::build_stereo_masks_with_voices_precomputed(
                    left, right, curve, voices, config, workspace,
                )
            }
        }
    }
}

fn nanoseconds(work: impl FnOnce()) -> f64 {
    let start = Instant::now();
    work();
    start.elapsed().as_nanos() as f64
}

/// A scene's times of the port and of what it is set beside, the least of many rounds. The two take
/// turns, so that a slow moment of the machine meets both.
struct Times {
    port: f64,
    other: f64,
}

impl Times {
    fn best(mut port: impl FnMut(), mut other: impl FnMut()) -> Self {
        let begin = Instant::now();
        let mut least = Self {
            port: f64::INFINITY,
            other: f64::INFINITY,
        };
        let mut rounds = 0;
        while rounds < ROUNDS || begin.elapsed().as_nanos() < NANOSECONDS {
            least.other = least.other.min(nanoseconds(&mut other));
            least.port = least.port.min(nanoseconds(&mut port));
            rounds += 1;
        }
        least
    }

    fn ratio(&self) -> f64 {
        self.other / self.port
    }
}

/// Masks to write, of a scene's size.
fn masks(scene: &Scene) -> Masks {
    [0; 2].map(|_| vec![0.0; scene.config.fft_size / 2 + 1])
}

/// What is wrong with the port's answer or its masks.
fn check(builder: Builder, scene: &Scene, number: u32, ours: &Masks) -> Result<(), String> {
    let mut right = masks(scene);
    let outcome = builder.build(&lent(scene), &mut right);
    assert_eq!(outcome, Ok(()), "every scene is accepted");
    let bin = first_difference(&ours.concat(), &right.concat());
    match (number, bin) {
        (0, None) => Ok(()),
        _ => Err(format!(
            "answer {number}, first wrong bin {bin:?}, {}",
            describe(scene)
        )),
    }
}

/// The times of a scene beside the unaltered Rust, or what is wrong with the port's masks.
fn times(builder: Builder, scene: &Scene) -> Result<Times, String> {
    let lent = lent(scene);
    let (crossing, original) = (Crossing::from(&lent), Original::new(scene));
    let [mut ours, mut theirs] = [masks(scene), masks(scene)];
    let mut number = 0;
    let times = Times::best(
        || number = port::build(builder, &lent, black_box(&crossing), black_box(&mut ours)).number,
        || black_box(&original).build(builder, black_box(&mut theirs)),
    );
    check(builder, scene, number, &ours).map(|()| times)
}

/// The same scene with each note as the frequency that it sounds.
fn by_hertz(scene: &Scene) -> Scene {
    let mut scene = scene.clone();
    for voice in &mut scene.voices {
        if let Pitch::Note(note, semitones) = voice.pitch {
            voice.pitch = Pitch::Hertz(note_frequency_with_tuning(note, semitones));
        }
    }
    scene
}

/// The port's times of a scene by hertz beside the same by note.
fn hertz_times(builder: Builder, scene: &Scene) -> Result<Times, String> {
    let (lent, changed) = (lent(scene), by_hertz(scene));
    let (notes, hertz) = (Crossing::from(&lent), Crossing::from(&self::lent(&changed)));
    let [mut ours, mut theirs] = [masks(scene), masks(scene)];
    let mut numbers = [0; 2];
    let [first, second] = &mut numbers;
    let times = Times::best(
        || *first = port::build(builder, &lent, black_box(&hertz), black_box(&mut ours)).number,
        || *second = port::build(builder, &lent, black_box(&notes), black_box(&mut theirs)).number,
    );
    check(builder, &changed, numbers[0], &ours)?;
    check(builder, scene, numbers[1], &theirs)?;
    Ok(times)
}

fn median(mut numbers: Vec<f64>) -> f64 {
    numbers.sort_by(f64::total_cmp);
    let middle = numbers.len() / 2;
    match numbers.len() % 2 {
        0 => (numbers[middle - 1] + numbers[middle]) / 2.0,
        _ => numbers[middle],
    }
}

/// A scene in a few words.
fn describe(scene: &Scene) -> String {
    let (config, voices) = (&scene.config, scene.voices.len());
    let motion = match config.motion.depth_db > RESTING_DEPTH {
        true => format!("{:?}", config.motion.shape),
        false => "still".to_string(),
    };
    format!(
        "size {}, {voices} voices, {} partials, {:.0} cents, {motion}",
        config.fft_size, config.partials, config.width_cents
    )
}

/// Prints the row of scenes of one kind, of which there is at least one.
fn print_row(name: &str, all: &[(Times, String)]) {
    let of = |part: fn(&Times) -> f64| all.iter().map(|(times, _)| part(times)).collect();
    let port = median(of(|times| times.port)) / 1e3;
    let other = median(of(|times| times.other)) / 1e3;
    let ratios: Vec<f64> = of(Times::ratio);
    let mean = (ratios.iter().map(|ratio| ratio.ln()).sum::<f64>() / ratios.len() as f64).exp();
    let by_ratio = |a: &&(Times, String), b: &&(Times, String)| a.0.ratio().total_cmp(&b.0.ratio());
    let (worst, scene) = all.iter().min_by(by_ratio).expect("there is a scene");
    let (number, least, middle) = (all.len(), worst.ratio(), median(ratios));
    println!(
        "| {name} | {number} | {port:.1} | {other:.1} | {mean:.2} | {middle:.2} | {least:.2} | \
         {scene} |"
    );
}

/// How the scenes of a row are timed.
type Timed = fn(Builder, &Scene) -> Result<Times, String>;

/// Times a class's scenes, and answers the number of those whose masks are wrong.
fn row(name: &str, (builder, timed): (Builder, Timed), class: &Class, seed: u64) -> usize {
    let mut random = Random::new(seed);
    let (mut all, mut wrong) = (Vec::new(), 0);
    for number in 0..class.scenes {
        let scene = class.scene(&mut random, number);
        match timed(builder, &scene) {
            Ok(times) => all.push((times, describe(&scene))),
            Err(text) => {
                println!("wrong, {name}, scene {number}: {text}");
                wrong += 1;
            }
        }
    }
    if !all.is_empty() {
        print_row(name, &all);
    }
    wrong
}

const HEAD: &str = "\
Whole masks, medians of the microseconds; the ratios are the time of the Rust divided by the port's

| scenes | number | port | Rust | geometric mean | median | least | where |
|---|---|---|---|---|---|---|---|";

const HERTZ_HEAD: &str = "\
The port on chords by hertz; the ratios are its time on the same chords by note divided by that

| scenes | number | by hertz | by note | geometric mean | median | least | where |
|---|---|---|---|---|---|---|---|";

/// Prints the tables, and answers the number of scenes whose masks are wrong.
pub fn table(seed: u64) -> usize {
    println!("{HEAD}");
    let stereo = Builder::StereoPrecomputed;
    let mut wrong = 0;
    for class in &CLASSES {
        wrong += row(class.name, (stereo, times), class, seed);
    }
    for builder in Builder::ALL {
        if !builder.is_stereo() {
            let name = format!("`{}`, the chords, still", builder.name());
            wrong += row(&name, (builder, times), &CHORDS, seed);
        }
    }
    println!("\n{HERTZ_HEAD}");
    wrong + row(CHORDS.name, (stereo, hertz_times), &CHORDS, seed)
}
