//! The smallest input found for each cause of a difference.

use crate::masks::{Masks, agreed, describe, plain, unaltered};
use crate::measure::{Distance, both, decibels, ulps};
use oracle::random::Random;
use oracle::scenes::Scene;
use oracle::spectral_dsp::{MANUAL_MASK_POINTS, MaskConfig, MaskVoice, MotionConfig, Pitch};

/// Why the compact way of the Rust gives a bin another number than the plain way.
#[derive(Clone, Copy, Debug, PartialEq)]
enum Cause {
    /// The bin closest to a partial lies more than four widths off it, and is passed over.
    ClosestBinDropped,
    /// A bin of the lobe, not its closest, lies more than four widths off, and is passed over.
    SkirtDropped,
    /// The highest lobe is of neither of the two partials that are tried.
    OtherPartial,
    /// A partial that rounds to nyquist is counted by one way alone.
    AtNyquist,
    /// Level times (gain times bell) rounds otherwise than (level times gain) times bell.
    OrderOfProduct,
    /// None of these.
    Unexplained,
}

const CAUSES: [Cause; 5] = [
    Cause::ClosestBinDropped,
    Cause::OtherPartial,
    Cause::SkirtDropped,
    Cause::AtNyquist,
    Cause::OrderOfProduct,
];

/// A scene of one voice, everything else as the Rust's own defaults have it.
fn one_voice(config: MaskConfig, note: u8, level: f32) -> Scene {
    Scene {
        config,
        voices: vec![MaskVoice {
            pitch: Pitch::Note(note, 0.0),
            level,
            ..MaskVoice::default()
        }],
        curve: vec![0.0; MANUAL_MASK_POINTS],
    }
}

/// The note of the scene's one voice.
fn note_of(scene: &Scene) -> u8 {
    match scene.voices[0].pitch {
        Pitch::Note(note, _) => note,
        Pitch::Hertz(_) => panic!("the unaltered Rust has no pitch by hertz"),
    }
}

/// One partial of the scene's one voice, as the plain way of the Rust sees it.
struct Lobe {
    partial: usize,
    center: f32,
    peak_bin: usize,
    gain: f32,
    bins: std::ops::RangeInclusive<usize>,
}

fn cents(bin: usize, bin_hz: f32, center: f32) -> f32 {
    1200.0 * (bin as f32 * bin_hz / center).log2()
}

fn lobes(scene: &Scene) -> Vec<Lobe> {
    let config = &scene.config;
    let (bin_hz, top) = (
        config.sample_rate / config.fft_size as f32,
        config.fft_size / 2,
    );
    let ratio = 2.0_f32.powf(4.0 * config.width_cents / 1200.0);
    let fundamental = original_oiko::note_frequency(note_of(scene));
    let lobe = |partial: usize| {
        let center = fundamental * partial as f32;
        let lower = ((center / bin_hz) as usize).clamp(1, top);
        let upper = (lower + 1).min(top);
        let nearer = cents(upper, bin_hz, center).abs() < cents(lower, bin_hz, center).abs();
        let rolloff = config.harmonic_rolloff_db_per_octave;
        Lobe {
            partial,
            center,
            peak_bin: if nearer { upper } else { lower },
            gain: original_oiko::db_to_gain(-rolloff * (partial as f32).log2()),
            bins: ((center / ratio / bin_hz) as usize).max(1)
                ..=((center * ratio / bin_hz).ceil() as usize).min(top),
        }
    };
    let nyquist = config.sample_rate * 0.5;
    let all = (1..=config.partials).map(lobe);
    all.take_while(|lobe| lobe.center <= nyquist).collect()
}

/// Why the two ways differ at a bin.
fn cause(scene: &Scene, bin: usize, compact: f32, long: f32) -> Cause {
    let config = &scene.config;
    let bin_hz = config.sample_rate / config.fft_size as f32;
    // As the compact way measures them, from two logarithms.
    let octaves = |lobe: &Lobe, bin| (bin as f32 * bin_hz).log2() - lobe.center.log2();
    let widths = |lobe: &Lobe, bin| 1200.0 * octaves(lobe, bin) / config.width_cents;
    let height = |lobe: &Lobe| {
        let relative = widths(lobe, bin).powi(2) - widths(lobe, lobe.peak_bin).powi(2);
        lobe.gain * (-0.5 * relative.clamp(0.0, 16.0)).exp()
    };
    let lobes = lobes(scene);
    let fundamental = lobes[0].center;
    let counted = (config.sample_rate * 0.5 / fundamental).floor() as usize;
    let reached = lobes.iter().filter(|lobe| lobe.bins.contains(&bin));
    let highest = reached.max_by(|a, b| height(a).total_cmp(&height(b)));
    let tried = |partial: usize| {
        let sigma = config.width_cents / 1200.0;
        let rolloff = config.harmonic_rolloff_db_per_octave * std::f32::consts::LN_10 / 20.0;
        let shift = 2.0_f32
            .powf(-rolloff * sigma * sigma)
            .max(2.0_f32.powf(-4.0 * sigma));
        let active = config.partials.min(counted);
        let ratio = bin as f32 * bin_hz / fundamental * shift;
        let lower = ratio.clamp(1.0, active as f32) as usize;
        partial == lower || partial == (lower + 1).min(active)
    };
    match highest {
        _ if ulps(compact, long) <= 4 => Cause::OrderOfProduct,
        _ if compact > long && lobes.len() < config.partials.min(counted) => Cause::AtNyquist,
        Some(lobe) if lobe.partial > counted => Cause::AtNyquist,
        Some(lobe) if widths(lobe, bin).abs() > 4.0 && lobe.peak_bin == bin => {
            Cause::ClosestBinDropped
        }
        Some(lobe) if widths(lobe, bin).abs() > 4.0 => Cause::SkirtDropped,
        Some(lobe) if !tried(lobe.partial) => Cause::OtherPartial,
        _ => Cause::Unexplained,
    }
}

fn show(scene: &Scene, bin: usize, first: (&str, f32), second: (&str, f32)) {
    let (config, voice) = (&scene.config, &scene.voices[0]);
    println!(
        "    size {}, rate {}, width {}, partials {}, rolloff {}, depth {}; note {} at level {}",
        config.fft_size,
        both(config.sample_rate),
        both(config.width_cents),
        config.partials,
        both(config.harmonic_rolloff_db_per_octave),
        both(config.note_depth_db),
        note_of(scene),
        both(voice.level)
    );
    println!(
        "    bin {bin}: {} {}, {} {}, {:.6} dB apart",
        first.0,
        both(first.1),
        second.0,
        both(second.1),
        decibels(first.1, second.1)
    );
}

/// Small scenes, the smallest first, at which the compact way may be taken.
fn small_scenes() -> impl Iterator<Item = Scene> {
    let sizes = [64, 128, 256];
    let sizes_and_partials = sizes
        .into_iter()
        .flat_map(|size| (2..=24).map(move |partials| (size, partials)));
    sizes_and_partials.flat_map(|(fft_size, partials)| {
        let widths = [100.0, 1.0, 10.0, 400.0, 1200.0];
        let settings = widths
            .into_iter()
            .flat_map(|width| [6.0, 0.0].map(move |rolloff| (width, rolloff)));
        settings.flat_map(move |(width_cents, rolloff)| {
            (0..128).flat_map(move |note| {
                let at_nyquist = original_oiko::note_frequency(note) * partials as f32 * 2.0;
                let rates = [48_000.0, at_nyquist.clamp(8_000.0, 192_000.0)];
                rates.into_iter().flat_map(move |sample_rate| {
                    let config = MaskConfig {
                        sample_rate,
                        fft_size,
                        width_cents,
                        partials,
                        harmonic_rolloff_db_per_octave: rolloff,
                        ..MaskConfig::default()
                    };
                    [1.0, 0.3].map(|level| one_voice(config, note, level))
                })
            })
        })
    })
}

fn differing(one: &Masks, other: &Masks) -> Vec<(usize, f32, f32)> {
    let pairs = one[0].iter().copied().zip(other[0].iter().copied());
    let all = pairs.enumerate().map(|(bin, (a, b))| (bin, a, b));
    all.filter(|(_, a, b)| a.to_bits() != b.to_bits()).collect()
}

/// One voice at its pitch, at rest, under a flat curve: what `cause` can speak of.
fn random_voice(random: &mut Random) -> Scene {
    let config = MaskConfig {
        note_layer_enabled: true,
        motion: MotionConfig::default(),
        ..oracle::scenes::config(random)
    };
    let level = random.pick(&[1.0, 0.5, 0.3]);
    one_voice(config, random.below(128) as u8, level)
}

fn tally(seed: u64, count: u64) {
    println!(
        "\n## The compact way's causes, {count} scenes of one voice (std's functions in both)"
    );
    let mut random = Random::new(seed);
    let mut found = vec![Distance::default(); CAUSES.len() + 1];
    for number in 0..count {
        let scene = random_voice(&mut random);
        for (bin, compact, long) in differing(&unaltered(&scene), &plain(&scene)) {
            let cause = cause(&scene, bin, compact, long);
            let place = CAUSES.iter().position(|one| *one == cause);
            let at = || describe(number, 0, bin, &scene);
            found[place.unwrap_or(CAUSES.len())].count(compact, long, &at);
        }
    }
    for (cause, distance) in CAUSES.iter().chain([&Cause::Unexplained]).zip(found) {
        let (bins, largest) = (distance.differing, distance.decibels);
        let name = format!("{cause:?}");
        println!(
            "{name:<18}{bins:>9} bins, at most {:.6} dB: {}",
            largest.size, largest.at
        );
    }
}

fn smallest_scenes() {
    println!("\n## The smallest scene of each cause");
    let mut found: Vec<Cause> = Vec::new();
    for scene in small_scenes() {
        for (bin, compact, long) in differing(&unaltered(&scene), &plain(&scene)) {
            let cause = cause(&scene, bin, compact, long);
            if found.contains(&cause) {
                continue;
            }
            println!("{cause:?}");
            show(&scene, bin, ("compact", compact), ("plain", long));
            found.push(cause);
        }
        if found.len() == CAUSES.len() {
            return;
        }
    }
    for cause in CAUSES.iter().filter(|cause| !found.contains(cause)) {
        println!("{cause:?}: not found among the small scenes");
    }
}

/// A step of the powers decides on which side of nyquist a partial falls.
fn partial_at_nyquist() {
    println!("\n## A partial that one of the two pitches carries past nyquist");
    for note in 0..128 {
        let pitches = [
            original_oiko::note_frequency(note),
            oracle::oiko_dsp::note_frequency(note),
        ];
        let sample_rate = 2.0 * pitches[0].min(pitches[1]);
        if pitches[0] == pitches[1] || sample_rate < 8_000.0 {
            continue;
        }
        let config = MaskConfig {
            sample_rate,
            fft_size: 64,
            ..MaskConfig::default()
        };
        let scene = one_voice(config, note, 1.0);
        let bins = differing(&plain(&scene), &agreed(&scene));
        if let Some(&(bin, a, b)) = bins.iter().max_by(|a, b| {
            let apart = |(_, a, b): &(usize, f32, f32)| decibels(*a, *b);
            apart(a).total_cmp(&apart(b))
        }) {
            show(&scene, bin, ("std", a), ("agreed", b));
            return;
        }
    }
}

/// Scenes of one note whose lobe ends at a bin, or within some steps of its rate from there.
fn at_an_end(note: u8, fft_size: usize) -> impl Iterator<Item = Scene> {
    let fundamental = original_oiko::note_frequency(note);
    let ends = [-4.0_f32, 4.0].map(|end| fundamental * 2.0_f32.powf(end * 100.0 / 1200.0));
    let places = ends.into_iter().flat_map(move |edge| {
        (2..fft_size / 4).map(move |bin| edge * fft_size as f32 / bin as f32)
    });
    let steps = |rate: f32| (-8..=8).map(move |k| rate.to_bits().wrapping_add_signed(k));
    let rates = places.flat_map(steps).map(f32::from_bits);
    let accepted = rates.filter(|rate| (8_000.0..=192_000.0).contains(rate));
    accepted.map(move |sample_rate| {
        let config = MaskConfig {
            sample_rate,
            fft_size,
            note_depth_db: 144.0,
            ..MaskConfig::default()
        };
        one_voice(config, note, 1.0)
    })
}

/// A step of the powers decides whether a bin is the first or the last of a lobe.
fn edge_of_a_lobe() {
    println!("\n## A bin that only one of the two ranges of a lobe holds");
    for fft_size in [64, 128, 256, 512, 1024] {
        for scene in (57..=81).flat_map(|note| at_an_end(note, fft_size)) {
            for (bin, a, b) in differing(&plain(&scene), &agreed(&scene)) {
                if decibels(a, b) > 1.0 {
                    show(&scene, bin, ("std", a), ("agreed", b));
                    return;
                }
            }
        }
    }
    println!("    none found");
}

fn signs_of_zero() {
    println!("\n## The sign of a zero");
    let window = vec![-0.0; 64];
    let rust =
        original::processing::PreparedSpectrum::new(48_000.0, window.clone(), window.clone(), 1);
    let mut block = vec![0.0; 4 * 64 + 33];
    let answer = oracle::calls::prepared_spectrum_new(48_000.0, &window, &window, 1, &mut block);
    let [gain, _] = answer.expect("the window is accepted");
    let unaltered = both(rust.window_coherent_gain);
    println!(
        "sums: 64 window values of -0: coherent gain {unaltered}, agreed {}",
        both(gain)
    );

    let resting = MotionConfig {
        depth_db: -0.0,
        ..MotionConfig::default()
    };
    let agreed = oracle::calls::motion_attenuation_db(0.0, resting).expect("it is accepted");
    let resting = original::MotionConfig {
        depth_db: std::hint::black_box(-0.0),
        ..original::MotionConfig::default()
    };
    let rust = both(original::motion_attenuation_db(0.0, resting));
    println!(
        "maximum: motion depth -0: attenuation {rust}, agreed {}",
        both(agreed)
    );
}

/// The smallest input with a damaged point.
fn damaged_point() {
    println!("\n## A NaN of the drawn curve");
    let mut curve = [0.0; MANUAL_MASK_POINTS];
    curve[0] = f32::NAN;
    let rust = original::manual_gain_at_bin(&curve, 0, 64);
    let agreed = oracle::calls::manual_gain_at_bin(&curve, 0, 64).expect("it is accepted");
    println!(
        "manual_gain_at_bin, point 0 of the curve NaN, bin 0 of size 64: {}, agreed {}",
        both(rust),
        both(agreed)
    );
}

pub fn print(seed: u64, count: u64) {
    tally(seed, count);
    smallest_scenes();
    partial_at_nyquist();
    edge_of_a_lobe();
    damaged_point();
    signs_of_zero();
}
