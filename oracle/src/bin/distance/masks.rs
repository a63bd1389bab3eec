//! Whole stereo masks over random scenes, and what makes them differ.

use crate::measure::Distance;
use crate::variants;
use oracle::curves::point_of;
use oracle::given;
use oracle::random::Random;
use oracle::scenes::Scene;

pub type Masks = [Vec<f32>; 2];

/// The stereo call, on a table that the module prepares at a rate.
macro_rules! stereo_at {
    ($scene:expr, $rate:expr, $($dsp:ident)::+) => {{
        use $($dsp)::+ as dsp;
        let (config, voices, curve) = given!($scene, $($dsp)::+);
        let mut workspace = dsp::MaskWorkspace::default();
        workspace.prepare($rate, config.fft_size);
        let mut left = vec![0.0; config.fft_size / 2 + 1];
        let mut right = left.clone();
        dsp::build_stereo_masks_with_voices_precomputed(
            &mut left, &mut right, curve, &voices, config, &workspace,
        );
        [left, right]
    }};
}

macro_rules! stereo {
    ($scene:expr, $($dsp:ident)::+) => {
        stereo_at!($scene, $scene.config.sample_rate, $($dsp)::+)
    };
}

/// The call without a table.
macro_rules! mono {
    ($scene:expr, $($dsp:ident)::+) => {{
        use $($dsp)::+ as dsp;
        let (config, voices, curve) = given!($scene, $($dsp)::+);
        let mut output = vec![0.0; config.fft_size / 2 + 1];
        dsp::build_mask_with_voices(&mut output, curve, &voices, config);
        output
    }};
}

pub fn unaltered(scene: &Scene) -> Masks {
    stereo!(scene, original)
}

pub fn agreed(scene: &Scene) -> Masks {
    stereo!(scene, oracle::spectral_dsp)
}

/// The unaltered Rust, but the plain way always, and a NaN of the curve muted.
pub fn plain(scene: &Scene) -> Masks {
    stereo!(scene, variants::plain::spectral_dsp)
}

fn powers(scene: &Scene) -> Masks {
    stereo!(scene, variants::powers::spectral_dsp)
}

fn logarithms(scene: &Scene) -> Masks {
    stereo!(scene, variants::logarithms::spectral_dsp)
}

fn sines(scene: &Scene) -> Masks {
    stereo!(scene, variants::sines::spectral_dsp)
}

fn extremes(scene: &Scene) -> Masks {
    stereo!(scene, variants::extremes::spectral_dsp)
}

type Run = fn(&Scene) -> Masks;

/// Two builds whose masks are compared, and what makes them differ.
const PAIRS: [(&str, Run, Run); 7] = [
    ("the whole distance: unaltered, agreed", unaltered, agreed),
    ("compact way: unaltered, plain on std", unaltered, plain),
    ("all functions: plain on std, agreed", plain, agreed),
    ("powers alone", plain, powers),
    ("logarithms alone", plain, logarithms),
    ("sine and cosine alone", plain, sines),
    ("max, min, clamp, sums and the rest", plain, extremes),
];

pub fn describe(number: u64, side: usize, bin: usize, scene: &Scene) -> String {
    let config = &scene.config;
    format!(
        "scene {number}, {} bin {bin} of size {} at {} Hz, width {}, partials {}, voices {}",
        ["left", "right"][side],
        config.fft_size,
        config.sample_rate,
        config.width_cents,
        config.partials,
        scene.voices.len()
    )
}

fn print_pair(name: &str, distance: &Distance) {
    let (pairs, share) = (distance.pairs, distance.share());
    println!("{name}");
    println!(
        "    bins {pairs}, differing {} ({share:.4} %)",
        distance.differing
    );
    if distance.differing == 0 {
        return;
    }
    let [fine, audible, gross] = distance.beyond;
    println!("    over 0.001 dB {fine}, over 0.1 dB {audible}, over 10 dB {gross}");
    let (absolute, decibels) = (&distance.absolute, &distance.decibels);
    println!("    largest in gain {:.6}: {}", absolute.size, absolute.at);
    println!(
        "    largest in decibels {:.4}: {}",
        decibels.size, decibels.at
    );
}

/// A bin's part of a distance: the NaNs of a curve, which are muted here and are 0 dB in the Rust,
/// are kept apart from all other causes.
#[derive(Clone, Default)]
struct Apart {
    numbers: Distance,
    nans: Distance,
}

impl Apart {
    /// Counts the bins of one mask or of both, one behind the other.
    fn count(&mut self, number: u64, scene: &Scene, one: &[f32], other: &[f32]) {
        let (size, bins) = (scene.config.fft_size, scene.config.fft_size / 2 + 1);
        for (entry, (&a, &b)) in one.iter().zip(other).enumerate() {
            let (side, bin) = (entry / bins, entry % bins);
            let part = match scene.curve[point_of(bin, size)].is_nan() {
                true => &mut self.nans,
                false => &mut self.numbers,
            };
            part.count(a, b, &|| describe(number, side, bin, scene));
        }
    }
}

fn compare(name: &str, draw: fn(&mut Random) -> Scene, seed: u64, count: u64) {
    println!("\n## Whole stereo masks, {count} scenes, {name}");
    let mut distances = vec![Apart::default(); PAIRS.len()];
    let mut random = Random::new(seed);
    for number in 0..count {
        let scene = draw(&mut random);
        for (distance, (_, first, second)) in distances.iter_mut().zip(PAIRS) {
            let (one, other) = (first(&scene).concat(), second(&scene).concat());
            distance.count(number, &scene, &one, &other);
        }
    }
    print_pair("a NaN of the curve: unaltered, agreed", &distances[0].nans);
    println!("bins whose curve point is a number:");
    for (distance, (name, ..)) in distances.iter().zip(PAIRS) {
        print_pair(name, &distance.numbers);
    }
}

/// Where every pan is 0 of either sign, the Rust copies the right from the left: the plain way,
/// which builds both, writes the same.
fn copied(seed: u64, count: u64) {
    let mut random = Random::new(seed);
    let mut distance = Distance::default();
    for number in 0..count {
        let mut scene = Scene::anywhere_by_note(&mut random);
        for voice in &mut scene.voices {
            voice.pan = random.pick(&[0.0, -0.0]);
        }
        let [left, right] = plain(&scene);
        for (bin, (&a, &b)) in left.iter().zip(&right).enumerate() {
            distance.count(a, b, &|| describe(number, 1, bin, &scene));
        }
    }
    println!("\n## Left and right built apart, {count} scenes with every pan 0 or -0");
    print_pair("the copied right channel", &distance);
}

/// With two partials at most the compact way is never cheaper, and without a table never taken:
/// there the ported text on std's functions writes what the unaltered Rust writes, but where the
/// curve has a NaN.
fn same_text(seed: u64, count: u64) {
    let mut random = Random::new(seed);
    let mut distances = vec![Apart::default(); 3];
    for number in 0..count {
        let mut scene = Scene::anywhere_by_note(&mut random);
        scene.voices.truncate(8);
        let others_rate = random.pick(&[8_000.0, 44_100.0, 192_000.0]);
        let without = [
            mono!(&scene, original),
            mono!(&scene, variants::plain::spectral_dsp),
        ];
        scene.config.partials = scene.config.partials.min(2);
        let [own, other] = [unaltered(&scene), plain(&scene)];
        let pairs = [
            without,
            [own.concat(), other.concat()],
            [
                stereo_at!(&scene, others_rate, original).concat(),
                stereo_at!(&scene, others_rate, variants::plain::spectral_dsp).concat(),
            ],
        ];
        for (distance, [one, other]) in distances.iter_mut().zip(&pairs) {
            distance.count(number, &scene, one, other);
        }
    }
    println!("\n## The ported text on std's functions, {count} scenes without the compact way");
    println!("bins whose curve point is a number:");
    let names = [
        "no table",
        "two partials at most",
        "a table of another rate",
    ];
    for (name, distance) in names.iter().zip(&distances) {
        print_pair(name, &distance.numbers);
    }
}

pub fn print(seed: u64, count: u64) {
    compare("as a studio plays", Scene::studio, seed, count);
    compare("all over the limits", Scene::anywhere_by_note, seed, count);
    copied(seed, count);
    same_text(seed, count);
}
