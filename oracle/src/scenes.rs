//! Random scenes: arguments of the mask builders that every test accepts.

use crate::curves::damage;
use crate::random::Random;
use crate::refusals::{HERTZ, MAX_VOICES, within};
use crate::spectral_dsp::{
    MANUAL_MASK_POINTS, MaskConfig, MaskVoice, MaskWorkspace, MotionConfig, MotionShape, Pitch,
};

pub const SHAPES: [MotionShape; 8] = [
    MotionShape::Ripple,
    MotionShape::Harmonic,
    MotionShape::Drift,
    MotionShape::Scan,
    MotionShape::Notch,
    MotionShape::Saw,
    MotionShape::Sprinkle,
    MotionShape::Cloud,
];

/// A voice sounds above this level.
pub const SILENT_LEVEL: f32 = 1.0e-5;
/// There is motion above this depth.
pub const RESTING_DEPTH: f32 = 0.001;

#[derive(Clone, Debug)]
pub struct Scene {
    pub config: MaskConfig,
    pub voices: Vec<MaskVoice>,
    pub curve: Vec<f32>,
}

impl Scene {
    /// From all over the limits, their ends among them.
    pub fn anywhere(random: &mut Random) -> Self {
        Self::with_voices(random, voice)
    }

    /// The same with notes alone, which are all that the unaltered Rust can be given.
    pub fn anywhere_by_note(random: &mut Random) -> Self {
        Self::with_voices(random, voice_by_note)
    }

    fn with_voices(random: &mut Random, voice: fn(&mut Random) -> MaskVoice) -> Self {
        let count = match random.below(16) {
            0 => random.below(MAX_VOICES + 1),
            1 => MAX_VOICES,
            _ => random.pick(&[0, 1, 1, 2, 3, 6]),
        };
        Self {
            config: config(random),
            voices: (0..count).map(|_| voice(random)).collect(),
            curve: curve(random),
        }
    }

    /// From all over the limits at one of the least sizes, in half of the cases on a damaged curve;
    /// and a table of any kind.
    pub fn small(random: &mut Random, sizes: usize) -> (Self, Vec<f32>) {
        let mut scene = Self::anywhere(random);
        scene.config.fft_size = 64 << random.below(sizes);
        if random.once_in(2) {
            damage(random, &mut scene.curve);
        }
        let table = match random.once_in(2) {
            true => scene.table(),
            false => unprepared(random, scene.config.fft_size / 2 + 1),
        };
        (scene, table)
    }

    /// As in a studio: common rates and sizes, a chord of notes in tune, a flat curve.
    pub fn studio(random: &mut Random) -> Self {
        let config = MaskConfig {
            sample_rate: random.pick(&[44_100.0, 48_000.0, 96_000.0]),
            fft_size: 512 << random.below(6),
            note_depth_db: random.pick(&[12.0, 24.0, 48.0, 96.0]),
            width_cents: random.pick(&[20.0, 50.0, 100.0, 300.0, 1200.0]),
            partials: 1 + random.below(24),
            harmonic_rolloff_db_per_octave: random.pick(&[0.0, 3.0, 6.0, 12.0]),
            ..MaskConfig::default()
        };
        let voice = |random: &mut Random| MaskVoice {
            pitch: Pitch::Note(36 + random.below(49) as u8, 0.0),
            level: random.between(0.2, 1.0),
            pan: random.between(-1.0, 1.0),
            ..MaskVoice::default()
        };
        let count = 1 + random.below(6);
        Self {
            config,
            voices: (0..count).map(|_| voice(random)).collect(),
            curve: vec![0.0; MANUAL_MASK_POINTS],
        }
    }

    /// The frequency table prepared at the scene's rate and size.
    pub fn table(&self) -> Vec<f32> {
        let mut workspace = MaskWorkspace::default();
        workspace.prepare(self.config.sample_rate, self.config.fft_size);
        workspace.bin_log2_hz
    }
}

/// Settings in the types of another module that has them under the Rust's names.
#[macro_export]
macro_rules! config_in {
    ($config:expr, $($dsp:ident)::+) => {{
        use $($dsp)::+ as dsp;
        let config: $crate::spectral_dsp::MaskConfig = $config;
        let shapes = [
            dsp::MotionShape::Ripple,
            dsp::MotionShape::Harmonic,
            dsp::MotionShape::Drift,
            dsp::MotionShape::Scan,
            dsp::MotionShape::Notch,
            dsp::MotionShape::Saw,
            dsp::MotionShape::Sprinkle,
            dsp::MotionShape::Cloud,
        ];
        dsp::MaskConfig {
            sample_rate: config.sample_rate,
            fft_size: config.fft_size,
            note_depth_db: config.note_depth_db,
            note_layer_enabled: config.note_layer_enabled,
            width_cents: config.width_cents,
            partials: config.partials,
            harmonic_rolloff_db_per_octave: config.harmonic_rolloff_db_per_octave,
            motion: dsp::MotionConfig {
                shape: shapes[config.motion.shape as usize],
                depth_db: config.motion.depth_db,
                phase: config.motion.phase,
                size_octaves: config.motion.size_octaves,
            },
        }
    }};
}

/// Voices in the types of such a module; notes alone where that is the unaltered Rust.
#[macro_export]
macro_rules! voices_in {
    ($voices:expr, original) => {{
        use $crate::spectral_dsp::Pitch;
        let voices: &[$crate::spectral_dsp::MaskVoice] = $voices;
        let voice = |voice: &$crate::spectral_dsp::MaskVoice| {
            let Pitch::Note(note, tuning_semitones) = voice.pitch else {
                panic!("the unaltered Rust has no pitch by hertz");
            };
            original::MaskVoice {
                note,
                level: voice.level,
                tuning_semitones,
                pressure: voice.pressure,
                timbre: voice.timbre,
                volume_gain: voice.volume_gain,
                expression_gain: voice.expression_gain,
                pan: voice.pan,
            }
        };
        voices.iter().map(voice).collect::<Vec<original::MaskVoice>>()
    }};
    ($voices:expr, $($dsp:ident)::+) => {{
        use $crate::spectral_dsp::Pitch;
        use $($dsp)::+ as dsp;
        let voices: &[$crate::spectral_dsp::MaskVoice] = $voices;
        let voice = |voice: &$crate::spectral_dsp::MaskVoice| dsp::MaskVoice {
            pitch: match voice.pitch {
                Pitch::Note(note, semitones) => dsp::Pitch::Note(note, semitones),
                Pitch::Hertz(hertz) => dsp::Pitch::Hertz(hertz),
            },
            level: voice.level,
            pressure: voice.pressure,
            timbre: voice.timbre,
            volume_gain: voice.volume_gain,
            expression_gain: voice.expression_gain,
            pan: voice.pan,
        };
        voices.iter().map(voice).collect::<Vec<dsp::MaskVoice>>()
    }};
}

/// A scene's settings, voices and curve in the types of one of the modules that hold the ported
/// text.
#[macro_export]
macro_rules! given {
    ($scene:expr, $($dsp:ident)::+) => {{
        use $($dsp)::+ as dsp;
        let scene: &$crate::scenes::Scene = $scene;
        let config = $crate::config_in!(scene.config, $($dsp)::+);
        let voices = $crate::voices_in!(&scene.voices, $($dsp)::+);
        let curve: &[f32; dsp::MANUAL_MASK_POINTS] =
            scene.curve.as_slice().try_into().expect("a whole curve");
        (config, voices, curve)
    }};
}

/// One of the given numbers, or one between the limits.
fn mostly(random: &mut Random, usual: &[f32], limits: (f32, f32)) -> f32 {
    if random.once_in(2) {
        random.pick(usual)
    } else {
        random.between(limits.0, limits.1)
    }
}

pub fn motion(random: &mut Random) -> MotionConfig {
    MotionConfig {
        shape: random.pick(&SHAPES),
        depth_db: mostly(random, &[0.0, RESTING_DEPTH, 96.0], (0.0, 96.0)),
        phase: mostly(random, &[0.0, 1.0, -1.0e-9, 1.0e9], (-3.0, 3.0)),
        size_octaves: mostly(random, &[0.0, 0.05, 1.0, 100.0], (0.05, 4.0)),
    }
}

pub fn config(random: &mut Random) -> MaskConfig {
    let resting = MotionConfig::default();
    let rates = [8_000.0, 44_100.0, 48_000.0, 96_000.0, 192_000.0];
    MaskConfig {
        sample_rate: mostly(random, &rates, (8_000.0, 192_000.0)),
        fft_size: 64 << random.below(9),
        note_depth_db: mostly(random, &[0.0, 24.0, 144.0], (0.0, 144.0)),
        note_layer_enabled: !random.once_in(10),
        width_cents: mostly(random, &[1.0, 20.0, 100.0, 1200.0], (1.0, 1200.0)),
        partials: 1 + random.below(24),
        harmonic_rolloff_db_per_octave: mostly(random, &[0.0, 6.0, 12.0], (0.0, 48.0)),
        motion: if random.once_in(2) {
            resting
        } else {
            motion(random)
        },
    }
}

/// An end of the limits, a frequency of which a partial meets half of a common rate, or one from
/// all over the octaves, so that lobes lie in the mask at every size. Positive floats are in the
/// order of their bits, and each octave has as many of them.
pub fn hertz(random: &mut Random) -> f32 {
    let (low, high) = (HERTZ.0.to_bits(), HERTZ.1.to_bits());
    match random.below(8) {
        0 => random.pick(&[HERTZ.0, HERTZ.1]),
        1 => random.pick(&[4_000.0, 8_000.0, 11_025.0, 12_000.0]),
        _ => f32::from_bits(low + random.below((high - low) as usize + 1) as u32),
    }
}

/// A third of the voices is by hertz.
pub fn voice(random: &mut Random) -> MaskVoice {
    let mut voice = voice_by_note(random);
    if random.once_in(3) {
        voice.pitch = Pitch::Hertz(hertz(random));
    }
    voice
}

pub fn voice_by_note(random: &mut Random) -> MaskVoice {
    let note = random.below(128) as u8;
    let level = mostly(random, &[1.0, 1.0, SILENT_LEVEL, 0.0], (0.0, 1.0));
    let semitones = mostly(random, &[0.0, 0.0, 0.0, 48.0, -48.0], (-48.0, 48.0));
    MaskVoice {
        pitch: Pitch::Note(note, semitones),
        level,
        pressure: mostly(random, &[1.0], (-0.5, 1.5)),
        timbre: mostly(random, &[0.5], (-0.5, 1.5)),
        volume_gain: mostly(random, &[1.0, 1.0, -0.0], (-0.5, 4.0)),
        expression_gain: mostly(random, &[1.0], (-0.5, 5.0)),
        pan: mostly(random, &[0.0, 0.0, -0.0, 1.0, -1.0], (-1.2, 1.2)),
    }
}

pub fn curve(random: &mut Random) -> Vec<f32> {
    let point = |random: &mut Random| match random.below(64) {
        0 => random.float(),
        1 => -144.0,
        2 => (-144.0_f32).next_up(),
        _ => random.between(-150.0, 10.0),
    };
    if random.once_in(2) {
        return vec![0.0; MANUAL_MASK_POINTS];
    }
    (0..MANUAL_MASK_POINTS).map(|_| point(random)).collect()
}

/// A table that is accepted and not prepared: entries from -2 to 17, and anything at entry 0.
pub fn unprepared(random: &mut Random, length: usize) -> Vec<f32> {
    let (low, high) = random.pick(&[(-2.0, 17.0), (5.0, 9.0), (8.0, 8.5)]);
    let mut table: Vec<f32> = (0..length).map(|_| random.between(low, high)).collect();
    table[0] = random.float();
    debug_assert!(
        table[1..]
            .iter()
            .all(|&x| within(x, crate::refusals::TABLE))
    );
    table
}
