//! The scenes that the mask builders are timed on, drawn class by class.

use oracle::random::Random;
use oracle::scenes::{SHAPES, Scene};
use oracle::spectral_dsp::{MANUAL_MASK_POINTS, MaskConfig, MaskVoice, MotionConfig, Pitch};
use std::ops::RangeInclusive;

#[derive(Clone, Copy)]
pub enum Motion {
    Still,
    /// Each shape in its turn.
    Moving,
    /// Still, and each shape in its turn.
    Any,
}

#[derive(Clone, Copy)]
pub enum Pan {
    Centred,
    Spread,
    /// Centred in one scene of four.
    Any,
}

pub struct Class {
    pub name: &'static str,
    pub scenes: usize,
    /// The size is 2 to one of these.
    size_log2: RangeInclusive<usize>,
    voices: RangeInclusive<usize>,
    partials: RangeInclusive<usize>,
    width_cents: (f32, f32),
    motion: Motion,
    pan: Pan,
}

/// All that a scene may be; the classes take their parts of it.
const ANY: Class = Class {
    name: "random",
    scenes: 240,
    size_log2: 9..=14,
    voices: 1..=128,
    partials: 1..=24,
    width_cents: (20.0, 1200.0),
    motion: Motion::Any,
    pan: Pan::Any,
};

/// Chords of 6 voices with 12 partials.
pub const CHORDS: Class = Class {
    name: "chords, 2,048 to 16,384, still, panned",
    scenes: 24,
    size_log2: 11..=14,
    voices: 6..=6,
    partials: 12..=12,
    width_cents: (100.0, 100.0),
    motion: Motion::Still,
    pan: Pan::Spread,
};

pub const CLASSES: [Class; 9] = [
    Class {
        name: "sizes 512 and 1,024, panned",
        scenes: 24,
        size_log2: 9..=10,
        voices: 1..=8,
        pan: Pan::Spread,
        ..ANY
    },
    CHORDS,
    Class {
        name: "chords, 2,048 to 16,384, with motion, panned",
        motion: Motion::Moving,
        ..CHORDS
    },
    Class {
        name: "centred",
        scenes: 24,
        pan: Pan::Centred,
        ..ANY
    },
    Class {
        name: "one voice, one partial",
        scenes: 24,
        voices: 1..=1,
        partials: 1..=1,
        ..ANY
    },
    Class {
        name: "300 cents and more, up to 6 voices, panned",
        scenes: 24,
        voices: 1..=6,
        width_cents: (300.0, 1200.0),
        pan: Pan::Spread,
        ..ANY
    },
    Class {
        name: "32 voices and more, up to 100 cents, panned",
        scenes: 24,
        voices: 32..=128,
        width_cents: (20.0, 100.0),
        pan: Pan::Spread,
        ..ANY
    },
    Class {
        name: "32 voices and more, 300 cents and more, panned",
        scenes: 24,
        voices: 32..=128,
        width_cents: (300.0, 1200.0),
        pan: Pan::Spread,
        ..ANY
    },
    ANY,
];

fn within(random: &mut Random, range: &RangeInclusive<usize>) -> usize {
    range.start() + random.below(range.end() - range.start() + 1)
}

/// Each doubling equally often.
fn doubling(random: &mut Random, range: &RangeInclusive<usize>) -> usize {
    let (low, high) = (*range.start() as f32, *range.end() as f32);
    let count = random.between(low.log2(), (high + 1.0).log2()).exp2() as usize;
    count.clamp(*range.start(), *range.end())
}

impl Motion {
    /// The motion of a class's scene of this number.
    fn of(self, random: &mut Random, number: usize) -> MotionConfig {
        let shape = match self {
            Self::Still => None,
            Self::Moving => Some(number % SHAPES.len()),
            Self::Any => (number % (SHAPES.len() + 1)).checked_sub(1),
        };
        let resting = MotionConfig::default();
        shape.map_or(resting, |shape| MotionConfig {
            shape: SHAPES[shape],
            depth_db: random.between(3.0, 48.0),
            phase: random.between(0.0, 1.0),
            size_octaves: random.between(0.2, 4.0),
        })
    }
}

/// A curve that is flat, or drawn by hand with some points muted.
fn curve(random: &mut Random) -> Vec<f32> {
    let flat = random.once_in(2);
    let point = |random: &mut Random| match random.below(16) {
        0 => -144.0,
        _ => random.between(-48.0, 0.0),
    };
    (0..MANUAL_MASK_POINTS)
        .map(|_| if flat { 0.0 } else { point(random) })
        .collect()
}

fn voice(random: &mut Random, centred: bool) -> MaskVoice {
    let pan = random.between(-1.0, 1.0);
    let note = 28 + random.below(69) as u8;
    let level = random.between(0.2, 1.0);
    MaskVoice {
        pitch: Pitch::Note(note, random.between(-0.5, 0.5)),
        level,
        pressure: random.between(0.0, 1.0),
        timbre: random.between(0.0, 1.0),
        volume_gain: random.between(0.5, 1.5),
        expression_gain: random.between(0.5, 2.0),
        pan: if centred { 0.0 } else { pan },
    }
}

impl Class {
    fn config(&self, random: &mut Random, number: usize) -> MaskConfig {
        let (low, high) = self.width_cents;
        let width = random.between(low.log2(), high.log2()).exp2();
        MaskConfig {
            sample_rate: random.pick(&[44_100.0, 48_000.0, 96_000.0]),
            fft_size: 1 << within(random, &self.size_log2),
            note_depth_db: random.pick(&[12.0, 24.0, 48.0, 96.0]),
            note_layer_enabled: true,
            width_cents: width.clamp(low, high),
            partials: within(random, &self.partials),
            harmonic_rolloff_db_per_octave: random.between(0.0, 12.0),
            motion: self.motion.of(random, number),
        }
    }

    /// The class's scene of this number.
    pub fn scene(&self, random: &mut Random, number: usize) -> Scene {
        let centred = match self.pan {
            Pan::Centred => true,
            Pan::Spread => false,
            Pan::Any => random.once_in(4),
        };
        let count = doubling(random, &self.voices);
        Scene {
            config: self.config(random, number),
            voices: (0..count).map(|_| voice(random, centred)).collect(),
            curve: curve(random),
        }
    }
}
