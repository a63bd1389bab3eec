//! Document 01's table of refusals, with the numbers that change requests add to it, and its
//! limits, ends included. NaN lies outside every limit.

use crate::mixer::STRIPS;
use crate::spectral_dsp::{MaskConfig, MaskVoice, MotionConfig, Pitch};

/// A refusal's number, and the index it names where its row names one, else 0.
#[derive(Clone, Copy, Debug, Eq, PartialEq)]
pub struct Refusal {
    pub number: u8,
    pub place: usize,
}

pub type Outcome = Result<(), Refusal>;

pub const MAX_VOICES: usize = 128;
pub const MAX_GAINS: usize = 8193;
pub const MAX_WINDOW: usize = 16_384;
pub const MAX_BIN: usize = 8192;
pub const DECIBELS: (f32, f32) = (-700.0, 700.0);
pub const NOTE_DEPTH: (f32, f32) = (0.0, 144.0);
pub const WIDTH: (f32, f32) = (1.0, 1200.0);
pub const ROLLOFF: (f32, f32) = (0.0, 48.0);
pub const MOTION_DEPTH: (f32, f32) = (0.0, 96.0);
pub const MOTION_SIZE: (f32, f32) = (0.0, 100.0);
pub const ELAPSED: (f32, f32) = (0.0, 10.0);
pub const FADE: (f32, f32) = (0.0, 60_000.0);
pub const FREQUENCY: (f32, f32) = (0.0, 192_000.0);
pub const RATE: (f32, f32) = (8_000.0, 192_000.0);
pub const LEVEL: (f32, f32) = (0.0, 1.0);
pub const TUNING: (f32, f32) = (-48.0, 48.0);
pub const HERTZ: (f32, f32) = (1.0, 20_000.0);
pub const TABLE: (f32, f32) = (-2.0, 17.0);
pub const GAIN: (f32, f32) = (0.0, 64.0);
pub const WINDOW: (f32, f32) = (-16.0, 16.0);
pub const MAX_NOTE: u8 = 127;
pub const PARTIALS: std::ops::RangeInclusive<usize> = 1..=24;
pub const SIZES: std::ops::RangeInclusive<usize> = 64..=16_384;
pub const OVERLAPS: std::ops::RangeInclusive<usize> = 1..=16;

pub fn within(x: f32, (low, high): (f32, f32)) -> bool {
    low <= x && x <= high
}

/// Refuses with this number, at place 0, where the condition does not hold.
fn require(holds: bool, number: u8) -> Outcome {
    match holds {
        true => Ok(()),
        false => Err(Refusal { number, place: 0 }),
    }
}

/// Refuses with this number at the lowest place that is not good.
fn require_each(number: u8, mut good: impl Iterator<Item = bool>) -> Outcome {
    match good.position(|good| !good) {
        None => Ok(()),
        Some(place) => Err(Refusal { number, place }),
    }
}

/// 1
pub fn size(size: usize) -> Outcome {
    require(SIZES.contains(&size) && size.is_power_of_two(), 1)
}

/// 1
pub fn size_and_rate(fft_size: usize, rate: f32) -> Outcome {
    size(fft_size)?;
    require(within(rate, RATE), 1)
}

/// 2
pub fn setting(holds: bool) -> Outcome {
    require(holds, 2)
}

/// 2
pub fn motion(motion: MotionConfig) -> Outcome {
    setting(within(motion.depth_db, MOTION_DEPTH))?;
    setting(motion.phase.is_finite())?;
    setting(within(motion.size_octaves, MOTION_SIZE))
}

/// 1, then 2
pub fn config(config: MaskConfig) -> Outcome {
    size_and_rate(config.fft_size, config.sample_rate)?;
    setting(within(config.note_depth_db, NOTE_DEPTH))?;
    setting(within(config.width_cents, WIDTH))?;
    setting(PARTIALS.contains(&config.partials))?;
    setting(within(config.harmonic_rolloff_db_per_octave, ROLLOFF))?;
    motion(config.motion)
}

/// 3
pub fn count(voices: &[MaskVoice]) -> Outcome {
    require(voices.len() <= MAX_VOICES, 3)
}

/// 3: whether one more voice has room beside this many.
pub fn room(voices: usize) -> Outcome {
    require(voices < MAX_VOICES, 3)
}

/// 4
pub fn length(holds: bool) -> Outcome {
    require(holds, 4)
}

fn good_pitch(pitch: Pitch) -> bool {
    match pitch {
        Pitch::Note(note, semitones) => note <= MAX_NOTE && within(semitones, TUNING),
        Pitch::Hertz(hertz) => within(hertz, HERTZ),
    }
}

fn good_voice(voice: &MaskVoice) -> bool {
    let free = [
        voice.pressure,
        voice.timbre,
        voice.volume_gain,
        voice.expression_gain,
        voice.pan,
    ];
    good_pitch(voice.pitch) && within(voice.level, LEVEL) && free.iter().all(|x| x.is_finite())
}

/// 5
pub fn voices(voices: &[MaskVoice]) -> Outcome {
    require_each(5, voices.iter().map(good_voice))
}

/// 6: entry 0 is not tested.
pub fn table(table: &[f32]) -> Outcome {
    let good = |(entry, &x): (usize, &f32)| entry == 0 || within(x, TABLE);
    require_each(6, table.iter().enumerate().map(good))
}

/// 7
pub fn values(values: &[f32], limits: (f32, f32)) -> Outcome {
    require_each(7, values.iter().map(|&x| within(x, limits)))
}

/// 7, for two slices of equal length: the lowest index at which either is out.
pub fn value_pairs(first: &[f32], second: &[f32], limits: (f32, f32)) -> Outcome {
    let pairs = first.iter().zip(second);
    require_each(
        7,
        pairs.map(|(&a, &b)| within(a, limits) && within(b, limits)),
    )
}

/// 8
pub fn overlap(overlap: usize, length: usize) -> Outcome {
    require(
        OVERLAPS.contains(&overlap) && length.is_multiple_of(overlap),
        8,
    )
}

/// 9: what was read of a record, or nothing where it is none.
pub fn record<T>(read: Option<T>) -> Result<T, Refusal> {
    read.ok_or(Refusal {
        number: 9,
        place: 0,
    })
}

/// 10: an id that is added has no place yet.
pub fn new_id(place: Option<usize>) -> Outcome {
    require(place.is_none(), 10)
}

/// 10: the place of an id that is taken out or changed.
pub fn present_id(place: Option<usize>) -> Result<usize, Refusal> {
    place.ok_or(Refusal {
        number: 10,
        place: 0,
    })
}

/// 11
pub fn strip(strip: usize) -> Outcome {
    require(strip < STRIPS, 11)
}
