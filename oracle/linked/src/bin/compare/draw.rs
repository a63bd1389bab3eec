//! Random arguments of the open calls: mostly accepted, and every refusal now and then. Lengths are
//! mostly short and sometimes the longest, so that many calls take little time.

use linked::calls::Motion;
use oracle::curves;
use oracle::random::Random;
use oracle::refusals::*;
use oracle::scenes;
use oracle::spectral_dsp::MANUAL_MASK_POINTS;

/// Between limits, now and then at their ends, one step past them, or any number at all.
pub fn setting(random: &mut Random, (low, high): (f32, f32)) -> f32 {
    match random.below(32) {
        0 => random.float(),
        1 => random.pick(&[low, high, -0.0, 0.0]),
        2 => random.pick(&[low.next_down(), high.next_up(), f32::NAN, -high]),
        3 => random.pick(&[low.next_up(), high.next_down(), f32::MIN_POSITIVE]),
        _ => random.between(low, high),
    }
}

/// Any finite number, now and then one that is not.
pub fn finite(random: &mut Random) -> f32 {
    match random.below(4) {
        0 => random.float(),
        1 => random.pick(&[0.0, -0.0, 1.0, 0.5, -1.0e-9, 1.0e9]),
        _ => random.between(-3.0, 3.0),
    }
}

pub fn note(random: &mut Random) -> u8 {
    if random.once_in(16) {
        random.word() as u8
    } else {
        random.below(128) as u8
    }
}

/// Damages a quarter of the curves that are accepted.
pub fn damage(random: &mut Random, curve: &mut [f32]) {
    if curve.len() == MANUAL_MASK_POINTS && random.once_in(4) {
        curves::damage(random, curve);
    }
}

/// Shapes that are none of the eight.
pub const NO_SHAPES: [u32; 5] = [8, 9, 255, 256, u32::MAX];

pub fn motion(random: &mut Random) -> Motion {
    let mut motion = Motion::from(scenes::motion(random));
    match random.below(16) {
        0 => motion.depth_db = setting(random, MOTION_DEPTH),
        1 => motion.phase = finite(random),
        2 => motion.size_octaves = setting(random, MOTION_SIZE),
        3 => motion.shape = random.pick(&NO_SHAPES),
        _ => (),
    }
    motion
}

/// Each doubling half as often: mostly the least, sometimes the greatest.
fn doublings(random: &mut Random, most: u32) -> u32 {
    (random.word().trailing_zeros()).min(most)
}

/// Now and then a size that is refused.
pub fn size(random: &mut Random) -> usize {
    match random.below(32) {
        0 => random.pick(&[0, 1, 32, 63, 65, 96, 16_383, 16_385, 32_768, usize::MAX]),
        _ => 64 << doublings(random, 8),
    }
}

/// A length of a list that may have up to `most` entries; now and then one that is too long.
pub fn length(random: &mut Random, most: usize) -> usize {
    let end = (4 << doublings(random, 10)).min(most);
    match random.below(2048) {
        0 => most,
        1 => most + 1,
        _ => random.below(end),
    }
}

/// A length, and now and then one short, one long or none.
pub fn mostly(random: &mut Random, length: usize) -> usize {
    match random.below(32) {
        0 => random.pick(&[length.saturating_sub(1), length + 1, 0]),
        _ => length,
    }
}

pub fn overlap(random: &mut Random) -> usize {
    match random.below(32) {
        0 => random.pick(&[0, 17, 18, 64, usize::MAX]),
        _ => 1 + random.below(16),
    }
}

/// A copy that begins this many entries into its memory, so that it may stand at any address.
pub fn copy_at<T: Copy + Default>(first: usize, slice: &[T]) -> Vec<T> {
    [&vec![T::default(); first][..], slice].concat()
}

/// Spread between limits, evenly or over the exponents; now and then with a few entries from
/// anywhere.
pub fn list(random: &mut Random, length: usize, (low, high): (f32, f32)) -> Vec<f32> {
    let scale = random.pick(&[1.0, 1.0, 0.1, 1.0e-3, 1.0e-6, 1.0e-12]);
    let mut list: Vec<f32> = (0..length)
        .map(|_| random.between(low * scale, high * scale))
        .collect();
    if length > 0 && random.once_in(8) {
        for _ in 0..1 + random.below(3) {
            let place = random.below(length);
            list[place] = setting(random, (low, high));
        }
    }
    list
}

/// Levels outside their limits, by their bits.
pub const OUTSIDE: [u32; 10] = [
    0x8000_0001, // the next below 0
    0x807f_ffff,
    0xbf80_0000, // -1
    0xff80_0000, // -infinity
    0xffc0_0000, // NaN of either sign
    0xff80_0001,
    0x7fc0_0000,
    0x7fff_ffff,
    0x7f80_0000, // infinity
    0x3f80_0001, // the next above 1
];

/// A level below this one comes to rest at 0.
const REST: f32 = 1.0e-6;

/// Levels within their limits at which a test or a result changes.
const EDGE_LEVELS: [f32; 10] = [
    0.0,
    -0.0,
    f32::from_bits(1),
    f32::from_bits(0x7f_ffff), // the greatest subnormal
    f32::MIN_POSITIVE,
    REST.next_down(),
    REST,
    REST.next_up(),
    1.0_f32.next_down(),
    1.0,
];

/// A bank of 0s, of 1s, of both, of levels at an edge or near rest, or a list. In one of four a
/// level is outside its limits, now and then several.
pub fn bank(random: &mut Random, length: usize) -> Vec<f32> {
    let kind = random.below(8);
    let mut each = |of: fn(&mut Random) -> f32| (0..length).map(|_| of(random)).collect();
    let mut bank: Vec<f32> = match kind {
        0 => vec![0.0; length],
        1 => vec![1.0; length],
        2 => each(|random| random.pick(&[0.0, 1.0])),
        3 => each(|random| random.pick(&EDGE_LEVELS)),
        4 => each(|random| random.between(0.0, 4.0 * REST)),
        _ => list(random, length, LEVEL),
    };
    if length > 0 && random.once_in(4) {
        for _ in 0..random.pick(&[1, 1, 1, 2, 20]) {
            bank[random.below(length)] = f32::from_bits(random.pick(&OUTSIDE));
        }
    }
    bank
}

/// The bytes of the held notes: none, all, one alone, all but one, or any.
pub fn held(random: &mut Random, length: usize) -> Vec<u8> {
    let kind = random.below(8);
    let mut held: Vec<u8> = match kind {
        0 | 1 => vec![0; length],
        2 | 3 => vec![0xff; length],
        _ => (0..length).map(|_| random.word() as u8).collect(),
    };
    if length > 0 && (kind == 1 || kind == 3) {
        held[random.below(length)] ^= 1 << random.below(8);
    }
    held
}

/// The time of a frame in seconds, and a fade in milliseconds. Now and then they move no level,
/// each level all the way, or a held note from 0 to near rest.
pub fn times(random: &mut Random) -> (f32, f32) {
    let elapsed = match random.once_in(2) {
        true => random.between(0.0, 0.05),
        false => setting(random, ELAPSED),
    };
    let fade = match random.once_in(2) {
        true => random.between(0.0, 500.0),
        false => setting(random, FADE),
    };
    let least = [0.0, -0.0, f32::from_bits(1), f32::MIN_POSITIVE];
    match random.below(8) {
        0 => (random.pick(&least), fade),
        1 => (elapsed, random.pick(&least)),
        2 => (fade * 0.001 * random.between(0.0, 2.0 * REST), fade),
        _ => (elapsed, fade),
    }
}
