//! The law of the far side: a voice panned hard to one side leaves the other side's mask as it is.
//! Each scene is two accepted calls, and a side on which they have the same near voices, in one
//! order, and far voices of their own among them.

use crate::equal_numbers::{equal_numbers, zeros};
use crate::run::Run;
use crate::stereo_calls::{accepted, masks, same_bits, some_of};
use crate::tally::count_met;
use oracle::bank_calls::good_voice;
use oracle::builders::{Lent, Masks};
use oracle::random::Random;
use oracle::refusals::MAX_VOICES;
use oracle::spectral_dsp::MaskVoice;

const SILENT: [&str; 6] = [
    "lists of other lengths",
    "near voices",
    "near voices heard",
    "far voices heard on their side",
    "one list centred",
    "a NaN in the curve",
];

const EQUAL: [&str; 6] = [
    "near voices heard",
    "a zero of another sign in a voice",
    "in the settings",
    "in the curve",
    "in the table",
    "masks of other bits",
];

#[derive(Clone, Copy, Debug)]
enum Side {
    Left,
    Right,
}

impl Side {
    fn other(self) -> Self {
        match self {
            Self::Left => Self::Right,
            Self::Right => Self::Left,
        }
    }

    /// Whether a voice is panned hard to the other side.
    fn is_far(self, voice: &MaskVoice) -> bool {
        match self {
            Self::Left => voice.pan >= 1.0,
            Self::Right => voice.pan <= -1.0,
        }
    }

    /// Such a voice, of any accepted numbers. Positive floats are in the order of their bits.
    fn far_voice(self, random: &mut Random) -> MaskVoice {
        let (hard, most) = (1.0_f32.to_bits(), f32::MAX.to_bits());
        let pan = match random.below(4) {
            0 => 1.0,
            1 => random.pick(&[1.0_f32.next_up(), 1.5, f32::MAX]),
            2 => random.between(1.0, 1.2),
            _ => f32::from_bits(hard + random.below((most - hard) as usize + 1) as u32),
        };
        let pan = match self {
            Self::Left => pan,
            Self::Right => -pan,
        };
        MaskVoice {
            pan,
            ..good_voice(random)
        }
    }

    /// Puts far voices among near ones.
    fn add_far(self, random: &mut Random, voices: &mut Vec<MaskVoice>) {
        for _ in 0..some_of(random, MAX_VOICES - voices.len()) {
            let place = random.below(voices.len() + 1);
            voices.insert(place, self.far_voice(random));
        }
    }
}

/// Two calls, and what they write.
struct Pair {
    side: Side,
    calls: [Lent; 2],
    masks: [Masks; 2],
}

impl Pair {
    /// Makes two calls that have near voices alone with far ones among them.
    fn with_far(random: &mut Random, side: Side, mut calls: [Lent; 2]) -> Result<Self, String> {
        for call in &mut calls {
            side.add_far(random, &mut call.voices);
        }
        let masks = [masks(random, &calls[0])?, masks(random, &calls[1])?];
        Ok(Self { side, calls, masks })
    }

    /// The two masks of a side.
    fn on(&self, side: Side) -> [&[f32]; 2] {
        self.masks.each_ref().map(|masks| &masks[side as usize][..])
    }

    /// Whether a near voice is heard: without voices the mask of this side is another.
    fn hears(&self, random: &mut Random) -> Result<bool, String> {
        let none = Lent {
            voices: Vec::new(),
            ..self.calls[0].clone()
        };
        let none = masks(random, &none)?;
        Ok(self.on(self.side)[0] != none[self.side as usize])
    }

    /// Says at which bin the two masks of this side are not the same.
    fn compare(&self, same: fn(f32, f32) -> bool) -> Result<(), String> {
        let [a, b] = self.on(self.side);
        let Some(bin) = (0..a.len()).find(|&bin| !same(a[bin], b[bin])) else {
            return Ok(());
        };
        let lists = self.calls.each_ref().map(|call| &call.voices);
        Err(format!(
            "{:?} {:?}: {} and {} at bin {bin} of {lists:?}",
            self.side, self.calls[0].config, a[bin], b[bin]
        ))
    }
}

/// Leaves a call the voices that are near on a side, and answers the side.
fn near_alone(random: &mut Random, call: &mut Lent) -> Side {
    let side = random.pick(&[Side::Left, Side::Right]);
    call.voices.retain(|voice| !side.is_far(voice));
    side
}

/// The two calls are the same but for their far voices: the masks of the side are the same, to the
/// bit.
fn silent(random: &mut Random, met: &mut [u64; SILENT.len()]) -> Result<(), String> {
    let mut call = accepted(random);
    let side = near_alone(random, &mut call);
    let pair = Pair::with_far(random, side, [call.clone(), call.clone()])?;
    let [a, b] = pair.calls.each_ref().map(|call| &call.voices);
    let centred = |voices: &[MaskVoice]| voices.iter().all(|voice| voice.pan == 0.0);
    let [far, other_far] = pair.on(side.other());
    let of_pair = [
        a.len() != b.len(),
        !call.voices.is_empty(),
        pair.hears(random)?,
        far != other_far,
        centred(a) != centred(b),
        call.curve.iter().any(|point| point.is_nan()),
    ];
    count_met(met, of_pair);
    pair.compare(same_bits)
}

/// What the two calls share is equal as f32 compares, NaN standing against NaN in the curve: so are
/// the masks of the side, and no bin is NaN.
fn equal(random: &mut Random, met: &mut [u64; EQUAL.len()]) -> Result<(), String> {
    let mut call = accepted(random);
    zeros(random, &mut call);
    let side = near_alone(random, &mut call);
    let mut other = call.clone();
    let [voice, settings, curve, table] = equal_numbers(random, &mut other);
    let pair = Pair::with_far(random, side, [call, other])?;
    let [a, b] = pair.on(side);
    let bits = !a.iter().zip(b).all(|(&a, &b)| same_bits(a, b));
    let heard = pair.hears(random)?;
    count_met(met, [heard, voice, settings, curve, table, bits]);
    pair.compare(|a, b| a == b)
}

pub fn compare(run: &mut Run) {
    run.law("far_side_silent", SILENT, silent);
    run.law("far_side_equal", EQUAL, equal);
}
