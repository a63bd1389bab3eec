//! Accepted stereo calls from all over the limits, on which the laws are tried, and their masks by
//! the library.

use crate::draw;
use crate::masks::{odd_notes, scene, strew};
use linked::calls::{self as port, Crossing};
use oracle::bank_calls::good_voice;
use oracle::builders::{Builder, Lent, Masks};
use oracle::random::Random;

/// What an accepted call is lent.
pub fn accepted(random: &mut Random) -> Lent {
    let (call, curve) = scene(random);
    let mut lent = Lent {
        curve,
        block: Vec::new(),
        ..call.lent()
    };
    if random.once_in(4) {
        lent.voices.fill_with(|| good_voice(random));
    }
    if random.once_in(4) {
        strew(random, &mut lent.table);
    }
    draw::damage(random, &mut lent.curve);
    lent
}

/// A number of voices for which there is room: mostly few, now and then as many as can be.
pub fn some_of(random: &mut Random, room: usize) -> usize {
    match random.once_in(16) {
        true => room,
        false => random.pick(&[0, 1, 1, 2, 3, 6]).min(room),
    }
}

/// The masks that a call writes, whatever they hold before; a call that is refused is told.
pub fn masks(random: &mut Random, lent: &Lent) -> Result<Masks, String> {
    let mut crossing = Crossing::from(lent);
    odd_notes(random, &mut crossing.voices);
    let bins = lent.config.fft_size / 2 + 1;
    let mut masks = [0, 1].map(|_| (0..bins).map(|_| random.float()).collect());
    let given = port::build(Builder::StereoPrecomputed, lent, &crossing, &mut masks);
    match given.number {
        0 => Ok(masks),
        _ => Err(format!("{crossing:?}: {given:?}")),
    }
}

pub fn same_bits(a: f32, b: f32) -> bool {
    a.to_bits() == b.to_bits()
}
