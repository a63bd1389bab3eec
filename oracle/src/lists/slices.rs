//! Slices described by a few words, and the hash by which a slice is printed.

use super::List;
use crate::numbers::bits_of;
use crate::random::Random;

/// No entry: a place past every slice.
pub const NOWHERE: u32 = u32::MAX;

/// A slice by its rule: `length` entries from a congruential generator, spread from `low` to
/// `high`, or all `low` where the two have the same bits; then up to two entries are replaced.
#[derive(Clone, Copy, Debug)]
pub struct Slice {
    pub length: usize,
    pub seed: u32,
    pub low: f32,
    pub high: f32,
    pub put: [(u32, f32); 2],
}

impl Slice {
    pub fn spread(random: &mut Random, length: usize, (low, high): (f32, f32)) -> Self {
        Self {
            length,
            seed: random.word() as u32,
            low,
            high,
            put: [(NOWHERE, 0.0); 2],
        }
    }

    pub fn of(length: usize, value: f32) -> Self {
        Self {
            length,
            seed: 0,
            low: value,
            high: value,
            put: [(NOWHERE, 0.0); 2],
        }
    }

    /// Puts a value at a random place, in the first free of the two.
    pub fn put(&mut self, random: &mut Random, value: f32) {
        let place = random.below(self.length.max(1)) as u32;
        let free = self.put.iter_mut().find(|put| put.0 == NOWHERE);
        if let Some(put) = free {
            *put = (place, value);
        }
    }

    pub fn words(&self, list: &mut List) {
        list.word(self.length as u32);
        list.word(self.seed);
        list.floats(&[self.low, self.high]);
        for (place, value) in self.put {
            list.word(place);
            list.float(value);
        }
    }

    /// The entries before those that are put in.
    fn generated(&self) -> Vec<f32> {
        if self.low.to_bits() == self.high.to_bits() {
            return vec![self.low; self.length];
        }
        let mut state = self.seed;
        let entry = |_| {
            state = state.wrapping_mul(1_664_525).wrapping_add(1_013_904_223);
            self.low + (self.high - self.low) * ((state >> 8) as f32 / 16_777_216.0)
        };
        (0..self.length).map(entry).collect()
    }

    pub fn put_into(&self, values: &mut [f32]) {
        for (place, value) in self.put {
            if let Some(entry) = values.get_mut(place as usize) {
                *entry = value;
            }
        }
    }

    pub fn made(&self) -> Vec<f32> {
        let mut values = self.generated();
        self.put_into(&mut values);
        values
    }
}

/// 64-bit FNV-1a.
pub fn byte_hash(bytes: impl Iterator<Item = u8>) -> u64 {
    bytes.fold(0xcbf2_9ce4_8422_2325, |hash, byte| {
        (hash ^ u64::from(byte)).wrapping_mul(0x0000_0100_0000_01b3)
    })
}

/// The hash of the big-endian bit patterns, every NaN as one.
pub fn hash(values: &[f32]) -> u64 {
    byte_hash(values.iter().flat_map(|&x| bits_of(x).to_be_bytes()))
}

pub fn hash_text(values: &[f32]) -> String {
    format!("{:016x}", hash(values))
}
