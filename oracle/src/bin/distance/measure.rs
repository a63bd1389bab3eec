//! The distance between two numbers, gathered over many pairs.

use oracle::numbers::bits_of;

/// Floats by their order: neighbours are 1 apart, and both zeros are 0.
fn key(x: f32) -> i64 {
    let size = i64::from(x.to_bits() & 0x7fff_ffff);
    if x.is_sign_negative() { -size } else { size }
}

pub fn ulps(a: f32, b: f32) -> u64 {
    key(a).abs_diff(key(b))
}

fn absolute(a: f32, b: f32) -> f64 {
    (f64::from(a) - f64::from(b)).abs()
}

fn relative(a: f32, b: f32) -> f64 {
    if a == b {
        return 0.0;
    }
    absolute(a, b) / f64::from(a.abs().max(b.abs()))
}

/// In decibels, of two gains; infinite where one of them alone is 0.
pub fn decibels(a: f32, b: f32) -> f64 {
    if a == b {
        return 0.0;
    }
    (20.0 * (f64::from(a) / f64::from(b)).log10()).abs()
}

/// The largest of a measure, and what it was found at.
#[derive(Clone, Default)]
pub struct Largest {
    pub size: f64,
    pub at: String,
}

impl Largest {
    fn take(&mut self, size: f64, at: &dyn Fn() -> String) {
        if size > self.size {
            *self = Self { size, at: at() };
        }
    }
}

#[derive(Clone, Default)]
pub struct Distance {
    pub pairs: u64,
    pub differing: u64,
    pub ulps: Largest,
    pub absolute: Largest,
    pub relative: Largest,
    pub decibels: Largest,
    /// Pairs more than 0.001, 0.1 and 10 decibels apart.
    pub beyond: [u64; 3],
}

impl Distance {
    /// Counts a pair; `at` says where it was found.
    pub fn count(&mut self, a: f32, b: f32, at: &dyn Fn() -> String) {
        self.pairs += 1;
        if bits_of(a) == bits_of(b) {
            return;
        }
        self.differing += 1;
        self.ulps.take(ulps(a, b) as f64, at);
        self.absolute.take(absolute(a, b), at);
        self.relative.take(relative(a, b), at);
        let apart = decibels(a, b);
        self.decibels.take(apart, at);
        for (count, limit) in self.beyond.iter_mut().zip([0.001, 0.1, 10.0]) {
            *count += u64::from(apart > limit);
        }
    }

    pub fn share(&self) -> f64 {
        100.0 * self.differing as f64 / self.pairs.max(1) as f64
    }
}

/// A number in decimal and as bits.
pub fn both(x: f32) -> String {
    format!("{x:e} ({:08x})", x.to_bits())
}
