//! The ported text once more, on other functions: std's, or std's with one family of document
//! 01's among them. What a variant changes shows what that family alone changes.

// One text is compiled on several functions, and not every variant is asked for every call.
#![allow(clippy::duplicate_mod, dead_code)]

/// Rust's own functions under the names of document 01's.
pub mod std_functions {
    pub fn max(a: f32, b: f32) -> f32 {
        a.max(b)
    }
    pub fn min(a: f32, b: f32) -> f32 {
        a.min(b)
    }
    pub fn clamp(x: f32, low: f32, high: f32) -> f32 {
        x.clamp(low, high)
    }
    pub fn abs(x: f32) -> f32 {
        x.abs()
    }
    pub fn sqrt(x: f32) -> f32 {
        x.sqrt()
    }
    pub fn floor_to_count(x: f32) -> usize {
        x.floor() as usize
    }
    pub fn ceil_to_count(x: f32) -> usize {
        x.ceil() as usize
    }
    pub fn rem_euclid(v: f32) -> f32 {
        v.rem_euclid(1.0)
    }
    pub fn powi2(v: f32) -> f32 {
        v.powi(2)
    }
    pub fn powi5(v: f32) -> f32 {
        v.powi(5)
    }
    pub fn sum(terms: impl Iterator<Item = f32>) -> f32 {
        terms.sum()
    }
    pub fn exp2(x: f32) -> f32 {
        2.0_f32.powf(x)
    }
    pub fn log2(v: f32) -> f32 {
        v.log2()
    }
    pub fn pow10(y: f32) -> f32 {
        10.0_f32.powf(y)
    }
    pub fn exp(y: f32) -> f32 {
        y.exp()
    }
    pub fn log10(v: f32) -> f32 {
        v.log10()
    }
    pub fn sin(angle: f32) -> f32 {
        angle.sin()
    }
    pub fn cos(angle: f32) -> f32 {
        angle.cos()
    }
}

pub mod extremes;
pub mod logarithms;
pub mod plain;
pub mod powers;
pub mod sines;
