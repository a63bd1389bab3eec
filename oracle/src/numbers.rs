//! The functions of one number and their like, in the order of the replay list `numbers`.

use crate::functions::*;

pub enum Value {
    Float(f32),
    Count(usize),
}

pub struct Function {
    pub name: &'static str,
    pub arguments: usize,
    apply: fn([f32; 3]) -> Value,
}

/// The bits of a float; every NaN counts as one.
pub fn bits_of(x: f32) -> u32 {
    if x.is_nan() { 0x7fc0_0000 } else { x.to_bits() }
}

/// The first entry at which two slices differ, every NaN being one.
pub fn first_difference(a: &[f32], b: &[f32]) -> Option<usize> {
    a.iter()
        .zip(b)
        .position(|(&a, &b)| bits_of(a) != bits_of(b))
}

impl Function {
    pub fn of(&self, bits: [u32; 3]) -> Value {
        (self.apply)(bits.map(f32::from_bits))
    }
}

impl std::fmt::Display for Value {
    fn fmt(&self, out: &mut std::fmt::Formatter) -> std::fmt::Result {
        match self {
            Self::Float(x) => write!(out, "{:08x}", bits_of(*x)),
            Self::Count(n) => write!(out, "{n}"),
        }
    }
}

const fn of_one(name: &'static str, apply: fn([f32; 3]) -> Value) -> Function {
    Function {
        name,
        arguments: 1,
        apply,
    }
}

const fn of_more(name: &'static str, arguments: usize, apply: fn([f32; 3]) -> Value) -> Function {
    Function {
        name,
        arguments,
        apply,
    }
}

pub const FUNCTIONS: [Function; 19] = [
    of_one("exp2", |[x, ..]| Value::Float(exp2(x))),
    of_one("log2", |[x, ..]| Value::Float(log2(x))),
    of_one("sin", |[x, ..]| Value::Float(sin(x))),
    of_one("cos", |[x, ..]| Value::Float(cos(x))),
    of_one("sqrt", |[x, ..]| Value::Float(sqrt(x))),
    of_one("pow10", |[x, ..]| Value::Float(pow10(x))),
    of_one("exp", |[x, ..]| Value::Float(exp(x))),
    of_one("log10", |[x, ..]| Value::Float(log10(x))),
    of_one("rem_euclid", |[x, ..]| Value::Float(rem_euclid(x))),
    of_one("powi2", |[x, ..]| Value::Float(powi2(x))),
    of_one("powi5", |[x, ..]| Value::Float(powi5(x))),
    of_one("abs", |[x, ..]| Value::Float(abs(x))),
    of_more("max", 2, |[a, b, _]| Value::Float(max(a, b))),
    of_more("min", 2, |[a, b, _]| Value::Float(min(a, b))),
    of_more("clamp", 3, |[x, low, high]| {
        Value::Float(clamp(x, low, high))
    }),
    of_one("floor_to_count", |[x, ..]| Value::Count(floor_to_count(x))),
    of_one("ceil_to_count", |[x, ..]| Value::Count(ceil_to_count(x))),
    of_one("bits_of", |[x, ..]| Value::Float(x)),
    of_one("of_bits", |[x, ..]| Value::Float(x)),
];
