//! The functions of the number layer, beside std.

use linked::*;
use oracle::random::Random;
use std::hint::black_box;
use std::time::Instant;

const LENGTH: usize = 4096;
const ROUNDS: usize = 400;

/// Nanoseconds per number of `work` on a copy of `source`, the least over the rounds.
fn best(source: &[f32], work: &dyn Fn(&mut [f32])) -> f64 {
    let mut copy = source.to_vec();
    let mut least = f64::INFINITY;
    for _ in 0..ROUNDS {
        copy.copy_from_slice(source);
        let start = Instant::now();
        work(black_box(&mut copy));
        let nanoseconds = start.elapsed().as_nanos() as f64;
        black_box(&copy);
        least = least.min(nanoseconds / LENGTH as f64);
    }
    least
}

/// Applies a function of std to each number, compiled for that function.
fn each(of: impl Fn(f32) -> f32) -> impl Fn(&mut [f32]) {
    move |xs| xs.iter_mut().for_each(|x| *x = of(*x))
}

fn row(name: &str, (low, high): (f32, f32), all: All, std: impl Fn(&mut [f32])) {
    let mut random = Random::new(1);
    let source: Vec<f32> = (0..LENGTH).map(|_| random.between(low, high)).collect();
    let port = best(&source, &|xs| in_place(all, xs));
    let other = best(&source, &std);
    let ratio = port / other;
    println!("{name:<26}{port:>9.2}{other:>9.2}{ratio:>9.2}");
}

pub fn table() {
    let exponents = (-20.0, 20.0);
    let angles = (-20.0, 20.0);
    let hertz = (1.0, 20_000.0);
    let bels = (-7.2, 1.0);
    println!(
        "{:<26}{:>9}{:>9}{:>9}",
        "ns per call", "port", "std", "port/std"
    );
    row(
        "exp2, f32::exp2",
        exponents,
        dovetable_exp2_all,
        each(f32::exp2),
    );
    row(
        "exp2, powf(2, .)",
        exponents,
        dovetable_exp2_all,
        each(|x| 2.0_f32.powf(x)),
    );
    row("log2", hertz, dovetable_log2_all, each(f32::log2));
    row("sin", angles, dovetable_sin_all, each(f32::sin));
    row("cos", angles, dovetable_cos_all, each(f32::cos));
    row("sqrt", hertz, dovetable_sqrt_all, each(f32::sqrt));
    row(
        "pow10, powf(10, .)",
        bels,
        dovetable_pow10_all,
        each(|x| 10.0_f32.powf(x)),
    );
    row("exp", bels, dovetable_exp_all, each(f32::exp));
    row("log10", hertz, dovetable_log10_all, each(f32::log10));
}
