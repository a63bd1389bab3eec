//! The functions of the number layer.

use crate::run::Run;
use linked::*;
use oracle::functions::*;
use oracle::numbers::bits_of;
use oracle::random::Random;

/// The numbers in a slice that is lent.
const LENT: usize = 4096;

fn same(x: f32) -> u64 {
    u64::from(bits_of(x))
}

/// An argument: three in four from all bit patterns, the rest from the numbers near 0.
fn argument(random: &mut Random) -> u32 {
    if random.once_in(4) {
        random.between(-200.0, 200.0).to_bits()
    } else {
        random.bits()
    }
}

/// Three arguments, now and then two of them equal or opposite.
fn arguments(random: &mut Random) -> [u32; 3] {
    let mut found = [0; 3].map(|_| argument(random));
    match random.below(8) {
        0 => found[1] = found[0],
        1 => found[1] = found[0] ^ 1 << 31,
        2 => found[2] = found[0],
        3 => found[2] = found[1],
        _ => (),
    }
    found
}

/// A name, the port's function over a slice, and the oracle's of one number.
type Pair = (&'static str, All, fn(f32) -> f32);

fn compare_all(run: &mut Run, (name, all, of): Pair) {
    let count = run.count;
    run.calls_of(name, |random, tally| {
        let length = (count - tally.calls).min(1 + random.below(LENT) as u64);
        let bits: Vec<u32> = (0..length).map(|_| argument(random)).collect();
        let mut xs: Vec<f32> = bits.iter().map(|&bits| f32::from_bits(bits)).collect();
        in_place(all, &mut xs);
        for (bits, x) in bits.into_iter().zip(xs) {
            tally.count(&[bits], same(x), same(of(f32::from_bits(bits))));
        }
    });
}

/// `port` and `of` give the bits of their answers.
fn compare_one<const N: usize>(
    run: &mut Run,
    name: &'static str,
    port: fn([f32; N]) -> u64,
    of: fn([f32; N]) -> u64,
) {
    run.calls_of(name, |random, tally| {
        let three = arguments(random);
        let bits: [u32; N] = std::array::from_fn(|index| three[index]);
        let xs = bits.map(f32::from_bits);
        tally.count(&bits, port(xs), of(xs));
    });
}

pub fn compare(run: &mut Run) {
    let all: [Pair; 12] = [
        ("exp2", dovetable_exp2_all, exp2),
        ("log2", dovetable_log2_all, log2),
        ("sin", dovetable_sin_all, sin),
        ("cos", dovetable_cos_all, cos),
        ("sqrt", dovetable_sqrt_all, sqrt),
        ("pow10", dovetable_pow10_all, pow10),
        ("exp", dovetable_exp_all, exp),
        ("log10", dovetable_log10_all, log10),
        ("rem_euclid", dovetable_rem_euclid_all, rem_euclid),
        ("powi2", dovetable_powi2_all, powi2),
        ("powi5", dovetable_powi5_all, powi5),
        ("abs", dovetable_abs_all, abs),
    ];
    for pair in all {
        compare_all(run, pair);
    }
    compare_one(
        run,
        "max",
        |[a, b]| same(dovetable_max(a, b)),
        |[a, b]| same(max(a, b)),
    );
    compare_one(
        run,
        "min",
        |[a, b]| same(dovetable_min(a, b)),
        |[a, b]| same(min(a, b)),
    );
    compare_one(
        run,
        "clamp",
        |[x, low, high]| same(dovetable_clamp(x, low, high)),
        |[x, low, high]| same(clamp(x, low, high)),
    );
    compare_one(
        run,
        "floor_to_count",
        |[x]| dovetable_floor_to_count(x) as u64,
        |[x]| floor_to_count(x) as u64,
    );
    compare_one(
        run,
        "ceil_to_count",
        |[x]| dovetable_ceil_to_count(x) as u64,
        |[x]| ceil_to_count(x) as u64,
    );
    compare_one(
        run,
        "bits_of",
        |[x]| u64::from(dovetable_bits_of(x)),
        |[x]| same(x),
    );
    compare_one(
        run,
        "of_bits",
        |[x]| same(dovetable_of_bits(x.to_bits())),
        |[x]| same(x),
    );
}
