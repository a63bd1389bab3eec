//! Each function beside std's.

use crate::measure::{Distance, both};
use crate::variants::std_functions as rust;
use oracle::functions as agreed;
use oracle::numbers::bits_of;
use oracle::random::Random;

type Of = fn(f32) -> f32;

/// A function, std's under the same name, and the arguments that the calls give it.
struct Row {
    name: &'static str,
    agreed: Of,
    rust: Of,
    /// Where the definition is meant to follow the function, by document 01.
    domain: (f32, f32),
    used: (f32, f32),
}

const ROWS: [Row; 14] = [
    Row {
        name: "exp2",
        agreed: agreed::exp2,
        rust: rust::exp2,
        domain: (-126.0, 127.99999),
        used: (-14.0, 14.0),
    },
    Row {
        name: "pow10",
        agreed: agreed::pow10,
        rust: rust::pow10,
        domain: (-37.9, 38.5),
        used: (-35.0, 35.0),
    },
    Row {
        name: "exp",
        agreed: agreed::exp,
        rust: rust::exp,
        domain: (-87.3, 88.7),
        used: (-8.0, 0.0),
    },
    Row {
        name: "log2",
        agreed: agreed::log2,
        rust: rust::log2,
        domain: (f32::MIN_POSITIVE, f32::MAX),
        used: (0.0625, 192_000.0),
    },
    Row {
        name: "log10",
        agreed: agreed::log10,
        rust: rust::log10,
        domain: (f32::MIN_POSITIVE, f32::MAX),
        used: (1.0e-6, 64.0),
    },
    Row {
        name: "sin",
        agreed: agreed::sin,
        rust: rust::sin,
        domain: (f32::MIN, f32::MAX),
        used: (-3300.0, 3300.0),
    },
    Row {
        name: "cos",
        agreed: agreed::cos,
        rust: rust::cos,
        domain: (f32::MIN, f32::MAX),
        used: (-3300.0, 3300.0),
    },
    Row {
        name: "sqrt",
        agreed: agreed::sqrt,
        rust: rust::sqrt,
        domain: (0.0, f32::MAX),
        used: (1.0e-10, 1.0),
    },
    Row {
        name: "rem_euclid",
        agreed: agreed::rem_euclid,
        rust: rust::rem_euclid,
        domain: (f32::MIN, f32::MAX),
        used: (-300.0, 300.0),
    },
    Row {
        name: "powi2",
        agreed: agreed::powi2,
        rust: rust::powi2,
        domain: (f32::MIN, f32::MAX),
        used: (-16.0, 16.0),
    },
    Row {
        name: "powi5",
        agreed: agreed::powi5,
        rust: rust::powi5,
        domain: (f32::MIN, f32::MAX),
        used: (0.0, 1.0),
    },
    Row {
        name: "max(x, 0)",
        agreed: |x| agreed::max(x, 0.0),
        rust: |x| rust::max(x, 0.0),
        domain: (f32::MIN, f32::MAX),
        used: (-16.0, 16.0),
    },
    Row {
        name: "min(x, 0)",
        agreed: |x| agreed::min(x, 0.0),
        rust: |x| rust::min(x, 0.0),
        domain: (f32::MIN, f32::MAX),
        used: (-16.0, 16.0),
    },
    Row {
        name: "clamp 0..1",
        agreed: |x| agreed::clamp(x, 0.0, 1.0),
        rust: |x| rust::clamp(x, 0.0, 1.0),
        domain: (f32::MIN, f32::MAX),
        used: (-2.0, 2.0),
    },
];

/// Exponents of 2 by their nearness to 0.
const NEAR: [i32; 17] = [0, -1, 1, -2, 2, -3, 3, -4, 4, -5, 5, -6, 6, -7, 7, -8, 8];

impl Row {
    fn over(&self, mut draw: impl FnMut() -> f32, draws: u64) -> Distance {
        let mut distance = Distance::default();
        for _ in 0..draws {
            let x = draw();
            distance.count((self.agreed)(x), (self.rust)(x), &|| both(x));
        }
        distance
    }

    /// The argument of fewest digits in base 2, then nearest to 1, at which the two differ; the
    /// zeros come last.
    fn smallest(&self) -> Option<f32> {
        let of_digits = |digits: i32| {
            let whole = (1_i32 << digits..2 << digits).filter(move |n| digits == 0 || n % 2 == 1);
            let powers = NEAR
                .into_iter()
                .map(move |exponent| 2.0_f32.powi(exponent - digits));
            powers.flat_map(move |power| whole.clone().map(move |n| n as f32 * power))
        };
        let sizes = (0..16).flat_map(of_digits).chain([0.0]);
        let mut both_signs = sizes.flat_map(|x| [x, -x]);
        both_signs.find(|&x| {
            let within = self.domain.0 <= x && x <= self.domain.1;
            within && bits_of((self.agreed)(x)) != bits_of((self.rust)(x))
        })
    }
}

fn print_row(name: &str, range: &str, distance: &Distance) {
    let (share, ulps) = (distance.share(), distance.ulps.size);
    let (relative, absolute) = (distance.relative.size, distance.absolute.size);
    let at = &distance.relative.at;
    println!(
        "{name:<11}{range:<22}{share:>9.3}%{ulps:>12}{relative:>12.2e}{absolute:>12.2e}  {at}"
    );
}

/// Where the definitions end and std's functions go on.
fn print_ends() {
    println!("\nBeyond the domains:");
    let ends: [(usize, &[f32]); 4] = [
        (0, &[-126.5, -149.0, 128.0, f32::INFINITY, f32::NAN]),
        (3, &[0.0, f32::from_bits(1), -1.0, f32::INFINITY, f32::NAN]),
        (5, &[-1.0e-30, 1.0e9, f32::INFINITY, f32::NAN]),
        (6, &[-1.0e-30, 1.0e9, f32::INFINITY, f32::NAN]),
    ];
    for (row, arguments) in ends {
        let row = &ROWS[row];
        for &x in arguments {
            let (agreed, rust) = (both((row.agreed)(x)), both((row.rust)(x)));
            println!("{:<11}{}: agreed {agreed}, std {rust}", row.name, both(x));
        }
    }
}

pub fn print(seed: u64, draws: u64) {
    println!("\n## Functions beside std's, {draws} arguments each");
    println!(
        "{:<33}{:>10}{:>12}{:>12}{:>12}  relative found at",
        "", "differ", "ulps", "relative", "absolute"
    );
    for row in &ROWS {
        let mut random = Random::new(seed);
        let inside = |x: &f32| row.domain.0 <= *x && *x <= row.domain.1;
        let even = row.over(
            || {
                std::iter::repeat_with(|| random.float())
                    .find(inside)
                    .expect("without end")
            },
            draws,
        );
        print_row(row.name, "every exponent", &even);
        let mut random = Random::new(seed);
        let used = row.over(|| random.between(row.used.0, row.used.1), draws);
        print_row(row.name, &format!("{:?}", row.used), &used);
    }
    println!("\nThe smallest argument at which they differ:");
    for row in &ROWS {
        let Some(x) = row.smallest() else {
            println!("{:<11}none found", row.name);
            continue;
        };
        let (agreed, rust) = (both((row.agreed)(x)), both((row.rust)(x)));
        println!("{:<11}{}: agreed {agreed}, std {rust}", row.name, both(x));
    }
    print_ends();
}
