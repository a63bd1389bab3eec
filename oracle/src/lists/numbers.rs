//! The list `numbers`: the functions of floats, at their edges and at random.

use super::{LARGEST, List};
use crate::numbers::FUNCTIONS;
use crate::random::Random;
use std::collections::HashSet;

const SEED: u64 = 20;
const RECORD: usize = 16;
/// NaNs other than the usual one.
const NANS: [u32; 4] = [0x7f80_0001, 0x7fff_ffff, 0xff80_0001, 0xffc0_0000];

/// The neighbour below, the number and the neighbour above, of both signs.
fn around(points: &mut Vec<f32>, x: f32) {
    for near in [x.next_down(), x, x.next_up()] {
        points.extend([near, -near]);
    }
}

fn common() -> Vec<f32> {
    let mut points = vec![
        f32::NAN,
        f32::INFINITY,
        f32::NEG_INFINITY,
        f32::MAX,
        f32::MIN,
    ];
    let subnormal = f32::from_bits(0x007f_ffff);
    for x in [
        0.0,
        subnormal,
        f32::MIN_POSITIVE,
        0.25,
        0.5,
        1.0,
        1.5,
        2.0,
        3.0,
        10.0,
    ] {
        around(&mut points, x);
    }
    points
}

fn whole_and_half() -> Vec<f32> {
    let mut points = Vec::new();
    for power in [23, 24, 31, 32, 52, 53, 63, 64] {
        around(&mut points, 2.0_f32.powi(power));
    }
    for halves in [
        5, 6, 7, 9, 199, 200, 201, 131_071, 16_777_213, 16_777_214, 16_777_215,
    ] {
        around(&mut points, halves as f32 * 0.5);
    }
    points
}

fn exponents() -> Vec<f32> {
    let mut points = Vec::new();
    for x in [124.0, 125.0, 126.0, 127.0, 128.0, 149.0, 150.0] {
        around(&mut points, x);
    }
    // The steps of P, the places between them and the least parts of F.
    for part in [1, 2, 127, 128, 129, 255, 65_535, 65_536, 65_537, 16_777_215] {
        around(&mut points, part as f32 / 16_777_216.0);
    }
    for step in [1, 2, 100, 128, 200, 255, 256, 257, 511] {
        around(&mut points, step as f32 / 256.0);
    }
    points
}

/// Where y·LOG2_10 and y·LOG2_E come near the ends of E2.
fn powers_of(base_bits: f32) -> Vec<f32> {
    let mut points = exponents();
    for end in [125.0, 126.0, 127.0, 128.0] {
        around(&mut points, end / base_bits);
    }
    points
}

fn logarithms() -> Vec<f32> {
    let mut points = Vec::new();
    for power in [-126, -125, -64, -3, -2, -1, 1, 2, 3, 10, 13, 63, 126, 127] {
        around(&mut points, 2.0_f32.powi(power));
    }
    for x in [
        20.0, 27.5, 440.0, 1000.0, 22_050.0, 24_000.0, 192_000.0, 1.0e-6, 64.0,
    ] {
        around(&mut points, x);
    }
    points
}

fn angles() -> Vec<f32> {
    let mut points = Vec::new();
    let quarter = std::f32::consts::FRAC_PI_2;
    for quarters in [1, 2, 3, 4, 5, 8, 100, 1001, 4096] {
        around(&mut points, quarters as f32 * quarter);
        around(&mut points, (quarters as f32 - 0.5) * quarter);
    }
    // The least parts of U, the steps of R, and angles of whole turns.
    for part in [
        1, 2, 63, 64, 65, 16_383, 16_384, 16_385, 4_194_303, 4_194_305, 16_777_215,
    ] {
        around(
            &mut points,
            part as f32 / 16_777_216.0 * std::f32::consts::TAU,
        );
    }
    points.extend([
        1.0e5, -1.0e6, 5.0e7, -5.27e7, 5.28e7, 1.0e8, -1.0e9, 1.0e20, -3.0e38,
    ]);
    points
}

/// Squares, their neighbours, and numbers whose roots lie next to a tie.
fn squares() -> Vec<f32> {
    let mut points = Vec::new();
    for root in [
        3.0_f32,
        5.0,
        1.000_000_1,
        1.999_999_9,
        1_448.0,
        4_095.0,
        4_096.0,
        16_777_215.0,
    ] {
        around(&mut points, root * root);
    }
    for root in [
        0x80_0000_u64,
        0x80_0001,
        0xa3_d70a,
        0xb5_04f3,
        0xff_fffe,
        0xff_ffff,
    ] {
        // The square of the middle between two floats, to 24 bits.
        let middle = (2 * root + 1) * (2 * root + 1);
        around(&mut points, middle as f32);
        around(&mut points, middle as f32 * 2.0_f32.powi(-49));
    }
    points
}

fn remainders() -> Vec<f32> {
    let mut points = whole_and_half();
    points.extend([
        -1.0e-8, -2.0e-8, -2.98e-8, -2.99e-8, -5.96e-8, -6.0e-8, -1.0e-30, 1.0e-30,
    ]);
    points
}

/// Where v·v and v·v·v·v·v overflow or fall below the least normal or subnormal.
fn products() -> Vec<f32> {
    let mut points = Vec::new();
    for x in [
        1.844_674_4e19,
        1.084_202_2e-19,
        2.646_978e-23,
        5.0e7,
        2.5e-8,
        1.0e-9,
        0.1,
        0.9,
    ] {
        around(&mut points, x);
    }
    points
}

fn points_of(name: &str) -> Vec<f32> {
    let own = match name {
        "exp2" => exponents(),
        "pow10" => powers_of(std::f32::consts::LOG2_10),
        "exp" => powers_of(std::f32::consts::LOG2_E),
        "log2" | "log10" => logarithms(),
        "sin" | "cos" => angles(),
        "sqrt" => squares(),
        "rem_euclid" => remainders(),
        "powi2" | "powi5" => products(),
        "floor_to_count" | "ceil_to_count" => whole_and_half(),
        _ => Vec::new(),
    };
    [common(), own].concat()
}

/// Pairs and triples of the numbers of a short row.
fn rows(arguments: usize) -> Vec<[u32; 3]> {
    let row = [
        0.0,
        -0.0,
        1.0,
        1.0_f32.next_up(),
        -1.0,
        f32::INFINITY,
        f32::NEG_INFINITY,
        f32::NAN,
    ];
    let short = [0.0, -0.0, 1.0, f32::NAN];
    let mut found = Vec::new();
    if arguments == 2 {
        for a in row {
            found.extend(row.map(|b| [a, b, 0.0]));
        }
    } else {
        for x in row {
            for low in short {
                found.extend(short.map(|high| [x, low, high]));
            }
        }
    }
    found.into_iter().map(|row| row.map(f32::to_bits)).collect()
}

/// Random arguments of the kind that tests a function best.
fn random_bits(random: &mut Random, name: &str) -> u32 {
    if random.once_in(2) {
        return random.bits();
    }
    match name {
        "exp2" | "exp" | "pow10" => random.between(-150.0, 150.0).to_bits(),
        "sin" | "cos" => random.between(-40.0, 40.0).to_bits(),
        "log2" | "log10" | "sqrt" => random.bits() & 0x7fff_ffff,
        "rem_euclid" => random.between(-20.0, 20.0).to_bits(),
        "floor_to_count" | "ceil_to_count" => random.between(-2.0, 20_000.0).to_bits(),
        _ => random.between(-2.0, 2.0).to_bits(),
    }
}

/// The list so far; no record enters it twice.
#[derive(Default)]
struct Numbers {
    list: List,
    seen: HashSet<(usize, [u32; 3])>,
}

impl Numbers {
    fn record(&mut self, number: usize, arguments: [u32; 3]) {
        let function = &FUNCTIONS[number];
        let used: [u32; 3] = std::array::from_fn(|index| {
            if index < function.arguments {
                arguments[index]
            } else {
                0
            }
        });
        if !self.seen.insert((number, used)) {
            return;
        }
        self.list.word(number as u32);
        let mut line = function.name.to_string();
        for (index, argument) in used.into_iter().enumerate() {
            self.list.word(argument);
            if index < function.arguments {
                line += &format!(" {argument:08x}");
            }
        }
        self.list.line(&format!("{line} {}", function.of(used)));
    }

    fn edges(&mut self) {
        for (number, function) in FUNCTIONS.iter().enumerate() {
            if function.arguments > 1 {
                for row in rows(function.arguments) {
                    self.record(number, row);
                }
                continue;
            }
            for point in points_of(function.name) {
                self.record(number, [point.to_bits(), 0, 0]);
            }
            for nan in NANS {
                self.record(number, [nan, 0, 0]);
            }
        }
    }

    fn fill(&mut self) {
        let mut random = Random::new(SEED);
        for number in (0..FUNCTIONS.len()).cycle() {
            if self.list.calls.len() + RECORD > LARGEST {
                return;
            }
            let name = FUNCTIONS[number].name;
            let arguments = [0; 3].map(|_| random_bits(&mut random, name));
            self.record(number, arguments);
        }
    }
}

pub fn list() -> List {
    let mut numbers = Numbers::default();
    numbers.edges();
    numbers.fill();
    numbers.list
}
