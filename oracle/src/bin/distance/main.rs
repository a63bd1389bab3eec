//! How far the agreed meaning, which the oracle has, is from a build of the unaltered Rust.
//!
//!     distance SEED COUNT
//!
//! COUNT scenes of each kind are drawn from the seed, and COUNT times 1,000 arguments of each
//! function. Prints the functions, the calls, whole masks, and for each cause of a difference the
//! smallest input that shows it.

mod calls;
mod causes;
mod functions;
mod masks;
mod measure;
mod refused;
mod variants;

use std::process::ExitCode;

fn main() -> ExitCode {
    let words: Vec<u64> = std::env::args()
        .skip(1)
        .flat_map(|word| word.parse())
        .collect();
    let &[seed, count] = words.as_slice() else {
        eprintln!("usage: distance SEED COUNT");
        return ExitCode::from(2);
    };
    masks::print(seed, count);
    causes::print(seed, count);
    refused::print();
    functions::print(seed, count * 1000);
    calls::print(seed, count);
    ExitCode::SUCCESS
}
