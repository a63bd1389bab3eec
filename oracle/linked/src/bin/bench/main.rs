//! Nanoseconds per call of the port beside Rust's std and beside the unaltered Rust, and for what
//! the Rust does not have beside the oracle, in one run, the best of many.
//!
//!     bench [SEED [masks | calls]]
//!
//! The scenes of the mask builders are drawn from SEED, 1 where it is left out. With the word
//! `masks` the mask builders alone are timed, with `calls` the other open calls alone. Exits 1
//! where a mask is not the oracle's.

mod classes;
mod masks;
mod mixers;
mod numbers;
mod open_calls;
mod scene_records;
mod single_numbers;
mod voice_banks;

use std::process::ExitCode;

/// What is timed.
enum Part {
    All,
    Masks,
    Calls,
}

/// The seed, and the part.
fn order(words: &[&str]) -> Option<(u64, Part)> {
    let part = match words {
        [] | [_] => Part::All,
        [_, "masks"] => Part::Masks,
        [_, "calls"] => Part::Calls,
        _ => return None,
    };
    let seed = words.first().map_or(Ok(1), |seed| seed.parse()).ok()?;
    Some((seed, part))
}

/// Prints the tables of the mask builders, and answers the status of the program.
fn mask_tables(seed: u64) -> ExitCode {
    let wrong = masks::table(seed);
    if wrong > 0 {
        println!("\n{wrong} scenes with masks that are not the oracle's");
    }
    ExitCode::from(u8::from(wrong > 0))
}

/// Prints the tables of the other open calls.
fn call_tables() {
    open_calls::table();
    println!();
    scene_records::table();
    println!();
    voice_banks::table();
    println!();
    mixers::table();
}

fn main() -> ExitCode {
    let words: Vec<String> = std::env::args().skip(1).collect();
    let words: Vec<&str> = words.iter().map(String::as_str).collect();
    let Some((seed, part)) = order(&words) else {
        eprintln!("usage: bench [SEED [masks | calls]]");
        return ExitCode::from(2);
    };
    match part {
        Part::All => {
            numbers::table();
            println!();
            call_tables();
            println!();
            mask_tables(seed)
        }
        Part::Masks => mask_tables(seed),
        Part::Calls => {
            call_tables();
            ExitCode::SUCCESS
        }
    }
}
