//! Random arguments through each exported function and through the oracle, compared bit by bit; and
//! laws of the stereo call, tried on the library alone.
//!
//!     compare SEED COUNT [SCENES [NAME]]
//!
//! COUNT is the number of calls of each function, and of the lists of calls on a mixer; SCENES is
//! that of the whole scenes that go through each mask builder, of those on which each law is tried,
//! and of the lists in which a mixer's strips are served, COUNT/100 where it is left out. With NAME
//! only the function of that name is called, or the law of that name tried. Two NaNs count as
//! equal; any other difference in bits is a failure: of an answer, a place, a value, a field of a
//! scene, a place of a bank or of a line, a counter, and of each entry of a slice that the call may
//! write. So is a scene on which a law does not hold. Exits 1 where there is one.

mod chord_law;
mod draw;
mod envelopes;
mod equal_numbers;
mod far_side;
mod joined_lists;
mod masks;
mod mixers;
mod numbers;
mod open_calls;
mod run;
mod scene_records;
mod stereo_calls;
mod strips;
mod tally;
mod voice_banks;

use run::Run;
use std::process::ExitCode;

fn order(words: &[&str]) -> Option<Run> {
    let (seed, count, scenes, only) = match *words {
        [seed, count] => (seed, count, None, None),
        [seed, count, scenes] => (seed, count, Some(scenes), None),
        [seed, count, scenes, name] => (seed, count, Some(scenes), Some(name)),
        _ => return None,
    };
    let count = count.parse().ok()?;
    Some(Run {
        seed: seed.parse().ok()?,
        count,
        scenes: scenes.map_or(Ok(count / 100), str::parse).ok()?,
        only: only.map(String::from),
        kinds: 0,
        differences: 0,
    })
}

fn main() -> ExitCode {
    let words: Vec<String> = std::env::args().skip(1).collect();
    let words: Vec<&str> = words.iter().map(String::as_str).collect();
    let Some(mut run) = order(&words) else {
        eprintln!("usage: compare SEED COUNT [SCENES [NAME]]");
        return ExitCode::from(2);
    };
    numbers::compare(&mut run);
    open_calls::compare(&mut run);
    scene_records::compare(&mut run);
    voice_banks::compare(&mut run);
    mixers::compare(&mut run);
    masks::compare(&mut run);
    far_side::compare(&mut run);
    joined_lists::compare(&mut run);
    chord_law::compare(&mut run);
    if run.kinds == 0 {
        eprintln!("no function and no law has that name");
        return ExitCode::from(2);
    }
    let differences = run.differences;
    println!("{differences} differences");
    ExitCode::from(u8::from(differences > 0))
}
