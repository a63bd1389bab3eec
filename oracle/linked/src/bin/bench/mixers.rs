//! The calls on a mixer: a request and a turn, which the Rust does not have, beside the oracle's,
//! and serving beside the port's stereo call on the same scene.

use crate::open_calls::{SHORT, heading, row};
use crate::scene_records::full_scene;
use crate::voice_banks::lent;
use linked::calls::{self as port, Crossing, has_line, passed};
use linked::{Mixer, StripScenes, dovetable_request, dovetable_turn};
use oracle::builders::Builder;
use oracle::calls;
use oracle::mixer::{self, STRIPS};
use oracle::numbers::first_difference;
use oracle::scene_records::StoredScene;
use oracle::spectral_dsp::MaskVoice;
use std::hint::black_box;

/// A mixer in which the first strips wait, on both sides.
fn waiting(count: usize) -> (Mixer, mixer::Mixer) {
    let line = mixer::Mixer {
        waiting: (0..count).collect(),
        served: 0,
    };
    let block = Mixer {
        strips: std::array::from_fn(|place| if place < count { place } else { 0 }),
        count,
        served: 0,
    };
    (block, line)
}

/// The strip is looked for among all others. The library's functions are called themselves, as a
/// program in C calls them.
fn request() {
    let ((block, line), strip) = (waiting(STRIPS - 1), STRIPS - 1);
    row(
        "request, 15 others wait",
        SHORT,
        || {
            black_box(dovetable_request(*black_box(&block), black_box(strip)));
        },
        || {
            let (outcome, line) = calls::request(black_box(&line).clone(), black_box(strip));
            black_box(line);
            outcome.expect("it is accepted");
        },
    );
    let (filed, (_, line)) = (dovetable_request(block, strip), calls::request(line, strip));
    let right = filed.number == 0 && has_line(&filed.mixer, &line);
    assert!(right, "request: the mixer is not the oracle's");
}

/// All others move up.
fn turn() {
    let (block, line) = waiting(STRIPS);
    row(
        "turn, 16 wait",
        SHORT,
        || {
            black_box(dovetable_turn(*black_box(&block)));
        },
        || {
            black_box(calls::turn(black_box(&line).clone()));
        },
    );
    let (turned, (named, line)) = (dovetable_turn(block), calls::turn(line));
    let right = Some(turned.strip) == named && has_line(&turned.mixer, &line);
    assert!(right, "turn: the mixer is not the oracle's");
}

/// Serving the last strip, and building the masks of its scene.
fn serving(voices: &[MaskVoice], fft_size: usize) {
    let lent = lent(voices, fft_size);
    let scene = passed(&StoredScene {
        config: lent.config,
        voices: voices.to_vec(),
    });
    let scenes = StripScenes {
        scenes: [scene; STRIPS],
    };
    let mut block = waiting(1).0;
    block.strips[0] = STRIPS - 1;
    let crossing = Crossing::from(&lent);
    let masks = [0; 2].map(|_| vec![0.0; lent.table.len()]);
    let (mut ours, mut theirs) = (masks.clone(), masks);
    let (mut served, mut built) = (u32::MAX, u32::MAX);
    row(
        &format!("serve, {} voices, size {fft_size}", voices.len()),
        1,
        || {
            let (block, scenes) = (*black_box(&block), black_box(&scenes));
            served = port::serve(block, scenes, &lent, black_box(&mut ours)).number;
        },
        || {
            let (builder, crossing) = (Builder::StereoPrecomputed, black_box(&crossing));
            built = port::build(builder, &lent, crossing, black_box(&mut theirs)).number;
        },
    );
    assert_eq!((served, built), (0, 0), "both are accepted");
    let bin = first_difference(&ours.concat(), &theirs.concat());
    assert_eq!(bin, None, "the masks are not the stereo call's");
}

pub fn table() {
    let voices = full_scene().voices;
    heading("oracle");
    request();
    turn();
    println!();
    heading("stereo");
    serving(&voices[..6], 1024);
    serving(&voices[..6], 8192);
    serving(&voices, 1024);
}
