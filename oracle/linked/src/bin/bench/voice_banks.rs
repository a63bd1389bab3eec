//! The calls on a bank of voices: those that change it, which the Rust does not have, beside the
//! oracle's, and reading beside the port's stereo call on the same voices. The goal of each change
//! is a microsecond, that of reading is the stereo call's time.

use crate::open_calls::{SHORT, heading, row};
use crate::scene_records::full_scene;
use linked::calls::{self as port, Crossing, Held, bank_of, holds, record_of};
use linked::{Bank, Banked, dovetable_add_voice, dovetable_change_voice, dovetable_remove_voice};
use oracle::bank_calls::Step;
use oracle::builders::{Builder, Lent};
use oracle::numbers::first_difference;
use oracle::refusals::MAX_VOICES;
use oracle::scenes::Scene;
use oracle::spectral_dsp::{MANUAL_MASK_POINTS, MaskConfig, MaskVoice};
use oracle::voice_bank;
use std::hint::black_box;

/// Voices under the ids from 0 on, as the oracle has them.
fn present(voices: &[MaskVoice]) -> voice_bank::Bank<Held> {
    let held = voices.iter().map(|voice| Held(record_of(voice)));
    (0..).zip(held).collect()
}

fn block(voices: &[MaskVoice]) -> Bank {
    bank_of((0..).zip(voices.iter().map(record_of)))
}

/// A call on the bank of these voices. The library's function is called itself, as a program in C
/// calls it.
fn change(name: &str, voices: &[MaskVoice], step: Step, call: impl Fn(Bank) -> Banked) {
    let (block, present) = (block(voices), present(voices));
    let step = step.map(|voice| Held(record_of(&voice)));
    row(
        name,
        SHORT,
        || {
            black_box(call(*black_box(&block)));
        },
        || {
            let (outcome, bank) = black_box(step).on(black_box(&present).clone());
            black_box(bank);
            outcome.expect("it is accepted");
        },
    );
    let (given, (_, bank)) = (call(block), step.on(present));
    let right = given.number == 0 && holds(&given.bank, &bank);
    assert!(right, "{name}: the bank is not the oracle's");
}

/// Adding the 128th voice, taking out the first of 128, for which all others move, and changing
/// the last, which is found last.
fn changes(voices: &[MaskVoice]) {
    let (last, voice) = (MAX_VOICES as u16 - 1, voices[0]);
    let record = record_of(&voice);
    change(
        "add_voice, to 127 voices",
        &voices[..MAX_VOICES - 1],
        Step::Add(last, voice),
        |bank| dovetable_add_voice(bank, last, black_box(record)),
    );
    change(
        "remove_voice, the first of 128",
        voices,
        Step::Remove(0),
        |bank| dovetable_remove_voice(bank, black_box(0)),
    );
    change(
        "change_voice, the last of 128",
        voices,
        Step::Change(last, voice),
        |bank| dovetable_change_voice(bank, last, black_box(record)),
    );
}

/// What both calls of a row are lent.
pub fn lent(voices: &[MaskVoice], fft_size: usize) -> Lent {
    let scene = Scene {
        config: MaskConfig {
            fft_size,
            note_depth_db: 48.0,
            partials: 8,
            ..MaskConfig::default()
        },
        voices: voices.to_vec(),
        curve: vec![0.0; MANUAL_MASK_POINTS],
    };
    Lent {
        table: scene.table(),
        config: scene.config,
        curve: scene.curve,
        levels: Vec::new(),
        voices: scene.voices,
        block: Vec::new(),
    }
}

/// Reading the masks of a bank, and building them from the same voices.
fn reading(voices: &[MaskVoice], fft_size: usize) {
    let lent = lent(voices, fft_size);
    let (bank, crossing) = (block(voices), Crossing::from(&lent));
    let masks = [0; 2].map(|_| vec![0.0; lent.table.len()]);
    let (mut ours, mut theirs) = (masks.clone(), masks);
    let (mut read, mut built) = (u32::MAX, u32::MAX);
    row(
        &format!("read_masks, {} voices, size {fft_size}", voices.len()),
        1,
        || {
            let (bank, settings) = (*black_box(&bank), crossing.settings);
            read = port::read_masks(bank, &lent, settings, black_box(&mut ours)).number;
        },
        || {
            let builder = Builder::StereoPrecomputed;
            built =
                port::build(builder, &lent, black_box(&crossing), black_box(&mut theirs)).number;
        },
    );
    assert_eq!((read, built), (0, 0), "both are accepted");
    let bin = first_difference(&ours.concat(), &theirs.concat());
    assert_eq!(bin, None, "the masks are not the stereo call's");
}

pub fn table() {
    let voices = full_scene().voices;
    heading("oracle");
    changes(&voices);
    println!();
    heading("stereo");
    reading(&voices[..6], 1024);
    reading(&voices[..6], 8192);
    reading(&voices, 1024);
}
