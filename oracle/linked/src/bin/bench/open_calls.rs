//! The open calls, beside the unaltered Rust at the same sizes and on the same numbers.

use crate::single_numbers;
use linked::calls as port;
use linked::dovetable_advance_note_envelopes;
use oracle::calls::is_held;
use oracle::random::Random;
use oracle::spectral_dsp::MIDI_NOTES;
use std::hint::black_box;
use std::time::Instant;

/// The turns that the two sides of a row take, and the time of either side's turn.
const TURNS: usize = 3;
const NANOSECONDS: u128 = 100_000_000;
/// The calls between two looks at the clock, for what takes little time.
pub const SHORT: u32 = 1000;

/// Nanoseconds per call of `work`, the least of many groups of calls.
fn best(group: u32, mut work: impl FnMut()) -> f64 {
    let begin = Instant::now();
    let mut least = f64::INFINITY;
    while begin.elapsed().as_nanos() < NANOSECONDS {
        let start = Instant::now();
        for _ in 0..group {
            work();
        }
        least = least.min(start.elapsed().as_nanos() as f64 / f64::from(group));
    }
    least
}

/// The two sides take turns, so that a slow stretch of the machine does not fall on one alone.
pub fn row(name: &str, group: u32, mut port: impl FnMut(), mut other: impl FnMut()) {
    let (mut ours, mut theirs) = (f64::INFINITY, f64::INFINITY);
    for _ in 0..TURNS {
        ours = ours.min(best(group, &mut port));
        theirs = theirs.min(best(group, &mut other));
    }
    let ratio = ours / theirs;
    println!("{name:<44}{ours:>11.1}{theirs:>11.1}{ratio:>9.2}");
}

pub fn spread(length: usize, low: f32, high: f32) -> Vec<f32> {
    let mut random = Random::new(1);
    (0..length).map(|_| random.between(low, high)).collect()
}

/// At an address that is a multiple of 64, as a plug-in would place its banks. With banks that
/// stand wherever the stack of the day begins, the time of either side differs by up to a quarter
/// between two runs of one build.
#[derive(Clone, Copy)]
#[repr(align(64))]
struct Aligned<T>(T);

/// A bank of which these notes are held, put back before each call. The library's function is called
/// itself, as a program in C calls it: what `port` lends and looks at around a call takes 3 ns.
fn envelopes(name: &str, held: [u8; 16]) {
    let levels = spread(MIDI_NOTES, 0.0, 1.0).try_into();
    let levels: Aligned<[f32; MIDI_NOTES]> = Aligned(levels.expect("a level for each note"));
    let flags: [bool; MIDI_NOTES] = std::array::from_fn(|note| is_held(held, note));
    let (held, flags) = (Aligned(held), Aligned(flags));
    let (mut ours, mut theirs) = (levels, levels);
    let (elapsed, fade) = (0.01, 50.0);
    let mut place = 0;
    row(
        &format!("advance_note_envelopes, {name}"),
        SHORT,
        || {
            ours = *black_box(&levels);
            let (bank, held) = (&mut ours.0, &black_box(&held).0);
            let (notes, n) = (bank.as_mut_ptr(), bank.len());
            let (bytes, m) = (held.as_ptr(), held.len());
            // A pointer and a length are those of one array.
            black_box(unsafe {
                dovetable_advance_note_envelopes(notes, n, bytes, m, elapsed, fade, &mut place)
            });
            black_box(&ours);
        },
        || {
            theirs = *black_box(&levels);
            let (bank, flags) = (&mut theirs.0, &black_box(&flags).0);
            original::advance_note_envelopes(bank, flags, elapsed, fade);
            black_box(&theirs);
        },
    );
}

fn banks() {
    let mut random = Random::new(1);
    envelopes("mixed", std::array::from_fn(|_| random.word() as u8));
    envelopes("all held", [0xff; 16]);
    envelopes("none held", [0; 16]);
}

fn tables() {
    for size in [1024, 8192] {
        let mut table = vec![0.0; size / 2 + 1];
        let mut workspace = original::MaskWorkspace::default();
        let mut rate = 48_000.0;
        row(
            &format!("prepare, size {size}"),
            1,
            || {
                black_box(port::prepare(&mut table, black_box(48_000.0), size));
            },
            || {
                // At the rate and size of the last call the Rust does nothing.
                rate = if rate == 48_000.0 { 44_100.0 } else { 48_000.0 };
                workspace.prepare(black_box(rate), size);
                black_box(&workspace);
            },
        );
    }
}

fn windows(size: usize) {
    let analysis = spread(size, 0.0, 1.0);
    let (mut ours, mut theirs) = (vec![0.0; size], vec![0.0; size]);
    row(
        &format!("build_dual_synthesis_window, {size}, overlap 4"),
        1,
        || {
            black_box(port::build_dual_synthesis_window(&analysis, &mut ours, 4));
        },
        || {
            let (from, to) = (black_box(&analysis), black_box(&mut theirs));
            original::processing::build_dual_synthesis_window(from, to, 4);
        },
    );
}

fn gain_lists(bins: usize) {
    let (source, target) = (spread(bins, 0.0, 2.0), spread(bins, 0.0, 1.0));
    let (mut ours, mut theirs) = (vec![0.0; bins], vec![0.0; bins]);
    row(
        &format!("soften_spectral_edges, {bins} bins"),
        1,
        || {
            black_box(port::soften_spectral_edges(&source, &mut ours));
        },
        || {
            let (from, to) = (black_box(&source), black_box(&mut theirs));
            original::processing::soften_spectral_edges(from, to);
        },
    );
    row(
        &format!("smooth_mask_in_db, {bins} bins"),
        1,
        || {
            ours.copy_from_slice(&source);
            black_box(port::smooth_mask_in_db(&mut ours, &target, 0.01));
        },
        || {
            theirs.copy_from_slice(&source);
            let (current, target) = (black_box(&mut theirs), black_box(&target));
            original::processing::smooth_mask_in_db(current, target, 0.01);
        },
    );
}

fn spectra(size: usize) {
    let (window, smooth) = (spread(size, 0.0, 1.0), spread(size, -1.0, 1.0));
    let mut block = vec![0.0; 4 * size + size / 2 + 1];
    row(
        &format!("PreparedSpectrum::new, size {size}, overlap 4"),
        1,
        || {
            black_box(port::prepared_spectrum_new(
                48_000.0, &window, &smooth, 4, &mut block,
            ));
        },
        || {
            let (window, smooth) = (black_box(&window).clone(), black_box(&smooth).clone());
            let prepared = original::processing::PreparedSpectrum::new(48_000.0, window, smooth, 4);
            black_box(&prepared);
        },
    );
}

/// The heading of the rows, with the name of the other side.
pub fn heading(other: &str) {
    println!(
        "{:<44}{:>11}{other:>11}{:>9}",
        "ns per call", "port", "ratio"
    );
}

pub fn table() {
    heading("Rust");
    single_numbers::rows();
    banks();
    tables();
    windows(1024);
    windows(8192);
    gain_lists(513);
    gain_lists(4097);
    spectra(8192);
}
