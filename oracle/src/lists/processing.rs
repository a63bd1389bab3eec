//! The list `processing`: windows, softening, smoothing and the prepared spectrum.

use super::slices::{Slice, hash_text};
use super::{List, around_limits, float_text, outcome_text, refusal_text};
use crate::calls;
use crate::random::Random;
use crate::refusals::*;

const SEED: u64 = 33;

fn build_dual_synthesis_window(overlap: usize, analysis: Slice, synthesis: Slice) -> List {
    let mut lent = synthesis.made();
    let outcome = calls::build_dual_synthesis_window(&analysis.made(), &mut lent, overlap);
    let mut record = List::default();
    record.words(&[0, overlap as u32]);
    record.slices(&[analysis, synthesis]);
    let (answer, hash) = (outcome_text(outcome), hash_text(&lent));
    record.line(&format!("build_dual_synthesis_window {answer} {hash}"));
    record
}

fn soften_spectral_edges(source: Slice, output: Slice) -> List {
    let mut lent = output.made();
    let outcome = calls::soften_spectral_edges(&source.made(), &mut lent);
    let mut record = List::default();
    record.word(1);
    record.slices(&[source, output]);
    let (answer, hash) = (outcome_text(outcome), hash_text(&lent));
    record.line(&format!("soften_spectral_edges {answer} {hash}"));
    record
}

fn smooth_mask_in_db(elapsed: f32, current: Slice, target: Slice) -> List {
    let mut lent = current.made();
    let outcome = calls::smooth_mask_in_db(&mut lent, &target.made(), elapsed);
    let mut record = List::default();
    record.word(2);
    record.float(elapsed);
    record.slices(&[current, target]);
    let (answer, hash) = (outcome_text(outcome), hash_text(&lent));
    record.line(&format!("smooth_mask_in_db {answer} {hash}"));
    record
}

fn prepared_spectrum_new(
    rate: f32,
    overlap: usize,
    window: Slice,
    smooth: Slice,
    block: Slice,
) -> List {
    let mut lent = block.made();
    let (window_values, smooth_values) = (window.made(), smooth.made());
    let answer =
        calls::prepared_spectrum_new(rate, &window_values, &smooth_values, overlap, &mut lent);
    let mut record = List::default();
    record.word(3);
    record.float(rate);
    record.word(overlap as u32);
    record.slices(&[window, smooth, block]);
    let answer = match answer {
        Ok(gains) => gains.map(float_text).join(" "),
        Err(refusal) => refusal_text(refusal),
    };
    record.line(&format!(
        "prepared_spectrum_new {answer} {}",
        hash_text(&lent)
    ));
    record
}

fn add_windows(list: &mut List, random: &mut Random) {
    for overlap in 0..=18 {
        for length in [8, 16, 720] {
            let analysis = Slice::spread(random, length, (-1.0, 1.0));
            list.add(build_dual_synthesis_window(
                overlap,
                analysis,
                Slice::of(length, 7.0),
            ));
        }
    }
    for length in [0, 1, 2, 16_383, 16_384, 16_385] {
        for other in [length, length + 1] {
            let analysis = Slice::spread(random, length, WINDOW);
            list.add(build_dual_synthesis_window(
                1,
                analysis,
                Slice::of(other, 7.0),
            ));
        }
    }
    for value in around_limits(WINDOW)
        .into_iter()
        .chain([1.0e-6, 9.9e-7, 1.0e-20, 3.0e-15])
    {
        list.add(build_dual_synthesis_window(
            4,
            Slice::of(8, value),
            Slice::of(8, 7.0),
        ));
        let mut analysis = Slice::spread(random, 24, (-1.0, 1.0));
        analysis.put(random, value);
        analysis.put(random, 17.0);
        for overlap in [4, 5] {
            list.add(build_dual_synthesis_window(
                overlap,
                analysis,
                Slice::of(24, 7.0),
            ));
        }
        list.add(build_dual_synthesis_window(5, analysis, Slice::of(23, 7.0)));
    }
}

fn add_gains(list: &mut List, random: &mut Random) {
    for length in [0, 1, 2, 3, 4, 33, 8192, 8193, 8194] {
        for other in [length, length + 1] {
            let source = Slice::spread(random, length, (0.0, 2.0));
            list.add(soften_spectral_edges(source, Slice::of(other, 7.0)));
            let target = Slice::spread(random, other, (0.0, 2.0));
            list.add(smooth_mask_in_db(0.01, source, target));
        }
    }
    for gain in around_limits(GAIN)
        .into_iter()
        .chain([1.0e-6, 9.999e-7, 1.0])
    {
        list.add(soften_spectral_edges(Slice::of(3, gain), Slice::of(3, 7.0)));
        let mut source = Slice::spread(random, 33, (0.0, 2.0));
        let mut target = Slice::spread(random, 33, (0.0, 2.0));
        source.put(random, gain);
        target.put(random, 65.0);
        list.add(soften_spectral_edges(source, Slice::of(33, 7.0)));
        list.add(smooth_mask_in_db(0.01, source, target));
        list.add(smooth_mask_in_db(
            0.01,
            Slice::of(5, gain),
            Slice::of(5, 1.0),
        ));
        list.add(smooth_mask_in_db(
            0.01,
            Slice::of(5, 1.0),
            Slice::of(5, gain),
        ));
    }
    for elapsed in around_limits(ELAPSED).into_iter().chain([0.001, 0.03, 1.0]) {
        let current = Slice::spread(random, 33, (0.0, 64.0));
        list.add(smooth_mask_in_db(elapsed, current, Slice::of(33, 0.5)));
        list.add(smooth_mask_in_db(elapsed, current, Slice::of(32, -1.0)));
    }
}

fn add_spectra(list: &mut List, random: &mut Random) {
    let block = |size: usize| Slice::of(4 * size + size / 2 + 1, 7.0);
    for power in 5..=15 {
        let size = 1 << power;
        let window = Slice::spread(random, size, (0.0, 1.0));
        let smooth = Slice::spread(random, size, (-1.0, 1.0));
        list.add(prepared_spectrum_new(
            48_000.0,
            4,
            window,
            smooth,
            block(size),
        ));
    }
    for rate in around_limits(RATE) {
        let window = Slice::spread(random, 64, (0.0, 1.0));
        list.add(prepared_spectrum_new(rate, 2, window, window, block(64)));
        list.add(prepared_spectrum_new(
            rate,
            3,
            window,
            Slice::of(63, 99.0),
            block(64),
        ));
    }
    for value in around_limits(WINDOW) {
        list.add(prepared_spectrum_new(
            44_100.0,
            4,
            Slice::of(64, value),
            Slice::of(64, 1.0),
            block(64),
        ));
        let mut window = Slice::spread(random, 64, (0.0, 1.0));
        let mut smooth = Slice::spread(random, 64, (0.0, 1.0));
        window.put(random, value);
        let other = random.pick(&[16.5, 1.0]);
        smooth.put(random, other);
        list.add(prepared_spectrum_new(
            44_100.0,
            8,
            window,
            smooth,
            block(64),
        ));
        list.add(prepared_spectrum_new(
            44_100.0,
            7,
            window,
            smooth,
            block(64),
        ));
    }
    for overlap in [0, 1, 2, 3, 15, 16, 17, 32] {
        let window = Slice::spread(random, 64, (0.0, 1.0));
        list.add(prepared_spectrum_new(
            96_000.0,
            overlap,
            window,
            window,
            block(64),
        ));
    }
    for (smooth, length) in [(63, 289), (65, 289), (64, 288), (64, 290), (64, 0)] {
        let window = Slice::of(64, 1.0);
        let lent = Slice::of(length, 7.0);
        list.add(prepared_spectrum_new(
            96_000.0,
            1,
            window,
            Slice::of(smooth, 1.0),
            lent,
        ));
    }
}

/// A length, and now and then one short, one long or none.
fn mostly(random: &mut Random, length: usize) -> usize {
    if random.once_in(8) {
        random.pick(&[length.saturating_sub(1), length + 1, 0])
    } else {
        length
    }
}

/// Spread over limits, and now and then with a number among them that lies in no limits.
fn values(random: &mut Random, length: usize, limits: (f32, f32)) -> Slice {
    let mut slice = Slice::spread(random, length, limits);
    if random.once_in(8) {
        let other = random.pick(&[f32::NAN, f32::INFINITY, -65.0, 65.0]);
        slice.put(random, other);
    }
    slice
}

fn add_random(list: &mut List, random: &mut Random) -> bool {
    let overlap = 1 + random.below(16);
    let length = overlap * (1 + random.below(64));
    let divisor = mostly(random, overlap);
    let size = random.pick(&[1.0e-3, 1.0, 16.0]);
    let analysis = values(random, length, (-size, size));
    let synthesis = Slice::of(mostly(random, length), 7.0);

    let bins = random.below(300);
    let current = values(random, bins, (0.0, size));
    let output = Slice::of(mostly(random, bins), 7.0);
    let others = mostly(random, bins);
    let target = values(random, others, (0.0, 4.0));
    let elapsed = random.pick(&[0.0, 0.01, 0.05, 0.3, f32::NAN]);

    let window = values(random, 64, (0.0, size));
    let smooths = mostly(random, 64);
    let smooth = values(random, smooths, (0.0, 1.0));
    let block = Slice::of(mostly(random, 289), 7.0);
    let part = random.pick(&[1, 2, 4, 8, 16, 0, 3, 17]);

    list.add_all([
        build_dual_synthesis_window(divisor, analysis, synthesis),
        soften_spectral_edges(current, output),
        smooth_mask_in_db(elapsed, current, target),
        prepared_spectrum_new(44_100.0, part, window, smooth, block),
    ])
}

pub fn list() -> List {
    let mut list = List::default();
    let random = &mut Random::new(SEED);
    add_windows(&mut list, random);
    add_gains(&mut list, random);
    add_spectra(&mut list, random);
    while add_random(&mut list, random) {}
    list
}
