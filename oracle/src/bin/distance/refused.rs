//! What the unaltered Rust does with input that the port refuses: an example of each refusal.

use crate::measure::both;
use original::{
    MANUAL_MASK_POINTS, MaskConfig, MaskVoice, MaskWorkspace, advance_note_envelopes,
    build_stereo_masks_with_voices_precomputed, note_emphasis_gain, note_gate_gain,
    processing::build_dual_synthesis_window,
};
use std::panic::{AssertUnwindSafe, catch_unwind};

/// The left gain at bin 1, of a call on slices of these lengths.
fn stereo(config: MaskConfig, voices: &[MaskVoice], lengths: [usize; 2]) -> String {
    let mut workspace = MaskWorkspace::default();
    workspace.prepare(config.sample_rate, config.fft_size);
    let [mut left, mut right] = lengths.map(|length| vec![0.0; length]);
    let curve = [0.0; MANUAL_MASK_POINTS];
    build_stereo_masks_with_voices_precomputed(
        &mut left, &mut right, &curve, voices, config, &workspace,
    );
    let last = left.len() - 1;
    format!(
        "left gain at bin {} {}",
        last.min(1),
        both(left[last.min(1)])
    )
}

fn voice(note: u8, pan: f32) -> MaskVoice {
    MaskVoice {
        note,
        level: 1.0,
        pan,
        ..MaskVoice::default()
    }
}

fn sized(fft_size: usize) -> MaskConfig {
    MaskConfig {
        fft_size,
        ..MaskConfig::default()
    }
}

fn level_after(level: f32) -> String {
    let mut levels = [level; 128];
    advance_note_envelopes(&mut levels, &[true; 128], 0.01, 100.0);
    format!("level {}", both(levels[0]))
}

fn dual() -> String {
    let mut synthesis = [0.0; 8];
    build_dual_synthesis_window(&[1.0; 8], &mut synthesis, 3);
    format!("dual {}", both(synthesis[0]))
}

type Example = (u8, &'static str, fn() -> String);

const EXAMPLES: [Example; 12] = [
    (1, "size 96", || {
        stereo(sized(96), &[voice(69, 0.0)], [49; 2])
    }),
    (1, "size 0", || stereo(sized(0), &[voice(69, 0.0)], [1; 2])),
    (2, "width 0.5", || {
        format!("gain {}", both(note_emphasis_gain(0.5)))
    }),
    (2, "note depth -6", || {
        format!("gain {}", both(note_gate_gain(-6.0, 100.0, 0.0)))
    }),
    (2, "openness NaN", || {
        format!("gain {}", both(note_gate_gain(6.0, 100.0, f32::NAN)))
    }),
    (3, "129 voices", || {
        stereo(sized(64), &[voice(69, 0.0); 129], [33; 2])
    }),
    (4, "left of 4,096 at size 8,192", || {
        stereo(sized(8192), &[voice(69, 0.0)], [4096, 4097])
    }),
    (4, "both of 4,096 at size 8,192", || {
        stereo(sized(8192), &[voice(69, 0.0)], [4096, 4096])
    }),
    (5, "note 128", || {
        stereo(sized(64), &[voice(128, 0.0)], [33; 2])
    }),
    (5, "pan NaN", || {
        stereo(sized(64), &[voice(69, f32::NAN)], [33; 2])
    }),
    (7, "level 1.5", || level_after(1.5)),
    (8, "overlap 3, length 8", dual),
];

pub fn print() {
    println!("\n## What the unaltered Rust does with input that is refused");
    let usual = std::panic::take_hook();
    std::panic::set_hook(Box::new(|_| ()));
    for (number, example, run) in EXAMPLES {
        let answer = catch_unwind(AssertUnwindSafe(run)).unwrap_or_else(|_| "panics".to_string());
        println!("{number}  {example:<30}{answer}");
    }
    std::panic::set_hook(usual);
}
