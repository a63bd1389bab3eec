//! bindings/c/example.c, where there is a C compiler: what it prints is what the safe calls give on
//! the same scene, bit by bit. The header is also compiled as C++, where there is a compiler.

use dovetable::*;
use std::path::{Path, PathBuf};
use std::process::{Command, Stdio};

const STRICT: [&str; 4] = ["-Wall", "-Wextra", "-Werror", "-pedantic"];

fn root() -> PathBuf {
    Path::new(env!("CARGO_MANIFEST_DIR")).join("../..")
}

/// A compiler with the strict flags and the header's folder; none if it is not installed.
fn compiler(name: &str, standard: &str) -> Option<Command> {
    let quiet = Command::new(name)
        .arg("--version")
        .stdout(Stdio::null())
        .stderr(Stdio::null())
        .status();
    if quiet.is_err() {
        eprintln!("{name} is not on this machine");
        return None;
    }
    let mut command = Command::new(name);
    command.arg(standard).args(STRICT);
    command.arg("-I").arg(root().join("include"));
    Some(command)
}

/// The chord of the C program.
fn chord() -> [MaskVoice; 3] {
    let voice = |pitch, pan| MaskVoice {
        pitch,
        level: 1.0,
        pan,
        ..MaskVoice::default()
    };
    let note = |note| Pitch::Note {
        note,
        semitones: 0.0,
    };
    let fifth = Pitch::Hertz { hertz: 392.44 };
    [
        voice(note(60), -0.5),
        voice(note(64), 0.0),
        voice(fifth, 0.5),
    ]
}

/// The masks of some voices at the C program's settings and curve.
fn masks(voices: &[MaskVoice]) -> [Vec<f32>; 2] {
    let config = MaskConfig {
        note_depth_db: 48.0,
        width_cents: 50.0,
        partials: 8,
        motion: MotionConfig {
            shape: MotionShape::Ripple,
            depth_db: 12.0,
            phase: 0.25,
            size_octaves: 2.0,
        },
        ..MaskConfig::default()
    };
    let curve: Vec<f32> = (0..MANUAL_MASK_POINTS)
        .map(|point| -(point as f32) * (24.0 / 8192.0))
        .collect();
    let mut table = vec![0.0; config.bins()];
    MaskWorkspace::prepare(&mut table, config.sample_rate, config.fft_size).unwrap();
    let mut masks = [table.clone(), table.clone()];
    let [left, right] = &mut masks;
    build_stereo_masks_with_voices_precomputed(left, right, &curve, voices, config, &table)
        .unwrap();
    masks
}

/// The lines are bins, each with the gains that these voices give it.
fn are_gains(lines: &[&str], voices: &[MaskVoice]) {
    let [left, right] = masks(voices);
    for line in lines {
        let words: Vec<&str> = line.split_whitespace().collect();
        let bin: usize = words[0].parse().unwrap();
        let printed: [f32; 2] = [words[1].parse().unwrap(), words[2].parse().unwrap()];
        let bits = |gains: [f32; 2]| gains.map(f32::to_bits);
        assert_eq!(bits(printed), bits([left[bin], right[bin]]), "{line}");
    }
}

/// The requests, of which one is refused, then the turns: strip 7 has the first voice of the chord,
/// strip 4 a voice that is refused, strip 12 the third.
fn is_the_mixer(lines: &[&str]) {
    let requests = [(7, 0), (4, 0), (16, 11), (7, 0), (12, 0)];
    let shown = |(strip, number)| format!("strip {strip}: {number} at 0");
    assert_eq!(lines[..5], requests.map(shown));
    assert_eq!(lines[5], shown((7, 0)));
    are_gains(&lines[6..11], &chord()[..1]);
    assert_eq!(lines[11..13], [(4, 5), (12, 0)].map(shown));
    are_gains(&lines[13..], &chord()[2..]);
}

#[test]
fn the_example_prints_what_the_safe_calls_give() {
    let Some(mut cc) = compiler("cc", "-std=c11") else {
        return;
    };
    let program = Path::new(env!("CARGO_TARGET_TMPDIR")).join("example");
    cc.arg(root().join("bindings/c/example.c"));
    cc.arg(env!("DOVETABLE_LINKED"));
    assert!(cc.arg("-o").arg(&program).status().unwrap().success());

    let run = Command::new(&program).output().unwrap();
    assert!(run.status.success());
    let text = String::from_utf8(run.stdout).unwrap();
    let lines: Vec<&str> = text.lines().collect();
    assert_eq!(lines.len(), 30);
    let (chord_bins, bank_bins) = lines[..10].split_at(5);
    are_gains(chord_bins, &chord());
    // Of the bank the third voice is left.
    are_gains(bank_bins, &chord()[2..]);
    assert_ne!(chord_bins, bank_bins);
    is_the_mixer(&lines[10..28]);
    assert_eq!(lines[28..], ["refused: 10 at 0, 1 left", "refused: 5 at 2"]);
}

#[test]
fn the_header_is_cpp_too() {
    if let Some(mut cpp) = compiler("c++", "-std=c++11") {
        cpp.args(["-fsyntax-only", "-x", "c++-header"]);
        cpp.arg(root().join("include/dovetable.h"));
        assert!(cpp.status().unwrap().success());
    }
}
