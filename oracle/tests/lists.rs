//! The replay lists: they fit, and they show every refusal of every call, both forms of a pitch,
//! and damaged curves.

use oracle::builders::Builder;
use oracle::lists::{LARGEST, List, Named, PROGRAMS};
use std::collections::{BTreeMap, BTreeSet};

fn all() -> impl Iterator<Item = &'static Named> {
    PROGRAMS.iter().flat_map(|program| program.lists)
}

/// The lines of a list, counted by call and refusal number, 0 for an accepted call.
fn counts(stdout: &str) -> BTreeMap<(&str, u32), usize> {
    let mut counts = BTreeMap::new();
    for line in stdout.lines() {
        let words: Vec<&str> = line.split(' ').collect();
        let refused = words.iter().position(|word| *word == "refused");
        let number = refused.map_or(0, |at| words[at + 1].parse().expect("a number"));
        *counts.entry((words[0], number)).or_default() += 1;
    }
    counts
}

fn list_of(name: &str) -> List {
    let named = all().find(|named| named.name == name);
    (named.expect("a list of this name").write)()
}

#[test]
fn lists_fit() {
    for named in all() {
        assert!((named.write)().calls.len() <= LARGEST, "{}", named.name);
    }
}

#[test]
fn names_differ() {
    let names: BTreeSet<&str> = all().map(|named| named.name).collect();
    assert_eq!(names.len(), all().count());
}

/// Of each call, each of these numbers in at least twenty lines of the list.
fn shows(list: &str, rows: &[(&str, &[u32])]) {
    let list = list_of(list);
    let counts = counts(&list.stdout);
    for (call, numbers) in rows {
        for number in *numbers {
            let count = counts.get(&(call, *number)).copied().unwrap_or(0);
            assert!(count >= 20, "{call}, number {number}: {count} lines");
        }
    }
}

#[test]
fn every_call_and_refusal_shows_twenty_times() {
    let oiko: [(&str, &[u32]); 3] = [
        ("db_to_gain", &[0, 2]),
        ("note_frequency", &[0, 2]),
        ("note_frequency_with_tuning", &[0, 2]),
    ];
    shows("oiko_dsp", &oiko);
    let spectral: [(&str, &[u32]); 8] = [
        ("note_emphasis_gain", &[0, 2]),
        ("note_gate_gain", &[0, 2]),
        ("manual_gain_at_bin", &[0, 1, 2, 4]),
        ("motion_openness", &[0, 2]),
        ("motion_attenuation_db", &[0, 2]),
        ("motion_compensation_gain", &[0, 2]),
        ("advance_note_envelopes", &[0, 2, 7]),
        ("prepare", &[0, 1, 4]),
    ];
    shows("spectral_dsp", &spectral);
    let processing: [(&str, &[u32]); 4] = [
        ("build_dual_synthesis_window", &[0, 4, 7, 8]),
        ("soften_spectral_edges", &[0, 4, 7]),
        ("smooth_mask_in_db", &[0, 2, 4, 7]),
        ("prepared_spectrum_new", &[0, 1, 4, 7, 8]),
    ];
    shows("processing", &processing);
}

#[test]
fn every_mask_builder_and_refusal_shows_twenty_times() {
    let accepted = Builder::LISTED.map(|builder| (builder.name(), &[0][..]));
    shows("masks", &accepted);
    let refused: [(Builder, &[u32]); 4] = [
        (Builder::Mask, &[1, 2, 4, 7]),
        (Builder::WithVoices, &[1, 2, 3, 4, 5]),
        (Builder::WithVoicesPrecomputed, &[1, 2, 3, 4, 5, 6]),
        (Builder::StereoPrecomputed, &[1, 2, 3, 4, 5, 6]),
    ];
    let refused = refused.map(|(builder, numbers)| (builder.name(), numbers));
    shows("mask_refusals", &refused);
}

#[test]
fn both_calls_on_scene_records_and_their_refusals_show_twenty_times() {
    let rows: [(&str, &[u32]); 2] = [
        ("write_scene", &[0, 1, 2, 3, 4, 5]),
        ("read_scene", &[0, 1, 2, 3, 5, 9]),
    ];
    shows("scene_records", &rows);
}

#[test]
fn the_calls_on_a_bank_and_their_refusals_show_twenty_times() {
    let rows: [(&str, &[u32]); 4] = [
        ("add_voice", &[0, 3, 5, 10]),
        ("remove_voice", &[0, 10]),
        ("change_voice", &[0, 5, 10]),
        ("read_masks", &[0, 1, 2, 3, 4, 5, 6]),
    ];
    shows("voice_banks", &rows);
}

#[test]
fn the_calls_on_a_mixer_and_their_refusals_show_twenty_times() {
    let rows: [(&str, &[u32]); 3] = [
        ("request", &[0, 11]),
        ("turn", &[0]),
        ("serve", &[0, 1, 2, 3, 4, 5, 6, 11]),
    ];
    shows("mixers", &rows);
}

/// The records of a list, given how many words the one has that stands at the beginning.
fn records(calls: &[u8], length: fn(&[u32]) -> usize) -> Vec<Vec<u32>> {
    let words = calls
        .chunks(4)
        .map(|word| word.try_into().expect("4 bytes"));
    let words: Vec<u32> = words.map(u32::from_be_bytes).collect();
    let (mut records, mut rest) = (Vec::new(), &words[..]);
    while !rest.is_empty() {
        let (record, after) = rest.split_at(length(rest));
        records.push(record.to_vec());
        rest = after;
    }
    records
}

/// Where the voices of a mask builder stand, or the record's end where it takes none: after the
/// call, the settings, masks, curve, and levels or a table.
fn voices_at(record: &[u32]) -> usize {
    let before = [12 + 1 + 8 + 8, 12 + 1 + 8, 12 + 1 + 8 + 9, 12 + 2 + 8 + 9];
    before[record[0] as usize]
}

/// The words of a count of voices, of the number of those that are stored, and of these.
fn of_voices(words: &[u32]) -> usize {
    2 + 8 * words[1] as usize
}

fn mask_record(words: &[u32]) -> usize {
    let voices = voices_at(words);
    match words[0] {
        0 => voices,
        _ => voices + of_voices(&words[voices..]),
    }
}

fn bank_record(words: &[u32]) -> usize {
    match words[0] {
        0 => 1,
        1 | 3 => 10,
        2 => 2,
        4 => 12 + 2 + 8 + 9,
        _ => 3 + of_voices(&words[3..]),
    }
}

fn mixer_record(words: &[u32]) -> usize {
    match words[0] {
        0 | 2 => 1,
        1 => 2,
        3 => 2 + 2 + 8 + 9,
        4 => 4 + 16,
        _ => 13 + of_voices(&words[13..]),
    }
}

/// The forms of the stored voices of each record of a mask builder.
fn forms(calls: &[u8]) -> Vec<Vec<u32>> {
    let of = |record: Vec<u32>| {
        let stored = record.get(voices_at(&record) + 2..).unwrap_or_default();
        stored.chunks(8).map(|voice| voice[0] / 256).collect()
    };
    let records = records(calls, mask_record).into_iter();
    records.map(of).collect()
}

/// Whether a bin of this size reads a NaN of a curve that these 8 words describe.
fn mutes(size: u32, curve: &[u32]) -> bool {
    let is_nan = |word: u32| f32::from_bits(word).is_nan();
    let is_put = |put: &[u32]| put[0].is_multiple_of(16_384 / size) && is_nan(put[1]);
    is_nan(curve[2]) || curve[4..].chunks(2).any(is_put)
}

/// Where a record has its size and its curve.
struct Places {
    size: usize,
    curve: usize,
}

/// How many lines of a call are done and have a muted bin.
fn muted(list: &List, length: fn(&[u32]) -> usize, call: &str, at: Places) -> usize {
    let records = records(&list.calls, length);
    assert_eq!(records.len(), list.stdout.lines().count());
    let is_done =
        |line: &str| line.split(' ').next() == Some(call) && line.split(' ').any(|x| x == "done");
    let lines = list.stdout.lines().zip(&records);
    lines
        .filter(|(line, _)| is_done(line))
        .filter(|(_, record)| mutes(record[at.size], &record[at.curve..at.curve + 8]))
        .count()
}

#[test]
fn damaged_curves_show_six_times() {
    let masks = list_of("masks");
    for builder in Builder::LISTED {
        let curve = 13 + usize::from(builder.is_stereo());
        let at = Places { size: 2, curve };
        assert!(muted(&masks, mask_record, builder.name(), at) >= 6);
    }
    let at = Places { size: 2, curve: 14 };
    assert!(muted(&list_of("voice_banks"), bank_record, "read_masks", at) >= 6);
    let at = Places { size: 1, curve: 4 };
    assert!(muted(&list_of("mixers"), mixer_record, "serve", at) >= 6);
}

/// In at least twenty lines of each builder that takes voices one of them is by hertz, and in at
/// least twenty a refusal names such a one; each voice is by note or by hertz.
#[test]
fn voices_by_hertz_show() {
    let (masks, refusals) = (list_of("masks"), list_of("mask_refusals"));
    let accepted = forms(&masks.calls);
    assert_eq!(accepted.len(), masks.stdout.lines().count());
    assert!(accepted.iter().flatten().all(|&form| form <= 1));
    for builder in Builder::LISTED.iter().filter(|one| one.takes_voices()) {
        let done = format!("{} done ", builder.name());
        let lines = masks.stdout.lines().zip(&accepted);
        let shown = lines.filter(|(line, forms)| line.starts_with(&done) && forms.contains(&1));
        assert!(shown.count() >= 20, "{done}");
    }
    let named = |(line, forms): (&str, Vec<u32>)| {
        let place = line.split_once(" refused 5 ")?.1.split(' ').next()?;
        Some(forms[place.parse::<usize>().expect("a place")])
    };
    let lines = refusals.stdout.lines().zip(forms(&refusals.calls));
    let named: Vec<u32> = lines.filter_map(named).collect();
    for form in [0, 1] {
        let count = named.iter().filter(|&&one| one == form).count();
        assert!(count >= 20, "{count} voices of form {form} are refused");
    }
}
