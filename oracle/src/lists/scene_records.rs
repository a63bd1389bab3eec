//! The list `scene_records`: scenes that are written, and records that are read.

use super::slices::byte_hash;
use super::{List, outcome_text};
use crate::calls;
use crate::plain_words::settings_words;
use crate::random::Random;
use crate::record_calls::{
    any_nan, damage, fault, flip, oversize, scene, set_note_bits, set_zeros,
};
use crate::refusals::MAX_VOICES;
use crate::scene_records::{HEAD_BYTES, SILENT, StoredScene, length_of, written};
use crate::scenes::{SHAPES, hertz};
use crate::spectral_dsp::{MaskVoice, Pitch};

const SEED: u64 = 104;

/// How often each refusal of each call is shown.
const TIMES: usize = 20;

/// The calls by their numbers.
const WRITE: u32 = 0;
const READ: u32 = 1;

/// What each byte of a record holds before a scene is written there.
const BEFORE: u8 = 7;

/// The longest record of the list.
const LONGEST: usize = 8_000;

/// Writes a scene into a record of this length. Its voices are the stored ones; those from there up
/// to the count are default voices.
fn write(scene: &StoredScene, count: usize, length: usize) -> List {
    let mut list = List::default();
    list.word(WRITE);
    list.words(&settings_words(&scene.config));
    list.word(length as u32);
    list.voices(count, &scene.voices);
    let mut whole = scene.clone();
    whole.voices.resize(count, MaskVoice::default());
    let mut record = vec![BEFORE; length];
    let answer = outcome_text(calls::write_scene(&mut record, &whole));
    let hash = byte_hash(record.into_iter());
    list.line(&format!("write_scene {answer} {hash:016x}"));
    list
}

/// Writes a scene into a record of the length that it asks for.
fn write_whole(scene: &StoredScene) -> List {
    let count = scene.voices.len();
    write(scene, count, length_of(count))
}

/// Bytes as words, the last one filled with zeros.
fn byte_words(bytes: &[u8]) -> Vec<u32> {
    let word = |bytes: &[u8]| {
        let mut whole = [0; 4];
        whole[..bytes.len()].copy_from_slice(bytes);
        u32::from_be_bytes(whole)
    };
    bytes.chunks(4).map(word).collect()
}

/// Reads a record. The zeros at its end are not stored.
fn read(record: &[u8]) -> List {
    let zeros = record.iter().rev().take_while(|&&byte| byte == 0).count();
    let stored = record.len() - zeros;
    let mut list = List::default();
    list.words(&[READ, record.len() as u32, stored as u32]);
    list.words(&byte_words(&record[..stored]));
    let (outcome, scene) = calls::read_scene(record);
    let (answer, count) = (outcome_text(outcome), scene.voices.len());
    let words = scene.words();
    let hash = byte_hash(words.into_iter().flat_map(u32::to_be_bytes));
    list.line(&format!("read_scene {answer} {count} {hash:016x}"));
    list
}

/// A scene of up to two voices, and silent ones up to the count.
fn silent_after(random: &mut Random, count: usize) -> StoredScene {
    let mut scene = scene(random, count.min(2));
    scene.voices.resize(count, SILENT);
    scene
}

/// Each count with its length, with one byte less and with one more; then with a voice and, beside
/// it, a setting and a size outside their limits.
fn add_counts(list: &mut List, random: &mut Random) {
    for count in [0, 1, 2, 127, 128, 129, 200, 254, 255] {
        let mut scene = silent_after(random, count);
        let record = written(&scene);
        let long = [&record[..], &[0]].concat();
        let short = &record[..record.len() - 1];
        list.add_all([read(&record), read(short), read(&long)]);
        if let Some(voice) = scene.voices.iter_mut().take(2).last() {
            voice.level = 1.5;
        }
        list.add(read(&written(&scene)));
        scene.config.width_cents = 0.5;
        list.add(read(&written(&scene)));
        scene.config.fft_size = 32;
        list.add(read(&written(&scene)));
    }
    for count in [0, 1, 2, 127, 128, 129, 255, 256] {
        let scene = scene(random, count.min(2));
        for length in length_of(count) - 1..=length_of(count) + 1 {
            list.add(write(&scene, count, length));
        }
    }
}

/// Each logarithm, number of partials and shape, and the layer on and off.
fn add_fields(list: &mut List, random: &mut Random) {
    for logarithm in 0..16 {
        let mut scene = scene(random, logarithm % 2);
        scene.config.fft_size = 1 << logarithm;
        list.add(read(&written(&scene)));
    }
    for partials in 0..32 {
        let mut scene = scene(random, partials % 2);
        scene.config.partials = partials;
        list.add(read(&written(&scene)));
    }
    for (index, shape) in SHAPES.into_iter().enumerate() {
        let mut scene = scene(random, 0);
        scene.config.motion.shape = shape;
        scene.config.note_layer_enabled = index % 3 == 0;
        list.add_all([write_whole(&scene), read(&written(&scene))]);
    }
}

/// Each of the zero bits and several of them, and each note bit of a voice by hertz.
fn add_forbidden(list: &mut List, random: &mut Random) {
    for zeros in 1..8 {
        let mut record = written(&scene(random, zeros % 2));
        set_zeros(&mut record, zeros as u8);
        list.add(read(&record));
    }
    for bit in 0..7 {
        let mut scene = scene(random, 1);
        scene.voices[0].pitch = Pitch::Hertz(hertz(random));
        let mut record = written(&scene);
        set_note_bits(&mut record, 0, 1 << bit);
        list.add(read(&record));
    }
}

/// Infinities, NaN, -0 and the least subnormal number in each float of a head and of a voice.
fn add_floats(list: &mut List, random: &mut Random) {
    let record = written(&scene(random, 1));
    for float in 0..14 {
        // Three bytes are before the floats of the head, one before those of the voice.
        let at = 3 + 4 * float + float / 7;
        let nan = any_nan(random).to_bits();
        for bits in [0x7f80_0000, 0xff80_0000, nan, 0x8000_0000, 0x0000_0001] {
            let mut other = record.clone();
            other[at..at + 4].copy_from_slice(&bits.to_be_bytes());
            list.add(read(&other));
        }
    }
}

/// Records cut short or made longer by zeros, and records of zeros.
fn add_lengths(list: &mut List, random: &mut Random) {
    let record = written(&scene(random, 1));
    for length in [0, 1, 2, 3, 30, 31, 32, 59, 60, 61, 89, LONGEST] {
        let mut other = record.clone();
        other.resize(length, 0);
        list.add_all([read(&other), read(&vec![0; length])]);
    }
}

/// A whole array of voices, there and back; and a note bit beside hertz in the first voice past
/// those that a scene can have, and in the last that a record can count.
fn add_long(list: &mut List, random: &mut Random) {
    let full = scene(random, MAX_VOICES);
    list.add_all([write_whole(&full), read(&written(&full))]);
    for count in [129, 255] {
        let mut record = written(&silent_after(random, count));
        set_note_bits(&mut record, count - 1, 1);
        list.add(read(&record));
    }
}

/// Faults of later numbers than this one, of those that a scene can have.
fn add_later(random: &mut Random, number: u8, scene: &mut StoredScene) {
    for later in [1, 2, 5] {
        if later > number && random.once_in(2) {
            fault(random, later, scene);
        }
    }
}

/// Draws writings until one is refused by this number, with faults of later numbers beside it.
fn refused_writing(random: &mut Random, number: u8) -> List {
    loop {
        let stored = random.below(3);
        let mut scene = scene(random, stored);
        match random.once_in(2) {
            true => fault(random, number, &mut scene),
            false => oversize(random, number, &mut scene),
        }
        add_later(random, number, &mut scene);
        let count = match number <= 3 && (number == 3 || random.once_in(4)) {
            true => random.pick(&[129, 130, 200, 256]),
            false => stored,
        };
        let length = match number <= 4 && random.once_in(2) {
            true => random.pick(&[0, 1, 30, length_of(count) - 1, length_of(count) + 1]),
            false => length_of(count),
        };
        let list = write(&scene, count, length);
        if list.stdout.contains(&format!(" refused {number} ")) {
            return list;
        }
    }
}

/// Draws readings until one is refused by this number, with faults of later numbers beside it; 9
/// comes before the others.
fn refused_reading(random: &mut Random, number: u8) -> List {
    loop {
        let stored = random.below(3);
        let mut scene = scene(random, stored);
        fault(random, number, &mut scene);
        add_later(random, number % 9, &mut scene);
        let count = match number {
            3 => random.pick(&[129, 130, 200, 255]),
            _ => stored,
        };
        scene.voices.resize(count, SILENT);
        let mut record = written(&scene);
        if number == 9 {
            damage(random, &mut record);
        }
        let list = read(&record);
        if list.stdout.contains(&format!(" refused {number} ")) {
            return list;
        }
    }
}

/// Every refusal of both calls, each equally often.
fn add_refusals(list: &mut List, random: &mut Random) {
    for _ in 0..TIMES {
        for number in 1..=5 {
            list.add(refused_writing(random, number));
        }
        for number in [9, 1, 2, 3, 5] {
            list.add(refused_reading(random, number));
        }
    }
}

/// A scene of few voices that is written or read; or a record with a bit flipped, most often in its
/// head or its first voice.
fn any(random: &mut Random) -> List {
    let voices = random.pick(&[0, 1, 1, 1, 2, 3]);
    let scene = scene(random, voices);
    let mut record = written(&scene);
    let bits = 8 * record.len();
    match random.below(6) {
        0 => return write_whole(&scene),
        1 => (),
        2 => flip(&mut record, random.below(8 * HEAD_BYTES)),
        _ => flip(&mut record, random.below(bits)),
    }
    read(&record)
}

/// Records of every kind, until the list is full.
pub fn list() -> List {
    let mut list = List::default();
    let random = &mut Random::new(SEED);
    add_counts(&mut list, random);
    add_fields(&mut list, random);
    add_forbidden(&mut list, random);
    add_floats(&mut list, random);
    add_lengths(&mut list, random);
    add_long(&mut list, random);
    add_refusals(&mut list, random);
    while list.add(any(random)) {}
    list
}
