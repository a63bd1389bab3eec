//! Scene records, written and read: answers, places, every byte of a record, and every field of a
//! scene with all its 128 voices.

use crate::draw::{self, NO_SHAPES, copy_at};
use crate::masks::odd_forms;
use crate::open_calls::{expected, same_given};
use crate::run::Run;
use linked::calls::{self as port, passed, scene_words, voice_of};
use linked::{Scene, VoiceRecord};
use oracle::calls;
use oracle::random::Random;
use oracle::record_calls::{damage, fault, flip, oversize, scene};
use oracle::refusals::{self as refuse, MAX_VOICES, Outcome};
use oracle::scene_records::{HEAD_BYTES, SILENT, StoredScene, VOICE_BYTES, written};
use oracle::scenes::SHAPES;

const READ: &str = "read_scene";

/// The longest record that a count asks for.
const LONGEST: usize = HEAD_BYTES + VOICE_BYTES * 255;

/// The number of voices of most scenes, so that many calls take little time.
const FEW: [usize; 6] = [0, 1, 1, 2, 3, 6];

/// Brings nothing, one thing or several to the limits or past them.
fn faults(random: &mut Random, scene: &mut StoredScene) {
    for _ in 0..random.pick(&[0, 0, 1, 2]) {
        let number = random.pick(&[1, 2, 2, 5, 5]);
        fault(random, number, scene);
    }
}

/// Records of voices past the count, which count for nothing.
pub fn unused(random: &mut Random, records: &mut [VoiceRecord]) {
    let float = random.float();
    records.fill(VoiceRecord {
        pitch_form: random.word() as u8,
        note: random.word() as u8,
        semitones_or_hertz: random.float(),
        level: float,
        pressure: float,
        timbre: float,
        volume_gain: float,
        expression_gain: float,
        pan: float,
    });
}

/// A count that is refused: next to the limit, one of which the low bits would be accepted, and
/// some of which the length is beyond 64 bits.
fn odd_count(random: &mut Random) -> usize {
    let beyond = usize::MAX / VOICE_BYTES;
    let cut = random.below(MAX_VOICES + 1);
    let counts = [129, 130, 255, 256, 256 + cut, (1 << 32) + cut];
    match random.once_in(2) {
        true => random.pick(&counts),
        false => random.pick(&[beyond - 1, beyond, beyond + 1, beyond + 2, usize::MAX]),
    }
}

/// What is passed to be written, and the record before.
struct Drawn {
    scene: Scene,
    before: Vec<u8>,
    /// The same scene, as the oracle takes it.
    stored: StoredScene,
}

/// A scene to pass, whose first voices are used, with forms and shapes that are none.
fn odd_scene(random: &mut Random, stored: &StoredScene) -> Scene {
    let mut scene = passed(stored);
    let (used, rest) = scene.voices.split_at_mut(stored.voices.len());
    odd_forms(random, used);
    unused(random, rest);
    if random.once_in(32) {
        scene.settings.motion_shape = random.pick(&NO_SHAPES);
    }
    if random.once_in(16) {
        scene.count = odd_count(random);
    }
    scene
}

impl Drawn {
    fn new(random: &mut Random) -> Self {
        let voices = match random.below(32) {
            0 => random.pick(&[0, 1, 2, 125, 126, 127]) + random.below(2),
            1 => random.below(MAX_VOICES + 1),
            _ => random.pick(&FEW),
        };
        let mut stored = scene(random, voices);
        faults(random, &mut stored);
        if random.once_in(16) {
            let number = random.pick(&[1, 2, 5]);
            oversize(random, number, &mut stored);
        }
        let scene = odd_scene(random, &stored);
        stored.voices = scene.voices[..voices].iter().map(voice_of).collect();
        // More than 128 voices are refused, whatever their number.
        stored
            .voices
            .resize(scene.count.min(MAX_VOICES + 1), SILENT);
        let asked = HEAD_BYTES.wrapping_add(VOICE_BYTES.wrapping_mul(scene.count));
        let length = draw::mostly(random, asked.min(LONGEST));
        Self {
            scene,
            before: (0..length).map(|_| random.word() as u8).collect(),
            stored,
        }
    }

    /// What the oracle answers; a shape that is none of the eight is refusal 2.
    fn agreed(&self, record: &mut [u8]) -> Outcome {
        let settings = self.scene.settings;
        refuse::size_and_rate(settings.fft_size, settings.sample_rate)?;
        refuse::setting((settings.motion_shape as usize) < SHAPES.len())?;
        calls::write_scene(record, &self.stored)
    }
}

fn writing(run: &mut Run) {
    run.calls_of("write_scene", |random, tally| {
        let drawn = Drawn::new(random);
        let first = random.below(8);
        let (mut ours, mut theirs) = (copy_at(first, &drawn.before), drawn.before.clone());
        let ours = &mut ours[first..];
        let given = port::write_scene(ours, drawn.scene);
        let agreed = expected(drawn.agreed(&mut theirs).map(|()| []));
        let right = match agreed.number {
            0 => &theirs,
            _ => &drawn.before,
        };
        let byte = ours.iter().zip(right).position(|(a, b)| a != b);
        let same = same_given(given, agreed) && byte.is_none();
        tally.note(agreed.number as usize, same, || {
            let (bytes, count) = (right.len(), drawn.scene.count);
            let scene = &drawn.stored;
            format!(
                "{bytes} bytes, {count} voices, {scene:?}: port {given:?}, oracle {agreed:?}, \
                 byte {byte:?}"
            )
        });
    });
}

/// What the records that were read had in them.
struct Reached {
    /// By the bit of a head or a first voice that was flipped alone in an accepted record.
    flipped: [u64; 8 * (HEAD_BYTES + VOICE_BYTES)],
    /// By the count, of records of the right length without a forbidden bit.
    counted: [u64; 256],
    accepted: u64,
}

impl Reached {
    fn new() -> Self {
        Self {
            flipped: [0; 8 * (HEAD_BYTES + VOICE_BYTES)],
            counted: [0; 256],
            accepted: 0,
        }
    }

    fn flip(&mut self, random: &mut Random, record: &mut [u8]) {
        let all = 8 * record.len();
        let bit = match random.once_in(2) {
            true => random.below(all),
            false => random.below(all.min(self.flipped.len())),
        };
        flip(record, bit);
        if let Some(count) = self.flipped.get_mut(bit) {
            *count += 1;
        }
        self.accepted += u64::from(calls::read_scene(record).0.is_ok());
    }

    fn print(&self) {
        let flipped = self.flipped.iter().min().expect("a bit");
        let counted = self.counted[127..].iter().min().expect("a count");
        let accepted = self.accepted;
        println!(
            "scene records  each bit of a head and a voice alone flipped, at least: {flipped}"
        );
        println!("scene records  a bit alone flipped and accepted: {accepted}");
        println!("scene records  each count from 127 to 255, at least: {counted}");
    }
}

/// Flips several bits, or puts in several bytes.
fn change(random: &mut Random, record: &mut [u8]) {
    let bits = random.once_in(2);
    for _ in 0..2 + random.below(4) {
        match bits {
            true => flip(record, random.below(8 * record.len())),
            false => record[random.below(record.len())] = random.word() as u8,
        }
    }
}

/// A record to read: whole, with fields outside their limits, with a bit or several flipped, or
/// none at all.
fn record(random: &mut Random, reached: &mut Reached) -> Vec<u8> {
    let voices = match random.below(16) {
        0 => 127 + random.below(129),
        1 => random.below(127),
        _ => random.pick(&FEW),
    };
    let mut scene = scene(random, voices);
    let kind = random.below(8);
    if kind < 4 {
        faults(random, &mut scene);
    }
    let mut record = written(&scene);
    match kind {
        0 | 1 => reached.counted[voices] += 1,
        2 | 3 => damage(random, &mut record),
        4..=6 if voices <= MAX_VOICES => reached.flip(random, &mut record),
        _ => change(random, &mut record),
    }
    record
}

fn reading(run: &mut Run) {
    let mut reached = Reached::new();
    run.calls_of(READ, |random, tally| {
        let record = record(random, &mut reached);
        let first = random.below(8);
        let given = port::read_scene(&copy_at(first, &record)[first..]);
        let (outcome, scene) = calls::read_scene(&record);
        let (number, place) = outcome.map_or_else(
            |refusal| (u32::from(refusal.number), refusal.place),
            |()| (0, 0),
        );
        let (ours, theirs) = (scene_words(&given.scene), scene.words());
        let word = ours.iter().zip(&theirs).position(|(a, b)| a != b);
        let same = (given.number, given.place) == (number, place) && word.is_none();
        tally.note(number as usize, same, || {
            let port = (given.number, given.place);
            format!("{record:02x?}: port {port:?}, oracle {outcome:?}, word {word:?}")
        });
    });
    if run.takes(READ) {
        reached.print();
    }
}

pub fn compare(run: &mut Run) {
    writing(run);
    reading(run);
}
