//! The list `mixers`: lists of calls on a mixer, and the scenes of its strips.
//!
//! The records are worked off one after the other. A mixer and the scenes of the sixteen strips are
//! kept from each to the next. The mixer is new before the first; the first sixteen records give
//! each strip a scene.
//!
//! | number | call | arguments |
//! |---|---|---|
//! | 0 | new_mixer | |
//! | 1 | request | strip |
//! | 2 | turn | |
//! | 3 | serve | size, left, right, curve (slice), table |
//! | 4 | given | count, counter, sixteen strips |
//! | 5 | scene | strip, settings, voices |
//!
//! `serve` is called with the scenes that the strips have then. Its table is prepared at the size
//! that stands before the masks, whatever sizes the scenes have.
//!
//! `given` and `scene` are no calls. `given` puts a mixer as a caller in C can make one: its count,
//! its counter in two words, the higher one first, and all sixteen places of its line, in use or
//! not. `scene` gives a strip, 0 to 15, another scene.
//!
//! A strip that requests, the count of a mixer that is given and the strips of its line may be any
//! numbers. A word of 4,294,967,295 there stands for 18,446,744,073,709,551,615, the greatest.
//!
//! Line of 0 and 4: name, mixer. Line of 1: name, answer, mixer. Line of 2: name, whom it names,
//! mixer. Line of 3: name, whom it names, answer, mixer, each mask. Line of 5: name, strip.
//!
//! Whom it names is the strip in decimal, or `nobody`. A mixer is the one that the call hands back:
//! its count and its counter, then the strips of its line from the first, as many as it counts and
//! at most sixteen, all in decimal.

use super::masks::mask_text;
use super::{List, outcome_text};
use crate::builders::Builder;
use crate::calls;
use crate::mask_calls::{Call, Damage, chord, fault, other_table};
use crate::mixer::{Mixer, STRIPS};
use crate::mixer_calls::{Answer, Step, no_strip, steps};
use crate::plain_words::settings_words;
use crate::random::Random;
use crate::refusals::Outcome;
use crate::scene_records::StoredScene;
use crate::scenes;
use crate::spectral_dsp::{MaskConfig, MaskVoice};

const SEED: u64 = 106;
const DAMAGED_SEED: u64 = 108;

/// How often each refusal of a strip that is served is shown.
const TIMES: usize = 20;

/// The sizes of the scenes that are accepted.
const SIZES: [usize; 2] = [64, 128];

// The calls by their numbers.
const NEW: u32 = 0;
const REQUEST: u32 = 1;
const TURN: u32 = 2;
const SERVE: u32 = 3;
const GIVEN: u32 = 4;
const SCENE: u32 = 5;

/// The list so far, and the mixer and the scenes after it.
struct Replay {
    list: List,
    mixer: Mixer,
    /// The count as the port has it, which can be greater in a mixer that is given.
    count: usize,
    scenes: [StoredScene; STRIPS],
    /// Whether there was room for every record.
    fits: bool,
}

/// A mixer that a caller makes.
struct Given {
    count: usize,
    served: u64,
    strips: [usize; STRIPS],
}

impl Given {
    fn mixer(&self) -> Mixer {
        Mixer {
            waiting: self.strips.into_iter().take(self.count).collect(),
            served: self.served,
        }
    }
}

/// A strip's scene as its record has it: the voices past the stored ones are default voices.
struct Described {
    config: MaskConfig,
    count: usize,
    stored: Vec<MaskVoice>,
}

impl Described {
    fn of(call: &Call) -> Self {
        Self {
            config: call.config,
            count: call.count,
            stored: call.voices.clone(),
        }
    }

    fn scene(&self) -> StoredScene {
        let mut voices = self.stored.clone();
        voices.resize(self.count, MaskVoice::default());
        StoredScene {
            config: self.config,
            voices,
        }
    }
}

/// A number in a word. The low bits of the greatest are all ones; of the others none above the
/// words is listed.
fn word_of(number: usize) -> u32 {
    debug_assert!(number < u32::MAX as usize || number == usize::MAX);
    number as u32
}

/// A number that a word can stand for.
fn listed(number: usize) -> usize {
    match number < u32::MAX as usize {
        true => number,
        false => usize::MAX,
    }
}

fn named_text(named: Option<usize>) -> String {
    named.map_or("nobody".to_string(), |strip| strip.to_string())
}

impl Replay {
    fn new(list: List) -> Self {
        Self {
            list,
            mixer: Mixer::default(),
            count: 0,
            scenes: std::array::from_fn(|_| StoredScene::blank()),
            fits: true,
        }
    }

    /// Nothing is added after a record that had no room: it would meet another mixer.
    fn add(&mut self, record: List) {
        self.fits = self.fits && self.list.add(record);
    }

    /// Takes the mixer that a call hands back. Where the call changed it, its count is the line's.
    fn keep(&mut self, mixer: Mixer) {
        if mixer != self.mixer {
            self.count = mixer.waiting.len();
        }
        self.mixer = mixer;
    }

    /// The count, the counter and the line.
    fn mixer_text(&self) -> String {
        let line = self.mixer.waiting.iter().map(|strip| format!(" {strip}"));
        let line: String = line.collect();
        format!("{} {}{line}", self.count, self.mixer.served)
    }

    fn new_mixer(&mut self) {
        (self.mixer, self.count) = (Mixer::default(), 0);
        let mut record = List::default();
        record.word(NEW);
        record.line(&format!("new_mixer {}", self.mixer_text()));
        self.add(record);
    }

    fn given(&mut self, given: &Given) {
        (self.mixer, self.count) = (given.mixer(), given.count);
        let mut record = List::default();
        record.words(&[GIVEN, word_of(given.count)]);
        record.words(&[(given.served >> 32) as u32, given.served as u32]);
        record.words(&given.strips.map(word_of));
        record.line(&format!("given {}", self.mixer_text()));
        self.add(record);
    }

    fn scene(&mut self, strip: usize, described: &Described) {
        self.scenes[strip] = described.scene();
        let mut record = List::default();
        record.words(&[SCENE, strip as u32]);
        record.words(&settings_words(&described.config));
        record.voices(described.count, &described.stored);
        record.line(&format!("scene {strip}"));
        self.add(record);
    }

    fn step(&mut self, step: Step) {
        let mut record = List::default();
        let step = match step {
            Step::Request(strip) => Step::Request(listed(strip)),
            Step::Turn => Step::Turn,
        };
        match step {
            Step::Request(strip) => record.words(&[REQUEST, word_of(strip)]),
            Step::Turn => record.word(TURN),
        }
        let (answer, mixer) = step.on(self.mixer.clone());
        self.keep(mixer);
        let answer = match answer {
            Answer::Filed(outcome) => outcome_text(outcome),
            Answer::Named(named) => named_text(named),
        };
        record.line(&format!("{} {answer} {}", step.name(), self.mixer_text()));
        self.add(record);
    }

    fn request(&mut self, strip: usize) {
        self.step(Step::Request(strip));
    }

    fn turn(&mut self) {
        self.step(Step::Turn);
    }

    fn serve(&mut self, lent: &Call) {
        let mut record = List::default();
        record.words(&[SERVE, lent.config.fft_size as u32]);
        record.words(&[lent.left.length as u32, lent.right.length as u32]);
        record.slices(&[lent.curve]);
        record.float(lent.prepared_at);
        record.slices(&[lent.table]);
        let [mut left, mut right] = lent.masks();
        let (curve, table) = (lent.curve.made(), lent.lent().table);
        let (scenes, mixer) = (&self.scenes, self.mixer.clone());
        let served = calls::serve(&mut left, &mut right, &curve, scenes, &table, mixer);
        self.keep(served.mixer);
        let (named, answer) = (named_text(served.named), outcome_text(served.outcome));
        let (mixer, left, right) = (self.mixer_text(), mask_text(&left), mask_text(&right));
        record.line(&format!("serve {named} {answer} {mixer} {left} {right}"));
        self.add(record);
    }

    /// Serves with accepted slices of the size that the next scene has.
    fn serve_next(&mut self, random: &mut Random) {
        let next = self.mixer.waiting.front();
        let scene = next.and_then(|&strip| self.scenes.get(strip));
        let size = scene.map(|scene| scene.config.fft_size);
        let size = size.filter(|size| SIZES.contains(size));
        self.serve(&accepted(random, size.unwrap_or(SIZES[0])));
    }
}

/// A scene and the slices of a builder of its size, all accepted.
fn accepted(random: &mut Random, fft_size: usize) -> Call {
    let (config, voices) = match random.once_in(2) {
        true => {
            let chord = chord(random);
            (chord.config, chord.voices)
        }
        false => {
            let count = random.below(3);
            let voices = (0..count).map(|_| scenes::voice(random)).collect();
            (scenes::config(random), voices)
        }
    };
    let config = MaskConfig { fft_size, ..config };
    let mut call = Call::good(random, config, voices);
    if random.once_in(3) {
        other_table(random, &mut call);
    }
    call
}

/// Gives a strip a scene that is accepted with slices of its size.
fn give_scene(replay: &mut Replay, random: &mut Random, strip: usize) {
    let size = random.pick(&SIZES);
    let call = accepted(random, size);
    replay.scene(strip, &Described::of(&call));
}

/// All strips wait: asking again, and numbers that no strip has, change nothing. Then each has its
/// turn, and one more turn finds nobody.
fn full(replay: &mut Replay, random: &mut Random) {
    let mut strips: Vec<usize> = (0..STRIPS).collect();
    random.shuffle(&mut strips);
    replay.new_mixer();
    for &strip in &strips {
        replay.request(strip);
        replay.request(random.pick(&strips[..4]));
        replay.request(no_strip(random));
    }
    strips.iter().for_each(|&strip| replay.request(strip));
    (0..STRIPS + 1).for_each(|_| replay.turn());
    strips.iter().for_each(|&strip| replay.request(strip));
    (0..STRIPS + 1).for_each(|_| replay.serve_next(random));
}

/// A strip that asks behind fifteen others is named in the sixteenth turn, though each of them asks
/// again as soon as it is named.
fn the_longest_wait(replay: &mut Replay, random: &mut Random) {
    let mut strips: Vec<usize> = (0..STRIPS).collect();
    random.shuffle(&mut strips);
    replay.new_mixer();
    strips.iter().for_each(|&strip| replay.request(strip));
    for &strip in &strips {
        replay.turn();
        replay.request(strip);
    }
}

/// The counter comes to its highest value and stays there.
fn highest(replay: &mut Replay, random: &mut Random) {
    for below in [2, 1, 0] {
        replay.given(&Given {
            count: 4,
            served: u64::MAX - below,
            strips: std::array::from_fn(|place| place),
        });
        (0..2).for_each(|_| replay.turn());
        replay.request(9);
        replay.serve_next(random);
        (0..3).for_each(|_| replay.turn());
    }
    // A carry from the lower word of the counter to the higher one.
    replay.given(&Given {
        count: 1,
        served: u64::from(u32::MAX),
        strips: [5; STRIPS],
    });
    replay.turn();
}

/// The calls on a mixer that is given: requests of a strip of its line, of one that is not in it
/// where there is one, and of a number that no strip has; a turn; and serving.
fn forged(replay: &mut Replay, random: &mut Random, given: &Given) {
    let [first, last] = [given.strips[0], given.strips[STRIPS - 1]];
    for strip in [first, last, random.below(STRIPS), no_strip(random)] {
        replay.given(given);
        replay.request(strip);
        replay.turn();
    }
    replay.given(given);
    (0..2).for_each(|_| replay.serve_next(random));
}

/// Mixers as a caller can make them: counts from none to the greatest, strips that stand once, at
/// all places, or that there are not.
fn all_forged(replay: &mut Replay, random: &mut Random) {
    for count in [0, 1, 2, 15, 16, 17, 4_000, usize::MAX] {
        let (same, none) = (random.below(STRIPS), listed(no_strip(random)));
        let shifted = std::array::from_fn(|place| (place + same) % STRIPS);
        let nearly = std::array::from_fn(|place| if place % 3 == 0 { none } else { place });
        for strips in [shifted, [same; STRIPS], [none; STRIPS], nearly] {
            let any = random.word();
            let served = random.pick(&[0, any, u64::MAX]);
            let given = Given {
                count,
                served,
                strips,
            };
            forged(replay, random, &given);
        }
    }
}

fn outcome(scene: &StoredScene, lent: &Call) -> Outcome {
    let [mut left, mut right] = lent.masks();
    let (curve, table) = (lent.curve.made(), lent.lent().table);
    let (voices, config) = (&scene.voices, scene.config);
    calls::build_stereo_masks_with_voices_precomputed(
        &mut left, &mut right, &curve, voices, config, &table,
    )
}

/// A scene and slices with which it is refused by this number, with faults of later numbers beside
/// it. Every second wrong length is that of a scene of another size.
fn refused(random: &mut Random, number: u8) -> (Described, Call) {
    loop {
        let good = accepted(random, SIZES[0]);
        let mut bad = good.clone();
        for later in number..=6 {
            if later == number || random.once_in(2) {
                fault(random, later, &mut bad);
            }
        }
        let scene = match number == 4 && random.once_in(2) {
            true => Described::of(&accepted(random, SIZES[1])),
            false => Described::of(&bad),
        };
        let lent = Call {
            config: good.config,
            ..bad
        };
        let refusal = outcome(&scene.scene(), &lent).err();
        if refusal.is_some_and(|refusal| refusal.number == number) {
            return (scene, lent);
        }
    }
}

/// A strip for each refusal of the stereo call. Each is named once and counted, and is not put
/// back. When nobody waits any more, the same slices are not even looked at.
fn all_refused(replay: &mut Replay, random: &mut Random) {
    let mut strips: Vec<usize> = (0..STRIPS).collect();
    random.shuffle(&mut strips);
    let each = strips.iter().zip(1..=6);
    let refused: Vec<_> = each
        .map(|(&strip, number)| (strip, refused(random, number)))
        .collect();
    replay.new_mixer();
    for (strip, (scene, _)) in &refused {
        replay.scene(*strip, scene);
        replay.request(*strip);
    }
    refused.iter().for_each(|(_, (_, lent))| replay.serve(lent));
    replay.serve(&refused[3 + random.below(3)].1.1);
}

/// Lists of calls, of whose turns some serve, with scenes that are given in between.
fn mixed(replay: &mut Replay, random: &mut Random) {
    replay.new_mixer();
    for step in steps(random) {
        match step {
            Step::Turn if random.once_in(3) => replay.serve_next(random),
            Step::Turn if random.once_in(12) => {
                let number = random.pick(&[4, 6]);
                replay.serve(&refused(random, number).1);
            }
            _ => replay.step(step),
        }
        if random.once_in(100) {
            let strip = random.below(STRIPS);
            give_scene(replay, random, strip);
        }
    }
}

/// Strips with a chord each, served on curves that are damaged at bins which a voice opens.
fn damaged() -> List {
    let random = &mut Random::new(DAMAGED_SEED);
    let mut replay = Replay::new(List::default());
    replay.new_mixer();
    let calls = Damage::TWICE.map(|damage| {
        let mut call = chord(random);
        damage.put_into(random, &mut call, Builder::StereoPrecomputed);
        call
    });
    for (strip, call) in calls.iter().enumerate() {
        replay.scene(strip, &Described::of(call));
        replay.request(strip);
    }
    calls.iter().for_each(|call| replay.serve(call));
    replay.list
}

/// Lists of calls of every kind, until the list is full; at the end turns that serve on damaged
/// curves.
pub fn list() -> List {
    let damaged = damaged();
    let random = &mut Random::new(SEED);
    let mut replay = Replay::new(List::before(&damaged));
    (0..STRIPS).for_each(|strip| give_scene(&mut replay, random, strip));
    full(&mut replay, random);
    the_longest_wait(&mut replay, random);
    highest(&mut replay, random);
    all_forged(&mut replay, random);
    (0..TIMES).for_each(|_| all_refused(&mut replay, random));
    (0..STRIPS).for_each(|strip| give_scene(&mut replay, random, strip));
    while replay.fits {
        mixed(&mut replay, random);
    }
    replay.list.end_with(damaged)
}
