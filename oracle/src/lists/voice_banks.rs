//! The list `voice_banks`: lists of calls on a bank of voices.
//!
//! The records are worked off one after the other, and a bank is kept from each to the next. It is
//! empty before the first.
//!
//! | number | call | arguments |
//! |---|---|---|
//! | 0 | new_bank | |
//! | 1 | add_voice | id, voice |
//! | 2 | remove_voice | id |
//! | 3 | change_voice | id, voice |
//! | 4 | read_masks | settings, left, right, curve (slice), table |
//! | 5 | given | first id, step, voices |
//!
//! An id is a word, at most 65,535. A voice is the 8 words of a stored one. The arguments of
//! `read_masks` stand where a stereo call of the list `masks` has them, and no voices follow.
//!
//! `given` is no call: it puts a bank as a caller in C can make one. The id of its place i, from 0
//! to 127, is (first + step·i) mod 65,536, where first and step are at most 65,535. The voices are
//! a count, which becomes the bank's, a number of stored voices, at most 128 and at most the count,
//! and these; every place after them has a default voice. A count of 4,294,967,295 stands for
//! 18,446,744,073,709,551,615, the greatest.
//!
//! Line of 0 and 5: name, count, hash. Line of 1, 2 and 3: name, answer, and the count and the hash
//! of the bank that the call hands back. Line of 4: name, answer, each mask.
//!
//! The hash is the 64-bit FNV-1a hash over the big-endian bytes of words: for each of the bank's
//! first places, as many as it counts and at most 128, its id and the 8 words of its voice, every
//! NaN `7fc00000`.

use super::masks::mask_text;
use super::slices::byte_hash;
use super::{List, outcome_text};
use crate::bank_calls::{Step, bad_voice, few_ids, filling, good_voice, ids, step};
use crate::builders::Builder;
use crate::calls;
use crate::mask_calls::{Call, Damage, chord, fault, other_table};
use crate::numbers::bits_of;
use crate::plain_words::{settings_words, voice_words};
use crate::random::Random;
use crate::refusals::MAX_VOICES;
use crate::scenes;
use crate::spectral_dsp::{MaskConfig, MaskVoice};
use crate::voice_bank::Bank;

const SEED: u64 = 105;
const DAMAGED_SEED: u64 = 108;

/// How often each refusal of a reading is shown.
const TIMES: usize = 20;

// The calls by their numbers.
const NEW: u32 = 0;
const ADD: u32 = 1;
const REMOVE: u32 = 2;
const CHANGE: u32 = 3;
const READ: u32 = 4;
const GIVEN: u32 = 5;

/// The list so far, and the bank after it.
struct Replay {
    list: List,
    bank: Bank,
    /// The count as the port has it, which can be greater in a bank that is given.
    count: usize,
    /// Whether there was room for every record.
    fits: bool,
}

/// A bank that a caller makes.
struct Given<'a> {
    count: usize,
    first: u16,
    step: u16,
    stored: &'a [MaskVoice],
}

impl Given<'_> {
    /// The voices that count, or one more than there can be where more do.
    fn bank(&self) -> Bank {
        let voice = |place| self.stored.get(place).copied().unwrap_or_default();
        let counted = 0..self.count.min(MAX_VOICES + 1);
        counted
            .map(|place| (self.id(place), voice(place)))
            .collect()
    }

    fn id(&self, place: usize) -> u16 {
        self.first
            .wrapping_add(self.step.wrapping_mul(place as u16))
    }
}

impl Replay {
    fn new(list: List) -> Self {
        Self {
            list,
            bank: Bank::new(),
            count: 0,
            fits: true,
        }
    }

    /// Nothing is added after a record that had no room: it would meet another bank.
    fn add(&mut self, record: List) {
        self.fits = self.fits && self.list.add(record);
    }

    /// The count, and the hash over the voices that count and that there is room for.
    fn bank_text(&self) -> String {
        let words = |(id, voice): &(u16, MaskVoice)| {
            // Ids, forms and notes are no NaN's bits.
            let voice = voice_words(voice).map(|word| bits_of(f32::from_bits(word)));
            [u32::from(*id)].into_iter().chain(voice)
        };
        let words = self.bank.iter().take(MAX_VOICES).flat_map(words);
        let hash = byte_hash(words.flat_map(u32::to_be_bytes));
        format!("{} {hash:016x}", self.count)
    }

    fn new_bank(&mut self) {
        (self.bank, self.count) = (Bank::new(), 0);
        let mut record = List::default();
        record.word(NEW);
        record.line(&format!("new_bank {}", self.bank_text()));
        self.add(record);
    }

    fn given(&mut self, given: &Given) {
        (self.bank, self.count) = (given.bank(), given.count);
        let mut record = List::default();
        record.words(&[GIVEN, u32::from(given.first), u32::from(given.step)]);
        let stored = &given.stored[..given.stored.len().min(given.count)];
        // The low bits of the greatest count are all ones.
        record.voices(given.count, stored);
        record.line(&format!("given {}", self.bank_text()));
        self.add(record);
    }

    fn step(&mut self, step: Step) {
        let mut record = List::default();
        let (number, id, voice) = match step {
            Step::Add(id, voice) => (ADD, id, Some(voice)),
            Step::Remove(id) => (REMOVE, id, None),
            Step::Change(id, voice) => (CHANGE, id, Some(voice)),
        };
        record.words(&[number, u32::from(id)]);
        let words = voice.iter().flat_map(voice_words);
        words.for_each(|word| record.word(word));
        let (outcome, bank) = step.on(std::mem::take(&mut self.bank));
        self.bank = bank;
        if outcome.is_ok() {
            self.count = self.bank.len();
        }
        let (name, answer, text) = (step.name(), outcome_text(outcome), self.bank_text());
        record.line(&format!("{name} {answer} {text}"));
        self.add(record);
    }

    /// A reading with a call's arguments, but for its voices.
    fn reading(&self, call: &Call) -> List {
        let mut record = List::default();
        record.word(READ);
        record.words(&settings_words(&call.config));
        record.words(&[call.left.length as u32, call.right.length as u32]);
        record.slices(&[call.curve]);
        record.float(call.prepared_at);
        record.slices(&[call.table]);
        let (lent, [mut left, mut right]) = (call.lent(), call.masks());
        let (curve, bank, table) = (&lent.curve, &self.bank, &lent.table);
        let outcome = calls::read_masks(&mut left, &mut right, curve, bank, lent.config, table);
        let answer = outcome_text(outcome);
        let [left, right] = [left, right].map(|mask| mask_text(&mask));
        record.line(&format!("read_masks {answer} {left} {right}"));
        record
    }

    fn read(&mut self, random: &mut Random) {
        let record = self.reading(&accepted(random));
        self.add(record);
    }

    /// A reading that is refused by this number, with faults of later numbers beside it.
    fn read_refused(&mut self, random: &mut Random, number: u8) {
        let start = format!("read_masks refused {number} ");
        let record = loop {
            let mut call = accepted(random);
            for later in number..=6 {
                if later == number || random.once_in(2) {
                    fault(random, later, &mut call);
                }
            }
            let record = self.reading(&call);
            if record.stdout.starts_with(&start) {
                break record;
            }
        };
        self.add(record);
    }
}

/// What a reading is given beside the bank, accepted and small.
fn accepted(random: &mut Random) -> Call {
    let config = match random.once_in(2) {
        true => chord(random).config,
        false => scenes::config(random),
    };
    let config = MaskConfig {
        fft_size: 64,
        ..config
    };
    let mut call = Call::good(random, config, Vec::new());
    if random.once_in(3) {
        other_table(random, &mut call);
    }
    call
}

/// Few ids, and readings after some of the calls.
fn few(replay: &mut Replay, random: &mut Random) {
    let ids = few_ids(random);
    replay.new_bank();
    for _ in 0..10 + random.below(30) {
        let step = step(random, &ids);
        replay.step(step);
        if random.once_in(8) {
            replay.read(random);
        }
    }
}

/// A bank of 128 voices by calls, and calls on it: it is full, whatever the voice and the id are.
fn full(replay: &mut Replay, random: &mut Random) {
    let ids = ids(random, MAX_VOICES + 2);
    let (present, new) = (ids[random.below(MAX_VOICES)], ids[MAX_VOICES]);
    replay.new_bank();
    let filling = filling(random, &ids[..MAX_VOICES]);
    for (index, step) in filling.into_iter().enumerate() {
        replay.step(step);
        if index + 1 == MAX_VOICES - 1 || index + 1 == MAX_VOICES {
            replay.read(random);
        }
    }
    for id in [new, present] {
        replay.step(Step::Add(id, good_voice(random)));
        replay.step(Step::Add(id, bad_voice(random)));
        replay.step(Step::Change(id, good_voice(random)));
    }
    for id in [ids[0], ids[MAX_VOICES - 1], ids[1 + random.below(126)]] {
        replay.step(Step::Change(id, good_voice(random)));
        replay.step(Step::Remove(id));
        replay.step(Step::Remove(id));
        replay.read(random);
        replay.step(Step::Add(id, good_voice(random)));
        replay.step(Step::Add(ids[MAX_VOICES + 1], good_voice(random)));
    }
}

/// A few voices, taken out from the first on, and from the last on.
fn emptied(replay: &mut Replay, random: &mut Random) {
    let ids = ids(random, 5);
    for from_the_first in [true, false] {
        replay.new_bank();
        let filling = filling(random, &ids);
        filling.into_iter().for_each(|step| replay.step(step));
        let mut leaving = ids.clone();
        while !leaving.is_empty() {
            let place = if from_the_first { 0 } else { leaving.len() - 1 };
            replay.step(Step::Remove(leaving.remove(place)));
            replay.read(random);
        }
        replay.step(Step::Remove(ids[0]));
    }
}

/// Calls on a bank that is given, with the ids of its first place, of its last, and of one that
/// would follow.
fn forged(replay: &mut Replay, random: &mut Random, given: &Given) {
    let [first, last, past] = [0, MAX_VOICES - 1, MAX_VOICES].map(|place| given.id(place));
    let calls = [
        Step::Add(past, good_voice(random)),
        Step::Remove(first),
        Step::Remove(last),
        Step::Change(last, good_voice(random)),
        Step::Change(past, good_voice(random)),
    ];
    for one in calls {
        replay.given(given);
        replay.step(one);
    }
    replay.read(random);
}

/// Banks as a caller can make them: counts from none to the greatest, and ids that are at one
/// place, at several or at all of them.
fn all_forged(replay: &mut Replay, random: &mut Random) {
    for count in [0, 1, 3, 127, 128, 129, 4_000, usize::MAX] {
        for step in [1, 0, 16_384] {
            let given = Given {
                count,
                first: random.pick(&[0, u16::MAX, 60_000]),
                step,
                stored: &[good_voice(random)],
            };
            forged(replay, random, &given);
        }
    }
}

/// Every refusal of a reading. No list of calls from an empty bank comes to 3 and 5.
fn refused(replay: &mut Replay, random: &mut Random) {
    let stored = [good_voice(random), bad_voice(random)];
    let mut given = Given {
        count: random.pick(&[129, 130, 256, 4_000, usize::MAX]),
        first: random.word() as u16,
        step: 1,
        stored: &stored,
    };
    replay.given(&given);
    (1..=3).for_each(|number| replay.read_refused(random, number));
    given.count = random.pick(&[2, 3, 127, 128]);
    replay.given(&given);
    (4..=5).for_each(|number| replay.read_refused(random, number));
    replay.step(Step::Change(given.id(1), stored[0]));
    replay.read_refused(random, 6);
}

/// A chord, read on curves that are damaged at bins which a voice opens.
fn damaged() -> List {
    let random = &mut Random::new(DAMAGED_SEED);
    let mut replay = Replay::new(List::default());
    replay.new_bank();
    for (id, voice) in (0..).zip(chord(random).voices) {
        replay.step(Step::Add(id, voice));
    }
    for damage in Damage::TWICE {
        let mut call = chord(random);
        damage.put_into(random, &mut call, Builder::StereoPrecomputed);
        let record = replay.reading(&call);
        replay.add(record);
    }
    replay.list
}

/// Lists of calls of every kind, until the list is full; at the end readings on damaged curves.
pub fn list() -> List {
    let damaged = damaged();
    let random = &mut Random::new(SEED);
    let mut replay = Replay::new(List::before(&damaged));
    emptied(&mut replay, random);
    (0..2).for_each(|_| full(&mut replay, random));
    all_forged(&mut replay, random);
    (0..TIMES).for_each(|_| refused(&mut replay, random));
    while replay.fits {
        few(&mut replay, random);
    }
    replay.list.end_with(damaged)
}
