//! Banks of voices through whole lists of calls: answers, places, the count, each id and each voice
//! that counts, and after a refusal the whole block; the masks read in between; and that the order
//! of arrival is not audible.

use crate::draw::{NO_SHAPES, damage};
use crate::masks::odd_forms;
use crate::open_calls::note_slice;
use crate::run::Run;
use crate::scene_records::unused;
use crate::tally::{Tally, count_met, print_met};
use linked::calls::{self as port, Held, holds, record_of, voice_words};
use linked::{Bank, Settings, VoiceRecord, dovetable_new_bank};
use oracle::bank_calls::{Step, bad_voice, good_voice, ids, reaching, steps};
use oracle::builders::{Lent, Masks};
use oracle::calls;
use oracle::config_in;
use oracle::curves::mutes_a_bin;
use oracle::mask_calls::{Call, fault, other_table};
use oracle::random::Random;
use oracle::refusals::{self as refuse, MAX_VOICES, Outcome};
use oracle::scene_records::SILENT;
use oracle::scenes::{self, SHAPES};
use oracle::spectral_dsp::{MaskConfig, MaskVoice};
use oracle::voice_bank::{self, place_of};

/// The empty bank, the calls that may change one, by `Step::name`, and reading.
const NEW: &str = "new_bank";
const CHANGES: [&str; 3] = ["add_voice", "remove_voice", "change_voice"];
const READ: &str = "read_masks";
const ORDER: &str = "read_masks, in another order";

/// The voices of a bank, as the oracle has them.
type Present = voice_bank::Bank<Held>;

/// What the calls that may change a bank have met, and what the readings have.
const CHANGED: [&str; 6] = [
    "127 voices",
    "128 voices",
    "a greater count",
    "an id twice",
    "one at the first place",
    "one at the last",
];
const READINGS: [&str; 3] = [
    "127 or 128 voices",
    "a greater count",
    "a NaN at a bin's point, done",
];
const PAIRS: [&str; 2] = ["audible voices", "a NaN at a bin's point"];

/// How many calls have met what.
#[derive(Default)]
struct Reached {
    changed: [u64; CHANGED.len()],
    readings: [u64; READINGS.len()],
}

impl Reached {
    /// A call with an id, and the bank before it.
    fn change(&mut self, present: &Present, id: u16) {
        let (n, place) = (present.len(), place_of(present, id));
        let counted = present.iter().take(MAX_VOICES);
        let several = counted.filter(|entry| entry.0 == id).count() > 1;
        let (first, last) = (place == Some(0), place.is_some_and(|place| place + 1 == n));
        let over = n > MAX_VOICES;
        let met = [n == 127, n == 128, over, several, first, last];
        count_met(&mut self.changed, met);
    }

    /// A reading, and whether it was done on a damaged curve.
    fn reading(&mut self, present: &Present, muted: bool) {
        let over = present.len() > MAX_VOICES;
        let full = present.len() + 1 >= MAX_VOICES && !over;
        count_met(&mut self.readings, [full, over, muted]);
    }

    fn print(&self) {
        print_met("banks of voices, changes of", CHANGED, self.changed);
        print_met("banks of voices, readings of", READINGS, self.readings);
    }
}

/// A bank on both sides.
struct Banks {
    block: Bank,
    present: Present,
}

/// Whether two blocks are the same, in the places that do not count too.
fn is_unchanged(block: &Bank, before: &Bank) -> bool {
    let mut voices = block.voices.iter().zip(&before.voices);
    (block.count, block.ids) == (before.count, before.ids)
        && voices.all(|(a, b)| voice_words(a) == voice_words(b))
}

/// A count of places: few, nearly all, all, or more than there are.
fn any_count(random: &mut Random) -> usize {
    let cut = random.below(MAX_VOICES + 1);
    match random.below(4) {
        0 => random.pick(&[126, 127, 128]),
        1 => random.pick(&[129, 130, 256 + cut, 4_000, (1 << 32) + cut, usize::MAX]),
        _ => cut,
    }
}

/// Ids for all places: these in turn or by chance, many times each, or others that all differ with
/// each of these at a place.
fn any_ids(random: &mut Random, these: &[u16]) -> [u16; MAX_VOICES] {
    let all = match random.below(3) {
        0 => these.iter().copied().cycle().take(MAX_VOICES).collect(),
        1 => (0..MAX_VOICES).map(|_| random.pick(these)).collect(),
        _ => {
            let mut all = ids(random, MAX_VOICES);
            these
                .iter()
                .for_each(|&id| all[random.below(MAX_VOICES)] = id);
            all
        }
    };
    all.try_into().expect("an id for each place")
}

/// Records for all places, now and then with some that no call would let in. In many banks most
/// are silent, but for the last that counts, so that each of the others is heard.
fn any_records(random: &mut Random, count: usize) -> [VoiceRecord; MAX_VOICES] {
    let (silent, damaged) = (random.once_in(2), random.once_in(4));
    let last = count.clamp(1, MAX_VOICES) - 1;
    std::array::from_fn(|place| {
        let mut voice = good_voice(random);
        if silent && place != last && !random.once_in(32) {
            voice.level = 0.0;
        }
        let mut record = record_of(&voice);
        if damaged && random.once_in(64) {
            record = record_of(&bad_voice(random));
        }
        if damaged && random.once_in(64) {
            unused(random, std::slice::from_mut(&mut record));
        }
        record
    })
}

impl Banks {
    fn empty() -> Self {
        Self {
            block: dovetable_new_bank(),
            present: Present::new(),
        }
    }

    /// A bank that a caller has written, with these ids among others.
    fn forged(random: &mut Random, ids: &[u16]) -> Self {
        let count = any_count(random);
        let block = Bank {
            ids: any_ids(random, ids),
            voices: any_records(random, count),
            count,
        };
        let places = block.ids.iter().zip(&block.voices);
        let held = places.map(|(&id, &voice)| (id, Held(voice)));
        let mut present: Present = held.take(count).collect();
        if count > MAX_VOICES {
            // However many more are counted, the oracle is told of one.
            present.push(present[0]);
        }
        Self { block, present }
    }

    /// Makes a call on both sides, and answers the oracle's number and what tells a difference.
    fn make(&mut self, step: Step<VoiceRecord>) -> (usize, Option<String>) {
        let before = self.block;
        let given = port::change(before, step);
        let present = std::mem::take(&mut self.present);
        let counted = present.len();
        let (outcome, present) = step.map(Held::stored).on(present);
        let number = outcome.map_or_else(|refusal| u32::from(refusal.number), |()| 0);
        let place = outcome.map_or_else(|refusal| refusal.place, |()| 0);
        let right = match number {
            0 => holds(&given.bank, &present),
            _ => is_unchanged(&given.bank, &before),
        };
        (self.block, self.present) = (given.bank, present);
        if right && (given.number, given.place) == (number, place) {
            return (number as usize, None);
        }
        let answer = (given.number, given.place, given.bank.count);
        let text = format!(
            "{step:?} on {counted} of {}: port {answer:?}, oracle {outcome:?}, bank right: {right}",
            before.count
        );
        (number as usize, Some(text))
    }
}

/// What a reading is given beside the bank.
struct Reading {
    lent: Lent,
    settings: Settings,
    before: Masks,
}

impl Reading {
    /// Of small masks; accepted but for what is brought past its limits.
    fn new(random: &mut Random, faults: &[u8]) -> Self {
        let config = MaskConfig {
            fft_size: 64 << random.below(2),
            ..scenes::config(random)
        };
        let mut call = Call::good(random, config, Vec::new());
        if random.once_in(2) {
            other_table(random, &mut call);
        }
        faults
            .iter()
            .for_each(|&number| fault(random, number, &mut call));
        let mut lent = call.lent();
        damage(random, &mut lent.curve);
        let settings = config_in!(lent.config, dovetable).into();
        let masks = call.masks();
        let before = masks.map(|mask| mask.iter().map(|_| random.float()).collect());
        Self {
            lent,
            settings,
            before,
        }
    }

    fn any(random: &mut Random) -> Self {
        let faults: Vec<u8> = [1, 2, 4, 6]
            .into_iter()
            .filter(|_| random.once_in(8))
            .collect();
        let mut reading = Self::new(random, &faults);
        if random.once_in(32) {
            reading.settings.motion_shape = random.pick(&NO_SHAPES);
        }
        reading
    }

    /// What the oracle answers; a shape that is none of the eight is refusal 2.
    fn agreed(&self, present: &Present, [left, right]: &mut Masks) -> Outcome {
        let (config, curve) = (self.lent.config, &self.lent.curve);
        refuse::size_and_rate(config.fft_size, config.sample_rate)?;
        refuse::setting((self.settings.motion_shape as usize) < SHAPES.len())?;
        calls::read_masks(left, right, curve, present, config, &self.lent.table)
    }

    /// Whether a bin of an accepted reading reads a NaN.
    fn mutes_a_bin(&self) -> bool {
        mutes_a_bin(&self.lent.curve, self.lent.config.fft_size)
    }

    /// Compares a reading, and answers what the oracle answers.
    fn compare(&self, banks: &Banks, tally: &mut Tally) -> Outcome {
        let (mut ours, mut theirs) = (self.before.clone(), self.before.clone());
        let given = port::read_masks(banks.block, &self.lent, self.settings, &mut ours);
        let answer = self.agreed(&banks.present, &mut theirs);
        let lengths = self.before.each_ref().map(Vec::len);
        let slices = [&self.before, &ours, &theirs].map(|masks| masks.concat());
        let slices = slices.each_ref().map(Vec::as_slice);
        let arguments = (lengths, self.settings, banks.block.count);
        note_slice(tally, arguments, given, answer.map(|()| []), slices);
        answer
    }
}

/// A list's voices as they are passed: any note beside hertz, and forms that are none.
fn passed(random: &mut Random, step: Step) -> Step<VoiceRecord> {
    step.map(|voice: MaskVoice| {
        let mut record = record_of(&voice);
        odd_forms(random, std::slice::from_mut(&mut record));
        record
    })
}

/// The lines of the calls, and what they have reached.
struct Tallies {
    new: Tally,
    changes: [Tally; CHANGES.len()],
    read: Tally,
    reached: Reached,
}

impl Tallies {
    fn empty(&mut self) -> Banks {
        let banks = Banks::empty();
        let blank = Bank {
            ids: [0; MAX_VOICES],
            voices: [record_of(&SILENT); MAX_VOICES],
            count: 0,
        };
        let same = is_unchanged(&banks.block, &blank);
        self.new.note(0, same, || format!("{:?}", banks.block));
        banks
    }

    fn read(&mut self, random: &mut Random, banks: &Banks) {
        let reading = Reading::any(random);
        let answer = reading.compare(banks, &mut self.read);
        let muted = answer.is_ok() && reading.mutes_a_bin();
        self.reached.reading(&banks.present, muted);
    }

    /// Makes calls until there is a difference, since every later call would differ too.
    fn make(&mut self, random: &mut Random, mut banks: Banks, steps: &[Step]) {
        for &step in steps {
            let step = passed(random, step);
            self.reached.change(&banks.present, step.id());
            let (number, difference) = banks.make(step);
            let kind = CHANGES.iter().position(|name| *name == step.name());
            let tally = &mut self.changes[kind.expect("each call has a line")];
            let same = difference.is_none();
            tally.note(number, same, || difference.unwrap_or_default());
            if !same {
                return;
            }
            if random.once_in(32) {
                self.read(random, &banks);
            }
        }
    }

    /// A list of calls from an empty bank, or a few from one that a caller has written, which soon
    /// is one that calls make. Of the ids some are not in it.
    fn list(&mut self, random: &mut Random) {
        let steps = steps(random);
        if random.once_in(2) {
            let banks = self.empty();
            return self.make(random, banks, &steps);
        }
        let last = &steps[steps.len() - 1 - random.below(8)..];
        let ids: Vec<u16> = last.iter().map(Step::id).collect();
        let banks = Banks::forged(random, &ids[ids.len() / 2..]);
        if random.once_in(4) {
            self.read(random, &banks);
        }
        self.make(random, banks, last);
    }
}

fn lists(run: &mut Run) {
    let names = [&[NEW], &CHANGES[..], &[READ]].concat();
    if !names.iter().any(|name| run.takes(name)) {
        return;
    }
    let mut random = Random::new(run.seed);
    let mut tallies = Tallies {
        new: Tally::new(NEW),
        changes: CHANGES.map(Tally::new),
        read: Tally::new(READ),
        reached: Reached::default(),
    };
    while tallies.changes.iter().any(|tally| tally.calls < run.count) {
        tallies.list(&mut random);
    }
    let lines = [tallies.new].into_iter().chain(tallies.changes);
    for (name, tally) in names.into_iter().zip(lines.chain([tallies.read])) {
        if run.takes(name) {
            run.close(tally);
        }
    }
    tallies.reached.print();
}

/// The bank that the library makes by a list of calls.
fn played(steps: &[Step]) -> Bank {
    let records = steps.iter().map(|step| step.map(|voice| record_of(&voice)));
    records.fold(dovetable_new_bank(), |bank, step| {
        port::change(bank, step).bank
    })
}

/// The masks of a bank by the library; none where it does not answer 0.
fn masks(reading: &Reading, bank: Bank) -> Option<Vec<f32>> {
    let mut masks = reading.before.clone();
    let given = port::read_masks(bank, &reading.lent, reading.settings, &mut masks);
    (given.number == 0).then(|| masks.concat())
}

/// Two lists of calls that come to the same voices, in another order and some of them several
/// times: the masks compare as equal.
fn order(run: &mut Run) {
    if !run.takes(READ) {
        return;
    }
    let random = &mut Random::new(run.seed);
    let mut tally = Tally::new(ORDER);
    let mut met = [0; PAIRS.len()];
    for _ in 0..run.scenes {
        let count = random.pick(&[1, 2, 3, 6, 12, 40, 110]);
        let voices: Vec<MaskVoice> = (0..count).map(|_| good_voice(random)).collect();
        let reading = Reading::new(random, &[]);
        let lists = [0, 1].map(|_| reaching(random, &voices));
        let [one, other] = lists.each_ref().map(|list| masks(&reading, played(list)));
        let same = one.is_some() && one == other;
        tally.note(0, same, || format!("{:?}: {lists:?}", reading.settings));
        let audible = one != masks(&reading, dovetable_new_bank());
        count_met(&mut met, [audible, reading.mutes_a_bin()]);
    }
    run.close(tally);
    print_met("banks of voices, pairs with", PAIRS, met);
}

pub fn compare(run: &mut Run) {
    lists(run);
    order(run);
}
