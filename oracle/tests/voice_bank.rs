//! A bank of voices: each refusal and their order, the order of arrival, that the masks read are
//! those of the stereo call on the voices then present, and that the order is not audible.

use oracle::bank_calls::{Step, after, bad_voice, good_voice, reaching, steps};
use oracle::calls::build_stereo_masks_with_voices_precomputed as stereo;
use oracle::calls::{add_voice, change_voice, read_masks, remove_voice};
use oracle::curves::mutes_a_bin;
use oracle::plain_words::voice_words;
use oracle::random::Random;
use oracle::refusals::{Outcome, Refusal};
use oracle::scenes::Scene;
use oracle::spectral_dsp::{MANUAL_MASK_POINTS, MaskConfig, MaskVoice, Pitch};
use oracle::voice_bank::Bank;
use std::collections::{BTreeMap, BTreeSet};

const BEFORE: f32 = 7.0;

fn refused<T>(number: u8) -> Result<T, Refusal> {
    Err(Refusal { number, place: 0 })
}

/// A voice that is told from others by its note.
fn voice(note: u8) -> MaskVoice {
    MaskVoice {
        pitch: Pitch::Note(note, 0.0),
        level: 1.0,
        ..MaskVoice::default()
    }
}

/// A bank with a voice of each of these notes, under the note as its id.
fn bank_of(notes: impl IntoIterator<Item = u8>) -> Bank {
    let entry = |note: u8| (u16::from(note), voice(note));
    notes.into_iter().map(entry).collect()
}

/// The ids and the voices, to the bit.
fn words(bank: &[(u16, MaskVoice)]) -> Vec<(u16, [u32; 8])> {
    let words = |(id, voice): &(u16, MaskVoice)| (*id, voice_words(voice));
    bank.iter().map(words).collect()
}

/// The outcome of a call, and the bank that it hands back, which where it is refused is the one
/// that went in.
fn outcome(bank: &Bank, step: Step) -> (Outcome, Bank) {
    let (outcome, back) = step.on(bank.clone());
    assert!(outcome.is_ok() || words(&back) == words(bank));
    (outcome, back)
}

/// The outcome of a call that has to be refused.
fn refusal(bank: &Bank, step: Step) -> Outcome {
    outcome(bank, step).0
}

/// A full bank answers 3 also where the voice is bad or the id present, and 5 comes before 10.
#[test]
fn adding_tests_3_5_10() {
    let bad = voice(128);
    let full = bank_of(0..128);
    for (id, voice) in [(200, voice(1)), (200, bad), (5, voice(1)), (5, bad)] {
        assert_eq!(refusal(&full, Step::Add(id, voice)), refused(3));
    }
    let nearly = bank_of(0..127);
    assert_eq!(refusal(&nearly, Step::Add(200, bad)), refused(5));
    assert_eq!(refusal(&nearly, Step::Add(5, bad)), refused(5));
    assert_eq!(refusal(&nearly, Step::Add(5, voice(1))), refused(10));
    assert_eq!(refusal(&nearly, Step::Add(126, voice(1))), refused(10));
    assert_eq!(refusal(&nearly, Step::Add(127, voice(1))), Ok(()));
}

#[test]
fn changing_tests_5_10() {
    let bad = voice(128);
    for bank in [bank_of(0..128), bank_of(0..3)] {
        assert_eq!(refusal(&bank, Step::Change(200, bad)), refused(5));
        assert_eq!(refusal(&bank, Step::Change(2, bad)), refused(5));
        assert_eq!(refusal(&bank, Step::Change(200, voice(1))), refused(10));
        assert_eq!(refusal(&bank, Step::Change(2, voice(1))), Ok(()));
    }
}

#[test]
fn taking_out_tests_10() {
    for bank in [bank_of(0..128), bank_of(0..3), bank_of(0..0)] {
        assert_eq!(refusal(&bank, Step::Remove(200)), refused(10));
    }
    assert_eq!(refusal(&bank_of(0..3), Step::Remove(3)), refused(10));
    assert_eq!(refusal(&bank_of(0..3), Step::Remove(2)), Ok(()));
}

/// Every field of the one voice given is tested, at place 0 wherever the voice is to stand.
#[test]
fn a_bad_voice_has_place_0() {
    let random = &mut Random::new(1);
    let bank = bank_of([40, 50, 60]);
    for _ in 0..2_000 {
        let bad = bad_voice(random);
        assert_eq!(refusal(&bank, Step::Add(70, bad)), refused(5));
        assert_eq!(refusal(&bank, Step::Change(60, bad)), refused(5));
    }
}

#[test]
fn every_number_of_16_bits_is_an_id() {
    let bank = bank_of(0..1);
    for id in 1..=u16::MAX {
        let (outcome, bank) = add_voice(bank.clone(), id, voice(1));
        assert_eq!((outcome, bank.len()), (Ok(()), 2));
        let (outcome, bank) = remove_voice(bank, id);
        assert_eq!((outcome, bank.len()), (Ok(()), 1));
    }
}

/// The notes of a bank's voices, one behind the other.
fn notes(bank: &[(u16, MaskVoice)]) -> Vec<u8> {
    let note = |(_, voice): &(u16, MaskVoice)| match voice.pitch {
        Pitch::Note(note, _) => note,
        Pitch::Hertz(_) => panic!("these voices are notes"),
    };
    bank.iter().map(note).collect()
}

#[test]
fn voices_stand_in_the_order_of_arrival() {
    let mut bank = Bank::new();
    let steps = [
        (Step::Add(9, voice(60)), &[60][..]),
        (Step::Add(7, voice(50)), &[60, 50]),
        (Step::Add(8, voice(40)), &[60, 50, 40]),
        (Step::Change(7, voice(99)), &[60, 99, 40]),
        (Step::Remove(9), &[99, 40]),
        (Step::Add(9, voice(60)), &[99, 40, 60]),
        (Step::Remove(8), &[99, 60]),
        (Step::Change(9, voice(61)), &[99, 61]),
        (Step::Remove(9), &[99]),
        (Step::Remove(7), &[]),
    ];
    for (step, expected) in steps {
        let (outcome, back) = step.on(bank);
        assert_eq!(outcome, Ok(()));
        assert_eq!(notes(&back), expected);
        bank = back;
    }
}

/// Each place of a full bank: taken out, the others keep their order; changed, it keeps its place.
#[test]
fn every_place_of_a_full_bank() {
    for place in 0..128 {
        let full = bank_of(0..128);
        let id = u16::from(place);
        let (outcome, bank) = remove_voice(full.clone(), id);
        let others: Vec<u8> = (0..128).filter(|&note| note != place).collect();
        assert_eq!((outcome, notes(&bank)), (Ok(()), others.clone()));
        let (outcome, bank) = add_voice(bank, id, voice(place));
        let others = [&others[..], &[place]].concat();
        assert_eq!((outcome, notes(&bank)), (Ok(()), others));
        let (outcome, bank) = change_voice(full, id, voice(127 - place));
        let mut changed: Vec<u8> = (0..128).collect();
        changed[usize::from(place)] = 127 - place;
        assert_eq!((outcome, notes(&bank)), (Ok(()), changed));
    }
}

/// Ids and voices as a caller can put them: the first of several is meant, and of more than 128
/// places the first 128 are looked at and kept.
#[test]
fn banks_that_no_list_of_calls_makes() {
    let same: Bank = (0..3).map(|note| (5, voice(note))).collect();
    assert_eq!(notes(&remove_voice(same.clone(), 5).1), [1, 2]);
    assert_eq!(notes(&change_voice(same.clone(), 5, voice(9)).1), [9, 1, 2]);
    assert_eq!(refusal(&same, Step::Add(5, voice(9))), refused(10));

    let long = bank_of(0..130);
    assert_eq!(refusal(&long, Step::Add(200, voice(1))), refused(3));
    assert_eq!(refusal(&long, Step::Remove(128)), refused(10));
    assert_eq!(refusal(&long, Step::Change(129, voice(1))), refused(10));
    let (outcome, bank) = remove_voice(long.clone(), 127);
    assert_eq!((outcome, words(&bank)), (Ok(()), words(&long[..127])));
    let (outcome, bank) = change_voice(long.clone(), 127, voice(127));
    assert_eq!((outcome, words(&bank)), (Ok(()), words(&long[..128])));
}

/// A reading, left and right one behind the other.
fn read(bank: &Bank, scene: &Scene, table: &[f32]) -> (Outcome, Vec<f32>) {
    let (mut left, mut right) = (vec![BEFORE; table.len()], vec![BEFORE; table.len()]);
    let (curve, config) = (&scene.curve, scene.config);
    let outcome = read_masks(&mut left, &mut right, curve, bank, config, table);
    (outcome, [left, right].concat())
}

/// Every fault at once, then one fewer each time, as the stereo call tests them.
#[test]
fn a_reading_tests_1_to_6() {
    let mut bank = bank_of(1..130);
    let mut scene = Scene {
        config: MaskConfig {
            fft_size: 96,
            width_cents: 0.5,
            ..MaskConfig::default()
        },
        voices: Vec::new(),
        curve: vec![0.0; MANUAL_MASK_POINTS - 1],
    };
    let mut table = vec![10.0; 33];
    table[3] = f32::NAN;
    let place = |number, place| Err(Refusal { number, place });
    assert_eq!(read(&bank, &scene, &table).0, refused(1));
    scene.config.fft_size = 64;
    assert_eq!(read(&bank, &scene, &table).0, refused(2));
    scene.config.width_cents = 1.0;
    assert_eq!(read(&bank, &scene, &table).0, refused(3));
    bank.remove(0);
    assert_eq!(read(&bank, &scene, &table).0, refused(4));
    scene.curve.push(0.0);
    assert_eq!(read(&bank, &scene, &table).0, place(5, 126)); // notes 128 and 129
    bank.truncate(126);
    let (outcome, masks) = read(&bank, &scene, &table);
    assert_eq!(outcome, place(6, 3));
    assert!(masks.iter().all(|&x| x == BEFORE));
    table[3] = 17.0;
    let (outcome, masks) = read(&bank, &scene, &table);
    assert_eq!(outcome, Ok(()));
    assert!(masks.iter().all(|&x| x != BEFORE));
}

/// The voices present by their ids, each with the number of the call that added it.
#[derive(Default)]
struct Present {
    voices: BTreeMap<u16, (usize, MaskVoice)>,
    calls: usize,
}

impl Present {
    /// The number that a call comes to, 0 where it is done.
    fn number(&self, step: Step) -> u8 {
        let good = |voice: &MaskVoice| oracle::refusals::voices(&[*voice]).is_ok();
        let present = |id| self.voices.contains_key(&id);
        match step {
            Step::Add(..) if self.voices.len() >= 128 => 3,
            Step::Add(_, voice) | Step::Change(_, voice) if !good(&voice) => 5,
            Step::Add(id, _) if present(id) => 10,
            Step::Remove(id) | Step::Change(id, _) if !present(id) => 10,
            _ => 0,
        }
    }

    /// Makes a call, and answers its number.
    fn make(&mut self, step: Step) -> u8 {
        self.calls += 1;
        let number = self.number(step);
        match step {
            _ if number != 0 => (),
            Step::Add(id, voice) => {
                self.voices.insert(id, (self.calls, voice));
            }
            Step::Remove(id) => {
                self.voices.remove(&id);
            }
            Step::Change(id, voice) => {
                self.voices.get_mut(&id).expect("it is present").1 = voice;
            }
        }
        number
    }

    /// In the order of arrival.
    fn in_order(&self) -> Bank {
        let held = self.voices.iter();
        let mut all: Vec<_> = held
            .map(|(&id, &(call, voice))| (call, id, voice))
            .collect();
        all.sort_by_key(|&(call, ..)| call);
        all.into_iter().map(|(_, id, voice)| (id, voice)).collect()
    }
}

/// For lists of calls from an empty bank, refused ones among them.
#[test]
fn the_masks_read_are_those_of_the_voices_then_present() {
    let random = &mut Random::new(2);
    let mut numbers = BTreeMap::new();
    for _ in 0..300 {
        let (mut bank, mut present) = (Bank::new(), Present::default());
        for step in steps(random) {
            let (outcome, back) = outcome(&bank, step);
            let number = outcome.map_or_else(|refusal| refusal.number, |()| 0);
            assert_eq!(number, present.make(step), "{step:?}");
            assert_eq!(words(&back), words(&present.in_order()), "{step:?}");
            *numbers.entry((step.name(), number)).or_insert(0) += 1;
            bank = back;
        }
        let (scene, table) = Scene::small(random, 2);
        let voices: Vec<MaskVoice> = present.in_order().iter().map(|entry| entry.1).collect();
        let mut sides = [vec![BEFORE; table.len()], vec![BEFORE; table.len()]];
        let [left, right] = &mut sides;
        let outcome = stereo(left, right, &scene.curve, &voices, scene.config, &table);
        assert_eq!(outcome, Ok(()));
        let bits = |masks: Vec<f32>| masks.into_iter().map(f32::to_bits).collect::<Vec<u32>>();
        let (outcome, masks) = read(&bank, &scene, &table);
        assert_eq!((outcome, bits(masks)), (Ok(()), bits(sides.concat())));
    }
    let reached = ["add_voice", "remove_voice", "change_voice"].map(|name| (name, 10));
    let reached = [
        &reached[..],
        &[("add_voice", 3), ("add_voice", 5), ("change_voice", 5)],
    ];
    for call in reached.concat() {
        assert!(numbers[&call] >= 100, "{call:?}: {numbers:?}");
    }
}

/// The voices of a bank, each once.
fn set(voices: impl Iterator<Item = MaskVoice>) -> BTreeSet<[u32; 8]> {
    voices.map(|voice| voice_words(&voice)).collect()
}

/// Two lists of calls that come to the same voices, in another order and some of them more often.
#[test]
fn the_order_of_arrival_is_not_audible() {
    let random = &mut Random::new(3);
    let (mut reordered, mut repeated, mut audible, mut damaged) = (0, 0, 0, 0);
    for _ in 0..400 {
        let (scene, table) = Scene::small(random, 2);
        let count = random.pick(&[0, 1, 2, 3, 6, 12, 40]);
        let voices: Vec<MaskVoice> = (0..count).map(|_| good_voice(random)).collect();
        let banks = [0, 1].map(|_| after(Bank::new(), &reaching(random, &voices)));
        for bank in &banks {
            let held = bank.iter().map(|entry| entry.1);
            assert_eq!(set(held), set(voices.iter().copied()));
        }
        let [first, second] = banks.each_ref().map(|bank| {
            let (outcome, masks) = read(bank, &scene, &table);
            assert_eq!(outcome, Ok(()));
            masks
        });
        assert!(first.iter().zip(&second).all(|(x, y)| x == y), "{banks:?}");
        let [one, other] = banks.each_ref().map(|bank| words(bank));
        reordered += usize::from(one.iter().zip(&other).any(|(a, b)| a.1 != b.1));
        repeated += usize::from(one.len() > voices.len());
        audible += usize::from(first != read(&Bank::new(), &scene, &table).1);
        damaged += usize::from(mutes_a_bin(&scene.curve, scene.config.fft_size));
    }
    let reached = [reordered, repeated, audible, damaged];
    assert!(reached.iter().all(|&count| count >= 100), "{reached:?}");
}
