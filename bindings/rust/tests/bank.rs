//! A bank of voices: the masks are those of the stereo call on the voices then present, each
//! refusal, the order of arrival, and banks that the safe calls cannot make.

mod given;

use dovetable::*;
use given::{BEFORE, CURVE, config, refused, table, voice};
use std::ptr::{null, null_mut};

/// A voice outside its limits.
fn bad() -> MaskVoice {
    voice(128, 0.0)
}

fn hertz(hertz: f32, pan: f32) -> MaskVoice {
    MaskVoice {
        pitch: Pitch::Hertz { hertz },
        ..voice(0, pan)
    }
}

/// A bank of this many voices, under the ids from 0 on.
fn bank_of(count: u16) -> Bank {
    let mut bank = Bank::new();
    for id in 0..count {
        bank.add(id, &voice(id as u8, 0.0)).unwrap();
    }
    bank
}

/// Left and right one behind the other, to the bit; a refused reading has changed nothing.
fn read(bank: &Bank, config: MaskConfig, table: &[f32]) -> Result<Vec<u32>, Refused> {
    let (mut left, mut right) = (vec![BEFORE; table.len()], vec![BEFORE; table.len()]);
    let outcome = bank.read_masks(&mut left, &mut right, &CURVE, config, table);
    let masks = [left, right].concat();
    assert!(outcome.is_ok() || masks.iter().all(|&gain| gain == BEFORE));
    outcome.map(|()| masks.into_iter().map(f32::to_bits).collect())
}

/// The same by the stereo call on these voices.
fn stereo(voices: &[MaskVoice]) -> Vec<u32> {
    let table = table();
    let (mut left, mut right) = (vec![BEFORE; table.len()], vec![BEFORE; table.len()]);
    build_stereo_masks_with_voices_precomputed(
        &mut left,
        &mut right,
        &CURVE,
        voices,
        config(),
        &table,
    )
    .unwrap();
    [left, right]
        .concat()
        .into_iter()
        .map(f32::to_bits)
        .collect()
}

#[test]
fn the_masks_are_those_of_the_voices_then_present() {
    let (third, fifth) = (voice(64, 1.0), hertz(392.44, -1.0));
    let mut bank = Bank::default();
    let holds = |bank: &Bank, voices: &[MaskVoice]| {
        assert_eq!(bank.len(), voices.len());
        assert_eq!(bank.is_empty(), voices.is_empty());
        assert_eq!(read(bank, config(), &table()), Ok(stereo(voices)));
    };
    holds(&bank, &[]);
    bank.add(0, &voice(60, 0.0)).unwrap();
    holds(&bank, &[voice(60, 0.0)]);
    bank.add(65_535, &fifth).unwrap();
    holds(&bank, &[voice(60, 0.0), fifth]);
    assert_eq!(bank.add(0, &third), refused(10, 0));
    holds(&bank, &[voice(60, 0.0), fifth]);
    bank.change(0, &third).unwrap();
    holds(&bank, &[third, fifth]);
    bank.remove(65_535).unwrap();
    holds(&bank, &[third]);
    bank.remove(0).unwrap();
    holds(&bank, &[]);
}

/// Other voices have other masks, so that the comparison above can fail.
#[test]
fn each_voice_is_heard() {
    let chords = [
        stereo(&[]),
        stereo(&[voice(64, 1.0)]),
        stereo(&[hertz(392.44, -1.0)]),
        stereo(&[voice(64, 1.0), hertz(392.44, -1.0)]),
    ];
    for (index, chord) in chords.iter().enumerate() {
        assert!(chords[..index].iter().all(|other| other != chord));
    }
}

/// A full bank of which one voice sounds, at its first place, in the middle or at its last.
#[test]
fn each_place_of_a_full_bank_is_read() {
    let silent = MaskVoice {
        level: 0.0,
        ..voice(64, 0.0)
    };
    for place in [0, 63, 126, 127] {
        let mut voices = [silent; MOST_VOICES];
        voices[place] = voice(60, 0.5);
        let mut bank = Bank::new();
        for (id, voice) in (0..).zip(&voices) {
            bank.add(id, voice).unwrap();
        }
        let masks = read(&bank, config(), &table()).unwrap();
        assert_eq!(masks, stereo(&voices));
        assert_eq!(masks, stereo(&[voice(60, 0.5)]));
        assert_ne!(masks, stereo(&[silent]));
    }
}

#[test]
fn adding_tests_3_5_10() {
    let mut full = bank_of(128);
    for (id, voice) in [(200, voice(1, 0.0)), (200, bad()), (5, bad())] {
        assert_eq!(full.add(id, &voice), refused(3, 0));
    }
    assert_eq!(full.len(), 128);
    full.remove(5).unwrap();
    assert_eq!(full.add(200, &bad()), refused(5, 0));
    assert_eq!(full.add(6, &bad()), refused(5, 0));
    assert_eq!(full.add(6, &voice(1, 0.0)), refused(10, 0));
    assert_eq!(full.add(127, &voice(1, 0.0)), refused(10, 0));
    assert_eq!(full.add(5, &voice(1, 0.0)), Ok(()));
    assert_eq!(full.len(), 128);
}

#[test]
fn changing_tests_5_10_and_taking_out_10() {
    for mut bank in [bank_of(128), bank_of(3)] {
        let count = bank.len();
        assert_eq!(bank.change(200, &bad()), refused(5, 0));
        assert_eq!(bank.change(2, &bad()), refused(5, 0));
        assert_eq!(bank.change(200, &voice(1, 0.0)), refused(10, 0));
        assert_eq!(bank.remove(200), refused(10, 0));
        assert_eq!(bank.change(2, &voice(1, 0.0)), Ok(()));
        assert_eq!(bank.len(), count);
        assert_eq!(bank.remove(2), Ok(()));
        assert_eq!(bank.remove(2), refused(10, 0));
        assert_eq!(bank.len(), count - 1);
    }
    assert_eq!(Bank::new().remove(0), refused(10, 0));
}

#[test]
fn a_reading_tests_1_2_4_6() {
    let (bank, mut table) = (bank_of(128), table());
    let small = MaskConfig {
        fft_size: 96,
        partials: 25,
        ..config()
    };
    let many = MaskConfig {
        partials: 25,
        ..config()
    };
    table[2] = f32::NAN;
    assert_eq!(read(&bank, small, &table[1..]), refused(1, 0));
    assert_eq!(read(&bank, many, &table[1..]), refused(2, 0));
    assert_eq!(read(&bank, config(), &table[1..]), refused(4, 0));
    assert_eq!(read(&bank, config(), &table), refused(6, 2));
    table[2] = 17.0;
    assert!(read(&bank, config(), &table).is_ok());
}

/// The same voices in another order, and one of them twice.
#[test]
fn the_order_is_not_audible() {
    let voices = [voice(60, -0.5), hertz(392.44, 0.5), voice(67, 0.0)];
    let (mut one, mut other) = (Bank::new(), Bank::new());
    for (index, voice) in voices.iter().enumerate() {
        one.add(index as u16, voice).unwrap();
    }
    for index in [2, 0, 1, 2] {
        let id = 1_000 * other.len() as u16;
        other.add(id, &voices[index]).unwrap();
    }
    let [one, other] = [one, other].map(|bank| read(&bank, config(), &table()).unwrap());
    let equal = |(&a, &b): (&u32, &u32)| f32::from_bits(a) == f32::from_bits(b);
    assert!(one.iter().zip(&other).all(equal));
}

/// A record's numbers as bits.
fn bits(record: &sys::VoiceRecord) -> [u32; 9] {
    let floats = [
        record.semitones_or_hertz,
        record.level,
        record.pressure,
        record.timbre,
        record.volume_gain,
        record.expression_gain,
        record.pan,
    ];
    let mut bits = [u32::from(record.pitch_form), u32::from(record.note)].to_vec();
    bits.extend(floats.map(f32::to_bits));
    bits.try_into().unwrap()
}

/// The first places of a bank.
fn places(bank: &sys::Bank, count: usize) -> Vec<(u16, [u32; 9])> {
    let ids = bank.ids[..count].iter().copied();
    ids.zip(bank.voices.iter().map(bits)).collect()
}

/// All of a bank.
fn whole(bank: &sys::Bank) -> (usize, Vec<(u16, [u32; 9])>) {
    (bank.count, places(bank, MOST_VOICES))
}

#[test]
fn the_empty_bank_has_0_in_every_field() {
    let bank = sys::dovetable_new_bank();
    assert_eq!(whole(&bank), (0, vec![(0, [0; 9]); MOST_VOICES]));
}

/// What a call answers that has to be done.
fn done(banked: sys::Banked) -> sys::Bank {
    assert_eq!((banked.number, banked.place), (0, 0));
    banked.bank
}

/// By hertz the note does not count.
#[test]
fn a_stored_voice_by_hertz_has_note_0() {
    let mut record = sys::VoiceRecord::from(&hertz(392.44, 0.5));
    let stored = bits(&record);
    record.note = 255;
    let bank = done(sys::dovetable_add_voice(
        sys::dovetable_new_bank(),
        7,
        record,
    ));
    assert_eq!((bank.count, places(&bank, 1)), (1, vec![(7, stored)]));
    record.note = 77;
    let bank = done(sys::dovetable_change_voice(bank, 7, record));
    assert_eq!((bank.count, places(&bank, 1)), (1, vec![(7, stored)]));
}

/// A bank with another id and another voice at each place, as a caller can write one.
fn written(count: usize) -> sys::Bank {
    let mut bank = sys::dovetable_new_bank();
    for place in 0..MOST_VOICES {
        bank.ids[place] = 3 * place as u16;
        bank.voices[place] = (&voice(place as u8, 0.0)).into();
    }
    bank.count = count;
    bank
}

#[test]
fn voices_stand_in_the_order_of_arrival() {
    let record = sys::VoiceRecord::from(&voice(99, 0.25));
    for count in [1, 2, 64, 127, 128] {
        let before = written(count);
        let all = places(&before, count);
        for place in [0, count / 2, count - 1] {
            let id = before.ids[place];
            let bank = done(sys::dovetable_change_voice(before, id, record));
            let mut changed = all.clone();
            changed[place].1 = bits(&record);
            assert_eq!((bank.count, places(&bank, count)), (count, changed));

            let bank = done(sys::dovetable_remove_voice(before, id));
            let mut others = all.clone();
            others.remove(place);
            assert_eq!(
                (bank.count, places(&bank, count - 1)),
                (count - 1, others.clone())
            );

            let bank = done(sys::dovetable_add_voice(bank, 1, record));
            others.push((1, bits(&record)));
            assert_eq!((bank.count, places(&bank, count)), (count, others));
        }
    }
}

/// A refused call hands back every field as it came, those past the count too.
fn comes_back(bank: &sys::Bank, banked: sys::Banked, number: u32) {
    assert_eq!((banked.number, banked.place), (number, 0));
    assert_eq!(whole(&banked.bank), whole(bank));
}

#[test]
fn a_refused_call_hands_the_bank_back_as_it_came() {
    let (good, bad) = (voice(1, 0.0), bad());
    let [good, bad] = [&good, &bad].map(sys::VoiceRecord::from);
    let add = |bank, id, voice| sys::dovetable_add_voice(bank, id, voice);
    for count in [0, 1, 64, 127, 128, 129, 4_000, usize::MAX] {
        let bank = written(count);
        comes_back(&bank, sys::dovetable_change_voice(bank, 0, bad), 5);
        comes_back(&bank, sys::dovetable_change_voice(bank, 1, good), 10);
        comes_back(&bank, sys::dovetable_remove_voice(bank, 1), 10);
        match count < 128 {
            true => comes_back(&bank, add(bank, 1, bad), 5),
            false => comes_back(&bank, add(bank, 1, good), 3),
        }
        if (1..128).contains(&count) {
            comes_back(&bank, add(bank, 0, good), 10);
            // The id of a place past the count is not in the bank.
            let past = 3 * count as u16;
            comes_back(&bank, sys::dovetable_remove_voice(bank, past), 10);
        }
    }
}

/// Of a bank that counts more than it can have, the first 128 places are looked at and kept.
#[test]
fn counts_above_128() {
    let record = sys::VoiceRecord::from(&voice(99, 0.25));
    for count in [129, 4_000, 1 << 32, usize::MAX] {
        let before = written(count);
        let all = places(&before, MOST_VOICES);
        let bank = done(sys::dovetable_remove_voice(before, 3 * 127));
        assert_eq!((bank.count, places(&bank, 127)), (127, all[..127].to_vec()));
        let bank = done(sys::dovetable_remove_voice(before, 0));
        assert_eq!((bank.count, places(&bank, 127)), (127, all[1..].to_vec()));
        let bank = done(sys::dovetable_change_voice(before, 3 * 127, record));
        assert_eq!(bank.count, MOST_VOICES);
        assert_eq!(places(&bank, 127), all[..127]);
        assert_eq!(bits(&bank.voices[127]), bits(&record));
        assert_eq!(read_raw(before, config().into()), (3, 0));
    }
}

#[test]
fn the_first_of_several_places_with_an_id_is_meant() {
    let record = sys::VoiceRecord::from(&voice(99, 0.25));
    let mut before = written(5);
    before.ids[1..5].fill(7);
    let all = places(&before, 5);
    let bank = done(sys::dovetable_remove_voice(before, 7));
    let others = [&all[..1], &all[2..]].concat();
    assert_eq!((bank.count, places(&bank, 4)), (4, others));
    let bank = done(sys::dovetable_change_voice(before, 7, record));
    assert_eq!(bits(&bank.voices[1]), bits(&record));
    assert_eq!(places(&bank, 5)[2..], all[2..]);
}

/// The number and the place of the library's own call; a refused one has changed nothing.
fn read_raw(bank: sys::Bank, settings: sys::Settings) -> (u32, usize) {
    let (table, mut place) = (table(), 7);
    let bins = table.len();
    let (mut left, mut right) = (vec![BEFORE; bins], vec![BEFORE; bins]);
    let (first, second) = (left.as_mut_ptr(), right.as_mut_ptr());
    let (curve, points) = (CURVE.as_ptr(), CURVE.len());
    // A pointer and a length are those of one slice.
    let number = unsafe {
        sys::dovetable_read_masks(
            first,
            bins,
            second,
            bins,
            curve,
            points,
            bank,
            settings,
            table.as_ptr(),
            bins,
            &mut place,
        )
    };
    let kept = left.iter().chain(&right).all(|&gain| gain == BEFORE);
    assert_eq!(kept, number != 0);
    (number, place)
}

/// Voices that no call lets in, and a shape that is none.
#[test]
fn numbers_that_the_safe_call_cannot_pass_are_refused() {
    let mut settings = sys::Settings::from(config());
    let mut bank = written(128);
    assert_eq!(read_raw(bank, settings), (0, 7));
    bank.voices[2].pitch_form = 2;
    bank.voices[9].level = f32::NAN;
    assert_eq!(read_raw(bank, settings), (5, 2));
    bank.count = 2;
    assert_eq!(read_raw(bank, settings), (0, 7));
    settings.motion_shape = 8;
    assert_eq!(read_raw(bank, settings), (2, 0));
    settings.fft_size = 0;
    assert_eq!(read_raw(bank, settings), (1, 0));
    let form = sys::VoiceRecord {
        pitch_form: 255,
        ..bank.voices[0]
    };
    comes_back(&bank, sys::dovetable_add_voice(bank, 1, form), 5);
    comes_back(&bank, sys::dovetable_change_voice(bank, 0, form), 5);
}

/// The header's promise on null pointers with no entries, which the safe call never passes.
#[test]
fn null_is_an_empty_slice() {
    let (bank, settings, mut place) = (written(3), config().into(), 7);
    let number = unsafe {
        sys::dovetable_read_masks(
            null_mut(),
            0,
            null_mut(),
            0,
            null(),
            0,
            bank,
            settings,
            null(),
            0,
            &mut place,
        )
    };
    assert_eq!((number, place), (4, 0));
}
