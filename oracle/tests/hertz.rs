//! Pitches by hertz: the fundamental is the frequency itself, in every builder that takes voices.

use oracle::builders::{Builder, Lent, block_of};
use oracle::oiko_dsp::note_frequency_with_tuning;
use oracle::plain_pitch::{pitch_of, plain};
use oracle::random::Random;
use oracle::refusals::{HERTZ, within};
use oracle::scenes::{Scene, hertz, voice};
use oracle::spectral_dsp::{MaskVoice, Pitch};

/// The bits of the masks of every builder that takes voices.
fn masks(scene: &Scene) -> Vec<u32> {
    let table = scene.table();
    let lent = Lent {
        config: scene.config,
        curve: scene.curve.clone(),
        levels: Vec::new(),
        voices: scene.voices.clone(),
        block: block_of(scene.config.fft_size, &table),
        table,
    };
    let with_voices = Builder::ALL.into_iter().filter(|one| one.takes_voices());
    let built = with_voices.flat_map(|builder| {
        let mut masks = [0; 2].map(|_| vec![7.0; lent.table.len()]);
        assert_eq!(builder.build(&lent, &mut masks), Ok(()));
        masks.concat()
    });
    built.map(f32::to_bits).collect()
}

/// The frequency that a voice by note sounds, where it is one that a voice by hertz may have.
fn sounded(voice: &MaskVoice) -> Option<f32> {
    match voice.pitch {
        Pitch::Note(note, semitones) => Some(note_frequency_with_tuning(note, semitones)),
        Pitch::Hertz(_) => None,
    }
    .filter(|&hertz| within(hertz, HERTZ))
}

#[test]
fn a_note_and_the_hertz_that_it_sounds_have_the_same_masks() {
    let mut random = Random::new(101);
    let mut changed = 0;
    for _ in 0..200 {
        let mut notes = Scene::anywhere_by_note(&mut random);
        notes.config.fft_size = 64 << random.below(5);
        notes.voices.truncate(8);
        let mut by_hertz = notes.clone();
        for voice in &mut by_hertz.voices {
            if let Some(hertz) = sounded(voice) {
                voice.pitch = Pitch::Hertz(hertz);
                changed += 1;
            }
        }
        assert_eq!(masks(&notes), masks(&by_hertz), "{notes:?}");
    }
    assert!(changed >= 200, "{changed} voices by hertz");
}

/// Document 01's proved case: note 69 is 440.
#[test]
fn note_69_is_440_hertz() {
    let mut scene = Scene::studio(&mut Random::new(1));
    let mut of = |pitch| {
        scene.voices.truncate(1);
        scene.voices[0].pitch = pitch;
        masks(&scene)
    };
    assert_eq!(of(Pitch::Note(69, 0.0)), of(Pitch::Hertz(440.0)));
    assert_ne!(of(Pitch::Note(69, 0.0)), of(Pitch::Hertz(441.0)));
}

#[test]
fn drawn_frequencies_are_accepted_and_have_the_ends_among_them() {
    let mut random = Random::new(5);
    let drawn: Vec<f32> = (0..1_000).map(|_| hertz(&mut random)).collect();
    assert!(drawn.iter().all(|&hertz| within(hertz, HERTZ)));
    assert!(drawn.contains(&HERTZ.0) && drawn.contains(&HERTZ.1));
    // Each of the fourteen whole octaves from 1 Hz up has its share.
    for octave in 0..14 {
        let low = f32::from(1_u16 << octave);
        let inside = |hertz: &&f32| within(**hertz, (low.next_up(), low * 2.0));
        assert!(drawn.iter().filter(inside).count() >= 20, "from {low}");
    }
    let is_hertz = |_: &usize| matches!(voice(&mut random).pitch, Pitch::Hertz(_));
    let count = (0..3_000).filter(is_hertz).count();
    assert!((900..1_100).contains(&count), "{count} of 3,000 by hertz");
}

#[test]
fn plain_numbers_give_the_pitch_back() {
    let pitches = [
        Pitch::Note(0, -48.0),
        Pitch::Note(200, 0.5),
        Pitch::Hertz(440.0),
    ];
    for pitch in pitches {
        let (form, note, number) = plain(pitch);
        assert_eq!(pitch_of(form, note, number), pitch);
    }
    assert_eq!(pitch_of(1, 255, 440.0), Pitch::Hertz(440.0));
    // No other form is accepted, whatever its numbers.
    for form in 2..=255 {
        let Pitch::Hertz(hertz) = pitch_of(form, 69, 440.0) else {
            panic!("form {form} is a note");
        };
        assert!(!within(hertz, HERTZ));
    }
}
