//! A mixer of sixteen strips: the sentences of change request 106 over random lists of calls. What
//! is expected is worked out from the calls made before, without the mixer's line.

use oracle::calls::build_stereo_masks_with_voices_precomputed as stereo;
use oracle::calls::{request, serve, turn};
use oracle::mixer::{Mixer, STRIPS, Served};
use oracle::mixer_calls::{Step, no_strip, some_strips, steps};
use oracle::random::Random;
use oracle::refusals::{Outcome, Refusal};
use oracle::scene_records::StoredScene;
use oracle::scenes;
use oracle::spectral_dsp::{MANUAL_MASK_POINTS, MaskConfig, MaskVoice, Pitch};

const BEFORE: f32 = 7.0;

fn refused(number: u8, place: usize) -> Outcome {
    Err(Refusal { number, place })
}

/// A call that was made.
#[derive(Clone, Copy, Debug, Eq, PartialEq)]
enum Event {
    Asked(usize),
    /// A turn, and the strip that it named.
    Turn(Option<usize>),
}

/// The calls made so far.
#[derive(Default)]
struct History(Vec<Event>);

impl History {
    /// The number of the call at which a strip's present wait began, which is its first request
    /// since it was last named. None where it has not asked since.
    fn since(&self, strip: usize) -> Option<usize> {
        let named = self.0.iter().rposition(|&e| e == Event::Turn(Some(strip)));
        let start = named.map_or(0, |call| call + 1);
        let asked = self.0[start..]
            .iter()
            .position(|&e| e == Event::Asked(strip));
        asked.map(|call| start + call)
    }

    /// The strips that wait, each after the beginning of its wait.
    fn waits(&self) -> Vec<(usize, usize)> {
        let wait = |strip| Some((self.since(strip)?, strip));
        (0..STRIPS).filter_map(wait).collect()
    }

    /// The turns since a call.
    fn turns_since(&self, call: usize) -> usize {
        let is_turn = |event: &&Event| matches!(event, Event::Turn(_));
        self.0[call..].iter().filter(is_turn).count()
    }

    /// The turns that found someone waiting.
    fn found(&self) -> u64 {
        let found = |event: &&Event| matches!(event, Event::Turn(Some(_)));
        self.0.iter().filter(found).count() as u64
    }
}

/// A mixer, and the calls that made it of a fresh one.
#[derive(Default)]
struct Played {
    mixer: Mixer,
    history: History,
    /// The most turns that a strip's wait took, the one that named it among them.
    longest: usize,
    /// How often a strip asked while it waited, and how often a turn found nobody.
    again: usize,
    nobody: usize,
}

impl Played {
    /// Asking again, and a number that no strip has, change nothing.
    fn request(&mut self, strip: usize) {
        let expected = match strip < STRIPS {
            true => Ok(()),
            false => refused(11, 0),
        };
        let waits = self.history.since(strip).is_some() && strip < STRIPS;
        let (outcome, mixer) = request(self.mixer.clone(), strip);
        assert_eq!(outcome, expected);
        if waits || strip >= STRIPS {
            assert_eq!(mixer, self.mixer, "strip {strip}");
        }
        self.again += usize::from(waits);
        self.history.0.push(Event::Asked(strip));
        self.mixer = mixer;
    }

    /// The strip that is named is the one whose wait began at the earliest call. A turn names none
    /// only where none waits, and then it changes nothing.
    fn turn(&mut self) {
        let waits = self.history.waits();
        let (named, mixer) = turn(self.mixer.clone());
        assert_eq!(named, waits.iter().min().map(|wait| wait.1), "{waits:?}");
        self.history.0.push(Event::Turn(named));
        match waits.iter().min() {
            Some(&(since, _)) => {
                let turns = self.history.turns_since(since);
                assert!(turns <= 16, "{turns} turns: {waits:?}");
                self.longest = self.longest.max(turns);
            }
            None => {
                assert_eq!(mixer, self.mixer);
                self.nobody += 1;
            }
        }
        self.mixer = mixer;
    }

    /// A strip waits where it has asked since it was last named, once however often it asked; and
    /// the counter equals the turns that found someone.
    fn check(&self) {
        let mut line = Vec::from(self.mixer.waiting.clone());
        line.sort();
        let waiting: Vec<usize> = self.history.waits().iter().map(|wait| wait.1).collect();
        assert_eq!(line, waiting);
        assert_eq!(self.mixer.served, self.history.found());
    }

    fn make(&mut self, step: Step) {
        match step {
            Step::Request(strip) => self.request(strip),
            Step::Turn => self.turn(),
        }
        self.check();
    }
}

#[test]
fn lists_of_requests_and_turns() {
    let random = &mut Random::new(1);
    let (mut longest, mut reached) = (0, [0; 3]);
    for _ in 0..3_000 {
        let mut played = Played::default();
        steps(random).into_iter().for_each(|step| played.make(step));
        longest = longest.max(played.longest);
        let full = played.mixer.waiting.len() == STRIPS;
        let met = [played.again, played.nobody, usize::from(full)];
        reached
            .iter_mut()
            .zip(met)
            .for_each(|(sum, met)| *sum += met);
    }
    assert_eq!(longest, 16);
    assert!(reached.iter().all(|&sum| sum >= 100), "{reached:?}");
}

/// Whatever the others file between the turns, and even where each asks again as soon as it is
/// named: the last of sixteen is named in the sixteenth turn.
#[test]
fn the_sixteenth_turn_is_the_latest() {
    let random = &mut Random::new(2);
    for last in 0..STRIPS {
        let mut played = Played::default();
        let others: Vec<usize> = (0..STRIPS).filter(|&strip| strip != last).collect();
        others
            .iter()
            .for_each(|&strip| played.make(Step::Request(strip)));
        played.make(Step::Request(last));
        for &named in &others {
            played.make(Step::Turn);
            assert_eq!(played.history.0.last(), Some(&Event::Turn(Some(named))));
            played.make(Step::Request(named));
            for strip in some_strips(random) {
                played.make(Step::Request(strip));
            }
        }
        played.make(Step::Turn);
        assert_eq!(played.history.0.last(), Some(&Event::Turn(Some(last))));
        assert_eq!(played.longest, 16);
    }
}

/// The names that turns give, one after the other.
fn names(mut mixer: Mixer, turns: usize) -> (Vec<Option<usize>>, Mixer) {
    let mut named = Vec::new();
    for _ in 0..turns {
        let (strip, after) = turn(mixer);
        named.push(strip);
        mixer = after;
    }
    (named, mixer)
}

/// A fresh mixer after these requests.
fn asked(strips: impl IntoIterator<Item = usize>) -> Mixer {
    let ask = |mixer, strip| request(mixer, strip).1;
    strips.into_iter().fold(Mixer::default(), ask)
}

#[test]
fn a_strip_that_asks_twice_waits_once() {
    let mixer = asked([5, 3, 5, 5, 3]);
    let (named, mixer) = names(mixer, 3);
    assert_eq!(named, [Some(5), Some(3), None]);
    // Once it is named, it can ask again, and waits behind the others.
    let ask = |mixer, strip| request(mixer, strip).1;
    let mixer = names([5, 3].into_iter().fold(mixer, ask), 1).1;
    let (named, mixer) = names(ask(mixer, 5), 3);
    assert_eq!(named, [Some(3), Some(5), None]);
    assert_eq!(mixer.served, 5);
}

#[test]
fn the_counter_stays_at_its_highest_value() {
    let mut mixer = asked(0..4);
    mixer.served = u64::MAX - 2;
    for expected in [u64::MAX - 1, u64::MAX, u64::MAX, u64::MAX, u64::MAX] {
        mixer = turn(mixer).1;
        assert_eq!(mixer.served, expected);
    }
    assert!(mixer.waiting.is_empty());
    assert_eq!(request(mixer, 7).1.served, u64::MAX);
}

#[test]
fn a_strip_above_15_is_refusal_11() {
    let random = &mut Random::new(3);
    for mixer in [asked([]), asked([15]), asked(0..15), asked(0..16)] {
        for strip in [16, 17, usize::MAX, no_strip(random)] {
            assert_eq!(
                request(mixer.clone(), strip),
                (refused(11, 0), mixer.clone())
            );
        }
        assert_eq!(request(mixer, 15).0, Ok(()));
    }
}

/// Lines as a caller can write them: a full one takes nobody more, and a turn names what stands
/// first, whatever number it is.
#[test]
fn mixers_that_no_list_of_calls_makes() {
    let of = |strips: &[usize]| Mixer {
        waiting: strips.iter().copied().collect(),
        served: 3,
    };
    let full = of(&[4; STRIPS]);
    for strip in [4, 5] {
        assert_eq!(request(full.clone(), strip), (Ok(()), full.clone()));
    }
    assert_eq!(request(full.clone(), 16), (refused(11, 0), full.clone()));
    let (named, after) = turn(full);
    assert_eq!((named, after.waiting.len(), after.served), (Some(4), 15, 4));
    let odd = of(&[usize::MAX, 2, 2]);
    let (outcome, odd) = request(odd, 3);
    assert_eq!(outcome, Ok(()));
    let named = [Some(usize::MAX), Some(2), Some(2), Some(3), None];
    assert_eq!(names(odd, 5).0, named);
}

/// What the builder is lent.
#[derive(Clone, Debug)]
struct Lent {
    left: Vec<f32>,
    right: Vec<f32>,
    curve: Vec<f32>,
    table: Vec<f32>,
}

impl Lent {
    /// At size 64.
    fn good() -> Self {
        Self {
            left: vec![BEFORE; 33],
            right: vec![BEFORE; 33],
            curve: vec![0.0; MANUAL_MASK_POINTS],
            table: vec![10.0; 33],
        }
    }

    fn serve(&mut self, scenes: &[StoredScene; STRIPS], mixer: Mixer) -> Served {
        let (curve, table) = (&self.curve, &self.table);
        serve(&mut self.left, &mut self.right, curve, scenes, table, mixer)
    }

    fn stereo(&mut self, scene: &StoredScene) -> Outcome {
        let (curve, voices, table) = (&self.curve, &scene.voices, &self.table);
        stereo(
            &mut self.left,
            &mut self.right,
            curve,
            voices,
            scene.config,
            table,
        )
    }

    fn bits(&self) -> Vec<u32> {
        let masks = self.left.iter().chain(&self.right);
        masks.map(|x| x.to_bits()).collect()
    }
}

/// A scene of size 64 that is told from the others by the strip's note.
fn scene(strip: usize) -> StoredScene {
    let voice = MaskVoice {
        pitch: Pitch::Note(60 + strip as u8, 0.0),
        level: 1.0,
        ..MaskVoice::default()
    };
    StoredScene {
        config: MaskConfig {
            fft_size: 64,
            note_depth_db: 48.0,
            ..MaskConfig::default()
        },
        voices: vec![voice],
    }
}

/// Scenes of which this strip's alone is accepted.
fn one_of(strip: usize, scene: &StoredScene) -> [StoredScene; STRIPS] {
    std::array::from_fn(|other| match other == strip {
        true => scene.clone(),
        false => StoredScene::blank(),
    })
}

/// The named strip's scene, and no other, goes to the stereo call.
#[test]
fn the_masks_are_the_stereo_calls_on_the_named_strips_scene() {
    let random = &mut Random::new(4);
    for strip in 0..STRIPS {
        let mut scene = scene(strip);
        scene.voices.extend((0..4).map(|_| scenes::voice(random)));
        let (mut lent, mut expected) = (Lent::good(), Lent::good());
        lent.table = scenes::unprepared(random, 33);
        expected.table = lent.table.clone();
        assert_eq!(expected.stereo(&scene), Ok(()));
        let mixer = asked([strip, (strip + 1) % STRIPS]);
        let served = lent.serve(&one_of(strip, &scene), mixer.clone());
        assert_eq!((served.named, served.outcome), (Some(strip), Ok(())));
        assert_eq!(served.mixer, turn(mixer).1);
        assert_eq!(lent.bits(), expected.bits());
        assert_ne!(lent.bits(), Lent::good().bits());
    }
}

/// Scenes and slices that the stereo call refuses, with the number and the place.
fn faulty() -> Vec<(StoredScene, Lent, Outcome)> {
    let with = |number, place, change: fn(&mut StoredScene, &mut Lent)| {
        let (mut scene, mut lent) = (scene(3), Lent::good());
        change(&mut scene, &mut lent);
        (scene, lent, refused(number, place))
    };
    vec![
        with(1, 0, |scene, _| scene.config.fft_size = 96),
        with(2, 0, |scene, _| scene.config.width_cents = 0.5),
        with(3, 0, |scene, _| scene.voices = vec![scene.voices[0]; 129]),
        with(4, 0, |scene, _| scene.config.fft_size = 128),
        with(4, 0, |_, lent| lent.right.truncate(32)),
        with(5, 0, |scene, _| scene.voices[0].level = 1.5),
        with(6, 9, |_, lent| lent.table[9] = f32::NAN),
    ]
}

/// The strip is taken off and counted, and is not put back.
#[test]
fn a_turn_is_taken_also_where_the_scene_is_refused() {
    for (scene, lent, outcome) in faulty() {
        assert_eq!(lent.clone().stereo(&scene), outcome);
        let (mut lent, before) = (lent.clone(), lent.bits());
        let mixer = asked([3, 8]);
        let served = lent.serve(&one_of(3, &scene), mixer.clone());
        assert_eq!((served.named, served.outcome), (Some(3), outcome));
        assert_eq!(served.mixer, turn(mixer).1);
        assert_eq!(served.mixer.served, 1);
        assert_eq!(lent.bits(), before);
    }
}

/// Nothing is tested: no slice has to have its length, and no scene has to be good.
#[test]
fn with_nobody_waiting_nothing_is_tested_or_written() {
    let empty = Lent {
        left: Vec::new(),
        right: vec![BEFORE; 2],
        curve: Vec::new(),
        table: vec![f32::NAN; 5],
    };
    let bad = faulty().into_iter().map(|(scene, lent, _)| (scene, lent));
    for (scene, mut lent) in bad.chain([(StoredScene::blank(), empty)]) {
        let before = lent.bits();
        let mixer = Mixer {
            served: 12,
            ..Mixer::default()
        };
        let served = lent.serve(&one_of(3, &scene), mixer.clone());
        assert_eq!((served.named, served.outcome), (None, Ok(())));
        assert_eq!(served.mixer, mixer);
        assert_eq!(lent.bits(), before);
    }
}

/// A caller's line can name a number that no strip has: 11 comes before all others.
#[test]
fn a_name_above_15_is_refusal_11_before_all_others() {
    for (scene, lent, _) in faulty() {
        for strip in [16, usize::MAX] {
            let (mut lent, before) = (lent.clone(), lent.bits());
            let mixer = Mixer {
                waiting: [strip, 3].into(),
                served: 0,
            };
            let served = lent.serve(&one_of(3, &scene), mixer.clone());
            assert_eq!(
                (served.named, served.outcome),
                (Some(strip), refused(11, 0))
            );
            assert_eq!(served.mixer, turn(mixer).1);
            assert_eq!(lent.bits(), before);
        }
    }
}
