//! A mixer of sixteen strips: the order of the names, the latest turn, the counter, what a turn
//! hands to the builder, each refusal, and mixers that the safe calls cannot make.

mod given;

use dovetable::*;
use given::{BEFORE, CURVE, config, refused, table, voice};
use std::ptr::{null, null_mut};

/// A mixer in which these strips have asked, in this order.
fn asked(strips: impl IntoIterator<Item = usize>) -> Mixer {
    let mut mixer = Mixer::default();
    strips
        .into_iter()
        .for_each(|strip| mixer.request(strip).unwrap());
    mixer
}

/// The names that all turns give until nobody waits.
fn names(mut mixer: Mixer) -> Vec<usize> {
    std::iter::from_fn(|| mixer.turn()).collect()
}

#[test]
fn the_strip_that_has_waited_longest_is_named() {
    let mut mixer = Mixer::new();
    assert_eq!((mixer.waiting(), mixer.served()), (&[][..], 0));
    for strip in [5, 15, 0, 5, 15] {
        mixer.request(strip).unwrap();
    }
    assert_eq!((mixer.waiting(), mixer.served()), (&[5, 15, 0][..], 0));
    assert_eq!(mixer.turn(), Some(5));
    mixer.request(5).unwrap();
    assert_eq!((mixer.waiting(), mixer.served()), (&[15, 0, 5][..], 1));
    assert_eq!(names(mixer.clone()), [15, 0, 5]);
    while mixer.turn().is_some() {}
    assert_eq!((mixer.waiting(), mixer.served()), (&[][..], 4));
    assert_eq!(mixer.turn(), None);
    assert_eq!((mixer.waiting(), mixer.served()), (&[][..], 4));
}

/// Though each of the others asks again as soon as it is named.
#[test]
fn the_last_of_sixteen_is_named_in_the_sixteenth_turn() {
    for last in 0..STRIPS {
        let others = (0..STRIPS).filter(|&strip| strip != last);
        let mut mixer = asked(others.clone().chain([last]));
        for other in others {
            assert_eq!(mixer.turn(), Some(other));
            mixer.request(other).unwrap();
        }
        assert_eq!(mixer.turn(), Some(last));
        assert_eq!(mixer.served(), 16);
    }
}

#[test]
fn a_strip_above_15_is_refused() {
    for mut mixer in [asked([]), asked([15]), asked(0..16)] {
        let waiting = mixer.waiting().to_vec();
        for strip in [16, 17, 256, 1 << 32, usize::MAX] {
            assert_eq!(mixer.request(strip), refused(11, 0));
            assert_eq!((mixer.waiting(), mixer.served()), (&waiting[..], 0));
        }
    }
}

/// A scene for each strip, of a note of its own.
fn scenes() -> [Scene; STRIPS] {
    std::array::from_fn(|strip| Scene::new(config(), &[voice(60 + strip as u8, 0.25)]))
}

/// What serving gives, and left and right one behind the other, to the bit.
fn serve(mixer: &mut Mixer, scenes: &[Scene; STRIPS], table: &[f32]) -> (Served, Vec<u32>) {
    let (mut left, mut right) = (vec![BEFORE; table.len()], vec![BEFORE; table.len()]);
    let served = mixer.serve(&mut left, &mut right, &CURVE, scenes, table);
    (served, bits(&[left, right].concat()))
}

fn bits(masks: &[f32]) -> Vec<u32> {
    masks.iter().map(|gain| gain.to_bits()).collect()
}

/// The masks that a scene of its own would have, by the stereo call.
fn stereo(scene: &Scene) -> Vec<u32> {
    let table = table();
    let (mut left, mut right) = (vec![BEFORE; table.len()], vec![BEFORE; table.len()]);
    let (voices, config) = (scene.voices(), scene.config);
    build_stereo_masks_with_voices_precomputed(
        &mut left, &mut right, &CURVE, voices, config, &table,
    )
    .unwrap();
    bits(&[left, right].concat())
}

/// No mask of one strip is that of another, so that a wrong scene would be seen.
#[test]
fn the_masks_are_those_of_the_named_strips_scene() {
    let (scenes, table) = (scenes(), table());
    let masks: Vec<_> = scenes.iter().map(stereo).collect();
    let mut mixer = asked((0..STRIPS).rev());
    for strip in (0..STRIPS).rev() {
        let (served, built) = serve(&mut mixer, &scenes, &table);
        let done = Served {
            strip: Some(strip),
            outcome: Ok(()),
        };
        assert_eq!(served, done);
        assert!(built == masks[strip]);
        assert!(masks[..strip].iter().all(|other| *other != built));
    }
    assert_eq!((mixer.waiting(), mixer.served()), (&[][..], 16));
}

/// Serves strip 3, whose scene or table is bad, before strip 8. The turn is taken in any case.
fn refuses(scene: Scene, table: &[f32], number: u32, place: usize) {
    let mut scenes = scenes();
    scenes[3] = scene;
    let mut mixer = asked([3, 8]);
    let (served, masks) = serve(&mut mixer, &scenes, table);
    let expected = Served {
        strip: Some(3),
        outcome: refused(number, place),
    };
    assert_eq!(served, expected);
    assert!(masks.iter().all(|&gain| gain == BEFORE.to_bits()));
    assert_eq!((mixer.waiting(), mixer.served()), (&[8][..], 1));
}

/// Each fault has those of later numbers beside it.
#[test]
fn a_scene_is_tested_1_to_6() {
    let mut table = table();
    table[2] = f32::NAN;
    let (voices, short) = ([voice(60, 0.25), voice(128, 0.25)], &table[1..]);
    let small = MaskConfig {
        fft_size: 96,
        partials: 25,
        ..config()
    };
    let many = MaskConfig {
        partials: 25,
        ..config()
    };
    let other_size = MaskConfig {
        fft_size: 2048,
        ..config()
    };
    refuses(Scene::new(small, &[voices[1]; 129]), short, 1, 0);
    refuses(Scene::new(many, &[voices[1]; 129]), short, 2, 0);
    refuses(Scene::new(config(), &[voices[1]; 129]), short, 3, 0);
    refuses(Scene::new(config(), &voices), short, 4, 0);
    refuses(Scene::new(other_size, &voices), &table, 4, 0);
    refuses(Scene::new(config(), &voices), &table, 5, 1);
    refuses(Scene::new(config(), &voices[..1]), &table, 6, 2);
}

/// However bad the scenes and the slices are.
#[test]
fn with_nobody_waiting_nothing_is_tested() {
    let small = MaskConfig {
        fft_size: 96,
        ..config()
    };
    let scenes = std::array::from_fn(|_| Scene::new(small, &[voice(128, 0.25); 129]));
    let mut mixer = Mixer::new();
    let (mut left, mut right) = ([BEFORE; 3], [BEFORE; 2]);
    let served = mixer.serve(&mut left, &mut right, &[], &scenes, &[f32::NAN]);
    let nobody = Served {
        strip: None,
        outcome: Ok(()),
    };
    assert_eq!(served, nobody);
    assert_eq!((left, right), ([BEFORE; 3], [BEFORE; 2]));
    assert_eq!((mixer.waiting(), mixer.served()), (&[][..], 0));
}

/// All of a mixer.
fn whole(mixer: sys::Mixer) -> ([usize; STRIPS], usize, u64) {
    (mixer.strips, mixer.count, mixer.served)
}

/// The strips that count, and the counter.
fn line(mixer: sys::Mixer) -> (Vec<usize>, u64) {
    (mixer.strips[..mixer.count].to_vec(), mixer.served)
}

#[test]
fn the_new_mixer_has_0_in_every_field() {
    assert_eq!(whole(sys::dovetable_new_mixer()), ([0; STRIPS], 0, 0));
}

/// A mixer as a caller can write one. Its places hold 20, 21 and so on.
fn written(count: usize, served: u64) -> sys::Mixer {
    sys::Mixer {
        strips: std::array::from_fn(|place| 20 + place),
        count,
        served,
    }
}

#[test]
fn the_counter_stays_at_its_highest_value() {
    let mut mixer = written(4, u64::MAX - 2);
    for expected in [u64::MAX - 1, u64::MAX, u64::MAX, u64::MAX, u64::MAX] {
        mixer = sys::dovetable_turn(mixer).mixer;
        assert_eq!(mixer.served, expected);
    }
    assert_eq!(mixer.count, 0);
}

/// A refused request, one of a strip that waits and one that finds no room hand back every field as
/// it came, those past the count too.
#[test]
fn a_mixer_comes_back_as_it_came() {
    for count in [0, 1, 8, 15, 16, 17, 4_000, 1 << 32, usize::MAX] {
        let mut before = written(count, 9);
        let comes_back = |before: sys::Mixer, strip, number| {
            let filed = sys::dovetable_request(before, strip);
            assert_eq!((filed.number, filed.place), (number, 0));
            assert_eq!(whole(filed.mixer), whole(before));
        };
        // They are in the line, but no strip has these numbers.
        [16, 20, 35, usize::MAX]
            .into_iter()
            .for_each(|strip| comes_back(before, strip, 11));
        if count >= 16 {
            comes_back(before, 5, 0);
        }
        let last = count.clamp(1, 16) - 1;
        for place in [0, last / 2, last] {
            before.strips[place] = 5;
            if count > 0 {
                comes_back(before, 5, 0);
            }
            before.strips[place] = 20 + place;
        }
    }
    let turned = sys::dovetable_turn(written(0, 9));
    assert_eq!((turned.named, turned.strip), (false, 0));
    assert_eq!(whole(turned.mixer), whole(written(0, 9)));
}

/// The line is the first 16 places at most.
#[test]
fn lines_that_no_list_of_calls_makes() {
    for count in [1, 2, 8, 15, 16, 17, 4_000, 1 << 32, usize::MAX] {
        let (before, held) = (written(count, 9), count.min(16));
        let turned = sys::dovetable_turn(before);
        assert_eq!((turned.named, turned.strip), (true, 20));
        let rest: Vec<usize> = (21..20 + held).collect();
        assert_eq!(line(turned.mixer), (rest.clone(), 10));
        let filed = sys::dovetable_request(turned.mixer, 5);
        assert_eq!((filed.number, filed.place), (0, 0));
        assert_eq!(line(filed.mixer), ([rest, vec![5]].concat(), 10));
    }
    // What stands past the count does not wait.
    let mut before = written(3, 9);
    before.strips[3..].fill(5);
    let filed = sys::dovetable_request(before, 5);
    assert_eq!(line(filed.mixer), (vec![20, 21, 22, 5], 9));
}

/// The library's own call on accepted slices. The masks are written only where it is done.
fn serve_raw(mixer: sys::Mixer, scenes: sys::StripScenes) -> sys::Served {
    let table = table();
    let bins = table.len();
    let (mut left, mut right) = (vec![BEFORE; bins], vec![BEFORE; bins]);
    let (first, second) = (left.as_mut_ptr(), right.as_mut_ptr());
    let (curve, points) = (CURVE.as_ptr(), CURVE.len());
    // A pointer and a length are those of one slice.
    let served = unsafe {
        sys::dovetable_serve(
            first,
            bins,
            second,
            bins,
            curve,
            points,
            scenes,
            table.as_ptr(),
            bins,
            mixer,
        )
    };
    let kept = left.iter().chain(&right).all(|&gain| gain == BEFORE);
    assert_eq!(kept, served.number != 0);
    served
}

fn raw_scenes() -> sys::StripScenes {
    sys::StripScenes {
        scenes: scenes().each_ref().map(sys::Scene::from),
    }
}

/// 11 comes before all others, and the turn is taken.
#[test]
fn a_forged_name_above_15_is_refused() {
    let mut bad = raw_scenes();
    bad.scenes.iter_mut().for_each(|scene| scene.count = 129);
    for strip in [16, 17, 1 << 32, usize::MAX] {
        let mut before = written(2, 9);
        before.strips[0] = strip;
        for scenes in [raw_scenes(), bad] {
            let served = serve_raw(before, scenes);
            assert_eq!((served.number, served.place), (11, 0));
            assert_eq!((served.named, served.strip), (true, strip));
            assert_eq!(line(served.mixer), (vec![21], 10));
        }
    }
}

/// Shapes, forms and counts of the named scene, and of others, which do not matter.
#[test]
fn numbers_that_the_safe_call_cannot_pass_are_refused() {
    let mut before = written(1, 0);
    before.strips[0] = 9;
    let answer = |scenes| {
        let served = serve_raw(before, scenes);
        assert_eq!((served.named, served.strip), (true, 9));
        assert_eq!(line(served.mixer), (vec![], 1));
        (served.number, served.place)
    };
    let mut scenes = raw_scenes();
    scenes.scenes[8].settings.motion_shape = 8;
    scenes.scenes[10].voices[0].pitch_form = 2;
    assert_eq!(answer(scenes), (0, 0));
    let named = &mut scenes.scenes[9];
    named.count = 2;
    named.voices[1].pitch_form = 2;
    assert_eq!(answer(scenes), (5, 1));
    scenes.scenes[9].count = usize::MAX;
    assert_eq!(answer(scenes), (3, 0));
    scenes.scenes[9].settings.motion_shape = u32::MAX;
    assert_eq!(answer(scenes), (2, 0));
    scenes.scenes[9].settings.fft_size = 0;
    assert_eq!(answer(scenes), (1, 0));
}

/// The header's promise on null pointers with no entries, which the safe call never passes.
#[test]
fn null_is_an_empty_slice() {
    for (count, number) in [(0, 0), (1, 4)] {
        let mut mixer = sys::dovetable_new_mixer();
        mixer.count = count;
        let (none, empty) = (null_mut(), null());
        let served = unsafe {
            sys::dovetable_serve(none, 0, none, 0, empty, 0, raw_scenes(), empty, 0, mixer)
        };
        assert_eq!((served.number, served.place), (number, 0));
        assert_eq!(served.mixer.count, 0);
    }
}
