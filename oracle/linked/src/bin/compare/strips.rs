//! What the strips of a mixer are served with: their scenes, and the slices of the one builder.

use crate::draw::{NO_SHAPES, damage};
use crate::masks::odd_forms;
use linked::calls::{passed, voice_of};
use linked::{Scene, StripScenes};
use oracle::builders::{Lent, Masks};
use oracle::calls;
use oracle::mask_calls::{Call, fault, other_table};
use oracle::mixer::{Mixer, STRIPS, Served};
use oracle::random::Random;
use oracle::refusals::{self as refuse, MAX_VOICES};
use oracle::scene_records::StoredScene;
use oracle::scenes::{self, SHAPES};
use oracle::spectral_dsp::{MaskConfig, MaskVoice};

/// The scenes of the strips on both sides.
pub struct Strips {
    pub scenes: Box<StripScenes>,
    pub expected: [StoredScene; STRIPS],
}

/// A scene of a small size, accepted but for what is brought past its limits now and then.
fn any_scene(random: &mut Random, fft_size: usize) -> (Scene, MaskConfig) {
    let config = MaskConfig {
        fft_size,
        ..scenes::config(random)
    };
    let count = match random.once_in(16) {
        true => random.pick(&[127, 128]),
        false => random.pick(&[0, 1, 1, 2, 3, 6]),
    };
    let voices = (0..count).map(|_| scenes::voice(random)).collect();
    let mut call = Call::good(random, config, voices);
    for number in [1, 2, 3, 5] {
        if random.once_in(24) {
            fault(random, number, &mut call);
        }
    }
    let lent = call.lent();
    let mut scene = passed(&StoredScene {
        config: lent.config,
        voices: lent.voices,
    });
    let used = scene.count.min(MAX_VOICES);
    odd_forms(random, &mut scene.voices[..used]);
    if random.once_in(32) {
        scene.settings.motion_shape = random.pick(&NO_SHAPES);
    }
    (scene, lent.config)
}

/// The scene as the oracle reads it. However many voices more than 128 are counted, it is told of
/// one.
fn read_scene(scene: &Scene, config: MaskConfig) -> StoredScene {
    let mut voices: Vec<MaskVoice> = scene.voices.iter().map(voice_of).collect();
    voices.push(MaskVoice::default());
    voices.truncate(scene.count);
    StoredScene { config, voices }
}

impl Strips {
    pub fn new(random: &mut Random, fft_size: usize) -> Self {
        let drawn: [(Scene, MaskConfig); STRIPS] =
            std::array::from_fn(|_| match random.once_in(16) {
                true => any_scene(random, 2 * fft_size),
                false => any_scene(random, fft_size),
            });
        Self {
            expected: drawn
                .each_ref()
                .map(|(scene, config)| read_scene(scene, *config)),
            scenes: Box::new(StripScenes {
                scenes: drawn.map(|(scene, _)| scene),
            }),
        }
    }

    /// What the oracle answers; a shape that is none of the eight is refusal 2.
    pub fn agreed(&self, lent: &Lent, [left, right]: &mut Masks, mixer: Mixer) -> Served {
        let named = mixer.waiting.front().copied();
        let named = named.and_then(|strip| self.scenes.scenes.get(strip));
        let odd = |scene: &&Scene| scene.settings.motion_shape as usize >= SHAPES.len();
        let Some(scene) = named.filter(odd) else {
            let (curve, scenes, table) = (&lent.curve, &self.expected, &lent.table);
            return calls::serve(left, right, curve, scenes, table, mixer);
        };
        let (size, rate) = (scene.settings.fft_size, scene.settings.sample_rate);
        let (named, mixer) = calls::turn(mixer);
        Served {
            named,
            outcome: refuse::size_and_rate(size, rate).and(refuse::setting(false)),
            mixer,
        }
    }
}

/// The slices that the strips share, accepted but for a length or an entry now and then, and what
/// the masks hold before.
pub fn any_lent(random: &mut Random, fft_size: usize) -> (Lent, Masks) {
    let config = MaskConfig {
        fft_size,
        ..scenes::config(random)
    };
    let mut call = Call::good(random, config, Vec::new());
    if random.once_in(2) {
        other_table(random, &mut call);
    }
    for number in [4, 6] {
        if random.once_in(16) {
            fault(random, number, &mut call);
        }
    }
    let before = call.masks();
    let before = before.map(|mask| mask.iter().map(|_| random.float()).collect());
    let mut lent = call.lent();
    damage(random, &mut lent.curve);
    (lent, before)
}
