//! Change request 108: a NaN in the drawn curve mutes its bin, and no other, in every call that
//! reads a curve and writes masks.

use oracle::builders::{Builder, Lent, Masks};
use oracle::calls::{read_masks, request, serve};
use oracle::curves::{damage, point_of};
use oracle::mask_calls::{chord, other_table};
use oracle::mixer::Mixer;
use oracle::random::Random;
use oracle::record_calls::any_nan;
use oracle::refusals::Outcome;
use oracle::scene_records::StoredScene;
use oracle::spectral_dsp::MaskVoice;

const STRIP: usize = 5;

/// A call that reads a curve.
#[derive(Clone, Copy, Debug)]
enum Reader {
    Builder(Builder),
    ReadMasks,
    Serve,
}

impl Reader {
    fn all() -> impl Iterator<Item = Self> {
        let builders = Builder::ALL.into_iter().map(Self::Builder);
        builders.chain([Self::ReadMasks, Self::Serve])
    }

    /// The builder that opens the same bins.
    fn builder(self) -> Builder {
        match self {
            Self::Builder(builder) => builder,
            Self::ReadMasks | Self::Serve => Builder::StereoPrecomputed,
        }
    }

    fn masks(self, lent: &Lent) -> Masks {
        let bins = lent.config.fft_size / 2 + 1;
        let mut masks = [vec![7.0; bins], vec![7.0; bins]];
        let outcome = match self {
            Self::Builder(builder) => builder.build(lent, &mut masks),
            Self::ReadMasks => from_a_bank(lent, &mut masks),
            Self::Serve => from_a_mixer(lent, &mut masks),
        };
        assert_eq!(outcome, Ok(()));
        masks
    }
}

fn from_a_bank(lent: &Lent, [left, right]: &mut Masks) -> Outcome {
    let bank: Vec<(u16, MaskVoice)> = (0..).zip(lent.voices.iter().copied()).collect();
    read_masks(left, right, &lent.curve, &bank, lent.config, &lent.table)
}

fn from_a_mixer(lent: &Lent, [left, right]: &mut Masks) -> Outcome {
    let scene = |strip| match strip {
        STRIP => StoredScene {
            config: lent.config,
            voices: lent.voices.clone(),
        },
        _ => StoredScene::blank(),
    };
    let scenes = std::array::from_fn(scene);
    let mixer = request(Mixer::default(), STRIP).1;
    let served = serve(left, right, &lent.curve, &scenes, &lent.table, mixer);
    assert_eq!(served.named, Some(STRIP));
    served.outcome
}

/// A chord that every reader accepts.
fn accepted(random: &mut Random) -> Lent {
    let mut call = chord(random);
    if random.once_in(2) {
        other_table(random, &mut call);
    }
    call.lent()
}

/// Where a damaged curve has NaN, the bins are +0.0; all others are as on the whole curve, to the
/// bit. Answers how many were muted.
fn check(reader: Reader, lent: &Lent, damaged: Vec<f32>) -> usize {
    let whole = reader.masks(lent);
    let masks = reader.masks(&Lent {
        curve: damaged.clone(),
        ..lent.clone()
    });
    let sides = 1 + usize::from(reader.builder().is_stereo());
    let mut muted = 0;
    for (mask, whole) in masks.iter().zip(&whole).take(sides) {
        for (bin, (gain, before)) in mask.iter().zip(whole).enumerate() {
            let is_damaged = damaged[point_of(bin, lent.config.fft_size)].is_nan();
            let expected = if is_damaged { 0.0 } else { *before };
            assert_eq!(gain.to_bits(), expected.to_bits(), "{reader:?} {bin}");
            muted += usize::from(is_damaged);
        }
    }
    muted
}

/// Each bin that a voice opens, one at a time.
#[test]
fn a_bin_that_a_voice_opens_is_muted() {
    let random = &mut Random::new(1);
    for reader in Reader::all() {
        let mut opened = 0;
        for _ in 0..8 {
            let lent = accepted(random);
            for bin in lent.opened_bins(reader.builder()) {
                let mut damaged = lent.curve.clone();
                damaged[point_of(bin, lent.config.fft_size)] = any_nan(random);
                assert!(check(reader, &lent, damaged) >= 1, "{reader:?} {bin}");
                opened += 1;
            }
        }
        assert!(opened >= 40, "{reader:?}: {opened} bins");
    }
}

#[test]
fn runs_of_nan_mute_their_bins_alone() {
    let random = &mut Random::new(2);
    for reader in Reader::all() {
        let mut muted = 0;
        for _ in 0..60 {
            let lent = accepted(random);
            let mut damaged = lent.curve.clone();
            damage(random, &mut damaged);
            muted += check(reader, &lent, damaged);
        }
        assert!(muted >= 100, "{reader:?}: {muted} bins");
    }
}
