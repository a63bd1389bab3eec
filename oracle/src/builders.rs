//! The five mask builders by name, and the arguments that any of them takes.

use crate::calls;
use crate::refusals::{MAX_WINDOW, Outcome};
use crate::spectral_dsp::{MANUAL_MASK_POINTS, MIDI_NOTES, MaskConfig, MaskVoice};

#[derive(Clone, Copy, Debug, Eq, PartialEq)]
pub enum Builder {
    Mask,
    WithVoices,
    WithVoicesPrecomputed,
    StereoPrecomputed,
    StereoPrepared,
}

/// The arguments of all builders beside the masks that they write. Each reads its own.
#[derive(Clone, Debug)]
pub struct Lent {
    pub config: MaskConfig,
    pub curve: Vec<f32>,
    pub levels: Vec<f32>,
    pub voices: Vec<MaskVoice>,
    pub table: Vec<f32>,
    /// Of a prepared spectrum: four windows, which are not read, and a table.
    pub block: Vec<f32>,
}

/// The block of a prepared spectrum that has this table.
pub fn block_of(fft_size: usize, table: &[f32]) -> Vec<f32> {
    let windows = 4 * fft_size.min(MAX_WINDOW);
    let mut block = vec![f32::NAN; windows];
    block.extend(table);
    block
}

/// Left and right. The mono builders write the left alone.
pub type Masks = [Vec<f32>; 2];

impl Lent {
    /// The bins that a voice opens in an accepted call, whatever the curve is: on a flat one their
    /// gain is above that without voices.
    pub fn opened_bins(&self, builder: Builder) -> Vec<usize> {
        let flat = Self {
            curve: vec![0.0; MANUAL_MASK_POINTS],
            ..self.clone()
        };
        let silent = Self {
            levels: vec![0.0; MIDI_NOTES],
            voices: Vec::new(),
            ..flat.clone()
        };
        let bins = self.config.fft_size / 2 + 1;
        let [sounding, silent] = [flat, silent].map(|lent| {
            let mut masks = [vec![0.0; bins], vec![0.0; bins]];
            let outcome = builder.build(&lent, &mut masks);
            outcome.expect("the call is accepted");
            masks
        });
        let is_open = |&bin: &usize| (0..2).any(|side| sounding[side][bin] > silent[side][bin]);
        (0..bins).filter(is_open).collect()
    }
}

impl Builder {
    pub const ALL: [Self; 5] = [
        Self::Mask,
        Self::WithVoices,
        Self::WithVoicesPrecomputed,
        Self::StereoPrecomputed,
        Self::StereoPrepared,
    ];

    /// Those of the replay lists, by their numbers there.
    pub const LISTED: [Self; 4] = [
        Self::Mask,
        Self::WithVoices,
        Self::WithVoicesPrecomputed,
        Self::StereoPrecomputed,
    ];

    pub fn name(self) -> &'static str {
        match self {
            Self::Mask => "build_mask",
            Self::WithVoices => "build_mask_with_voices",
            Self::WithVoicesPrecomputed => "build_mask_with_voices_precomputed",
            Self::StereoPrecomputed => "build_stereo_masks_with_voices_precomputed",
            Self::StereoPrepared => "build_stereo_masks_with_prepared_spectrum",
        }
    }

    pub fn is_stereo(self) -> bool {
        matches!(self, Self::StereoPrecomputed | Self::StereoPrepared)
    }

    pub fn takes_voices(self) -> bool {
        self != Self::Mask
    }

    pub fn takes_table(self) -> bool {
        matches!(self, Self::WithVoicesPrecomputed | Self::StereoPrecomputed)
    }

    pub fn build(self, lent: &Lent, [left, right]: &mut Masks) -> Outcome {
        let Lent {
            config,
            curve,
            levels,
            voices,
            table,
            block,
        } = lent;
        match self {
            Self::Mask => calls::build_mask(left, curve, levels, *config),
            Self::WithVoices => calls::build_mask_with_voices(left, curve, voices, *config),
            Self::WithVoicesPrecomputed => {
                calls::build_mask_with_voices_precomputed(left, curve, voices, *config, table)
            }
            Self::StereoPrecomputed => calls::build_stereo_masks_with_voices_precomputed(
                left, right, curve, voices, *config, table,
            ),
            Self::StereoPrepared => calls::build_stereo_masks_with_prepared_spectrum(
                left, right, curve, voices, *config, block,
            ),
        }
    }
}
