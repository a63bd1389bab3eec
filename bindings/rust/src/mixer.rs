//! A mixer: sixteen strips that share one builder.

#[cfg(doc)]
use crate::masks::build_stereo_masks_with_voices_precomputed;
use crate::records::Scene;
use crate::refused::{Refused, answered};
use crate::sys;

/// The strips of a mixer, which are numbered from 0 to 15.
pub const STRIPS: usize = 16;

/// The strips that wait for the builder, each once, in the order in which they asked. A turn names
/// the one that has waited longest and takes it off. Whatever the others file, a strip is named at
/// the latest in the sixteenth turn after its wait began. A mixer is one block of fixed size, and
/// no call allocates.
///
/// ```
/// use dovetable::*;
///
/// # fn main() -> Result<(), Refused> {
/// let config = MaskConfig { note_depth_db: 48.0, ..MaskConfig::default() };
/// let mut table = vec![0.0; config.bins()];
/// MaskWorkspace::prepare(&mut table, config.sample_rate, config.fft_size)?;
/// let curve = [0.0; MANUAL_MASK_POINTS];
/// let (mut left, mut right) = (table.clone(), table.clone());
///
/// let pitch = Pitch::Note { note: 60, semitones: 0.0 };
/// let voice = MaskVoice { pitch, level: 1.0, ..MaskVoice::default() };
/// let mut scenes: [Scene; STRIPS] = std::array::from_fn(|_| Scene::new(config, &[]));
/// scenes[3] = Scene::new(config, &[voice]);
///
/// let mut mixer = Mixer::new();
/// mixer.request(3)?;
/// mixer.request(7)?;
/// mixer.request(3)?; // it waits already, and waits once
/// assert_eq!(mixer.waiting(), [3, 7]);
/// let served = mixer.serve(&mut left, &mut right, &curve, &scenes, &table);
/// assert_eq!(served.strip, Some(3));
/// served.outcome?;
/// assert!(left[45] > left[56]); // note 60
///
/// assert_eq!(mixer.turn(), Some(7)); // to build it elsewhere
/// assert_eq!(mixer.turn(), None);
/// assert_eq!(mixer.served(), 2);
/// assert_eq!(mixer.request(16).unwrap_err().number, 11);
/// # Ok(())
/// # }
/// ```
#[derive(Clone, Debug)]
pub struct Mixer {
    /// As the library handed it back; never written here.
    block: sys::Mixer,
}

/// What a turn came to that went on to the builder.
#[derive(Clone, Copy, Debug, Eq, PartialEq)]
pub struct Served {
    /// The strip that was named; none where nobody waited.
    pub strip: Option<usize>,
    /// Of the stereo call on the strip's scene; done where nobody waited.
    pub outcome: Result<(), Refused>,
}

impl Default for Mixer {
    fn default() -> Self {
        Self::new()
    }
}

impl Mixer {
    /// Nobody waits, and no turn is counted.
    pub fn new() -> Self {
        Self {
            block: sys::dovetable_new_mixer(),
        }
    }

    /// The strips that wait, the one that has waited longest first.
    pub fn waiting(&self) -> &[usize] {
        &self.block.strips[..self.block.count]
    }

    /// The number of turns that found someone waiting. At its highest value it stays.
    pub fn served(&self) -> u64 {
        self.block.served
    }

    /// Files a strip's request. A strip that waits already keeps its place. Tests: 11, strip at
    /// most 15.
    pub fn request(&mut self, strip: usize) -> Result<(), Refused> {
        let filed = sys::dovetable_request(self.block, strip);
        self.block = filed.mixer;
        answered(filed.number, filed.place)
    }

    /// Names the strip that has waited longest, and takes it off; none where nobody waits.
    pub fn turn(&mut self) -> Option<usize> {
        let turned = sys::dovetable_turn(self.block);
        self.block = turned.mixer;
        turned.named.then_some(turned.strip)
    }

    /// Takes a turn and builds the masks of the strip that it names, which are those of
    /// [`build_stereo_masks_with_voices_precomputed`] on its scene. Each strip's scene stands at
    /// its number; those of the others are not looked at. The turn is taken also where the scene is
    /// refused. Where nobody waits, nothing is tested and nothing is written. Tests, of the scene
    /// and the slices: 1 to 6; no mixer comes to name a strip above 15.
    pub fn serve(
        &mut self,
        left: &mut [f32],
        right: &mut [f32],
        manual_mask_db: &[f32],
        scenes: &[Scene; STRIPS],
        table: &[f32],
    ) -> Served {
        let (left, left_bins) = (left.as_mut_ptr(), left.len());
        let (right, right_bins) = (right.as_mut_ptr(), right.len());
        let (curve, points) = (manual_mask_db.as_ptr(), manual_mask_db.len());
        let (entries, length) = (table.as_ptr(), table.len());
        let scenes = sys::StripScenes {
            scenes: scenes.each_ref().map(sys::Scene::from),
        };
        let mixer = self.block;
        // A pointer and a length are those of one slice.
        let served = unsafe {
            sys::dovetable_serve(
                left, left_bins, right, right_bins, curve, points, scenes, entries, length, mixer,
            )
        };
        self.block = served.mixer;
        Served {
            strip: served.named.then_some(served.strip),
            outcome: answered(served.number, served.place),
        }
    }
}
