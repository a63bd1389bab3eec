//! A bank of voices: notes that come and go.

#[cfg(doc)]
use crate::masks::build_stereo_masks_with_voices_precomputed;
use crate::refused::{Refused, answered, outcome};
use crate::scene::{MaskConfig, MaskVoice};
use crate::sys;

/// Up to 128 voices, each under an id of its own, which may be any `u16`. The voices stand in the
/// order in which they were added, and the order is not audible: two banks of the same voices give
/// equal masks with the same settings, table and curve. A bank is one block of fixed size, and no
/// call allocates.
///
/// ```
/// use dovetable::*;
///
/// # fn main() -> Result<(), Refused> {
/// let config = MaskConfig { note_depth_db: 48.0, ..MaskConfig::default() };
/// let mut table = vec![0.0; config.bins()];
/// MaskWorkspace::prepare(&mut table, config.sample_rate, config.fft_size)?;
/// let curve = [0.0; MANUAL_MASK_POINTS];
/// let (mut left, mut right) = (table.clone(), table.clone());
///
/// let voice = |note, level| {
///     let pitch = Pitch::Note { note, semitones: 0.0 };
///     MaskVoice { pitch, level, ..MaskVoice::default() }
/// };
/// let mut bank = Bank::new();
/// bank.add(1, &voice(60, 1.0))?;
/// bank.add(2, &voice(64, 1.0))?;
/// bank.change(1, &voice(60, 0.5))?;
/// bank.remove(2)?;
/// assert_eq!(bank.len(), 1);
/// bank.read_masks(&mut left, &mut right, &curve, config, &table)?;
/// assert!(left[45] > left[56]); // note 60 sounds, note 64 is gone
///
/// let refused = bank.remove(2).unwrap_err();
/// assert_eq!((refused.number, refused.place), (10, 0));
/// # Ok(())
/// # }
/// ```
#[derive(Clone, Debug)]
pub struct Bank {
    /// As the library handed it back; never written here.
    block: sys::Bank,
}

impl Default for Bank {
    fn default() -> Self {
        Self::new()
    }
}

impl Bank {
    /// The empty bank.
    pub fn new() -> Self {
        Self {
            block: sys::dovetable_new_bank(),
        }
    }

    /// The number of voices.
    pub fn len(&self) -> usize {
        self.block.count
    }

    pub fn is_empty(&self) -> bool {
        self.len() == 0
    }

    /// Takes back what a call hands back, which where it is refused is the bank as it was.
    fn keep(&mut self, banked: sys::Banked) -> Result<(), Refused> {
        self.block = banked.bank;
        answered(banked.number, banked.place)
    }

    /// Adds a voice behind the others. Tests: 3, under 128 voices in the bank; 5, the voice; 10, an
    /// id that is not in the bank.
    pub fn add(&mut self, id: u16, voice: &MaskVoice) -> Result<(), Refused> {
        self.keep(sys::dovetable_add_voice(self.block, id, voice.into()))
    }

    /// Takes a voice out; the others keep their order. Tests: 10, an id that is in the bank.
    pub fn remove(&mut self, id: u16) -> Result<(), Refused> {
        self.keep(sys::dovetable_remove_voice(self.block, id))
    }

    /// Puts another voice in the place of the one with this id. Tests: 5, the voice; 10, an id that
    /// is in the bank.
    pub fn change(&mut self, id: u16, voice: &MaskVoice) -> Result<(), Refused> {
        self.keep(sys::dovetable_change_voice(self.block, id, voice.into()))
    }

    /// The masks of the bank's voices, which are those of
    /// [`build_stereo_masks_with_voices_precomputed`] on them. Tests: 1, 2, 4, 6; no bank comes to
    /// have more than 128 voices, or one outside its limits.
    pub fn read_masks(
        &self,
        left: &mut [f32],
        right: &mut [f32],
        manual_mask_db: &[f32],
        config: MaskConfig,
        table: &[f32],
    ) -> Result<(), Refused> {
        let (left, left_bins) = (left.as_mut_ptr(), left.len());
        let (right, right_bins) = (right.as_mut_ptr(), right.len());
        let (curve, points) = (manual_mask_db.as_ptr(), manual_mask_db.len());
        let (entries, length) = (table.as_ptr(), table.len());
        let (bank, settings) = (self.block, config.into());
        // A pointer and a length are those of one slice.
        outcome(|place| unsafe {
            sys::dovetable_read_masks(
                left, left_bins, right, right_bins, curve, points, bank, settings, entries, length,
                place,
            )
        })
    }
}
