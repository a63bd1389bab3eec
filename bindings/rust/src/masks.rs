//! The mask builders. The points of a drawn curve are decibels, and any float is accepted. One of
//! -144 or less, or NaN, mutes its bin: gain 0, whatever the voices are. One above 0 counts as 0.
//!
//! Each tests, of what it is given: 1, size, rate; 2, every other setting; 3, at most 128 voices;
//! 4, masks and table of size/2 + 1 entries, curve of 8,193, levels of 128; 5, the voices; 6, the
//! table's entries; 7, levels in 0..1. In each unsafe block a pointer and a length are those of one
//! slice.

use crate::processing::PreparedSpectrum;
use crate::refused::{Refused, outcome};
use crate::scene::{MaskConfig, MaskVoice};
use crate::sys;

/// A slice of voices as one of records: the two lie in memory alike, which tests/layout.rs checks.
/// The note's byte of a pitch by hertz is unset; the library copies it and does not use it.
fn as_records(voices: &[MaskVoice]) -> *const sys::VoiceRecord {
    voices.as_ptr().cast()
}

/// A mask from 128 note levels, of default voices. Tests: 1, 2, 4, 7.
pub fn build_mask(
    output: &mut [f32],
    manual_mask_db: &[f32],
    note_levels: &[f32],
    config: MaskConfig,
) -> Result<(), Refused> {
    let (written, bins) = (output.as_mut_ptr(), output.len());
    let (curve, points) = (manual_mask_db.as_ptr(), manual_mask_db.len());
    let (levels, notes) = (note_levels.as_ptr(), note_levels.len());
    let settings = config.into();
    outcome(|place| unsafe {
        sys::dovetable_build_mask(written, bins, curve, points, levels, notes, settings, place)
    })
}

/// A mask from voices, without a table. Tests: 1, 2, 3, 4, 5.
pub fn build_mask_with_voices(
    output: &mut [f32],
    manual_mask_db: &[f32],
    voices: &[MaskVoice],
    config: MaskConfig,
) -> Result<(), Refused> {
    let (written, bins) = (output.as_mut_ptr(), output.len());
    let (curve, points) = (manual_mask_db.as_ptr(), manual_mask_db.len());
    let (records, count) = (as_records(voices), voices.len());
    let settings = config.into();
    outcome(|place| unsafe {
        sys::dovetable_build_mask_with_voices(
            written, bins, curve, points, records, count, settings, place,
        )
    })
}

/// A mask from voices, with a frequency table. Tests: 1, 2, 3, 4, 5, 6.
pub fn build_mask_with_voices_precomputed(
    output: &mut [f32],
    manual_mask_db: &[f32],
    voices: &[MaskVoice],
    config: MaskConfig,
    table: &[f32],
) -> Result<(), Refused> {
    let (written, bins) = (output.as_mut_ptr(), output.len());
    let (curve, points) = (manual_mask_db.as_ptr(), manual_mask_db.len());
    let (records, count) = (as_records(voices), voices.len());
    let (entries, length) = (table.as_ptr(), table.len());
    let settings = config.into();
    outcome(|place| unsafe {
        sys::dovetable_build_mask_with_voices_precomputed(
            written, bins, curve, points, records, count, settings, entries, length, place,
        )
    })
}

/// A mask for each side, each voice at its pan. A voice whose pan is 1 or more leaves the left mask
/// as it is without the voice, to the bit, and one whose pan is -1 or less the right. Tests: 1, 2,
/// 3, 4, 5, 6.
pub fn build_stereo_masks_with_voices_precomputed(
    left: &mut [f32],
    right: &mut [f32],
    manual_mask_db: &[f32],
    voices: &[MaskVoice],
    config: MaskConfig,
    table: &[f32],
) -> Result<(), Refused> {
    let (left, left_bins) = (left.as_mut_ptr(), left.len());
    let (right, right_bins) = (right.as_mut_ptr(), right.len());
    let (curve, points) = (manual_mask_db.as_ptr(), manual_mask_db.len());
    let (records, count) = (as_records(voices), voices.len());
    let (entries, length) = (table.as_ptr(), table.len());
    let settings = config.into();
    outcome(|place| unsafe {
        sys::dovetable_build_stereo_masks_with_voices_precomputed(
            left, left_bins, right, right_bins, curve, points, records, count, settings, entries,
            length, place,
        )
    })
}

/// The same with the table of a prepared spectrum. Tests: 1, 2, 3, 4 (also the spectrum's size), 5,
/// 6.
pub fn build_stereo_masks_with_prepared_spectrum(
    left: &mut [f32],
    right: &mut [f32],
    manual_mask_db: &[f32],
    voices: &[MaskVoice],
    config: MaskConfig,
    prepared: &PreparedSpectrum,
) -> Result<(), Refused> {
    let (left, left_bins) = (left.as_mut_ptr(), left.len());
    let (right, right_bins) = (right.as_mut_ptr(), right.len());
    let (curve, points) = (manual_mask_db.as_ptr(), manual_mask_db.len());
    let (records, count) = (as_records(voices), voices.len());
    let (block, length) = (prepared.block().as_ptr(), prepared.block().len());
    let settings = config.into();
    outcome(|place| unsafe {
        sys::dovetable_build_stereo_masks_with_prepared_spectrum(
            left, left_bins, right, right_bins, curve, points, records, count, settings, block,
            length, place,
        )
    })
}
