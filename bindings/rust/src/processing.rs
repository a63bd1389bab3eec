//! Windows and gain lists. In each unsafe block a pointer and a length are those of one slice.

use crate::refused::{Refused, outcome};
use crate::sys;

/// The dual of an analysis window. Tests: 4, lengths in 1..16,384 and equal; 7, values in -16..16;
/// 8, overlap in 1..16, dividing the length.
pub fn build_dual_synthesis_window(
    analysis: &[f32],
    synthesis: &mut [f32],
    overlap: usize,
) -> Result<(), Refused> {
    let (read, length) = (analysis.as_ptr(), analysis.len());
    let (written, n) = (synthesis.as_mut_ptr(), synthesis.len());
    outcome(|place| unsafe {
        sys::dovetable_build_dual_synthesis_window(read, length, written, n, overlap, place)
    })
}

/// Smooths neighbouring gains in decibels. Tests: 4, lengths at most 8,193 and equal; 7, gains in
/// 0..64.
pub fn soften_spectral_edges(source: &[f32], output: &mut [f32]) -> Result<(), Refused> {
    let (read, length) = (source.as_ptr(), source.len());
    let (written, n) = (output.as_mut_ptr(), output.len());
    outcome(|place| unsafe {
        sys::dovetable_soften_spectral_edges(read, length, written, n, place)
    })
}

/// Moves gains towards a target, with a time constant of 30 ms. Tests: 2, elapsed in 0..10; 4,
/// lengths at most 8,193 and equal; 7, gains of both in 0..64.
pub fn smooth_mask_in_db(
    current: &mut [f32],
    target: &[f32],
    elapsed_seconds: f32,
) -> Result<(), Refused> {
    let (written, n) = (current.as_mut_ptr(), current.len());
    let (read, length) = (target.as_ptr(), target.len());
    outcome(|place| unsafe {
        sys::dovetable_smooth_mask_in_db(written, n, read, length, elapsed_seconds, place)
    })
}

/// The longest accepted window.
const MAX_SIZE: usize = 16_384;

/// Both windows of a size, their duals and the frequency table, in one block, and the coherent
/// gains.
#[derive(Clone, Debug, PartialEq)]
pub struct PreparedSpectrum {
    size: usize,
    block: Vec<f32>,
    window_coherent_gain: f32,
    smooth_window_coherent_gain: f32,
}

impl PreparedSpectrum {
    /// Allocates. Tests: 1, the window's length as size, rate; 4, the smooth window's length; 7,
    /// values of both windows in -16..16; 8, overlap in 1..16, dividing the size.
    pub fn new(
        sample_rate: f32,
        window: &[f32],
        smooth_analysis_window: &[f32],
        overlap: usize,
    ) -> Result<Self, Refused> {
        // A longer window is refused before the block's length is tested.
        let size = window.len().min(MAX_SIZE);
        let mut prepared = Self {
            size,
            block: vec![0.0; 4 * size + size / 2 + 1],
            window_coherent_gain: 0.0,
            smooth_window_coherent_gain: 0.0,
        };
        let (block, length) = (prepared.block.as_mut_ptr(), prepared.block.len());
        outcome(|place| unsafe {
            sys::dovetable_prepared_spectrum_new(
                sample_rate,
                window.as_ptr(),
                window.len(),
                smooth_analysis_window.as_ptr(),
                smooth_analysis_window.len(),
                overlap,
                block,
                length,
                &mut prepared.window_coherent_gain,
                &mut prepared.smooth_window_coherent_gain,
                place,
            )
        })?;
        Ok(prepared)
    }

    /// The whole block.
    pub(crate) fn block(&self) -> &[f32] {
        &self.block
    }

    /// One of the four windows, which lie before the table.
    fn part(&self, index: usize) -> &[f32] {
        &self.block[index * self.size..][..self.size]
    }

    pub fn window(&self) -> &[f32] {
        self.part(0)
    }

    /// The dual of the window.
    pub fn synthesis_window(&self) -> &[f32] {
        self.part(1)
    }

    pub fn smooth_analysis_window(&self) -> &[f32] {
        self.part(2)
    }

    /// The dual of the smooth window.
    pub fn smooth_synthesis_window(&self) -> &[f32] {
        self.part(3)
    }

    /// The frequency table, for the mask builders.
    pub fn bin_log2_hz(&self) -> &[f32] {
        &self.block[4 * self.size..]
    }

    pub fn window_coherent_gain(&self) -> f32 {
        self.window_coherent_gain
    }

    pub fn smooth_window_coherent_gain(&self) -> f32 {
        self.smooth_window_coherent_gain
    }
}
