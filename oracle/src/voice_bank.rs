//! A bank of voices, by the text of change request 105: the voices then present, each with its id,
//! in the order of arrival.

use crate::refusals::MAX_VOICES;
use crate::spectral_dsp::MaskVoice;

/// The calls keep a voice in the form in which it is given, and read it where they test it.
pub type Bank<V = MaskVoice> = Vec<(u16, V)>;

/// Where the bank has the id. The calls never make a bank of more than 128 voices; of one that a
/// caller has made so, the first 128 are looked at, and the first of several with the id is taken.
pub fn place_of<V>(bank: &[(u16, V)], id: u16) -> Option<usize> {
    let mut looked_at = bank.iter().take(MAX_VOICES);
    looked_at.position(|entry| entry.0 == id)
}
