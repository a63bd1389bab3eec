//! The mask builder of a spectral note gate, over the proved static library, under the names of
//! the Rust that was ported. A call is done or [`Refused`]; a refused call has changed nothing, but
//! that [`Mixer::serve`] has taken its turn. The text of a call lists its tests under the number of
//! the refusal that a failed test gives.
//!
//! A chord, left and right:
//!
//! ```
//! use dovetable::*;
//!
//! # fn main() -> Result<(), Refused> {
//! let config = MaskConfig { note_depth_db: 48.0, partials: 8, ..MaskConfig::default() };
//! let mut table = vec![0.0; config.bins()];
//! MaskWorkspace::prepare(&mut table, config.sample_rate, config.fft_size)?;
//!
//! let voice = |pitch, pan| MaskVoice { pitch, level: 1.0, pan, ..MaskVoice::default() };
//! let note = |note| Pitch::Note { note, semitones: 0.0 };
//! let fifth = Pitch::Hertz { hertz: 392.44 };
//! let chord = [voice(note(60), -0.5), voice(note(64), 0.0), voice(fifth, 0.5)];
//! let curve = [0.0; MANUAL_MASK_POINTS];
//! let (mut left, mut right) = (table.clone(), table.clone());
//! build_stereo_masks_with_voices_precomputed(&mut left, &mut right, &curve, &chord, config, &table)?;
//! assert!(left[45] > right[45]); // note 60, on the left
//! assert!(left[67] < right[67]); // the fifth, on the right
//!
//! let refused = note_frequency(128).unwrap_err();
//! assert_eq!(refused.to_string(), "refusal 2: a setting or lone number outside its limits, or NaN");
//! # Ok(())
//! # }
//! ```
//!
//! The audio thread may make every call but [`processing::PreparedSpectrum::new`], which allocates.

mod bank;
mod calls;
mod masks;
mod mixer;
pub mod processing;
mod records;
mod refused;
mod scene;
pub mod sys;

pub use bank::Bank;
pub use calls::*;
pub use masks::*;
pub use mixer::*;
pub use records::*;
pub use refused::Refused;
pub use scene::*;
