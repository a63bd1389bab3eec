//! On std's functions, but document 01's sine and cosine.

pub mod functions {
    pub use super::super::std_functions::*;
    pub use oracle::functions::{cos, sin};
}

#[path = "../../../oiko_dsp/lib.rs"]
pub mod oiko_dsp;
#[path = "../../../spectral_dsp/lib.rs"]
pub mod spectral_dsp;
