//! On std's functions: the Rust as it is, but the plain way always, and a NaN of the curve muted.

pub mod functions {
    pub use super::super::std_functions::*;
}

#[path = "../../../oiko_dsp/lib.rs"]
pub mod oiko_dsp;
#[path = "../../../spectral_dsp/lib.rs"]
pub mod spectral_dsp;
