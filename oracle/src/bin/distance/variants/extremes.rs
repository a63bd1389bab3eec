//! On std's functions, but document 01's maximum, minimum, clamp, counts, remainder, whole powers,
//! square root and sums.

pub mod functions {
    pub use super::super::std_functions::*;
    pub use oracle::functions::{
        abs, ceil_to_count, clamp, floor_to_count, max, min, powi2, powi5, rem_euclid, sqrt, sum,
    };
}

#[path = "../../../oiko_dsp/lib.rs"]
pub mod oiko_dsp;
#[path = "../../../spectral_dsp/lib.rs"]
pub mod spectral_dsp;
