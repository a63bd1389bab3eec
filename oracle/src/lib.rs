//! What the port is compared with: the Rust that is ported, with document 01's functions in place
//! of its library calls, always the plain way, and the refusals of document 01's table. The calls
//! that the Rust lacks are written from the text of their change request.

#![forbid(unsafe_code)]

pub mod bank_calls;
pub mod bignum;
pub mod builders;
pub mod calls;
pub mod curves;
pub mod edges;
pub mod functions;
pub mod lists;
pub mod mask_calls;
pub mod mixer;
pub mod mixer_calls;
pub mod numbers;
pub mod plain_pitch;
pub mod plain_words;
pub mod port_tables;
pub mod random;
pub mod record_calls;
pub mod refusals;
pub mod scene_records;
pub mod scenes;
pub mod tables;
pub mod voice_bank;

#[path = "oiko_dsp/lib.rs"]
pub mod oiko_dsp;
#[path = "spectral_dsp/lib.rs"]
pub mod spectral_dsp;
