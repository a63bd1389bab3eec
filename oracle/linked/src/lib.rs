//! The port's exported functions and records, as the binding declares them. `calls` has for each
//! open call a function that shows all that it leaves behind.

pub mod calls;

pub use dovetable::sys::*;

/// Calls one of the functions that work in place.
pub fn in_place(all: All, xs: &mut [f32]) {
    // The pointer and the length are those of one slice.
    unsafe { all(xs.as_mut_ptr(), xs.len()) }
}
