//! What a call answers when it is refused.

#[cfg(doc)]
use crate::mixer::Mixer;
use std::fmt;

/// A refusal: document 01's number and a place. A refused call has changed nothing, but that
/// [`Mixer::serve`] has taken its turn.
#[derive(Clone, Copy, Debug, Eq, PartialEq)]
pub struct Refused {
    /// 1 to 11.
    pub number: u32,
    /// The index of the voice (5) or entry (6, 7) that is outside its limits, else 0.
    pub place: usize,
}

impl Refused {
    fn condition(self) -> &'static str {
        match self.number {
            1 => "size not a power of two in 64..16,384, or rate outside 8,000..192,000 Hz",
            2 => "a setting or lone number outside its limits, or NaN",
            3 => "over 128 voices",
            4 => "a slice of the wrong length",
            5 => "a voice outside its limits",
            6 => "table entry from 1 on not in -2..17",
            7 => "a level, gain or window value outside its limits",
            8 => "overlap not in 1..16 or not dividing the length",
            9 => "a record of the wrong length, or with a forbidden bit set",
            10 => "an id that is in the bank already, or is not in it",
            11 => "a strip above 15",
            _ => "no refusal of document 01",
        }
    }
}

impl fmt::Display for Refused {
    fn fmt(&self, f: &mut fmt::Formatter<'_>) -> fmt::Result {
        write!(f, "refusal {}: {}", self.number, self.condition())?;
        match self.number {
            5 => write!(f, " (voice {})", self.place),
            6 | 7 => write!(f, " (entry {})", self.place),
            _ => Ok(()),
        }
    }
}

impl std::error::Error for Refused {}

/// What a number and a place say.
pub(crate) fn answered(number: u32, place: usize) -> Result<(), Refused> {
    match number {
        0 => Ok(()),
        number => Err(Refused { number, place }),
    }
}

/// Makes a call that takes a place.
pub(crate) fn outcome(call: impl FnOnce(&mut usize) -> u32) -> Result<(), Refused> {
    let mut place = 0;
    let number = call(&mut place);
    answered(number, place)
}

/// Makes a call that takes a value and a place.
pub(crate) fn value(call: impl FnOnce(&mut f32, &mut usize) -> u32) -> Result<f32, Refused> {
    let mut value = 0.0;
    outcome(|place| call(&mut value, place))?;
    Ok(value)
}
