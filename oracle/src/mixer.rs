//! A mixer of sixteen strips that share one mask builder, by the text of change request 106: the
//! strips that wait, each once, and the count of the turns that found one.

use crate::refusals::Outcome;
use std::collections::VecDeque;

pub const STRIPS: usize = 16;

#[derive(Clone, Debug, Default, Eq, PartialEq)]
pub struct Mixer {
    /// The strip that has waited longest comes first. The calls let none wait twice and none above
    /// 15; a caller can make a mixer in which that is so. There is room for 16.
    pub waiting: VecDeque<usize>,
    /// The turns that found someone waiting.
    pub served: u64,
}

/// What a turn comes to whose strip's scene goes to the stereo call.
#[derive(Clone, Debug)]
pub struct Served {
    pub named: Option<usize>,
    /// Done where nobody is named.
    pub outcome: Outcome,
    pub mixer: Mixer,
}
