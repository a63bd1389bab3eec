//! Random lists of calls on a mixer. The replay list of mixers holds such calls, and the comparison
//! with the static library starts from them.

use crate::calls;
use crate::mixer::{Mixer, STRIPS};
use crate::random::Random;
use crate::refusals::Outcome;

/// A call on a mixer that knows no scenes.
#[derive(Clone, Copy, Debug)]
pub enum Step {
    Request(usize),
    Turn,
}

/// What such a call answers beside the mixer.
#[derive(Clone, Copy, Debug, Eq, PartialEq)]
pub enum Answer {
    Filed(Outcome),
    Named(Option<usize>),
}

impl Step {
    pub fn name(self) -> &'static str {
        match self {
            Self::Request(_) => "request",
            Self::Turn => "turn",
        }
    }

    pub fn on(self, mixer: Mixer) -> (Answer, Mixer) {
        match self {
            Self::Request(strip) => {
                let (outcome, mixer) = calls::request(mixer, strip);
                (Answer::Filed(outcome), mixer)
            }
            Self::Turn => {
                let (named, mixer) = calls::turn(mixer);
                (Answer::Named(named), mixer)
            }
        }
    }
}

/// A number that no strip has.
pub fn no_strip(random: &mut Random) -> usize {
    let low = random.below(STRIPS);
    random.pick(&[16, 16, 17, 31, 256 + low, (1 << 32) + low, usize::MAX])
}

/// Some of the strips, or all, each once and in any order.
pub fn some_strips(random: &mut Random) -> Vec<usize> {
    let mut strips: Vec<usize> = (0..STRIPS).collect();
    random.shuffle(&mut strips);
    strips.truncate(random.pick(&[1, 2, 3, 5, 8, 15, 16, 16]));
    strips
}

/// A request of one of these strips, now and then of a number that no strip has.
fn request(random: &mut Random, strips: &[usize]) -> Step {
    match random.once_in(12) {
        true => Step::Request(no_strip(random)),
        false => Step::Request(random.pick(strips)),
    }
}

/// A stretch of calls: each of the strips asks, or requests alone, turns alone, or some of both.
fn stretch(random: &mut Random, strips: &[usize]) -> Vec<Step> {
    if random.once_in(4) {
        return strips.iter().map(|&strip| Step::Request(strip)).collect();
    }
    let turns_of_eight = random.pick(&[0, 1, 3, 4, 5, 8]);
    let length = 1 + random.below(24);
    let step = |_| match random.below(8) < turns_of_eight {
        true => Step::Turn,
        false => request(random, strips),
    };
    (0..length).map(step).collect()
}

/// A list of calls in such stretches, with few strips or many: now and then nobody waits, and now
/// and then all do.
pub fn steps(random: &mut Random) -> Vec<Step> {
    let strips = some_strips(random);
    let stretches = 1 + random.below(6);
    (0..stretches)
        .flat_map(|_| stretch(random, &strips))
        .collect()
}
