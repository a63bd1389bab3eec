//! What a run makes, kind by kind of call, and what came of it.

use crate::tally::{Tally, print_met};
use oracle::random::Random;

pub struct Run {
    pub seed: u64,
    /// The calls of each kind, the mask builders aside.
    pub count: u64,
    /// The scenes that go through each mask builder, and on which each law is tried.
    pub scenes: u64,
    /// The name of the one kind that is made, where one is given.
    pub only: Option<String>,
    /// The kinds that were made.
    pub kinds: u64,
    pub differences: u64,
}

impl Run {
    /// Whether calls of this name are made.
    pub fn takes(&self, name: &str) -> bool {
        self.only.as_deref().is_none_or(|only| only == name)
    }

    /// Makes the calls of one kind. Each kind draws from the seed anew, so that its calls are the
    /// same whichever others are made.
    fn make(
        &mut self,
        name: &'static str,
        times: u64,
        mut call: impl FnMut(&mut Random, &mut Tally),
    ) {
        if !self.takes(name) {
            return;
        }
        let mut random = Random::new(self.seed);
        let mut tally = Tally::new(name);
        while tally.calls < times {
            call(&mut random, &mut tally);
        }
        self.close(tally);
    }

    pub fn calls_of(&mut self, name: &'static str, call: impl FnMut(&mut Random, &mut Tally)) {
        self.make(name, self.count, call);
    }

    /// Tries a law, which has a name as the functions have, on whole scenes. A try counts the cases
    /// that it has met, and says where the law does not hold.
    pub fn law<const N: usize>(
        &mut self,
        name: &'static str,
        cases: [&str; N],
        holds: fn(&mut Random, &mut [u64; N]) -> Result<(), String>,
    ) {
        let mut met = [0; N];
        self.make(name, self.scenes, |random, tally| {
            let scene = tally.calls;
            let outcome = holds(random, &mut met);
            tally.note(0, outcome.is_ok(), || {
                format!("scene {scene}: {}", outcome.unwrap_err())
            });
        });
        if self.takes(name) {
            print_met(&format!("{name}, scenes with"), cases, met);
        }
    }

    /// Prints the line of a kind.
    pub fn close(&mut self, tally: Tally) {
        self.kinds += 1;
        self.differences += tally.close();
    }
}
