//! Mixers through whole lists of calls: answers, places, names, the count, each strip of the line
//! and the counter, and the whole block where nothing changes; and the masks of the strips that are
//! served.

use crate::open_calls::first_change;
use crate::run::Run;
use crate::strips::{Strips, any_lent};
use crate::tally::{Tally, count_met, print_met};
use linked::calls::{self as port, has_line};
use linked::{Mixer, dovetable_new_mixer, dovetable_request, dovetable_turn};
use oracle::builders::{Lent, Masks};
use oracle::curves::mutes_a_bin;
use oracle::mixer::{self, STRIPS};
use oracle::mixer_calls::{Answer, Step, no_strip, steps};
use oracle::numbers::first_difference;
use oracle::random::Random;
use oracle::refusals::Outcome;

/// The fresh mixer, the calls that know no scenes, by `Step::name`, and serving.
const NEW: &str = "new_mixer";
const CALLS: [&str; 2] = ["request", "turn"];
const SERVE: &str = "serve";

/// What the requests have met, what the turns have, and what those that serve have.
const REQUESTS: [&str; 5] = [
    "a strip that waits",
    "15 others",
    "a full line without it",
    "a greater count",
    "a number that is no strip",
];
const TURNS: [&str; 5] = [
    "nobody",
    "16 that wait",
    "a greater count",
    "a number that is no strip",
    "the highest counter",
];
const SERVED: [&str; 4] = [
    "nobody",
    "a refused scene",
    "a scene of another size",
    "a NaN at a bin's point, done",
];

/// How many calls have met what.
#[derive(Default)]
struct Reached {
    requests: [u64; REQUESTS.len()],
    turns: [u64; TURNS.len()],
    served: [u64; SERVED.len()],
}

impl Reached {
    /// A request, and the mixer before it.
    fn request(&mut self, mixers: &Mixers, strip: usize) {
        let line = &mixers.expected.waiting;
        let (waits, full) = (line.contains(&strip), line.len() == STRIPS);
        let met = [
            waits,
            !waits && strip < STRIPS && line.len() == STRIPS - 1,
            !waits && strip < STRIPS && full,
            mixers.block.count > STRIPS,
            strip >= STRIPS,
        ];
        count_met(&mut self.requests, met);
    }

    /// A turn, and the mixer before it.
    fn turn(&mut self, mixers: &Mixers) {
        let (line, served) = (&mixers.expected.waiting, mixers.expected.served);
        let met = [
            line.is_empty(),
            line.len() == STRIPS,
            mixers.block.count > STRIPS,
            line.front().is_some_and(|&strip| strip >= STRIPS),
            !line.is_empty() && served == u64::MAX,
        ];
        count_met(&mut self.turns, met);
    }

    /// A turn that serves: whether it named a strip, whether that strip's scene has another size
    /// than the builder, and what the builder was lent.
    fn served(&mut self, named: bool, outcome: Outcome, other_size: bool, lent: &Lent) {
        let built = named && outcome.is_ok();
        let muted = built && mutes_a_bin(&lent.curve, lent.config.fft_size);
        count_met(
            &mut self.served,
            [!named, outcome.is_err(), other_size, muted],
        );
    }

    fn print(&self) {
        print_met("mixers, requests of", REQUESTS, self.requests);
        print_met("mixers, turns of", TURNS, self.turns);
        print_met("mixers, turns that serve, of", SERVED, self.served);
    }
}

/// A mixer on both sides.
struct Mixers {
    block: Mixer,
    expected: mixer::Mixer,
}

/// Whether two blocks are the same, in the places that do not count too.
fn is_unchanged(block: &Mixer, before: &Mixer) -> bool {
    let all = |mixer: &Mixer| (mixer.strips, mixer.count, mixer.served);
    all(block) == all(before)
}

/// A line of any strips: each once, one at all places, or by chance; and now and then numbers that
/// no strip has.
fn any_line(random: &mut Random) -> [usize; STRIPS] {
    let mut line: [usize; STRIPS] = std::array::from_fn(|place| place);
    match random.below(3) {
        0 => random.shuffle(&mut line),
        1 => line.fill(random.below(STRIPS)),
        _ => line.fill_with(|| random.below(STRIPS)),
    }
    let often = random.pick(&[1, 4, 32, usize::MAX]);
    for strip in &mut line {
        if random.once_in(often) {
            *strip = no_strip(random);
        }
    }
    line
}

impl Mixers {
    fn fresh() -> Self {
        Self {
            block: dovetable_new_mixer(),
            expected: mixer::Mixer::default(),
        }
    }

    /// A mixer that a caller has written.
    fn forged(random: &mut Random) -> Self {
        let (low, any) = (random.below(STRIPS + 1), random.word());
        let highest = u64::MAX - random.below(4) as u64;
        let block = Mixer {
            strips: any_line(random),
            count: random.pick(&[
                0,
                1,
                low,
                15,
                16,
                17,
                256 + low,
                (1 << 32) + low,
                usize::MAX,
            ]),
            served: random.pick(&[0, highest, u64::from(u32::MAX), any]),
        };
        let line = block.strips.iter().copied().take(block.count);
        let expected = mixer::Mixer {
            waiting: line.collect(),
            served: block.served,
        };
        Self { block, expected }
    }

    /// Takes over what both sides hand back, and says whether it is the same. Where the oracle's
    /// mixer is as it was, the whole block has to be.
    fn keep(&mut self, block: Mixer, expected: mixer::Mixer) -> bool {
        let right = match expected == self.expected {
            true => is_unchanged(&block, &self.block),
            false => has_line(&block, &expected),
        };
        (self.block, self.expected) = (block, expected);
        right
    }

    /// Makes a call on both sides, and answers the oracle's number and what tells a difference.
    fn make(&mut self, step: Step) -> (usize, Option<String>) {
        let before = self.block;
        let (answer, expected) = step.on(self.expected.clone());
        let (same, number, block) = match (step, answer) {
            (Step::Request(strip), Answer::Filed(outcome)) => {
                let filed = dovetable_request(before, strip);
                let (number, place) = answer_of(outcome);
                let same = (filed.number, filed.place) == (number, place);
                (same, number, filed.mixer)
            }
            (_, answer) => {
                let turned = dovetable_turn(before);
                let named = turned.named.then_some(turned.strip);
                let same = Answer::Named(named) == answer && (turned.named || turned.strip == 0);
                (same, 0, turned.mixer)
            }
        };
        let right = self.keep(block, expected);
        let text = || format!("{step:?} on {before:?}: {block:?}, oracle {answer:?}");
        (number as usize, (!same || !right).then(text))
    }
}

/// The number and the place of an outcome, as the library answers them.
fn answer_of(outcome: Outcome) -> (u32, usize) {
    match outcome {
        Ok(()) => (0, 0),
        Err(refusal) => (refusal.number.into(), refusal.place),
    }
}

/// The lines of the calls, and what they have reached.
struct Tallies {
    new: Tally,
    calls: [Tally; CALLS.len()],
    serve: Tally,
    reached: Reached,
}

impl Tallies {
    fn new() -> Self {
        Self {
            new: Tally::new(NEW),
            calls: CALLS.map(Tally::new),
            serve: Tally::new(SERVE),
            reached: Reached::default(),
        }
    }

    fn fresh(&mut self) -> Mixers {
        let mixers = Mixers::fresh();
        let blank = Mixer {
            strips: [0; STRIPS],
            count: 0,
            served: 0,
        };
        let same = is_unchanged(&mixers.block, &blank);
        self.new.note(0, same, || format!("{:?}", mixers.block));
        mixers
    }

    /// A list of calls from a fresh mixer, or fewer from one that a caller has written, which soon
    /// is one that calls make.
    fn list(&mut self, random: &mut Random) -> (Mixers, Vec<Step>) {
        let mut steps = steps(random);
        if random.once_in(2) {
            return (self.fresh(), steps);
        }
        steps.truncate(1 + random.below(20));
        (Mixers::forged(random), steps)
    }

    /// Makes a call, and answers whether both sides agree.
    fn make(&mut self, mixers: &mut Mixers, step: Step) -> bool {
        let kind = match step {
            Step::Request(strip) => {
                self.reached.request(mixers, strip);
                0
            }
            Step::Turn => {
                self.reached.turn(mixers);
                1
            }
        };
        let (number, difference) = mixers.make(step);
        let same = difference.is_none();
        self.calls[kind].note(number, same, || difference.unwrap_or_default());
        same
    }
}

impl Tallies {
    /// Serves a strip on both sides, and answers whether they agree.
    fn serve(
        &mut self,
        mixers: &mut Mixers,
        strips: &Strips,
        (lent, before): &(Lent, Masks),
    ) -> bool {
        let (mut ours, mut theirs) = (before.clone(), before.clone());
        let block = mixers.block;
        let given = port::serve(block, &strips.scenes, lent, &mut ours);
        let served = strips.agreed(lent, &mut theirs, mixers.expected.clone());
        let (named, outcome) = (served.named, served.outcome);
        let [before, ours, theirs] = [before, &ours, &theirs].map(|masks| masks.concat());
        let entry = match outcome.is_ok() && named.is_some() {
            true => first_difference(&ours, &theirs),
            false => first_change(&ours, &before),
        };
        let answer = (given.number, given.place);
        let same = answer == answer_of(outcome)
            && (given.named, given.strip) == (named.is_some(), named.unwrap_or(0));
        let right = mixers.keep(given.mixer, served.mixer);
        let scene = named.and_then(|strip| strips.expected.get(strip));
        let other_size = scene.is_some_and(|one| one.config.fft_size != lent.config.fft_size);
        self.reached
            .served(named.is_some(), outcome, other_size, lent);
        let number = answer_of(outcome).0 as usize;
        self.serve
            .note(number, same && right && entry.is_none(), || {
                format!(
                    "on {block:?}: port {given:?}, oracle {named:?} {outcome:?}, entry {entry:?}"
                )
            });
        same && right && entry.is_none()
    }
}

impl Tallies {
    /// A list of requests and turns. It ends at its first difference, since every later call would
    /// differ too.
    fn calls(&mut self, random: &mut Random) {
        let (mut mixers, steps) = self.list(random);
        let mut steps = steps.into_iter();
        while steps
            .next()
            .is_some_and(|step| self.make(&mut mixers, step))
        {}
    }

    /// The same with turns that serve. The strips keep their scenes through the list, and each turn
    /// has slices of its own.
    fn serving(&mut self, random: &mut Random) {
        let fft_size = 64 << random.below(2);
        let strips = Strips::new(random, fft_size);
        let (mut mixers, steps) = self.list(random);
        let mut steps = steps.into_iter();
        while steps.next().is_some_and(|step| match step {
            Step::Request(_) => self.make(&mut mixers, step),
            Step::Turn => {
                let lent = any_lent(random, fft_size);
                self.serve(&mut mixers, &strips, &lent)
            }
        }) {}
    }
}

pub fn compare(run: &mut Run) {
    let names = [NEW, CALLS[0], CALLS[1], SERVE];
    if !names.iter().any(|name| run.takes(name)) {
        return;
    }
    let random = &mut Random::new(run.seed);
    let mut tallies = Tallies::new();
    (0..run.count).for_each(|_| tallies.calls(random));
    (0..run.scenes).for_each(|_| tallies.serving(random));
    let lines = [tallies.new].into_iter().chain(tallies.calls);
    for (name, tally) in names.into_iter().zip(lines.chain([tallies.serve])) {
        if run.takes(name) {
            run.close(tally);
        }
    }
    tallies.reached.print();
}
