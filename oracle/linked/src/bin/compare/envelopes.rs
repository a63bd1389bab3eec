//! The note envelopes: the oracle's call on slices, and what the calls have reached.

use crate::draw::{self, OUTSIDE, copy_at};
use crate::open_calls::note_slice;
use crate::run::Run;
use linked::calls as port;
use oracle::calls::{advance_note_envelopes, is_held};
use oracle::random::Random;
use oracle::refusals::{self as refuse, *};
use oracle::spectral_dsp::MIDI_NOTES;

const NAME: &str = "advance_note_envelopes";
const HELD_BYTES: usize = MIDI_NOTES / 8;

/// What a call is given.
struct Drawn {
    levels: Vec<f32>,
    held: Vec<u8>,
    elapsed: f32,
    fade: f32,
}

impl Drawn {
    fn new(random: &mut Random) -> Self {
        let notes = draw::mostly(random, MIDI_NOTES);
        let bytes = draw::mostly(random, HELD_BYTES);
        let (elapsed, fade) = draw::times(random);
        Self {
            levels: draw::bank(random, notes),
            held: draw::held(random, bytes),
            elapsed,
            fade,
        }
    }

    /// What the oracle answers on the bank in a slice: the lengths are tested after the settings.
    fn agreed(&self, levels: &mut [f32]) -> Outcome {
        refuse::setting(within(self.elapsed, ELAPSED))?;
        refuse::setting(within(self.fade, FADE))?;
        refuse::length(levels.len() == MIDI_NOTES)?;
        refuse::length(self.held.len() == HELD_BYTES)?;
        let bank = (&*levels).try_into().expect("the length was tested");
        let (outcome, bank) = advance_note_envelopes(bank, self.bytes(), self.elapsed, self.fade);
        levels.copy_from_slice(&bank);
        outcome
    }

    /// The bytes of the held notes, of a call with the right lengths.
    fn bytes(&self) -> [u8; HELD_BYTES] {
        self.held[..].try_into().expect("the length was tested")
    }

    fn held_notes(&self) -> Vec<usize> {
        let held = self.bytes();
        (0..MIDI_NOTES)
            .filter(|&note| is_held(held, note))
            .collect()
    }

    /// What the frame makes of a level of 1 that is released, and of a level of 0 that is held.
    fn steps(&self) -> [f32; 2] {
        let mut bank = [0.0; MIDI_NOTES];
        bank[0] = 1.0;
        let mut held = [0xff; HELD_BYTES];
        held[0] = 0x7f;
        let (_, bank) = advance_note_envelopes(bank, held, self.elapsed, self.fade);
        [bank[0], bank[1]]
    }
}

/// What a call that is done may have been given or come to. A level comes to rest where it would
/// not be 0 but for being small.
const CASES: [&str; 9] = [
    "no note held",
    "all held",
    "levels 0 and 1 alone",
    "a level -0",
    "a subnormal level",
    "no level moves",
    "each moves all the way",
    "a level comes to rest",
    "a held one does",
];

/// How many calls have reached what.
struct Reached {
    cases: [u64; CASES.len()],
    /// By the note that is held alone, in calls that are done.
    held_alone: [u64; MIDI_NOTES],
    /// By the note whose level alone is outside its limits, and by which of the levels it is.
    outside_alone: [[u64; OUTSIDE.len()]; MIDI_NOTES],
}

impl Reached {
    fn new() -> Self {
        Self {
            cases: [0; CASES.len()],
            held_alone: [0; MIDI_NOTES],
            outside_alone: [[0; OUTSIDE.len()]; MIDI_NOTES],
        }
    }

    fn count(&mut self, drawn: &Drawn, answer: Outcome, after: &[f32]) {
        match answer {
            Ok(()) => self.count_done(drawn, after),
            Err(Refusal { number: 7, place }) => self.count_outside(&drawn.levels, place),
            Err(_) => (),
        }
    }

    fn count_done(&mut self, drawn: &Drawn, after: &[f32]) {
        let (levels, held) = (&drawn.levels, drawn.held_notes());
        if let [note] = held[..] {
            self.held_alone[note] += 1;
        }
        let [fallen, risen] = drawn.steps();
        let end = |&level: &f32| level == 0.0 || level == 1.0;
        let minus_zero = |level: &f32| *level == 0.0 && level.is_sign_negative();
        let to_0 = |(&before, &after): (&f32, &f32)| before > 0.0 && after == 0.0;
        let met = [
            held.is_empty(),
            held.len() == MIDI_NOTES,
            levels.iter().all(end),
            levels.iter().any(minus_zero),
            levels.iter().any(|level| level.is_subnormal()),
            fallen == 1.0,
            risen == 1.0,
            risen < 1.0 && levels.iter().zip(after).any(to_0),
            fallen < 1.0 && held.iter().any(|&note| after[note] == 0.0),
        ];
        for (count, met) in self.cases.iter_mut().zip(met) {
            *count += u64::from(met);
        }
    }

    fn count_outside(&mut self, levels: &[f32], place: usize) {
        let accepted = levels.iter().filter(|&&level| within(level, LEVEL)).count();
        let bits = levels[place].to_bits();
        let which = OUTSIDE.iter().position(|&outside| outside == bits);
        if let (Some(which), true) = (which, accepted == MIDI_NOTES - 1) {
            self.outside_alone[place][which] += 1;
        }
    }

    fn print(&self) {
        let case = |(name, count): (&&str, &u64)| format!("  {name}: {count}");
        let cases: Vec<String> = CASES.iter().zip(&self.cases).map(case).collect();
        for line in cases.chunks(5) {
            println!("note envelopes{}", line.concat());
        }
        let held = self.held_alone.iter().min().expect("a note");
        let outside = self.outside_alone.iter().flatten().min().expect("a note");
        let levels = OUTSIDE.len();
        println!("note envelopes  each note alone held, at least: {held}");
        println!("note envelopes  each alone outside, with each of {levels}, at least: {outside}");
    }
}

pub fn compare(run: &mut Run) {
    let mut reached = Reached::new();
    run.calls_of(NAME, |random, tally| {
        let drawn = Drawn::new(random);
        let (levels, elapsed, fade) = (&drawn.levels, drawn.elapsed, drawn.fade);
        let (first, byte) = (random.below(4), random.below(8));
        let (mut ours, held) = (copy_at(first, levels), copy_at(byte, &drawn.held));
        let (ours, held) = (&mut ours[first..], &held[byte..]);
        let mut theirs = levels.clone();
        let given = port::advance_note_envelopes(ours, held, elapsed, fade);
        let answer = drawn.agreed(&mut theirs);
        reached.count(&drawn, answer, &theirs);
        let arguments = (elapsed, fade, levels.len(), held);
        let slices = [&levels[..], ours, &theirs];
        note_slice(tally, arguments, given, answer.map(|()| []), slices);
    });
    if run.takes(NAME) {
        reached.print();
    }
}
