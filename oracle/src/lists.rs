//! The replay lists: calls as bytes, and the text that the port's program must print when it makes
//! them. README.md states the formats.

mod masks;
mod mixers;
mod notes;
mod numbers;
mod oiko_dsp;
mod panel;
mod processing;
mod scene_records;
pub mod slices;
mod spectral_dsp;
mod voice_banks;

use crate::calls::Answer;
use crate::edges::{around_finite, around_limits};
use crate::numbers::bits_of;
use crate::plain_words::voice_words;
use crate::refusals::{Outcome, Refusal};
use crate::spectral_dsp::MaskVoice;
use slices::Slice;

/// A list: its calls, the text that the program prints, and the drawing that it makes. Calls and
/// drawing are empty where a program has none.
#[derive(Default)]
pub struct List {
    pub calls: Vec<u8>,
    pub stdout: String,
    pub plot: String,
    /// The bytes of calls that are kept free for the last records.
    kept: usize,
}

/// The replay program has room for this many bytes of calls.
pub const LARGEST: usize = 65_536;

impl List {
    /// An empty list that keeps room for its last records.
    fn before(last: &List) -> Self {
        Self {
            kept: last.calls.len(),
            ..Self::default()
        }
    }

    /// Adds the last records, for which room was kept.
    fn end_with(mut self, last: List) -> Self {
        self.kept = 0;
        assert!(self.add(last), "room was kept");
        self
    }

    fn word(&mut self, word: u32) {
        self.calls.extend(word.to_be_bytes());
    }

    fn words(&mut self, words: &[u32]) {
        words.iter().for_each(|&word| self.word(word));
    }

    fn float(&mut self, x: f32) {
        self.word(x.to_bits());
    }

    fn floats(&mut self, xs: &[f32]) {
        xs.iter().for_each(|&x| self.float(x));
    }

    fn slices(&mut self, slices: &[Slice]) {
        slices.iter().for_each(|slice| slice.words(self));
    }

    /// A count of voices, of which the first ones are stored; those past them are default voices.
    fn voices(&mut self, count: usize, stored: &[MaskVoice]) {
        self.words(&[count as u32, stored.len() as u32]);
        stored.iter().for_each(|one| self.words(&voice_words(one)));
    }

    fn line(&mut self, line: &str) {
        self.stdout.push_str(line);
        self.stdout.push('\n');
    }

    /// Adds a record if there is room for it, and says whether there was.
    fn add(&mut self, record: List) -> bool {
        let room = self.calls.len() + record.calls.len() + self.kept <= LARGEST;
        if room {
            self.calls.extend(record.calls);
            self.stdout.push_str(&record.stdout);
        }
        room
    }

    /// Adds records, and says whether there was room for all.
    fn add_all<const N: usize>(&mut self, records: [List; N]) -> bool {
        records.into_iter().all(|record| self.add(record))
    }
}

fn float_text(x: f32) -> String {
    format!("{:08x}", bits_of(x))
}

fn refusal_text(refusal: Refusal) -> String {
    format!("refused {} {}", refusal.number, refusal.place)
}

fn answer_text(answer: Answer) -> String {
    answer.map_or_else(refusal_text, float_text)
}

fn outcome_text(outcome: Outcome) -> String {
    outcome.map_or_else(refusal_text, |()| "done".to_string())
}

/// A list by its name. Its calls are the file `NAME.bin`.
pub struct Named {
    pub name: &'static str,
    pub write: fn() -> List,
}

impl Named {
    const fn new(name: &'static str, write: fn() -> List) -> Self {
        Self { name, write }
    }
}

/// A program of the port that is compared with lists, in the order in which it prints them.
pub struct Program {
    /// Its crate.
    pub name: &'static str,
    pub lists: &'static [Named],
}

pub const PROGRAMS: [Program; 3] = [
    Program {
        name: "note_frequencies",
        lists: &[Named::new("notes", notes::list)],
    },
    Program {
        name: "replay",
        lists: &[
            Named::new("numbers", numbers::list),
            Named::new("oiko_dsp", oiko_dsp::list),
            Named::new("spectral_dsp", spectral_dsp::list),
            Named::new("processing", processing::list),
            Named::new("masks", masks::list),
            Named::new("mask_refusals", masks::refusals),
            Named::new("scene_records", scene_records::list),
            Named::new("voice_banks", voice_banks::list),
            Named::new("mixers", mixers::list),
        ],
    },
    Program {
        name: "panel",
        lists: &[Named::new("panel", panel::list)],
    },
];
