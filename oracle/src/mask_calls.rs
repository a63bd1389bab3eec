//! Random calls of the mask builders, each described by a few words. The replay lists hold such
//! calls, and the comparison with the static library starts from them.

use crate::builders::{Builder, Lent, Masks, block_of};
use crate::calls;
use crate::curves::point_of;
use crate::edges::{around, around_finite, around_limits};
use crate::lists::slices::Slice;
use crate::random::Random;
use crate::record_calls::any_nan;
use crate::refusals::*;
use crate::scenes::{self, RESTING_DEPTH, SILENT_LEVEL};
use crate::spectral_dsp::{
    MANUAL_MASK_POINTS, MIDI_NOTES, MaskConfig, MaskVoice, MotionConfig, Pitch,
};

/// What the slices that a call may write hold before it.
const BEFORE: f32 = 7.0;

/// The arguments of all builders.
#[derive(Clone, Debug)]
pub struct Call {
    pub config: MaskConfig,
    pub left: Slice,
    pub right: Slice,
    pub curve: Slice,
    pub levels: Slice,
    /// The number of voices, of which those past the stored ones are default voices.
    pub count: usize,
    pub voices: Vec<MaskVoice>,
    /// The rate at which the table is prepared before its entries are put in; 0 for not at all.
    pub prepared_at: f32,
    pub table: Slice,
}

impl Call {
    pub fn good(random: &mut Random, config: MaskConfig, voices: Vec<MaskVoice>) -> Self {
        let bins = config.fft_size / 2 + 1;
        let curve = if random.once_in(2) {
            Slice::of(MANUAL_MASK_POINTS, 0.0)
        } else {
            Slice::spread(random, MANUAL_MASK_POINTS, (-150.0, 10.0))
        };
        Self {
            config,
            left: Slice::of(bins, BEFORE),
            right: Slice::of(bins, BEFORE),
            curve,
            levels: Slice::spread(random, MIDI_NOTES, LEVEL),
            count: voices.len(),
            voices,
            prepared_at: config.sample_rate,
            table: Slice::of(bins, 10.0),
        }
    }

    fn whole_voices(&self) -> Vec<MaskVoice> {
        let mut voices = self.voices.clone();
        voices.resize(self.count, MaskVoice::default());
        voices
    }

    fn whole_table(&self) -> Vec<f32> {
        let mut table = self.table.made();
        if self.prepared_at != 0.0 {
            // A refusal leaves the table as it was made.
            let _ = calls::prepare(&mut table, self.prepared_at, self.config.fft_size);
            self.table.put_into(&mut table);
        }
        table
    }

    pub fn lent(&self) -> Lent {
        let table = self.whole_table();
        Lent {
            config: self.config,
            curve: self.curve.made(),
            levels: self.levels.made(),
            voices: self.whole_voices(),
            block: block_of(self.config.fft_size, &table),
            table,
        }
    }

    /// The masks before they are built.
    pub fn masks(&self) -> Masks {
        [self.left.made(), self.right.made()]
    }
}

/// A chord that every builder can be given, small enough for many of them. Its second voice is a
/// pure fifth above the first, by hertz.
pub fn chord(random: &mut Random) -> Call {
    let config = MaskConfig {
        fft_size: 64 << random.below(3),
        partials: 6,
        note_depth_db: 48.0,
        ..MaskConfig::default()
    };
    let voice = |pitch, level, pan| MaskVoice {
        pitch,
        level,
        pan,
        ..MaskVoice::default()
    };
    let voices = vec![
        voice(Pitch::Note(69, 0.0), 1.0, 0.0),
        voice(Pitch::Hertz(660.0), 0.5, -0.5),
        voice(Pitch::Note(48, 0.0), 0.25, 1.0),
    ];
    Call::good(random, config, voices)
}

pub fn any_scene(random: &mut Random) -> Call {
    let config = scenes::config(random);
    let count = random.pick(&[0, 1, 1, 2, 3, 4, 6]);
    let voices = (0..count).map(|_| scenes::voice(random)).collect();
    Call::good(random, config, voices)
}

/// A table that no rate prepares, or one prepared at another rate.
pub fn other_table(random: &mut Random, call: &mut Call) {
    let limits = random.pick(&[TABLE, (5.0, 9.0), (8.7, 8.8), (-2.0, -2.0), (17.0, 17.0)]);
    call.table = Slice::spread(random, call.table.length, limits);
    call.prepared_at = random.pick(&[0.0, 0.0, 8_000.0, 192_000.0]);
    if random.once_in(2) {
        call.table.put[0] = (0, f32::NAN);
    }
}

/// How the curve of a call is damaged, at the points of two bins that a voice opens.
#[derive(Clone, Copy, Debug)]
pub enum Damage {
    /// Both points are NaN.
    There,
    /// All points are NaN, but these two are numbers.
    AllElse,
    /// All points are NaN.
    All,
    /// The points behind these two are NaN, which at small sizes no bin reads.
    Behind,
}

impl Damage {
    /// Each kind, twice.
    pub const TWICE: [Self; 8] = [
        Self::There,
        Self::AllElse,
        Self::All,
        Self::Behind,
        Self::There,
        Self::AllElse,
        Self::All,
        Self::Behind,
    ];

    /// Damages the curve of a call that a builder accepts and that has a voice.
    pub fn put_into(self, random: &mut Random, call: &mut Call, builder: Builder) {
        let open = call.lent().opened_bins(builder);
        let points = [0, 1].map(|_| point_of(random.pick(&open), call.config.fft_size) as u32);
        let nan = any_nan(random);
        match self {
            Self::There => call.curve.put = points.map(|point| (point, any_nan(random))),
            Self::Behind => call.curve.put = points.map(|point| (point + 1, any_nan(random))),
            Self::AllElse => {
                let number = |point| (point, random.between(-40.0, 0.0));
                call.curve = Slice::of(MANUAL_MASK_POINTS, nan);
                call.curve.put = points.map(number);
            }
            Self::All => call.curve = Slice::of(MANUAL_MASK_POINTS, nan),
        }
    }
}

/// A level at or past its limits, or where a voice begins to sound.
fn odd_level(random: &mut Random) -> f32 {
    match random.once_in(2) {
        true => random.pick(&around(SILENT_LEVEL)),
        false => random.pick(&around_limits(LEVEL)),
    }
}

/// A setting at its limits or past them.
fn odd_setting(random: &mut Random, config: &mut MaskConfig) {
    let of = |random: &mut Random, limits| random.pick(&around_limits(limits));
    match random.below(10) {
        0 => config.note_depth_db = of(random, NOTE_DEPTH),
        1 => config.width_cents = of(random, WIDTH),
        2 => config.partials = random.pick(&[0, 1, 2, 24, 25, u32::MAX as usize]),
        3 => config.harmonic_rolloff_db_per_octave = of(random, ROLLOFF),
        4 => config.motion.depth_db = of(random, MOTION_DEPTH),
        5 => config.motion.phase = random.pick(&around_finite()),
        6 => config.motion.size_octaves = of(random, MOTION_SIZE),
        7 => config.note_layer_enabled = false,
        8 => config.motion.depth_db = random.pick(&around(RESTING_DEPTH)),
        _ => {
            config.motion = MotionConfig {
                depth_db: 24.0,
                ..MotionConfig::default()
            }
        }
    }
}

/// A pitch of either form, at its limits or past them.
fn odd_pitch(random: &mut Random) -> Pitch {
    match random.below(4) {
        0 => Pitch::Note(random.pick(&[0, 127, 128, 255]), 0.0),
        1 => Pitch::Note(60, random.pick(&around_limits(TUNING))),
        _ => Pitch::Hertz(random.pick(&[&around_limits(HERTZ)[..], &[-440.0]].concat())),
    }
}

/// Brings a number of a voice to its limits or past them.
pub fn odd_voice(random: &mut Random, voice: &mut MaskVoice) {
    let free = |random: &mut Random| match random.once_in(2) {
        true => random.float(),
        false => random.pick(&around_finite()),
    };
    match random.below(8) {
        0 | 1 => voice.pitch = odd_pitch(random),
        2 => voice.level = odd_level(random),
        3 => voice.pressure = free(random),
        4 => voice.timbre = free(random),
        5 => voice.volume_gain = free(random),
        6 => voice.expression_gain = free(random),
        _ => voice.pan = free(random),
    }
}

/// A length one short or one long, or none.
fn odd_length(random: &mut Random, slice: &mut Slice) {
    slice.length = random.pick(&[slice.length.saturating_sub(1), slice.length + 1, 0]);
}

fn odd_lengths(random: &mut Random, call: &mut Call) {
    match random.below(4) {
        0 => odd_length(random, &mut call.left),
        1 => odd_length(random, &mut call.right),
        2 => odd_length(random, &mut call.curve),
        _ => odd_length(random, &mut call.table),
    }
    if random.once_in(2) {
        odd_length(random, &mut call.levels);
    }
}

/// Brings what one refusal tests to its limits or past them.
pub fn fault(random: &mut Random, number: u8, call: &mut Call) {
    match number {
        1 if random.once_in(2) => call.config.sample_rate = random.pick(&around_limits(RATE)),
        1 => {
            let sizes = [0, 1, 32, 63, 65, 96, 16_385, 32_768, u32::MAX as usize];
            call.config.fft_size = random.pick(&sizes);
        }
        2 => odd_setting(random, &mut call.config),
        3 => call.count = random.pick(&[127, 128, 129, 130, 256]),
        4 => odd_lengths(random, call),
        5 => {
            let index = random.below(call.voices.len().max(1));
            if let Some(voice) = call.voices.get_mut(index) {
                odd_voice(random, voice);
            }
        }
        6 => {
            let entry = random.pick(&around_limits(TABLE));
            call.table.put(random, entry);
        }
        _ => {
            let level = odd_level(random);
            call.levels.put(random, level);
        }
    }
}
