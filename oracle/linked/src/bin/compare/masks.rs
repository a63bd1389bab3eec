//! The mask builders on whole scenes: answers, places, and every bin of every mask.

use crate::draw::{NO_SHAPES, damage};
use crate::open_calls::note_slice;
use crate::run::Run;
use crate::tally::{Tally, print_met};
use linked::VoiceRecord;
use linked::calls::{self as port, Crossing};
use oracle::builders::{Builder, Lent, Masks, block_of};
use oracle::curves::mutes_a_bin;
use oracle::edges::around;
use oracle::mask_calls::{Call, fault, other_table};
use oracle::plain_pitch::{HERTZ, NOTE};
use oracle::random::Random;
use oracle::refusals::{self as refuse, LEVEL, Outcome, Refusal, TABLE, within};
use oracle::scenes::{SHAPES, SILENT_LEVEL, Scene};
use oracle::spectral_dsp::{MANUAL_MASK_POINTS, MaskVoice};

/// Voices times partials times size of a scene that is taken as it is drawn. Most of those above
/// get a smaller size, so that many scenes take little time.
const WORK: usize = 1 << 20;

/// What the builders are lent, what crosses in another form, and what the masks hold before.
struct Drawn {
    lent: Lent,
    crossing: Crossing,
    before: Masks,
}

/// A scene from all over the limits, now and then centred, on a table of any kind; and its curve.
pub fn scene(random: &mut Random) -> (Call, Vec<f32>) {
    let mut scene = Scene::anywhere(random);
    let lobes = scene.voices.len() * scene.config.partials;
    while lobes * scene.config.fft_size > WORK && !random.once_in(64) {
        scene.config.fft_size /= 2;
    }
    if random.once_in(8) {
        let centre = |voice: &mut MaskVoice| voice.pan = random.pick(&[0.0, -0.0]);
        scene.voices.iter_mut().for_each(centre);
    }
    let mut call = Call::good(random, scene.config, scene.voices);
    if random.once_in(2) {
        other_table(random, &mut call);
    }
    (call, scene.curve)
}

/// Brings nothing, one thing or several to the limits or past them, most often what has many
/// limits.
fn faults(random: &mut Random, call: &mut Call) {
    let times = random.pick(&[0, 1, 2, 4]);
    for _ in 0..times {
        let number = random.pick(&[1, 2, 2, 2, 3, 4, 5, 5, 5, 6, 6, 7]);
        fault(random, number, call);
    }
}

/// Puts most notes of a bank to silence, so that it takes little time, and a few to where sound
/// begins; those past the limits stay.
fn thin_out(random: &mut Random, levels: &mut [f32]) {
    for level in levels.iter_mut().filter(|level| within(**level, LEVEL)) {
        match random.below(64) {
            0 => *level = random.pick(&around(SILENT_LEVEL)),
            1..4 => (),
            _ => *level = 0.0,
        }
    }
}

/// Puts the ends of the limits at some entries of a table, and anything at entry 0.
pub fn strew(random: &mut Random, table: &mut [f32]) {
    let (low, high) = TABLE;
    let rare = random.pick(&[2, 16, 256]);
    for (index, entry) in table.iter_mut().enumerate() {
        if index == 0 {
            *entry = random.float();
        } else if random.once_in(rare) {
            *entry = random.pick(&[low, high]);
        }
    }
}

/// The block of a table, now and then one short or one long, shorter than its windows, or empty.
fn block(random: &mut Random, fft_size: usize, table: &[f32]) -> Vec<f32> {
    let mut block = block_of(fft_size, table);
    if random.once_in(8) {
        let n = block.len();
        let length = random.pick(&[n.saturating_sub(1), n + 1, n / 2, 0]);
        block.resize(length, 10.0);
    }
    block
}

/// Puts any note into the records by hertz, where it does not count.
pub fn odd_notes(random: &mut Random, records: &mut [VoiceRecord]) {
    for record in records.iter_mut().filter(|one| one.pitch_form == HERTZ) {
        record.note = random.word() as u8;
    }
}

/// The same, and now and then a form that is neither in a record whose numbers would do for both.
pub fn odd_forms(random: &mut Random, records: &mut [VoiceRecord]) {
    odd_notes(random, records);
    if !records.is_empty() && random.once_in(16) {
        let index = random.below(records.len());
        let record = &mut records[index];
        record.pitch_form = 2 + random.below(254) as u8;
        record.note = random.below(128) as u8;
        record.semitones_or_hertz = random.between(refuse::HERTZ.0, refuse::TUNING.1);
    }
}

/// What became of the calls that were given voices by hertz, or of neither form.
#[derive(Default)]
struct Forms {
    done: u64,
    hertz_refused: u64,
    neither_refused: u64,
}

impl Forms {
    fn count(&mut self, records: &[VoiceRecord], answer: Outcome) {
        match answer {
            Ok(()) => self.done += u64::from(records.iter().any(|one| one.pitch_form == HERTZ)),
            Err(Refusal { number: 5, place }) => match records[place].pitch_form {
                NOTE => (),
                HERTZ => self.hertz_refused += 1,
                _ => self.neither_refused += 1,
            },
            Err(_) => (),
        }
    }

    fn print(&self) {
        let (done, hertz, neither) = (self.done, self.hertz_refused, self.neither_refused);
        println!(
            "voices by hertz: {done} calls done, {hertz} refused at one; {neither} refused at a \
             voice of neither form"
        );
    }
}

impl Drawn {
    fn new(random: &mut Random) -> Self {
        let (mut call, curve) = scene(random);
        faults(random, &mut call);
        let mut lent = call.lent();
        if lent.curve.len() == MANUAL_MASK_POINTS {
            lent.curve = curve;
        }
        damage(random, &mut lent.curve);
        if lent.config.fft_size > 256 || !random.once_in(4) {
            thin_out(random, &mut lent.levels);
        }
        if random.once_in(4) {
            strew(random, &mut lent.table);
        }
        lent.block = block(random, lent.config.fft_size, &lent.table);
        let mut crossing = Crossing::from(&lent);
        odd_forms(random, &mut crossing.voices);
        lent.voices = crossing.read_voices();
        if random.once_in(64) {
            crossing.settings.motion_shape = random.pick(&NO_SHAPES);
        }
        let masks = call.masks();
        let before = masks.map(|mask| mask.iter().map(|_| random.float()).collect());
        Self {
            lent,
            crossing,
            before,
        }
    }

    /// What the oracle answers; a shape that is none of the eight is refusal 2.
    fn agreed(&self, builder: Builder, masks: &mut Masks) -> Outcome {
        let config = self.lent.config;
        refuse::size_and_rate(config.fft_size, config.sample_rate)?;
        refuse::setting((self.crossing.settings.motion_shape as usize) < SHAPES.len())?;
        builder.build(&self.lent, masks)
    }

    /// Whether a bin of an accepted call reads a NaN.
    fn mutes_a_bin(&self) -> bool {
        mutes_a_bin(&self.lent.curve, self.lent.config.fft_size)
    }

    /// Compares a call, and answers what the oracle answers.
    fn compare(&self, number: u64, builder: Builder, tally: &mut Tally) -> Outcome {
        let (mut ours, mut theirs) = (self.before.clone(), self.before.clone());
        let given = port::build(builder, &self.lent, &self.crossing, &mut ours);
        let answer = self.agreed(builder, &mut theirs);
        let lengths = self.before.each_ref().map(Vec::len);
        let slices = [&self.before, &ours, &theirs].map(|masks| masks.concat());
        let slices = slices.each_ref().map(Vec::as_slice);
        let crossing = &self.crossing;
        let arguments = (number, lengths, crossing.settings, &crossing.voices);
        note_slice(tally, arguments, given, answer.map(|()| []), slices);
        answer
    }
}

pub fn compare(run: &mut Run) {
    let taken = |builder: &Builder| run.takes(builder.name());
    let builders: Vec<Builder> = Builder::ALL.into_iter().filter(taken).collect();
    if builders.is_empty() {
        return;
    }
    let mut random = Random::new(run.seed);
    let mut tallies: Vec<Tally> = builders.iter().map(|one| Tally::new(one.name())).collect();
    let mut forms = Forms::default();
    let mut muted = [0; Builder::ALL.len()];
    for number in 0..run.scenes {
        let drawn = Drawn::new(&mut random);
        for (&builder, tally) in builders.iter().zip(&mut tallies) {
            let answer = drawn.compare(number, builder, tally);
            if builder.takes_voices() {
                forms.count(&drawn.crossing.voices, answer);
            }
            muted[builder as usize] += u64::from(answer.is_ok() && drawn.mutes_a_bin());
        }
    }
    tallies.into_iter().for_each(|tally| run.close(tally));
    forms.print();
    let names = Builder::ALL.map(Builder::name);
    print_met("calls done with a NaN at a bin's point, of", names, muted);
}
