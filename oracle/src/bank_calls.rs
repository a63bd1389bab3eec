//! Random lists of calls on a bank of voices. The replay list of banks holds such calls, and the
//! comparison with the static library starts from them.

use crate::calls;
use crate::mask_calls::odd_voice;
use crate::random::Random;
use crate::record_calls::scene;
use crate::refusals::{self as refuse, MAX_VOICES, Outcome};
use crate::spectral_dsp::MaskVoice;
use crate::voice_bank::Bank;

/// A call that may change a bank.
#[derive(Clone, Copy, Debug)]
pub enum Step<V = MaskVoice> {
    Add(u16, V),
    Remove(u16),
    Change(u16, V),
}

impl<V> Step<V> {
    pub fn name(&self) -> &'static str {
        match self {
            Self::Add(..) => "add_voice",
            Self::Remove(..) => "remove_voice",
            Self::Change(..) => "change_voice",
        }
    }

    pub fn id(&self) -> u16 {
        match *self {
            Self::Add(id, _) | Self::Remove(id) | Self::Change(id, _) => id,
        }
    }

    /// The same with the voice in another form.
    pub fn map<W>(self, form: impl FnOnce(V) -> W) -> Step<W> {
        match self {
            Self::Add(id, voice) => Step::Add(id, form(voice)),
            Self::Remove(id) => Step::Remove(id),
            Self::Change(id, voice) => Step::Change(id, form(voice)),
        }
    }
}

impl<V: Copy + Into<MaskVoice>> Step<V> {
    pub fn on(self, bank: Bank<V>) -> (Outcome, Bank<V>) {
        match self {
            Self::Add(id, voice) => calls::add_voice(bank, id, voice),
            Self::Remove(id) => calls::remove_voice(bank, id),
            Self::Change(id, voice) => calls::change_voice(bank, id, voice),
        }
    }
}

/// What a list of calls makes of a bank, refused ones among them.
pub fn after<V: Copy + Into<MaskVoice>>(bank: Bank<V>, steps: &[Step<V>]) -> Bank<V> {
    steps.iter().fold(bank, |bank, step| step.on(bank).1)
}

/// A voice within its limits, now and then at one of them.
pub fn good_voice(random: &mut Random) -> MaskVoice {
    scene(random, 1).voices[0]
}

/// A voice outside its limits.
pub fn bad_voice(random: &mut Random) -> MaskVoice {
    let mut voice = good_voice(random);
    while refuse::voices(&[voice]).is_ok() {
        odd_voice(random, &mut voice);
    }
    voice
}

fn any_voice(random: &mut Random) -> MaskVoice {
    match random.once_in(6) {
        true => bad_voice(random),
        false => good_voice(random),
    }
}

/// As many ids, all different, in any order; the two ends are now and then among them.
pub fn ids(random: &mut Random, count: usize) -> Vec<u16> {
    let (any, other) = (random.word() as u16, random.word() as u16);
    let first = random.pick(&[0, u16::MAX, any]);
    // An odd step comes to every id before one comes again.
    let step = random.pick(&[1, u16::MAX, other | 1]);
    let id = |index| first.wrapping_add(step.wrapping_mul(index as u16));
    (0..count).map(id).collect()
}

/// So few that each is often present and often missing.
pub fn few_ids(random: &mut Random) -> Vec<u16> {
    let count = 1 + random.below(6);
    ids(random, count)
}

/// A call with one of these ids.
pub fn step(random: &mut Random, ids: &[u16]) -> Step {
    let id = random.pick(ids);
    match random.below(5) {
        0 | 1 => Step::Add(id, any_voice(random)),
        2 | 3 => Step::Change(id, any_voice(random)),
        _ => Step::Remove(id),
    }
}

/// Adds a voice under each id.
pub fn filling(random: &mut Random, ids: &[u16]) -> Vec<Step> {
    let add = |&id| Step::Add(id, good_voice(random));
    ids.iter().map(add).collect()
}

/// A list of calls: with few ids, or with so many that the bank comes to be full and stays nearly
/// so.
pub fn steps(random: &mut Random) -> Vec<Step> {
    let many = random.once_in(8);
    let ids = match many {
        true => ids(random, 300),
        false => few_ids(random),
    };
    let mut steps = match many {
        true => filling(random, &ids[..MAX_VOICES - 2]),
        false => Vec::new(),
    };
    let more = 10 + random.below(50);
    steps.extend((0..more).map(|_| step(random, &ids)));
    steps
}

/// These voices in another order, some of them several times, but at most 120 in all.
fn repeated(random: &mut Random, voices: &[MaskVoice]) -> Vec<MaskVoice> {
    let mut all = voices.to_vec();
    if !voices.is_empty() {
        let most = 120_usize.saturating_sub(all.len());
        let again = random.below(8).min(most);
        all.extend((0..again).map(|_| random.pick(voices)));
    }
    random.shuffle(&mut all);
    all
}

/// Calls after which a voice is present under an id, and nothing under the two others. One of them
/// may be refused.
fn arrival(
    random: &mut Random,
    id: u16,
    voice: MaskVoice,
    [spare, missing]: [u16; 2],
) -> Vec<Step> {
    let (good, bad) = (good_voice(random), bad_voice(random));
    let mut steps = match random.below(4) {
        0 => vec![Step::Add(id, good), Step::Change(id, voice)],
        1 => vec![Step::Add(id, good), Step::Remove(id), Step::Add(id, voice)],
        2 => vec![
            Step::Add(spare, good),
            Step::Add(id, voice),
            Step::Remove(spare),
        ],
        _ => vec![Step::Add(id, voice)],
    };
    let refused = [
        Step::Add(id, good),
        Step::Add(missing, bad),
        Step::Change(id, bad),
        Step::Change(missing, good),
        Step::Remove(missing),
    ];
    if random.once_in(2) {
        steps.push(random.pick(&refused));
    }
    steps
}

/// A list of calls, refused ones among them, after which an empty bank has these voices and no
/// others: in another order each time, and some of them under several ids.
pub fn reaching(random: &mut Random, voices: &[MaskVoice]) -> Vec<Step> {
    let all = repeated(random, voices);
    let ids = ids(random, all.len() + 2);
    let (others, ids) = ids.split_at(2);
    let others = [others[0], others[1]];
    let each = ids.iter().zip(all);
    each.flat_map(|(&id, voice)| arrival(random, id, voice, others))
        .collect()
}
