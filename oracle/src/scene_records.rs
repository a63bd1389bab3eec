//! Scene records, by the text of change request 104: fields one behind the other, most significant
//! first. A head, then the voices; the drawn curve stays outside.

use crate::plain_pitch::{HERTZ, pitch_of, plain};
use crate::plain_words::{SETTINGS_WORDS, VOICE_WORDS, settings_words, voice_words};
use crate::refusals::MAX_VOICES;
use crate::scenes::SHAPES;
use crate::spectral_dsp::{MaskConfig, MaskVoice, MotionConfig, MotionShape, Pitch};

pub const HEAD_BYTES: usize = 31;
pub const VOICE_BYTES: usize = 29;

// The bits of a head's fields before its floats, and of a voice's, in their order.
const LOGARITHM: u32 = 4;
const LAYER: u32 = 1;
const SHAPE: u32 = 3;
const PARTIALS: u32 = 5;
const COUNT: u32 = 8;
const ZEROS: u32 = 3;
const NOTE: u32 = 7;
const FORM: u32 = 1;

/// A head has this many floats, and so has a voice.
const FLOATS: usize = 7;

/// What a record holds.
#[derive(Clone, Debug)]
pub struct StoredScene {
    pub config: MaskConfig,
    pub voices: Vec<MaskVoice>,
}

/// What stands past the voices of a scene in an array of 128.
pub const SILENT: MaskVoice = MaskVoice {
    pitch: Pitch::Note(0, 0.0),
    level: 0.0,
    pressure: 0.0,
    timbre: 0.0,
    volume_gain: 0.0,
    expression_gain: 0.0,
    pan: 0.0,
};

/// The words of a scene: its settings, the count, and an array of voices.
pub const SCENE_WORDS: usize = SETTINGS_WORDS + 1 + VOICE_WORDS * MAX_VOICES;

impl StoredScene {
    /// What a refused reading gives.
    pub fn blank() -> Self {
        let motion = MotionConfig {
            shape: MotionShape::Ripple,
            depth_db: 0.0,
            phase: 0.0,
            size_octaves: 0.0,
        };
        let config = MaskConfig {
            sample_rate: 0.0,
            fft_size: 0,
            note_depth_db: 0.0,
            note_layer_enabled: false,
            width_cents: 0.0,
            partials: 0,
            harmonic_rolloff_db_per_octave: 0.0,
            motion,
        };
        Self {
            config,
            voices: Vec::new(),
        }
    }

    /// The scene in plain words, of at most 128 voices; those past its own are silent.
    pub fn words(&self) -> Vec<u32> {
        let mut words = settings_words(&self.config).to_vec();
        words.push(self.voices.len() as u32);
        words.extend(self.voices.iter().flat_map(voice_words));
        let silent = std::iter::repeat(voice_words(&SILENT)).flatten();
        let missing = SCENE_WORDS - words.len();
        words.extend(silent.take(missing));
        words
    }
}

/// The length of a record of this many voices.
pub fn length_of(voices: usize) -> usize {
    HEAD_BYTES + VOICE_BYTES * voices
}

/// Joins fields, of each the most significant bit first.
struct Writer {
    bytes: Vec<u8>,
    /// Its lowest bits are those that do not fill a byte yet.
    rest: u64,
    bits: u32,
}

impl Writer {
    fn put(&mut self, width: u32, value: u32) {
        assert!(u64::from(value) < 1 << width, "{value} in {width} bits");
        self.rest = self.rest << width | u64::from(value);
        self.bits += width;
        while self.bits >= 8 {
            self.bits -= 8;
            self.bytes.push((self.rest >> self.bits) as u8);
        }
    }

    fn put_floats(&mut self, floats: [f32; FLOATS]) {
        floats.iter().for_each(|x| self.put(32, x.to_bits()));
    }

    fn put_head(&mut self, scene: &StoredScene) {
        let (config, motion) = (scene.config, scene.config.motion);
        self.put(LOGARITHM, config.fft_size.ilog2());
        self.put(LAYER, u32::from(config.note_layer_enabled));
        self.put(SHAPE, motion.shape as u32);
        self.put(PARTIALS, config.partials as u32);
        self.put(COUNT, scene.voices.len() as u32);
        self.put(ZEROS, 0);
        self.put_floats([
            config.sample_rate,
            config.note_depth_db,
            config.width_cents,
            config.harmonic_rolloff_db_per_octave,
            motion.depth_db,
            motion.phase,
            motion.size_octaves,
        ]);
    }

    fn put_voice(&mut self, voice: &MaskVoice) {
        let (form, note, tuning) = plain(voice.pitch);
        self.put(NOTE, u32::from(note));
        self.put(FORM, u32::from(form));
        self.put_floats([
            voice.level,
            tuning,
            voice.pressure,
            voice.timbre,
            voice.volume_gain,
            voice.expression_gain,
            voice.pan,
        ]);
    }
}

/// The record of a scene, whose numbers need not be within their limits. The size must be a power
/// of two, and the logarithm, the partials, the count and the notes must fit their fields.
pub fn written(scene: &StoredScene) -> Vec<u8> {
    let mut writer = Writer {
        bytes: Vec::with_capacity(length_of(scene.voices.len())),
        rest: 0,
        bits: 0,
    };
    writer.put_head(scene);
    scene.voices.iter().for_each(|one| writer.put_voice(one));
    writer.bytes
}

/// Takes fields apart, in the order in which they were joined.
struct Reader<'a> {
    bytes: std::slice::Iter<'a, u8>,
    /// Its lowest bits are those of the last byte that are not taken yet.
    rest: u64,
    bits: u32,
}

impl Reader<'_> {
    fn take(&mut self, width: u32) -> u32 {
        while self.bits < width {
            let byte = *self.bytes.next().expect("the length was tested");
            self.rest = self.rest << 8 | u64::from(byte);
            self.bits += 8;
        }
        self.bits -= width;
        (self.rest >> self.bits & ((1 << width) - 1)) as u32
    }

    fn take_floats(&mut self) -> [f32; FLOATS] {
        std::array::from_fn(|_| f32::from_bits(self.take(32)))
    }

    /// The settings and the count; none where one of the zero bits is set.
    fn take_head(&mut self) -> Option<(MaskConfig, usize)> {
        let fft_size = 1 << self.take(LOGARITHM);
        let note_layer_enabled = self.take(LAYER) == 1;
        let shape = SHAPES[self.take(SHAPE) as usize];
        let partials = self.take(PARTIALS) as usize;
        let count = self.take(COUNT) as usize;
        let zeros = self.take(ZEROS);
        let [rate, depth, width, rolloff, motion_depth, phase, size] = self.take_floats();
        let config = MaskConfig {
            sample_rate: rate,
            fft_size,
            note_depth_db: depth,
            note_layer_enabled,
            width_cents: width,
            partials,
            harmonic_rolloff_db_per_octave: rolloff,
            motion: MotionConfig {
                shape,
                depth_db: motion_depth,
                phase,
                size_octaves: size,
            },
        };
        (zeros == 0).then_some((config, count))
    }

    /// None where a note bit is set beside hertz.
    fn take_voice(&mut self) -> Option<MaskVoice> {
        let note = self.take(NOTE) as u8;
        let form = self.take(FORM) as u8;
        let [level, tuning, pressure, timbre, volume, expression, pan] = self.take_floats();
        let voice = MaskVoice {
            pitch: pitch_of(form, note, tuning),
            level,
            pressure,
            timbre,
            volume_gain: volume,
            expression_gain: expression,
            pan,
        };
        (form != HERTZ || note == 0).then_some(voice)
    }
}

/// The fields of a record, within their limits or not; none where its length is another than its
/// count asks for or a forbidden bit is set.
pub fn fields_of(record: &[u8]) -> Option<StoredScene> {
    if record.len() < HEAD_BYTES {
        return None;
    }
    let mut reader = Reader {
        bytes: record.iter(),
        rest: 0,
        bits: 0,
    };
    let (config, count) = reader.take_head()?;
    if record.len() != length_of(count) {
        return None;
    }
    let voices: Option<Vec<MaskVoice>> = (0..count).map(|_| reader.take_voice()).collect();
    voices.map(|voices| StoredScene { config, voices })
}
