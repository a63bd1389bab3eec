//! original/spectral-dsp/src/lib.rs with document 01's functions put for its library calls and its
//! rule on shortcuts: the plain way always, and each side of the stereo call built from each
//! voice's own balances. A pitch by hertz is an addition of change request 101. By change request
//! 108 a NaN of the drawn curve mutes its bin.

use super::functions::{
    abs, ceil_to_count, clamp, cos, exp, exp2, floor_to_count, log2, max, min, powi2, powi5,
    rem_euclid, sin, sqrt, sum,
};
use super::oiko_dsp::{db_to_gain, note_frequency_with_tuning};

pub mod processing;

/// One stored gain value for every bin in the maximum 16,384-sample RFFT.
/// Smaller processing resolutions land on exact subsets of this master mask.
pub const MANUAL_MASK_POINTS: usize = 8193;
pub const MIDI_NOTES: usize = 128;
pub const MAX_PARTIALS: usize = 24;
pub const MIN_DISPLAY_FREQUENCY_HZ: f32 = 20.0;
pub const MANUAL_CURVE_MUTE_DB: f32 = -144.0;
pub(crate) const DISPLAY_OCTAVES: f32 = 9.965_784;
pub(crate) const MOTION_COMPENSATION_SAMPLES: usize = 256;
const MAX_MOTION_COMPENSATION_DB: f32 = 12.0;

/// An addition to the ported Rust (change request 101), whose voices have a note and its tuning
/// alone. Two voices are equal in pitch where `==` holds: the same form and the same numbers.
#[derive(Clone, Copy, Debug, PartialEq)]
pub enum Pitch {
    /// A note, and the offset in semitones from its equal-tempered pitch.
    Note(u8, f32),
    /// The fundamental itself, with no tuning added.
    Hertz(f32),
}

#[derive(Clone, Copy, Debug)]
pub struct MaskVoice {
    pub pitch: Pitch,
    /// Note envelope level; `0.0` contributes nothing.
    pub level: f32,
    pub pressure: f32,
    /// Harmonic tilt from `0.0` to `1.0`. `0.5` keeps the configured rolloff;
    /// lower values darken the partials and higher values brighten them.
    pub timbre: f32,
    /// Base strength (including velocity), bounded to openness before expression.
    pub volume_gain: f32,
    /// Linear gain of the note-opened component, independent of the background floor.
    pub expression_gain: f32,
    /// Stereo placement, -1 left through 0 center to +1 right. Ignored in mono.
    pub pan: f32,
}

impl Default for MaskVoice {
    fn default() -> Self {
        Self {
            pitch: Pitch::Note(0, 0.0),
            level: 0.0,
            pressure: 1.0,
            timbre: 0.5,
            volume_gain: 1.0,
            expression_gain: 1.0,
            pan: 0.0,
        }
    }
}

#[derive(Clone, Copy, Debug, Default, Eq, PartialEq)]
pub enum MotionShape {
    #[default]
    Ripple,
    Harmonic,
    Drift,
    Scan,
    Notch,
    Saw,
    Sprinkle,
    Cloud,
}

impl MotionShape {
    pub fn is_particle(self) -> bool {
        matches!(self, Self::Sprinkle | Self::Cloud)
    }
}

#[derive(Clone, Copy, Debug)]
pub struct MotionConfig {
    pub shape: MotionShape,
    pub depth_db: f32,
    pub phase: f32,
    pub size_octaves: f32,
}

impl Default for MotionConfig {
    fn default() -> Self {
        Self {
            shape: MotionShape::Ripple,
            depth_db: 0.0,
            phase: 0.0,
            size_octaves: 1.0,
        }
    }
}

#[derive(Clone, Copy, Debug)]
pub struct MaskConfig {
    pub sample_rate: f32,
    pub fft_size: usize,
    /// Attenuation below the drawn ceiling away from held notes. Zero leaves
    /// the background unchanged while the additive note lift remains active.
    pub note_depth_db: f32,
    pub note_layer_enabled: bool,
    pub width_cents: f32,
    pub partials: usize,
    pub harmonic_rolloff_db_per_octave: f32,
    pub motion: MotionConfig,
}

const GAUSSIAN_LUT_STEPS: usize = 1024;
const GAUSSIAN_MAX_RELATIVE_SQUARED: f32 = 16.0;

/// Precomputed values used while rebuilding a spectral mask. Any accepted
/// frequency table will do, prepared or not, so the rate and size of the
/// Rust's workspace are not kept.
pub struct MaskWorkspace {
    pub bin_log2_hz: Vec<f32>,
    pub gaussian: [f32; GAUSSIAN_LUT_STEPS + 1],
}

impl Default for MaskWorkspace {
    fn default() -> Self {
        let gaussian = std::array::from_fn(|index| {
            let relative_squared =
                index as f32 * GAUSSIAN_MAX_RELATIVE_SQUARED / GAUSSIAN_LUT_STEPS as f32;
            exp(-0.5 * relative_squared)
        });
        Self {
            bin_log2_hz: Vec::new(),
            gaussian,
        }
    }
}

impl MaskWorkspace {
    /// A workspace with the frequency table as lent.
    pub fn lent(bin_log2_hz: &[f32]) -> Self {
        Self {
            bin_log2_hz: bin_log2_hz.to_vec(),
            ..Self::default()
        }
    }

    /// Refresh the frequency table after a sample-rate or FFT-size change.
    pub fn prepare(&mut self, sample_rate: f32, fft_size: usize) {
        let bin_hz = sample_rate / fft_size as f32;
        self.bin_log2_hz.resize(fft_size / 2 + 1, 0.0);
        for (bin, log2_hz) in self.bin_log2_hz.iter_mut().enumerate().skip(1) {
            *log2_hz = log2(bin as f32 * bin_hz);
        }
    }

    #[inline]
    fn gaussian(&self, relative_squared: f32) -> f32 {
        let position = clamp(relative_squared, 0.0, GAUSSIAN_MAX_RELATIVE_SQUARED)
            * (GAUSSIAN_LUT_STEPS as f32 / GAUSSIAN_MAX_RELATIVE_SQUARED);
        let left = floor_to_count(position);
        let right = (left + 1).min(GAUSSIAN_LUT_STEPS);
        let fraction = position - left as f32;
        self.gaussian[left] + (self.gaussian[right] - self.gaussian[left]) * fraction
    }
}

impl Default for MaskConfig {
    fn default() -> Self {
        Self {
            sample_rate: 48_000.0,
            fft_size: 8192,
            note_depth_db: 0.0,
            note_layer_enabled: true,
            width_cents: 100.0,
            partials: 1,
            harmonic_rolloff_db_per_octave: 6.0,
            motion: MotionConfig::default(),
        }
    }
}

/// Automatic gain applied only to the note-opened component. Narrow skirts
/// receive up to +6 dB even at zero Note Depth, making notes additive before
/// the control begins attenuating the surrounding spectrum. Wide skirts need
/// less compensation, so the lift tapers smoothly above 100 cents and reaches
/// unity at 1200 cents.
#[inline]
pub fn note_emphasis_gain(width_cents: f32) -> f32 {
    let width_position = if width_cents <= 100.0 {
        0.0
    } else {
        log2(width_cents / 100.0) / log2(12.0)
    };
    let width_position = clamp(width_position, 0.0, 1.0);
    let narrowness = 1.0 - smoothstep(width_position);
    db_to_gain(6.0 * narrowness)
}

/// Gain of the complete note layer at one bin. Closed regions follow Note
/// Depth while fully open note centres retain their width-compensated lift.
#[inline]
pub fn note_gate_gain(note_depth_db: f32, width_cents: f32, openness: f32) -> f32 {
    let floor = db_to_gain(-max(note_depth_db, 0.0));
    floor + (note_emphasis_gain(width_cents) - floor) * clamp(openness, 0.0, 1.0)
}

#[inline]
fn smoothstep(position: f32) -> f32 {
    position * position * (3.0 - 2.0 * position)
}

/// Advance a bank of note envelopes once per STFT frame.
pub fn advance_note_envelopes(
    levels: &mut [f32; MIDI_NOTES],
    held: &[bool; MIDI_NOTES],
    elapsed_seconds: f32,
    fade_ms: f32,
) {
    let alpha = smoothing_alpha(elapsed_seconds, fade_ms * 0.001);

    for (note, level) in levels.iter_mut().enumerate() {
        let target = if held[note] { 1.0 } else { 0.0 };
        *level += (target - *level) * alpha;
        if abs(*level) < 1.0e-6 {
            *level = 0.0;
        }
    }
}

/// Build the real, non-negative gain mask for an RFFT spectrum.
///
/// `output.len()` is expected to be `fft_size / 2 + 1`. No allocation is
/// performed, making the function safe to call from the audio thread.
pub fn build_mask(
    output: &mut [f32],
    manual_mask_db: &[f32; MANUAL_MASK_POINTS],
    note_levels: &[f32; MIDI_NOTES],
    config: MaskConfig,
) {
    let mut voices = [MaskVoice::default(); MIDI_NOTES];
    for (note, (voice, level)) in voices.iter_mut().zip(note_levels).enumerate() {
        voice.pitch = Pitch::Note(note as u8, 0.0);
        voice.level = *level;
    }
    build_mask_with_voices(output, manual_mask_db, &voices, config);
}

pub fn build_mask_with_voices(
    output: &mut [f32],
    manual_mask_db: &[f32; MANUAL_MASK_POINTS],
    voices: &[MaskVoice],
    config: MaskConfig,
) {
    build_mask_with_voices_impl(output, manual_mask_db, voices, config, None, None);
}

/// Allocation-free mask builder using the precomputed tables in `workspace`.
pub fn build_mask_with_voices_precomputed(
    output: &mut [f32],
    manual_mask_db: &[f32; MANUAL_MASK_POINTS],
    voices: &[MaskVoice],
    config: MaskConfig,
    workspace: &MaskWorkspace,
) {
    build_mask_with_voices_impl(
        output,
        manual_mask_db,
        voices,
        config,
        Some(workspace),
        None,
    );
}

/// Stereo note contributions use a constant-power pan law with unity at center.
/// The manual curve, motion and closed-note floor remain shared. Overlapping
/// contributions combine by maximum, independently on each side.
pub fn build_stereo_masks_with_voices_precomputed(
    left: &mut [f32],
    right: &mut [f32],
    manual_mask_db: &[f32; MANUAL_MASK_POINTS],
    voices: &[MaskVoice],
    config: MaskConfig,
    workspace: &MaskWorkspace,
) {
    build_mask_with_voices_impl(
        left,
        manual_mask_db,
        voices,
        config,
        Some(workspace),
        Some(0),
    );
    build_mask_with_voices_impl(
        right,
        manual_mask_db,
        voices,
        config,
        Some(workspace),
        Some(1),
    );
}

fn expression_channel_gain(voice: &MaskVoice, channel: Option<usize>) -> f32 {
    let pan = if voice.pan.is_finite() {
        clamp(voice.pan, -1.0, 1.0)
    } else {
        0.0
    };
    let gain = if voice.expression_gain.is_finite() {
        clamp(voice.expression_gain, 0.0, 4.0)
    } else {
        1.0
    };
    let balance = match channel {
        _ if pan == 0.0 => 1.0,
        Some(0) if pan == 1.0 => 0.0,
        Some(1) if pan == -1.0 => 0.0,
        Some(0) => cos((pan + 1.0) * std::f32::consts::FRAC_PI_4) * std::f32::consts::SQRT_2,
        Some(1) => sin((pan + 1.0) * std::f32::consts::FRAC_PI_4) * std::f32::consts::SQRT_2,
        _ => 1.0,
    };
    gain * balance
}

fn build_mask_with_voices_impl(
    output: &mut [f32],
    manual_mask_db: &[f32; MANUAL_MASK_POINTS],
    voices: &[MaskVoice],
    config: MaskConfig,
    workspace: Option<&MaskWorkspace>,
    channel: Option<usize>,
) {
    debug_assert_eq!(output.len(), config.fft_size / 2 + 1);
    let nyquist = config.sample_rate * 0.5;
    let bin_hz = config.sample_rate / config.fft_size as f32;
    let width = max(config.width_cents, 1.0);
    let partials = config.partials.max(1);
    let motion_enabled = config.motion.depth_db > 0.001;
    let motion_compensation = motion_compensation_gain(config.motion);

    // First use the output buffer as an openness scratch buffer. Updating
    // only the bins within four standard deviations of each lobe avoids a
    // full bins × notes × partials scan.
    output.fill(0.0);
    if config.note_layer_enabled && voices.iter().any(|voice| voice.level > 1.0e-5) {
        let radius_octaves = 4.0 * width / 1200.0;
        let lower_ratio = exp2(-radius_octaves);
        let upper_ratio = exp2(radius_octaves);
        for voice in voices {
            if voice.level <= 1.0e-5 {
                continue;
            }

            let expression_gain = expression_channel_gain(voice, channel);
            let pressure_gain = 0.35 + 0.65 * clamp(voice.pressure, 0.0, 1.0);
            let note_level = voice.level * max(voice.volume_gain, 0.0) * pressure_gain;
            let timbre_rolloff = clamp(
                config.harmonic_rolloff_db_per_octave
                    + (0.5 - clamp(voice.timbre, 0.0, 1.0)) * 24.0,
                0.0,
                48.0,
            );
            let fundamental = match voice.pitch {
                Pitch::Note(note, semitones) => note_frequency_with_tuning(note, semitones),
                Pitch::Hertz(hertz) => hertz,
            };
            for partial in 1..=partials.min(MAX_PARTIALS) {
                let center = fundamental * partial as f32;
                if center > nyquist {
                    break;
                }
                let harmonic_gain = db_to_gain(-timbre_rolloff * log2(partial as f32));
                let first_bin = floor_to_count(max(((center * lower_ratio) / bin_hz).floor(), 1.0));
                let last_bin = ceil_to_count((center * upper_ratio) / bin_hz)
                    .min(output.len().saturating_sub(1));
                // The musical center will almost always fall between two
                // linearly spaced FFT bins. Normalize the sampled Gaussian
                // against the closest usable bin so fractional placement
                // cannot make an otherwise identical note arbitrarily weak.
                let peak_bin = closest_bin_in_cents(center, bin_hz, output.len() - 1);
                let center_log2 = log2(center);
                let peak_normalized = if let Some(workspace) = workspace {
                    1200.0 * (workspace.bin_log2_hz[peak_bin] - center_log2) / width
                } else {
                    let peak_frequency = peak_bin as f32 * bin_hz;
                    1200.0 * log2(peak_frequency / center) / width
                };
                for (bin, openness) in output
                    .iter_mut()
                    .enumerate()
                    .take(last_bin + 1)
                    .skip(first_bin)
                {
                    let normalized = if let Some(workspace) = workspace {
                        1200.0 * (workspace.bin_log2_hz[bin] - center_log2) / width
                    } else {
                        let frequency = bin as f32 * bin_hz;
                        1200.0 * log2(frequency / center) / width
                    };
                    let relative_squared = max(
                        normalized * normalized - peak_normalized * peak_normalized,
                        0.0,
                    );
                    let bell = workspace.map_or_else(
                        || exp(-0.5 * relative_squared),
                        |workspace| workspace.gaussian(relative_squared),
                    );
                    *openness = max(
                        *openness,
                        clamp(note_level * harmonic_gain * bell, 0.0, 1.0) * expression_gain,
                    );
                }
            }
        }
    }

    for (bin, gain) in output.iter_mut().enumerate() {
        let manual = manual_gain_at_bin(manual_mask_db, bin, config.fft_size);
        let motion_gain = if motion_enabled {
            let frequency = bin as f32 * bin_hz;
            db_to_gain(-motion_attenuation_db(frequency, config.motion)) * motion_compensation
        } else {
            1.0
        };
        let openness = *gain;
        let note_gate = if config.note_layer_enabled {
            let floor = db_to_gain(-max(config.note_depth_db, 0.0));
            floor + (note_emphasis_gain(config.width_cents) - floor) * openness
        } else {
            1.0
        };
        *gain = manual * motion_gain * note_gate;
    }
}

/// Returns the moving field's openness at a frequency. `1.0` is the crest,
/// where the drawn ceiling is unchanged, and `0.0` receives the full motion
/// attenuation.
pub fn motion_openness(frequency: f32, config: MotionConfig) -> f32 {
    if config.depth_db <= 0.001 || frequency < MIN_DISPLAY_FREQUENCY_HZ {
        return 1.0;
    }
    let x = log2(frequency / MIN_DISPLAY_FREQUENCY_HZ);
    let size = max(config.size_octaves, 0.05);
    let phase = rem_euclid(config.phase);
    let tau = std::f32::consts::TAU;
    match config.shape {
        MotionShape::Ripple => clamp(0.5 + 0.5 * cos(tau * (x / size - phase)), 0.0, 1.0),
        MotionShape::Harmonic => powi5(clamp(0.5 + 0.5 * cos(tau * (x / size - phase)), 0.0, 1.0)),
        MotionShape::Drift => {
            // Integer phase multipliers keep the field continuous when the
            // free-running phase wraps, while the unrelated spatial scales
            // prevent the layers from looking like a simple repeating comb.
            let broad = sin(tau * (x / (size * 2.7) - phase));
            let middle = sin(tau * (x / (size * 1.13) + phase * 2.0 + 0.19));
            let detail = sin(tau * (x / (size * 0.53) - phase * 3.0 + 0.61));
            clamp(0.5 + 0.25 * broad + 0.17 * middle + 0.08 * detail, 0.0, 1.0)
        }
        MotionShape::Scan | MotionShape::Notch => {
            let center = phase * DISPLAY_OCTAVES;
            let distance = abs(x - center);
            let wrapped = min(distance, DISPLAY_OCTAVES - distance);
            let window = exp(-0.5 * powi2(wrapped / (size * 0.42)));
            if config.shape == MotionShape::Scan {
                window
            } else {
                1.0 - window
            }
        }
        MotionShape::Saw => {
            let cycle = rem_euclid(x / size - phase);
            const RESET_START: f32 = 0.9;
            if cycle < RESET_START {
                cycle / RESET_START
            } else {
                1.0 - smoothstep((cycle - RESET_START) / (1.0 - RESET_START))
            }
        }
        // Sprinkle is event-driven and is applied separately from the looping
        // motion field. Its resting state must therefore be neutral.
        MotionShape::Sprinkle | MotionShape::Cloud => 1.0,
    }
}

pub fn motion_attenuation_db(frequency: f32, config: MotionConfig) -> f32 {
    max(config.depth_db, 0.0) * (1.0 - motion_openness(frequency, config))
}

/// Broadband normalization for the moving spectral field. Sampling uniformly
/// in octaves makes compensation follow the shape's perceptual footprint
/// rather than over-weighting its highest-frequency bins. The cap prevents
/// very narrow, deep Scan or Harmonic settings from producing unsafe boosts.
pub fn motion_compensation_gain(config: MotionConfig) -> f32 {
    if config.depth_db <= 0.001 {
        return 1.0;
    }
    let mean_square = sum((0..MOTION_COMPENSATION_SAMPLES).map(|index| {
        let octave = (index as f32 + 0.5) / MOTION_COMPENSATION_SAMPLES as f32 * DISPLAY_OCTAVES;
        let frequency = MIN_DISPLAY_FREQUENCY_HZ * exp2(octave);
        let gain = db_to_gain(-motion_attenuation_db(frequency, config));
        gain * gain
    })) / MOTION_COMPENSATION_SAMPLES as f32;
    min(
        1.0 / sqrt(mean_square),
        db_to_gain(MAX_MOTION_COMPENSATION_DB),
    )
}

fn closest_bin_in_cents(center: f32, bin_hz: f32, max_bin: usize) -> usize {
    let position = center / bin_hz;
    let lower = floor_to_count(position).clamp(1, max_bin);
    let upper = (lower + 1).min(max_bin);
    let cents = |bin: usize| abs(1200.0 * log2(bin as f32 * bin_hz / center));
    if cents(upper) < cents(lower) {
        upper
    } else {
        lower
    }
}

pub fn manual_gain_at_bin(mask_db: &[f32; MANUAL_MASK_POINTS], bin: usize, fft_size: usize) -> f32 {
    let source_bins = fft_size / 2;
    let master_bins = MANUAL_MASK_POINTS - 1;
    let master_index = (bin * master_bins + source_bins / 2)
        .checked_div(source_bins)
        .unwrap_or(0)
        .min(master_bins);
    let db = mask_db[master_index];
    // Change request 108: a NaN, which is above nothing, mutes its bin. The Rust's test,
    // `if db <= MANUAL_CURVE_MUTE_DB`, lets it through, and `min` makes it 0 dB.
    if db > MANUAL_CURVE_MUTE_DB {
        db_to_gain(min(db, 0.0))
    } else {
        0.0
    }
}

#[inline]
fn smoothing_alpha(elapsed_seconds: f32, time_seconds: f32) -> f32 {
    if time_seconds <= 0.0 {
        1.0
    } else {
        1.0 - exp(-elapsed_seconds / time_seconds)
    }
}
