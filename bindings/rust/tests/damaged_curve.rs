//! An erased point of the drawn curve, which is NaN, shuts its bin and no other, in every call that
//! reads a curve.

mod given;

use dovetable::processing::PreparedSpectrum;
use dovetable::*;
use given::{BEFORE, CURVE, config, refused, table, voice};

/// The bin that note 69 opens at size 1,024, and the point that it reads.
const BIN: usize = 9;
const POINT: usize = 144;

/// NaN of either sign, quiet and signalling.
const ERASED: [u32; 4] = [0x7fc0_0000, 0x7f80_0001, 0xffff_ffff, 0xff80_0001];

fn erased() -> impl Iterator<Item = Vec<f32>> {
    ERASED.into_iter().map(|bits| {
        let mut curve = CURVE.to_vec();
        curve[POINT] = f32::from_bits(bits);
        curve
    })
}

/// Left and right one behind the other.
fn stereo(call: impl FnOnce(&mut [f32], &mut [f32]) -> Result<(), Refused>) -> Vec<f32> {
    let (mut left, mut right) = (vec![BEFORE; config().bins()], vec![BEFORE; config().bins()]);
    call(&mut left, &mut right).unwrap();
    [left, right].concat()
}

/// The mask twice.
fn mono(call: impl Fn(&mut [f32]) -> Result<(), Refused>) -> Vec<f32> {
    stereo(|left, right| call(left).and_then(|()| call(right)))
}

fn read(curve: &[f32], voices: &[MaskVoice]) -> Vec<f32> {
    let mut bank = Bank::new();
    for (id, voice) in (0..).zip(voices) {
        bank.add(id, voice).unwrap();
    }
    stereo(|left, right| bank.read_masks(left, right, curve, config(), &table()))
}

fn serve(curve: &[f32], voices: &[MaskVoice]) -> Vec<f32> {
    let scenes: [Scene; STRIPS] = std::array::from_fn(|_| Scene::new(config(), voices));
    let mut mixer = Mixer::new();
    mixer.request(3).unwrap();
    stereo(|left, right| {
        let served = mixer.serve(left, right, curve, &scenes, &table());
        assert_eq!(served.strip, Some(3));
        served.outcome
    })
}

/// The masks of note 69 on a curve, by each call.
fn all_masks(curve: &[f32]) -> [(&'static str, Vec<f32>); 7] {
    let (voices, config, table) = ([voice(69, 0.0)], config(), &table());
    let mut levels = [0.0; MIDI_NOTES];
    levels[69] = 1.0;
    let ones = vec![1.0; config.fft_size];
    let prepared = &PreparedSpectrum::new(config.sample_rate, &ones, &ones, 2).unwrap();
    let of_levels = mono(|mask| build_mask(mask, curve, &levels, config));
    let of_voices = mono(|mask| build_mask_with_voices(mask, curve, &voices, config));
    let of_table =
        mono(|mask| build_mask_with_voices_precomputed(mask, curve, &voices, config, table));
    let of_both = stereo(|left, right| {
        build_stereo_masks_with_voices_precomputed(left, right, curve, &voices, config, table)
    });
    let of_block = stereo(|left, right| {
        build_stereo_masks_with_prepared_spectrum(left, right, curve, &voices, config, prepared)
    });
    [
        ("levels", of_levels),
        ("voices", of_voices),
        ("voices and a table", of_table),
        ("both sides", of_both),
        ("a prepared spectrum", of_block),
        ("a bank", read(curve, &voices)),
        ("a mixer", serve(curve, &voices)),
    ]
}

#[test]
fn an_erased_point_gives_0() {
    assert_eq!(manual_gain_at_bin(&CURVE, BIN, 1024), Ok(1.0));
    for curve in erased() {
        let gain = |bin| manual_gain_at_bin(&curve, bin, 1024).map(f32::to_bits);
        assert_eq!(gain(BIN), Ok(0));
        assert_eq!([gain(BIN - 1), gain(BIN + 1)], [Ok(1.0_f32.to_bits()); 2]);
        // NaN is outside no limit here; a length still is.
        assert_eq!(manual_gain_at_bin(&curve[1..], BIN, 1024), refused(4, 0));
    }
}

#[test]
fn an_erased_point_shuts_a_bin_that_a_voice_opens() {
    let whole = all_masks(&CURVE);
    for curve in erased() {
        for ((name, mask), (_, whole)) in all_masks(&curve).iter().zip(&whole) {
            for (entry, (gain, before)) in mask.iter().zip(whole).enumerate() {
                let is_erased = entry % config().bins() == BIN;
                assert!(!is_erased || *before > 1.0, "{name}: the voice opens it");
                let expected = if is_erased { 0.0 } else { *before };
                assert_eq!(gain.to_bits(), expected.to_bits(), "{name}, entry {entry}");
            }
        }
    }
}
