//! The rules of the tables, tested on what was made and not as it was made.

use oracle::bignum::Natural;
use oracle::functions::exp;
use oracle::port_tables::blocks;
use oracle::spectral_dsp::MaskWorkspace;
use oracle::tables::{HALF_ANGLE_COSINES, POWERS, SINES};

/// A power by repeated multiplication.
fn power(base: u64, exponent: usize) -> Natural {
    let base = Natural::from(base);
    (0..exponent).fold(Natural::from(1), |product, _| product.times(&base))
}

#[test]
fn each_power_is_the_greatest() {
    assert_eq!(POWERS.len(), 1025);
    for (j, &p) in POWERS.iter().enumerate() {
        let limit = Natural::power_of_two(30720 + j);
        assert!(power(p, 1024) <= limit);
        assert!(power(p + 1, 1024) > limit);
    }
}

#[test]
fn each_half_angle_cosine_is_the_greatest() {
    let k = *HALF_ANGLE_COSINES;
    assert_eq!((k.len(), k[0]), (9, 0));
    for i in 0..8 {
        let limit = u128::from((1 << 30) + k[i]) << 29;
        let root = u128::from(k[i + 1]);
        assert!(root * root <= limit);
        assert!((root + 1) * (root + 1) > limit);
    }
}

/// The middle j of a span lies as far from its ends as the lowest bit of j says.
#[test]
fn each_sine_is_the_middle_of_its_span() {
    let r = *SINES;
    assert_eq!((r.len(), r[0], r[256]), (257, 0, 1 << 30));
    for j in 1..256_usize {
        let half = 1 << j.trailing_zeros();
        let cosine = u128::from(HALF_ANGLE_COSINES[8 - j.trailing_zeros() as usize]);
        let ends = u128::from(r[j - half] + r[j + half]) << 29;
        let middle = u128::from(r[j]);
        assert!(middle * cosine <= ends);
        assert!((middle + 1) * cosine > ends);
    }
}

#[test]
fn each_gaussian_entry_is_an_exponential() {
    let gaussian = MaskWorkspace::default().gaussian;
    assert_eq!(gaussian.len(), 1025);
    for (i, entry) in gaussian.into_iter().enumerate() {
        assert_eq!(entry, exp(-(i as f32 / 128.0)));
    }
}

/// `tables --write` puts them there.
#[test]
fn each_file_of_the_port_has_the_table_of_its_rule() {
    for block in blocks() {
        let text = std::fs::read_to_string(block.path()).expect("the file can be read");
        assert!(block.stands_in(&text), "{}", block.file);
    }
}
