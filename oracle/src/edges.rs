//! The numbers at which a wrong test is found: the ends of limits, one step past them, and numbers
//! outside all limits.

pub fn around_limits((low, high): (f32, f32)) -> Vec<f32> {
    let middle = low + (high - low) / 2.0;
    let inside = [low, low.next_up(), middle, high.next_down(), high];
    let outside = [low.next_down(), high.next_up(), -high];
    let small = [
        0.0,
        -0.0,
        f32::from_bits(1),
        -f32::from_bits(1),
        f32::MIN_POSITIVE,
    ];
    let none = [f32::NAN, f32::INFINITY, f32::NEG_INFINITY];
    [&inside[..], &outside[..], &small[..], &none[..]].concat()
}

/// For something that may be any finite number.
pub fn around_finite() -> Vec<f32> {
    let limits = around_limits((-1.0, 1.0));
    [&limits[..], &[f32::MAX, f32::MIN, 2.0, 0.5]].concat()
}

/// A number within limits at which the result changes, and its neighbours.
pub fn around(x: f32) -> [f32; 3] {
    [x.next_down(), x, x.next_up()]
}
