//! The drawing, in SVG: 1,000 units to the octave from 20 Hz up, 60 to the decibel from +12 dB
//! down.

use super::{Built, decibels};
use crate::functions::{clamp, floor_to_count, log2};

const WIDTH: usize = 10_000;
const HEIGHT: usize = 5_760;

const HIGHEST_DB: f32 = 12.0;
const LOWEST_DB: f32 = -84.0;

/// The bins from 20 to 20,480 Hz.
const BINS: std::ops::Range<usize> = 4..3_496;

fn across(log2_hz: f32) -> usize {
    floor_to_count((log2_hz - log2(20.0)) * 1_000.0)
}

fn down(db: f32) -> usize {
    floor_to_count((HIGHEST_DB - clamp(db, LOWEST_DB, HIGHEST_DB)) * 60.0)
}

/// Silence is drawn at the bottom.
fn height(gain: f32) -> usize {
    match gain {
        0.0 => down(LOWEST_DB),
        _ => down(decibels(gain)),
    }
}

fn frequency_line((hertz, label): (f32, &str)) -> String {
    let x = across(log2(hertz));
    format!(
        "<path d='M{x} 0V{HEIGHT}'/><text x='{x}' y='6120' text-anchor='middle'>{label}</text>\n"
    )
}

fn level_line(db: i32) -> String {
    let y = down(db as f32);
    format!(
        "<path d='M0 {y}H{WIDTH}'/><text x='-150' y='{y}' dy='90' text-anchor='end'>{db}</text>\n"
    )
}

fn mask_line(table: &[f32], mask: &[f32], style: &str) -> String {
    let points: String = BINS
        .map(|bin| format!("{},{}\n", across(table[bin]), height(mask[bin])))
        .collect();
    format!("<polyline class='{style}' points='\n{points}'/>\n")
}

/// The left line is the wider, so that both are seen where they run together.
const HEAD: &str = "\
<svg xmlns='http://www.w3.org/2000/svg' viewBox='-1150 -1150 11650 8000' width='1165' height='800'>
<title>C minor seventh</title>
<style>
text { font: 250px sans-serif; fill: #333333 }
path { stroke: #dddddd; stroke-width: 12 }
polyline, .left, .right { fill: none; stroke-linejoin: round }
.left { stroke: #8ab8e6; stroke-width: 70 }
.right { stroke: #c0392b; stroke-width: 28 }
</style>
<rect x='-1150' y='-1150' width='11650' height='8000' fill='#ffffff'/>
<text x='0' y='-680' style='font-size: 380px'>C minor seventh</text>
<text x='0' y='-270'>C4, E&#9837;4 on the left, G4 on the right, B&#9837;4 tuned down; \
48 kHz, size 8,192</text>
<path class='left' d='M7400 -770H7900'/><text x='8000' y='-680'>left</text>
<path class='right' d='M8800 -770H9300'/><text x='9400' y='-680'>right</text>
<text x='5000' y='6600' text-anchor='middle'>frequency</text>
<text transform='translate(-850 2880) rotate(-90)' text-anchor='middle'>gain, dB</text>
";

const FREQUENCIES: [(f32, &str); 10] = [
    (20.0, "20 Hz"),
    (50.0, "50 Hz"),
    (100.0, "100 Hz"),
    (200.0, "200 Hz"),
    (500.0, "500 Hz"),
    (1_000.0, "1 kHz"),
    (2_000.0, "2 kHz"),
    (5_000.0, "5 kHz"),
    (10_000.0, "10 kHz"),
    (20_000.0, "20 kHz"),
];

pub fn svg(built: &Built) -> String {
    let frequencies: String = FREQUENCIES.into_iter().map(frequency_line).collect();
    let levels: String = (-7..=1).rev().map(|step| level_line(12 * step)).collect();
    let left = mask_line(&built.table, &built.left, "left");
    let right = mask_line(&built.table, &built.right, "right");
    format!("{HEAD}{frequencies}{levels}{left}{right}</svg>\n")
}
