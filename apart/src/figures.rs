//! The figures: exact sums in 128 bits, rounded once to cubic metres, and the shift report.

use crate::skin::{Corner, Row};
use crate::step::{squared_distance, Record};

/// Six cubic metres in cubic centimetres.
pub const SIX_CUBIC_METRES: i128 = 6_000_000;
/// Half a cubic metre, sixfold.
pub const HALF: i128 = SIX_CUBIC_METRES / 2;

fn determinant([p, q, r]: [[i128; 3]; 3]) -> i128 {
    p[0] * (q[1] * r[2] - q[2] * r[1]) - p[1] * (q[0] * r[2] - q[2] * r[0]) + p[2] * (q[0] * r[1] - q[1] * r[0])
}

/// The exact sixfold volume of a stage.
pub fn sixfold_volume(rows: &[Row], corners: &[Corner]) -> i128 {
    rows.iter().map(|row| determinant(row.map(|n| corners[n as usize].map(i128::from)))).sum()
}

/// To the nearest whole, a half going away from zero.
pub fn figure(sixfold: i128) -> i64 {
    let size = (sixfold.abs() + HALF) / SIX_CUBIC_METRES;
    (sixfold.signum() * size) as i64
}

/// A sum in whole cubic metres, sixfold, and a rest that is never below zero.
pub fn whole_and_rest(sixfold: i128) -> [i64; 2] {
    [sixfold.div_euclid(SIX_CUBIC_METRES), sixfold.rem_euclid(SIX_CUBIC_METRES)].map(|part| part as i64)
}

/// Stand-in, count and squared distance.
pub fn shift(corner: u32, corners: &[Corner], log: &[Record]) -> (u32, i64, i64) {
    let mut stand_in = corner;
    let mut count = 0;
    for record in log {
        if record[1] == stand_in {
            stand_in = record[0];
            count += 1;
        }
    }
    (stand_in, count, squared_distance(corners[corner as usize], corners[stand_in as usize]))
}
