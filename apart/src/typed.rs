//! Makes typed limits: figures round every whole centimetre and round the ends, and unusable ones.
//! Floats serve to aim here; what a figure means is worked out from its bits alone.

use crate::chance::Chance;
use crate::limit::{CENTIMETRES, FEET, INTERNATIONAL_FEET, METRES};
use crate::logs::some_edge;
use crate::make::Skin;
use crate::step::squared_distance;

pub const UNITS: [i64; 4] = [METRES, FEET, CENTIMETRES, INTERNATIONAL_FEET];
const INFINITY: u64 = 0x7ff0_0000_0000_0000;
const MINUS: u64 = 1 << 63;

/// A figure near so many centimetres.
pub fn figure_near(unit: i64, centimetres: f64) -> u64 {
    match unit {
        METRES => centimetres / 100.0,
        FEET => centimetres * 3_937.0 / 120_000.0,
        INTERNATIONAL_FEET => centimetres / 30.48,
        _ => centimetres,
    }
    .to_bits()
}

/// A few figures up or down from one not below zero.
fn nudged(bits: u64, chance: &mut Chance) -> u64 {
    bits.saturating_add_signed(chance.between(-3, 3))
}

/// A usable limit, or one close past the ends.
pub fn figure(chance: &mut Chance) -> (i64, u64) {
    let unit = chance.pick(&UNITS);
    let most = chance.pick(&[20, 500, 30_000, 200_000, 200_003]);
    let whole = chance.between(0, most) as f64;
    let bits = match chance.below(8) {
        0 => figure_near(unit, whole + 0.5),
        1 => nudged(figure_near(unit, chance.pick(&[199_999.0, 200_000.0, 200_001.0])), chance),
        // Figures a person types: a few digits behind the point.
        2 => (chance.between(0, 99_999) as f64 / chance.pick(&[1.0, 4.0, 10.0, 100.0, 1_000.0])).to_bits(),
        _ => nudged(figure_near(unit, whole), chance),
    };
    (unit, bits)
}

/// An unusable figure.
pub fn unusable(chance: &mut Chance) -> (i64, u64) {
    let unit = chance.pick(&UNITS);
    let bits = match chance.below(8) {
        0 => INFINITY,
        1 => INFINITY | MINUS,
        2 => INFINITY | (1 + chance.next() % (1 << 52)).min((1 << 52) - 1) | (chance.next() & MINUS),
        3 => MINUS | (1 + chance.below(3) as u64),
        4 => MINUS | figure_near(unit, 1.0 + chance.below(500) as f64),
        5 => figure_near(unit, 200_001.0 + chance.between(1, 1 << 40) as f64),
        6 => INFINITY - 1,
        _ => MINUS | (chance.next() % (INFINITY - 1)).max(1),
    };
    (unit, bits)
}

/// Bits that no one would type.
pub fn wild(chance: &mut Chance) -> (i64, u64) {
    let unit = chance.pick(&UNITS);
    let bits = match chance.below(6) {
        0 => chance.next(),
        1 => chance.pick(&[0, 1, 2, (1 << 52) - 1, 1 << 52, (1 << 52) + 1]) | (chance.next() & MINUS),
        // Exponents from far below a centimetre to far past the highest limit.
        2 => ((1_023 - 30 + chance.below(60) as u64) << 52) | (chance.next() >> 12),
        3 => (chance.below(2_048) as u64) << 52,
        4 => INFINITY - chance.below(3) as u64,
        _ => unusable(chance).1,
    };
    (unit, bits)
}

/// A limit that parts the edges of this skin: the length of one of them, or a centimetre beside it.
pub fn parting(skin: &Skin, chance: &mut Chance) -> (i64, u64) {
    let (a, b) = some_edge(&skin.rows, chance);
    let squared = squared_distance(skin.corners[a as usize], skin.corners[b as usize]) as u64;
    let length = squared.isqrt() as i64 + chance.pick(&[-1, 0, 0, 0, 1, 1]);
    let unit = chance.pick(&UNITS);
    let bits = figure_near(unit, length.max(0) as f64 + chance.pick(&[0.0, 0.0, 0.25]));
    (unit, if chance.one_in(2) { nudged(bits, chance) } else { bits })
}

/// A thinning order: no limit (with bits that must be ignored), or a length limit.
pub fn order(skin: &Skin, chance: &mut Chance) -> (i64, u64) {
    match chance.below(10) {
        0..=2 => (0, 0),
        3 => (0, unusable(chance).1),
        4 => figure(chance),
        5 => (chance.pick(&UNITS), chance.next() & MINUS),
        _ => parting(skin, chance),
    }
}
