//! A typed limit: the exact value of a binary64 in whole numbers, turned to centimetres and rounded down once.

pub const METRES: i64 = 1;
pub const FEET: i64 = 2;
pub const CENTIMETRES: i64 = 3;
pub const INTERNATIONAL_FEET: i64 = 4;

const HIGHEST: u128 = 200_000;

/// A finite figure is sign x whole x 2^power.
struct Exact {
    below_zero: bool,
    whole: u128,
    power: i32,
}

fn exact(bits: u64) -> Option<Exact> {
    let fraction = u128::from(bits & ((1 << 52) - 1));
    let (whole, power) = match (bits >> 52) & 0x7ff {
        0x7ff => return None,
        0 => (fraction, -1_074),
        exponent => (fraction + (1 << 52), exponent as i32 - 1_075),
    };
    Some(Exact { below_zero: bits >> 63 == 1 && whole != 0, whole, power })
}

/// Whole centimetres, or nothing where the limit is unusable.
pub fn whole_centimetres(unit: i64, bits: u64) -> Option<u64> {
    let (over, under) = match unit {
        METRES => (100, 1),
        // 02: 1200/3937 of a metre
        FEET => (1_200 * 100, 3_937),
        CENTIMETRES => (1, 1),
        INTERNATIONAL_FEET => (3_048, 100),
        _ => panic!("no such unit"),
    };
    let figure = exact(bits)?;
    if figure.below_zero {
        return None;
    }
    // A figure with a power not below zero is at least 2^52, far above the highest limit.
    if figure.power >= 0 {
        return None;
    }
    // The number over the line is below 2^70, so past 2^100 below it the whole part is 0.
    let halvings = -figure.power as u32;
    let rounded = if halvings > 100 { 0 } else { figure.whole * over / (under << halvings) };
    (rounded <= HIGHEST).then_some(rounded as u64)
}
