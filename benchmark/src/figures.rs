//! Volume and change in ordinary Rust: the exact sixfold sum, rounded once.

use crate::check;
use crate::work::Work;
use flaxglimmer::Refusal;

const DIVISOR: i64 = 6_000_000;

fn sixfold_sum(table: &[u32], corners: &[i32], work: &mut impl Work) -> i64 {
    let corner = |n: u32| [0, 1, 2].map(|axis| i64::from(corners[3 * n as usize + axis]));
    work.rows(table.len() / 3);
    let determinant = |row: &[u32]| {
        let [a, b, c] = [corner(row[0]), corner(row[1]), corner(row[2])];
        a[0] * (b[1] * c[2] - b[2] * c[1]) + a[1] * (b[2] * c[0] - b[0] * c[2]) + a[2] * (b[0] * c[1] - b[1] * c[0])
    };
    table.chunks_exact(3).map(determinant).sum()
}

/// The nearest whole, a half away from zero.
pub fn cubic_metres(sum: i64) -> i64 {
    let (whole, rest) = (sum / DIVISOR, sum % DIVISOR);
    whole + i64::from(2 * rest >= DIVISOR) - i64::from(2 * rest <= -DIVISOR)
}

pub fn volume(table: &[u32], corners: &[i32], work: &mut impl Work) -> Result<i64, Refusal> {
    check::with_coordinates(table, corners, false, work)?;
    Ok(cubic_metres(sixfold_sum(table, corners, work)))
}

/// From an earlier stage to a later one; the lesser refusal of the two.
pub fn change(earlier: &[u32], later: &[u32], corners: &[i32], work: &mut impl Work) -> Result<i64, Refusal> {
    let verdicts = [earlier, later].map(|table| check::with_coordinates(table, corners, false, work));
    if let Some(least) = verdicts.into_iter().filter_map(Result::err).min_by_key(|refusal| refusal.number()) {
        return Err(least);
    }
    Ok(cubic_metres(sixfold_sum(later, corners, work) - sixfold_sum(earlier, corners, work)))
}
