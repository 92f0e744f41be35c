//! The smaller parts: the ring chooser, the catch-up part, the trial ring.

use crate::skin::{Row, MOST_ROWS};

/// The sides of a torus with the most rows.
pub const MOST_ROWS_GRID: (u32, u32) = (32, 16);
const _: () = assert!(2 * (MOST_ROWS_GRID.0 * MOST_ROWS_GRID.1) as usize == MOST_ROWS);

/// The shorter ring, the first when they are equally long.
pub fn shorter_ring<'a>(first: &'a [i64], second: &'a [i64]) -> &'a [i64] {
    if second.len() < first.len() {
        second
    } else {
        first
    }
}

/// The rest of the longer log if one is a beginning of the other, else nothing.
pub fn catch_up<'a>(first: &'a [i64], second: &'a [i64]) -> &'a [i64] {
    first.strip_prefix(second).or_else(|| second.strip_prefix(first)).unwrap_or(&[])
}

/// A torus of `down` by `across` corners by the trial ring's rule; the trial ring itself is 8 by 8.
pub fn grid(down: u32, across: u32) -> Vec<Row> {
    let corner = |r: u32, c: u32| (r % down) * across + c % across;
    let pair = |r: u32, c: u32| {
        let (here, below, beyond, beside) = (corner(r, c), corner(r + 1, c), corner(r + 1, c + 1), corner(r, c + 1));
        [[here, below, beyond], [here, beyond, beside]]
    };
    (0..down * across).flat_map(|n| pair(n / across, n % across)).collect()
}
