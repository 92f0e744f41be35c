//! Sums where rounding is hardest: at halves on both sides of zero, and at the largest that tables can have.

use crate::bench::Bench;
use crate::chance::Chance;
use crate::check::nearest;
use crate::figures::sixfold_volume;
use crate::harm::words;
use crate::make::tetrahedron;
use crate::parts::{grid, MOST_ROWS_GRID};
use crate::place;
use crate::protocol::*;
use crate::skin::{Corner, Row, FARTHEST};

/// A quarter of a cubic metre, sixfold: a table turned inside out changes by a half.
const QUARTER: i128 = 1_500_000;

pub fn run(bench: &mut Bench, chance: &mut Chance) {
    halves(bench, chance);
    largest(bench);
    large_halves(bench, chance);
}

/// The volume, and the change to the same table turned inside out and back, of a stage with a wanted sum.
fn measure(bench: &mut Bench, kind: &str, rows: &[Row], corners: &[Corner], wanted: i128) {
    if sixfold_volume(rows, corners) != wanted {
        bench.tally.fail("sums: the maker", &format!("no table with the sum {wanted}"), "");
    }
    let coordinates: Vec<Word> = corners.concat().into_iter().map(Word::from).collect();
    let inside_out: Vec<Row> = rows.iter().map(|&[a, b, c]| [a, c, b]).collect();
    let (out, inside) = (words(&rows.concat()), words(&inside_out.concat()));
    let volume = |table: &Vec<Word>| Request { call: VOLUME, arguments: vec![table.clone(), coordinates.clone()] };
    let change = |earlier: &Vec<Word>, later: &Vec<Word>| Request {
        call: CHANGE,
        arguments: vec![earlier.clone(), later.clone(), coordinates.clone()],
    };
    let cases = [
        (volume(&out), wanted),
        (volume(&inside), -wanted),
        (change(&inside, &out), 2 * wanted),
        (change(&out, &inside), -2 * wanted),
    ];
    for (request, sum) in cases {
        if let Some(found) = bench.try_call(kind, &request) {
            nearest(bench, &request, sum, found.answer[1]);
        }
    }
}

/// Corners for T with a wanted sum: a determinant of p q r + c, all other terms 0.
fn tetrahedron_of(sum: i128) -> [Corner; 4] {
    let (p, q) = (200, 250);
    let [p, q, r, c] = [p, q, sum.abs() / (p * q), sum.abs() % (p * q)].map(|n| n as i32);
    let (first, second, third) = ([p, 1, 0], [0, q, 1], [c, 0, r]);
    // T's sum is the determinant of its corners 1, 3, 2 when corner 0 lies at the origin.
    if sum > 0 {
        [[0; 3], first, third, second]
    } else {
        [[0; 3], first, second, third]
    }
}

/// Every quarter from -5 to 5 cubic metres, some larger ones, and one to each side.
fn halves(bench: &mut Bench, chance: &mut Chance) {
    let mut sums: Vec<i128> = (-20..=20).map(|quarters| quarters * QUARTER).collect();
    sums.extend((0..30).map(|_| QUARTER * i128::from(chance.between(-1_600, 1_600))));
    for sum in sums.into_iter().flat_map(|sum| [sum - 1, sum, sum + 1]) {
        measure(bench, "sums: at a half", &tetrahedron(), &tetrahedron_of(sum), sum);
    }
}

/// The largest sums and changes that tables can have: up to the most rows, each of four times the farthest
/// coordinate's cube.
fn largest(bench: &mut Bench) {
    let (long, short) = MOST_ROWS_GRID;
    for (down, across) in [(4, 4), (8, 8), (short, long), (long, short), (short / 2, 2 * long)] {
        let rows = grid(down, across);
        let corners = place::largest_sum(down, across);
        let sum = sixfold_volume(&rows, &corners);
        let wanted = sum.signum() * rows.len() as i128 * 4 * i128::from(FARTHEST).pow(3);
        measure(bench, "sums: the largest", &rows, &corners, wanted);
    }
}

/// Splits a row in three round a new corner.
fn split(rows: &mut Vec<Row>, place: usize, new: u32) {
    let [a, b, c] = rows[place];
    rows[place] = [a, b, new];
    rows.extend([[b, c, new], [c, a, new]]);
}

/// Sums next to the largest, at a quarter and one to each side: a sum kept in a float loses these.
fn large_halves(bench: &mut Bench, chance: &mut Chance) {
    for (down, across) in [(14, 36), (36, 14), (6, 6)] {
        let (mut rows, mut corners) = (grid(down, across), place::largest_sum(down, across));
        // Four new corners in the last row: three round the origin, and one over their row that tunes the sum.
        let new = down * across;
        let mut place = rows.len() - 1;
        for corner in new..new + 4 {
            split(&mut rows, place, corner);
            place = if corner == new { place } else { rows.len() - 2 };
        }
        corners.extend([[0, 0, 0], [1, 0, -5_000], [0, 1, -100], [0, 0, 0]]);
        let base = sixfold_volume(&rows, &corners);
        for quarter in 1..=4 {
            for beside in -1..=1 {
                let wanted = (base.div_euclid(QUARTER) + quarter) * QUARTER + beside;
                let more = (wanted - base) as i32 + 6_000_000 * chance.below(3) as i32;
                tune(&mut corners, more);
                measure(bench, "sums: large, at a half", &rows, &corners, base + i128::from(more));
            }
        }
    }
}

/// The last corner adds 5,000 x + 100 y + z to the sum.
fn tune(corners: &mut [Corner], more: i32) {
    let last = corners.len() - 1;
    corners[last] = [more / 5_000, more % 5_000 / 100, more % 100];
}
