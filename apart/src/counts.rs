//! Counts and lengths at their limits: rows, corners, rows told, records, room, and lists that are no multiple.

use crate::bench::Bench;
use crate::chance::Chance;
use crate::flip;
use crate::harm::{scribble, words};
use crate::mail::{text_of, text_words};
use crate::make::{octahedron, tetrahedron};
use crate::protocol::*;
use crate::skin::{FEWEST, MOST_CORNERS, MOST_ROWS};
use crate::step::WIDTH;

const KIND: &str = "sweep: counts at their limits";
/// The limits as words.
const ROWS: Word = MOST_ROWS as Word;
const CORNERS: Word = MOST_CORNERS as Word;
/// Whole words outside every limit; cut to fewer bits, or taken three times, some would come back inside.
const PAST: [Word; 6] = [1 << 32 | 4, 1 << 32 | 6, 1 << 62, Word::MIN, -1, Word::MAX / 3 + 5];

pub fn run(bench: &mut Bench, chance: &mut Chance) {
    corners(bench, chance);
    counts(bench);
    rows_told(bench, chance);
    records_grown(bench, chance);
    records_replayed(bench);
    log_lengths(bench, chance);
    table_lengths(bench, chance);
}

fn t() -> Vec<Word> {
    words(&tetrahedron().concat())
}

fn attempt<const N: usize>(bench: &mut Bench, call: usize, arguments: [&[Word]; N]) {
    bench.try_call(KIND, &Request { call, arguments: arguments.map(<[Word]>::to_vec).to_vec() });
}

/// Coordinates for too few corners, enough and too many, and one or two numbers over.
fn corners(bench: &mut Bench, chance: &mut Chance) {
    for count in [0, 1, 3, 4, 5, CORNERS - 1, CORNERS, CORNERS + 1, CORNERS + 2, ROWS] {
        for over in 0..3 {
            let coordinates: Vec<Word> = (0..3 * count + over).map(|_| chance.between(-300, 300)).collect();
            let room = scribble(WIDTH as i64 * (count - FEWEST as i64), chance);
            attempt(bench, THIN, [&[0], &[0], &t(), &coordinates, &room]);
            // A sheet of the counts that are given: where they pass, the rows are asked next.
            let sheet = text_words(&text_of([count, FEWEST as Word], &[]));
            attempt(bench, RECOVER, [&[0], &[0], &t(), &coordinates, &room, &sheet]);
            attempt(bench, VOLUME, [&t(), &coordinates]);
            attempt(bench, CHANGE, [&t(), &t(), &coordinates]);
            attempt(bench, SHIFT, [&[0], &coordinates, &[]]);
        }
    }
}

/// Corner counts for growing back, replay, flips and their undoing.
fn counts(bench: &mut Bench) {
    for count in [0, 1, 3, 4, 5, CORNERS - 1, CORNERS, CORNERS + 1].into_iter().chain(PAST) {
        attempt(bench, GROW_BACK, [&[4], &[count], &t(), &[]]);
        attempt(bench, REPLAY, [&[count], &t(), &[]]);
        attempt(bench, FLIP, [&[count], &t(), &[0, 1], &[7; flip::WIDTH]]);
        attempt(bench, UNDO, [&[count], &t(), &[]]);
    }
}

/// Rows told, over a room of T again and again: four rows are a stage, more have their edges twice.
fn rows_told(bench: &mut Bench, chance: &mut Chance) {
    let over = MOST_ROWS + 6;
    let long: Vec<Word> = t().into_iter().cycle().take(3 * over).collect();
    for told in [0, 1, 3, 4, 5, 8, ROWS - 1, ROWS, ROWS + 1, over as Word].into_iter().chain(PAST) {
        let exact = usize::try_from(told).unwrap_or(0).min(over) * 3;
        for length in [exact.saturating_sub(1), exact, exact + 1, long.len()] {
            let room = &long[..length.min(long.len())];
            attempt(bench, GROW_BACK, [&[told], &[chance.pick(&[4, 9])], room, &[]]);
        }
    }
}

/// Logs that grow T to the most rows and past it, in rooms just short and just enough.
fn records_grown(bench: &mut Bench, chance: &mut Chance) {
    let most = (MOST_ROWS - FEWEST) / 2;
    for records in [1, 2, most - 1, most, most + 1, most + 2, LONGEST_LIST / WIDTH] {
        let log = vec![0; WIDTH * records];
        for spare in [-1, 0, 1] {
            let length = (3 * (4 + 2 * records) as i64 + spare).min(LONGEST_LIST as i64);
            let room = [t(), scribble(length - 12, chance)].concat();
            attempt(bench, GROW_BACK, [&[4], &[CORNERS], &room, &log]);
        }
    }
}

/// Logs that would leave six rows of O, four, two, and fewer than none.
fn records_replayed(bench: &mut Bench) {
    for records in [1, 2, 3, 4, 5, LONGEST_LIST / WIDTH] {
        attempt(bench, REPLAY, [&[6], &words(&octahedron().concat()), &vec![0; WIDTH * records]]);
    }
}

fn log_lengths(bench: &mut Bench, chance: &mut Chance) {
    for length in 0..2 * WIDTH + 2 {
        let log = vec![0; length];
        attempt(bench, UNDO, [&[6], &words(&octahedron().concat()), &log]);
        attempt(bench, FLIP, [&[6], &words(&octahedron().concat()), &log, &[7; flip::WIDTH]]);
        attempt(bench, SHIFT, [&[0], &[0; 12], &log]);
        attempt(bench, REPLAY, [&[6], &words(&octahedron().concat()), &log]);
        let room = [t(), scribble(12, chance)].concat();
        attempt(bench, GROW_BACK, [&[4], &[6], &room, &log]);
    }
}

/// Tables of every small length, and at the most rows, for thinning, recovery, flips and their undoing.
fn table_lengths(bench: &mut Bench, chance: &mut Chance) {
    let most = 3 * MOST_ROWS;
    for length in (0..=14).chain(most - 1..=most + 3) {
        let table: Vec<Word> = t().into_iter().cycle().take(length).collect();
        let room = scribble(chance.pick(&[0, 0, 1]), chance);
        let sheet = text_words(&text_of([FEWEST as Word, length as Word / 3], &[]));
        attempt(bench, THIN, [&[0], &[0], &table, &[7; 12], &room]);
        attempt(bench, RECOVER, [&[0], &[0], &table, &[7; 12], &room, &sheet]);
        attempt(bench, FLIP, [&[4], &table, &[], &room]);
        attempt(bench, UNDO, [&[4], &table, &[]]);
    }
}
