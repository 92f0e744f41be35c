//! Flips and their undoing by the whole words of 02's request 6: a record's rows are put back, the table is asked whether
//! it is a stage, and flipped again. Nothing is taken from a local shortcut.

use crate::grow::{follow, third, Reached};
use crate::refusal::{MISSING, NEIGHBOURS};
use crate::skin::{is_stage, Row};

/// How many numbers a record has in a flip log.
pub const WIDTH: usize = 8;
/// Place and old row of (a, b, c), then of (b, a, d), as stored.
pub type Record = [u32; WIDTH];
/// An edge of a list, from a to b.
pub type Edge = [u32; 2];

pub fn records_of(log: &[u32]) -> Vec<Record> {
    log.chunks_exact(WIDTH).map(|n| n.try_into().expect("as many numbers as a record has")).collect()
}

pub fn edges_of(list: &[u32]) -> Vec<Edge> {
    list.chunks_exact(2).map(|n| [n[0], n[1]]).collect()
}

/// The directed edges of a row.
pub fn sides([a, b, c]: Row) -> [Edge; 3] {
    [[a, b], [b, c], [c, a]]
}

/// Place and third corner of the row with a directed edge, however it is turned.
fn row_with(rows: &[Row], from: u32, to: u32) -> Option<(usize, u32)> {
    rows.iter().enumerate().find_map(|(place, &row)| Some((place, third(row, from, to)?)))
}

/// One flip of a stage: the table that it leaves and its record, or the number that refuses it.
pub fn flip(rows: &[Row], [a, b]: Edge) -> Result<(Vec<Row>, Record), i64> {
    let (first, c) = row_with(rows, a, b).ok_or(MISSING)?;
    let (second, d) = row_with(rows, b, a).ok_or(MISSING)?;
    if rows.iter().any(|row| row.contains(&c) && row.contains(&d)) {
        return Err(NEIGHBOURS);
    }
    let ([p, q, r], [s, t, u]) = (rows[first], rows[second]);
    let mut left = rows.to_vec();
    left[first] = [c, a, d];
    left[second] = [c, d, b];
    Ok((left, [first as u32, p, q, r, second as u32, s, t, u]))
}

/// How far a list went: the table reached, the records of the flips done, and the number that stopped it.
pub struct Flipped {
    pub rows: Vec<Row>,
    pub log: Vec<Record>,
    pub refused: Option<i64>,
}

/// "A list of edges [...] is done in order up to the first refusal."
pub fn flip_all(mut rows: Vec<Row>, edges: &[Edge]) -> Flipped {
    let mut log = Vec::new();
    for &edge in edges {
        match flip(&rows, edge) {
            Ok((left, record)) => {
                rows = left;
                log.push(record);
            }
            Err(number) => return Flipped { rows, log, refused: Some(number) },
        }
    }
    Flipped { rows, log, refused: None }
}

/// The table with a record's two rows put back, where both places are in it.
pub fn put_back(rows: &[Row], &[first, p, q, r, second, s, t, u]: &Record) -> Option<Vec<Row>> {
    let mut back = rows.to_vec();
    *back.get_mut(first as usize)? = [p, q, r];
    *back.get_mut(second as usize)? = [s, t, u];
    Some(back)
}

/// The table before a flip, where its record is undone. Only a flip of one of the first row's edges logs that row first.
pub fn undo_one(rows: &[Row], count: usize, record: &Record) -> Option<Vec<Row>> {
    let &[_, p, q, r, ..] = record;
    undo_by(rows, count, record, &sides([p, q, r]))
}

/// The same, where the flip is of one of these edges.
pub fn undo_by(rows: &[Row], count: usize, record: &Record, edges: &[Edge]) -> Option<Vec<Row>> {
    let back = put_back(rows, record)?;
    let present = Ok((rows.to_vec(), *record));
    let undone = is_stage(&back, count) && edges.iter().any(|&edge| flip(&back, edge) == present);
    undone.then_some(back)
}

/// "Undoing the whole log, last record first."
pub fn undo_all(rows: Vec<Row>, count: usize, log: &[Record]) -> Reached {
    follow(rows, log.iter().rev(), |rows, record| undo_one(rows, count, record))
}
